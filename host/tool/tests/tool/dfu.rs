//! Files as other tools make them: DFU suffixes and PROG headers, put together
//! here byte by byte and summed bit by bit.

use mullirim_host::second::sum;

/// As `dfu-suffix` writes it: device, product, vendor, DFU 1.0, the signature,
/// its length, and the sum of all before.
pub fn suffixed(firmware: &[u8], numbers: [u16; 3]) -> Vec<u8> {
    let mut file = firmware.to_vec();
    for number in numbers {
        file.extend(number.to_le_bytes());
    }
    file.extend([0x00, 0x01, 0x55, 0x46, 0x44, 0x10]);
    summed(file)
}

pub fn summed(mut file: Vec<u8>) -> Vec<u8> {
    let sum = sum(&file);
    file.extend(sum.to_le_bytes());
    file
}

/// As `dfu-prefix` and an upload write it: PROG, the block and the length.
pub fn headed(block: u16, image: &[u8]) -> Vec<u8> {
    let length = image.len() as u32;
    let mut file = vec![1, 0];
    file.extend(block.to_le_bytes());
    file.extend(length.to_le_bytes());
    file.extend(image);
    file
}

/// A file that `dfu-suffix` 0.11 made of `123456789` with -d 1 -p 2 -v 3.
#[test]
fn the_suffix_is_that_of_the_stock_tool() {
    let made = b"123456789\x01\0\x02\0\x03\0\0\x01UFD\x10\xE1\xA5\xED\x2E";
    assert_eq!(suffixed(b"123456789", [1, 2, 3]), made);
}
