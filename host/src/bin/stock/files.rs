//! The files that a client is given: images with their prefix, made here, and
//! their suffix by the second writer. They must be those that the client's own
//! tools make.

use crate::bench::{same_bytes, Bench, PRODUCT, VENDOR};
use mullirim_host::layout::Parts;
use mullirim_host::second::{command, BLOCK};
use mullirim_host::suffix;
use mullirim_host::tape::header;

/// An image of so many bytes, no piece of which looks like another.
pub fn image(length: u32) -> Vec<u8> {
    (0..length)
        .map(|i| ((i * 31 + i / 97 + 90) % 253) as u8)
        .collect()
}

/// The PROG header for an image at this block, and the image.
pub fn prefixed(block: u32, image: &[u8]) -> Vec<u8> {
    let prefix = header(command::PROG, block as u16, image.len() as u32);
    [&prefix, image].concat()
}

/// A file with the DFU suffix for this vendor and product: no version, DFU 1.0.
pub fn suffixed(file: &[u8], vendor: u16, product: u16) -> Vec<u8> {
    suffixed_for(file, [0xFFFF, product, vendor])
}

/// The same for this device, product and vendor.
pub fn suffixed_for(file: &[u8], [device, product, vendor]: [u16; 3]) -> Vec<u8> {
    let parts = Parts {
        device,
        product,
        vendor,
    };
    let mut all = vec![0; file.len() + suffix::SIZE];
    suffix::write(file, parts, &mut all).expect("room for both");
    all
}

/// What a technician sends.
pub fn whole_file(block: u32, image: &[u8]) -> Vec<u8> {
    suffixed(&prefixed(block, image), VENDOR, PRODUCT)
}

/// The same, made by `dfu-prefix` and `dfu-suffix`, has the same bytes.
pub fn as_the_package_does(bench: &mut Bench, block: u32, image: &[u8]) -> Result<(), String> {
    bench.lay("packed", image)?;
    let address = format!("0x{:x}", block * BLOCK);
    bench.tool("dfu-prefix", &["-s", &address, "-a", "packed"])?;
    let (vendor, product) = (format!("{VENDOR:04x}"), format!("{PRODUCT:04x}"));
    bench.tool(
        "dfu-suffix",
        &["-v", &vendor, "-p", &product, "-a", "packed"],
    )?;
    let ours = whole_file(block, image);
    same_bytes("the package's file", &bench.read("packed")?, &ours)
}
