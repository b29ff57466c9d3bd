//! The published CRC-32 vectors by the second loader's sum, one bit after the other and with no
//! table: the lines that the program `vectors` must write. The values that it names stood the
//! test of both sums and of zlib's; their sources were not looked up.

use mullirim_host::second::sum;

/// The bytes from 0 to 31.
const RISING: [u8; 32] = *b"\x00\x01\x02\x03\x04\x05\x06\x07\x08\x09\x0A\x0B\x0C\x0D\x0E\x0F\
\x10\x11\x12\x13\x14\x15\x16\x17\x18\x19\x1A\x1B\x1C\x1D\x1E\x1F";

/// Name, bytes and published value, which has the final complement.
const VECTORS: [(&str, &[u8], u32); 18] = [
    ("empty", b"", 0x0000_0000),
    ("a", b"a", 0xE8B7_BE43),
    ("check", b"123456789", 0xCBF4_3926),
    (
        "old",
        b"Discard medicine more than two years old.",
        0x6B9C_DFE7,
    ),
    (
        "past",
        b"He who has a shady past knows that nice guys finish last.",
        0xC90E_F73F,
    ),
    (
        "pole",
        b"I wouldn't marry him with a ten foot pole.",
        0xB902_341F,
    ),
    (
        "mars",
        b"Free! Free!/A trip/to Mars/for 900/empty jars/Burma Shave",
        0x0420_80E8,
    ),
    (
        "fox",
        b"The quick brown fox jumps over the lazy dog",
        0x414F_A339,
    ),
    ("routines-1", &[0; 4], 0x2144_DF1C),
    ("routines-2", &[0xF2, 0x01, 0x83], 0x24AB_9D77),
    ("routines-3", &[0x0F, 0xAA, 0x00, 0x55], 0xB6C9_B287),
    ("routines-4", &[0x00, 0xFF, 0x55, 0x11], 0x32A0_6212),
    (
        "routines-5",
        &[0x33, 0x22, 0x55, 0xAA, 0xBB, 0xCC, 0xDD, 0xEE, 0xFF],
        0xB0AE_863D,
    ),
    ("routines-6", &[0x92, 0x6B, 0x55], 0x9CDE_A29B),
    ("routines-7", &[0xFF; 4], 0xFFFF_FFFF),
    ("zeros", &[0x00; 32], 0x190A_55AD),
    ("ones", &[0xFF; 32], 0xFF6C_AB0B),
    ("rising", &RISING, 0x9126_7E8A),
];

fn main() {
    for (name, bytes, published) in VECTORS {
        let sum = sum(bytes);
        assert_eq!(!sum, published, "{name}");
        println!("{name} {} {sum:08X} {:08X}", bytes.len(), !sum);
    }
}
