//! What the tests share: the files of the capture, and its engine.

use std::fs;

pub const ENGINE: [u8; 17] = [
    0x80, 0, 0x1f, 0x88, 0x80, 0xc9, 0x32, 0x47, 0x2d, 0x51, 0xb8, 0x03, 0x6b, 0, 0, 0, 0,
];

/// A file of the capture.
pub fn file(name: &str) -> String {
    fs::read_to_string(format!(
        "{}/../../examples/replay/{name}",
        env!("CARGO_MANIFEST_DIR")
    ))
    .unwrap()
}
