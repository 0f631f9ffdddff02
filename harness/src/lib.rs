//! Compares the port with the Rust on very many inputs, and measures both side by side. README.md says how it is put together.

pub mod archive;
pub mod bench;
pub mod coding;
pub mod compare;
pub mod differences;
pub mod inputs;
pub mod model;
pub mod port;
pub mod quantising;
pub mod quiet;
pub mod records;
pub mod sample;
pub mod tally;
pub mod width;

/// The archive that was linked.
pub const ARCHIVE: &str = env!("CLASPOTTER_ARCHIVE");
/// The header that describes it.
pub const HEADER: &str = env!("CLASPOTTER_HEADER");

// Bytes in front of the rest of the program, so that the same code can be measured at several places: see bench.rs.
std::arch::global_asm!(".text", ".globl claspotter_pad", "claspotter_pad:", concat!(".skip ", env!("CLASPOTTER_PAD")),);

extern "C" {
    static claspotter_pad: u8;
}

/// The place of those bytes. Nothing is read there.
pub fn pad() -> usize {
    (&raw const claspotter_pad) as usize
}
