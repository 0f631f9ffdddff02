//! The listed differences with the Rust, by name. Those that the comparison meets at random are told apart here by a rule on the
//! input; tests/differences.rs has the smallest input of each.

/// More than 512 samples, of which the last batch has fewer than k: the Rust takes too long a window and panics; the port encodes.
pub const SHORT_LAST_BATCH: &str = "encode: a last batch of 1 to k-1 samples panics in the Rust";

pub fn short_last_batch(samples: usize, order: usize) -> bool {
    let last = samples % 512;
    samples > 512 && last != 0 && last < order
}

/// The Rust floors a library logarithm, which rounds up to a whole number just below a power of two.
pub const LOGARITHM: &str = "quantise: the Rust's logarithm rounds up just below a power of two";

/// An infinite divisor: the Rust takes 1 from the least i32.
pub const INFINITE_DIVISOR: &str = "quantise: an infinite divisor gives the Rust a shift";

/// A record that breaks a rule of the reader, or that does not fit its fields, is written all the same.
pub const WRITTEN_ANYWAY: &str = "write record: the Rust writes what 1, 9 and 10 refuse";
