//! The three widths of a sample.

use crate::sys::{self, Admitter, Coder, Quantiser};
use crate::Way;

/// A sample, a residual or a place of a state: `u8`, `u16` or `u32`, and no other type. Its width W is the number of its bits.
pub trait Sample: sealed::Calls + Copy + Eq + Ord + Default + std::fmt::Debug + Send + Sync + 'static {
    /// W, the bits of a sample.
    const WIDTH: u32;
    /// A, the bits of the accumulator, 2W. A shift is below it.
    const ACCUMULATOR: u32;
    /// M, the greatest sample, 2^W - 1.
    const GREATEST: Self;
    /// The centre of the residuals, 2^(W-1): the residual of a sample that was predicted rightly.
    const MID: Self;
}

pub(crate) mod sealed {
    use super::{Admitter, Coder, Quantiser, Way};

    /// What the width calls.
    pub trait Calls: Sized {
        const ADMITS: Admitter;
        const ENCODE: Coder<i32, Self>;
        const ENCODE_BYTES: Coder<u8, u8>;
        const QUANTISE: Quantiser<Self>;
        fn decoder(way: Way) -> Coder<i32, Self>;
        fn bytes_decoder(way: Way) -> Coder<u8, u8>;
    }
}

macro_rules! sample {
    ($t: ident, $admits: ident, $encode: ident, $decode: ident, $general: ident, $six: ident,
     $encode_bytes: ident, $decode_bytes: ident, $general_bytes: ident, $six_bytes: ident, $quantise: ident) => {
        impl Sample for $t {
            const WIDTH: u32 = $t::BITS;
            const ACCUMULATOR: u32 = 2 * $t::BITS;
            const GREATEST: Self = $t::MAX;
            const MID: Self = 1 << ($t::BITS - 1);
        }

        impl sealed::Calls for $t {
            const ADMITS: Admitter = sys::$admits;
            const ENCODE: Coder<i32, Self> = sys::$encode;
            const ENCODE_BYTES: Coder<u8, u8> = sys::$encode_bytes;
            const QUANTISE: Quantiser<Self> = sys::$quantise;

            #[inline]
            fn decoder(way: Way) -> Coder<i32, Self> {
                match way {
                    Way::Chosen => sys::$decode,
                    Way::General => sys::$general,
                    Way::OrderSix => sys::$six,
                }
            }

            #[inline]
            fn bytes_decoder(way: Way) -> Coder<u8, u8> {
                match way {
                    Way::Chosen => sys::$decode_bytes,
                    Way::General => sys::$general_bytes,
                    Way::OrderSix => sys::$six_bytes,
                }
            }
        }
    };
}

sample!(
    u8,
    claspotter_admits_8,
    claspotter_encode_u8,
    claspotter_decode_u8,
    claspotter_decode_general_u8,
    claspotter_decode_order_6_u8,
    claspotter_encode_bytes_8,
    claspotter_decode_bytes_8,
    claspotter_decode_general_bytes_8,
    claspotter_decode_order_6_bytes_8,
    claspotter_quantise_8
);
sample!(
    u16,
    claspotter_admits_16,
    claspotter_encode_u16,
    claspotter_decode_u16,
    claspotter_decode_general_u16,
    claspotter_decode_order_6_u16,
    claspotter_encode_bytes_16,
    claspotter_decode_bytes_16,
    claspotter_decode_general_bytes_16,
    claspotter_decode_order_6_bytes_16,
    claspotter_quantise_16
);
sample!(
    u32,
    claspotter_admits_32,
    claspotter_encode_u32,
    claspotter_decode_u32,
    claspotter_decode_general_u32,
    claspotter_decode_order_6_u32,
    claspotter_encode_bytes_32,
    claspotter_decode_bytes_32,
    claspotter_decode_general_bytes_32,
    claspotter_decode_order_6_bytes_32,
    claspotter_quantise_32
);
