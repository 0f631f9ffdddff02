//! The three widths of a sample, and what each calls: the port's functions, by the crate `claspotter`, and the Rust's.

use crate::port::{Config, Way};
use claspotter::raw;
use original::doors;

pub trait Sample: claspotter::Sample {
    const W: u32 = Self::WIDTH;
    /// The accumulator's bits.
    const A: u32 = Self::ACCUMULATOR;
    /// Bytes to an entry.
    const BYTES: usize = Self::WIDTH as usize / 8;

    /// The number modulo 2^W.
    fn from_u64(x: u64) -> Self;
    fn to_u64(self) -> u64;

    #[inline]
    fn port_encode(c: &Config, samples: &mut [Self], state: &mut [Self]) -> u32 {
        raw::encode(c, samples, state)
    }
    #[inline]
    fn port_decode(way: Way, c: &Config, state: &mut [Self], piece: &mut [Self]) -> u32 {
        raw::decode(way, c, state, piece)
    }
    fn port_admits(bias: i64, weights: &[i32]) -> u32 {
        raw::admits::<Self>(bias, weights)
    }
    #[inline]
    fn port_encode_bytes(c: &Config<u8>, samples: &mut [u8], state: &mut [u8]) -> u32 {
        raw::encode_bytes::<Self>(c, samples, state)
    }
    #[inline]
    fn port_decode_bytes(way: Way, c: &Config<u8>, state: &mut [u8], piece: &mut [u8]) -> u32 {
        raw::decode_bytes::<Self>(way, c, state, piece)
    }
    /// The answer, the shift and the bias; the weights fill the lent slice. The numbers hold something before.
    fn port_quantise(order: usize, floats: &[f64], bias: f64, centre: Self, weights: &mut [i32]) -> (u32, u32, i64) {
        let (mut shift, mut whole) = (u32::MAX, i64::MAX);
        let answer = raw::quantise(order, floats, bias, centre, weights, &mut shift, &mut whole);
        (answer, shift, whole)
    }

    fn rust_encode(c: &doors::Config, samples: &mut [Self]) -> Vec<Self>;
    fn rust_decode(c: &doors::Config, state: &mut [Self], piece: &mut [Self]);
    fn rust_decode_general(c: &doors::Config, state: &mut [Self], piece: &mut [Self]);
    fn rust_quantise(order: usize, floats: &[f64], centre: Self) -> Option<doors::Quantised>;
}

macro_rules! sample {
    ($t: ident, $encode: ident, $decode: ident, $general: ident, $quantise: ident) => {
        impl Sample for $t {
            fn from_u64(x: u64) -> Self {
                x as $t
            }
            fn to_u64(self) -> u64 {
                self as u64
            }

            fn rust_encode(c: &doors::Config, samples: &mut [Self]) -> Vec<Self> {
                doors::$encode(c, samples)
            }
            fn rust_decode(c: &doors::Config, state: &mut [Self], piece: &mut [Self]) {
                doors::$decode(c, state, piece)
            }
            fn rust_decode_general(c: &doors::Config, state: &mut [Self], piece: &mut [Self]) {
                doors::$general(c, state, piece)
            }
            fn rust_quantise(order: usize, floats: &[f64], centre: Self) -> Option<doors::Quantised> {
                doors::$quantise(order, floats, centre)
            }
        }
    };
}

sample!(u8, encode_u8, decode_u8, decode_general_u8, quantise_u8);
sample!(u16, encode_u16, decode_u16, decode_general_u16, quantise_u16);
sample!(u32, encode_u32, decode_u32, decode_general_u32, quantise_u32);

/// The entries as little-endian bytes.
pub fn to_bytes<T: Sample>(entries: &[T]) -> Vec<u8> {
    entries.iter().flat_map(|x| x.to_u64().to_le_bytes().into_iter().take(T::BYTES)).collect()
}

pub fn weights_to_bytes(weights: &[i32]) -> Vec<u8> {
    weights.iter().flat_map(|w| w.to_le_bytes()).collect()
}

pub fn numbers<T: Sample>(entries: &[T]) -> Vec<u64> {
    entries.iter().map(|x| x.to_u64()).collect()
}
