//! What the comparison asks of a port. The archive's functions are one; tests put a fault in front of them.

use crate::records::{Fields, Reading, Writing};
use crate::width::Sample;
use claspotter::raw;

/// A configuration as a call gives it, and the ways to decode. At the byte boundary the weights are bytes.
pub use claspotter::{Config, Way};

/// The numbers that quantising gives beside the lent weights.
#[derive(Clone, Copy, Debug, PartialEq, Eq)]
pub struct Quantised {
    pub answer: u32,
    pub shift: u32,
    pub bias: i64,
}

/// What the numbers of a record hold before a call.
const HELD: raw::Numbers = raw::Numbers {
    variant: u32::MAX,
    order: usize::MAX,
    window_n_log: u32::MAX,
    state_n_log: u32::MAX,
    secondary_uses_delta: u32::MAX,
    quantization: u32::MAX,
    bias: i64::MAX,
};

pub trait Port {
    fn encode<T: Sample>(&self, c: &Config, samples: &mut [T], state: &mut [T]) -> u32 {
        T::port_encode(c, samples, state)
    }

    fn decode<T: Sample>(&self, way: Way, c: &Config, state: &mut [T], piece: &mut [T]) -> u32 {
        T::port_decode(way, c, state, piece)
    }

    fn admits<T: Sample>(&self, bias: i64, weights: &[i32]) -> u32 {
        T::port_admits(bias, weights)
    }

    fn encode_bytes<T: Sample>(&self, c: &Config<u8>, samples: &mut [u8], state: &mut [u8]) -> u32 {
        T::port_encode_bytes(c, samples, state)
    }

    fn decode_bytes<T: Sample>(&self, way: Way, c: &Config<u8>, state: &mut [u8], piece: &mut [u8]) -> u32 {
        T::port_decode_bytes(way, c, state, piece)
    }

    fn quantise<T: Sample>(&self, order: usize, floats: &[f64], bias: f64, centre: T, weights: &mut [i32]) -> Quantised {
        let (answer, shift, bias) = T::port_quantise(order, floats, bias, centre, weights);
        Quantised { answer, shift, bias }
    }

    /// The record's weights fill the lent slice; those of the fields are 0.
    fn read_record(&self, bytes: &[u8], variants: bool, weights: &mut [i32]) -> Reading {
        let (mut n, mut bits) = (HELD, usize::MAX);
        let answer = raw::read_record(bytes, variants, &mut n, weights, &mut bits);
        assert!(n.secondary_uses_delta <= 1, "a flag of {}", n.secondary_uses_delta);
        let fields = Fields {
            variant: n.variant,
            order: n.order,
            window: n.window_n_log,
            state: n.state_n_log,
            flag: n.secondary_uses_delta == 1,
            shift: n.quantization,
            bias: n.bias,
            ..Fields::default()
        };
        Reading { answer, fields, bits }
    }

    /// Writes with the lent weights; those of the fields are not looked at.
    fn write_record(&self, fields: &Fields, weights: &[i32], bytes: &mut [u8]) -> Writing {
        let numbers = raw::Numbers {
            variant: fields.variant,
            order: fields.order,
            window_n_log: fields.window,
            state_n_log: fields.state,
            secondary_uses_delta: u32::from(fields.flag),
            quantization: fields.shift,
            bias: fields.bias,
        };
        let mut bits = usize::MAX;
        let answer = raw::write_record(&numbers, weights, bytes, &mut bits);
        Writing { answer, bits }
    }
}

/// The archive, as it is.
pub struct Archive;

impl Port for Archive {}
