//! The exported functions as the linker has them, declared after `include/claspotter.h`, which says what each does. A slice passes as a
//! pointer and the number of its entries.
//!
//! Calling one is `unsafe` for one reason: pointers and lengths must be true, and what is lent to one call must not overlap. Any numbers
//! and any lengths may be given. [`crate::raw`] has the same calls over slices, which need no such care.

#![allow(missing_docs)] // the header has the description

/// Functions that code have one shape. Encoding is lent the samples and then the state, decoding the state and then the piece.
pub type Coder<Weight, Entry> = unsafe extern "C" fn(
    order: usize,
    shift: u32,
    bias: i64,
    weights: *const Weight,
    weights_len: usize,
    first: *mut Entry,
    first_len: usize,
    second: *mut Entry,
    second_len: usize,
) -> u32;

/// The shape of the functions that quantise.
pub type Quantiser<Entry> = unsafe extern "C" fn(
    order: usize,
    fitted: *const f64,
    fitted_len: usize,
    centred_bias: f64,
    centre: Entry,
    weights: *mut i32,
    weights_len: usize,
    shift: *mut u32,
    bias: *mut i64,
) -> u32;

/// The shape of the functions that test the accumulator rule.
pub type Admitter = unsafe extern "C" fn(bias: i64, weights: *const i32, weights_len: usize) -> u32;

macro_rules! encoders {
    ($weight: ty, $entry: ty, $($name: ident),*) => {
        extern "C" {
            $(pub fn $name(
                order: usize,
                shift: u32,
                bias: i64,
                weights: *const $weight,
                weights_len: usize,
                samples: *mut $entry,
                samples_len: usize,
                state: *mut $entry,
                state_len: usize,
            ) -> u32;)*
        }
    };
}

macro_rules! decoders {
    ($weight: ty, $entry: ty, $($name: ident),*) => {
        extern "C" {
            $(pub fn $name(
                order: usize,
                shift: u32,
                bias: i64,
                weights: *const $weight,
                weights_len: usize,
                state: *mut $entry,
                state_len: usize,
                piece: *mut $entry,
                piece_len: usize,
            ) -> u32;)*
        }
    };
}

macro_rules! quantisers {
    ($($name: ident: $entry: ty),*) => {
        extern "C" {
            $(pub fn $name(
                order: usize,
                fitted: *const f64,
                fitted_len: usize,
                centred_bias: f64,
                centre: $entry,
                weights: *mut i32,
                weights_len: usize,
                shift: *mut u32,
                bias: *mut i64,
            ) -> u32;)*
        }
    };
}

encoders!(i32, u8, claspotter_encode_u8);
encoders!(i32, u16, claspotter_encode_u16);
encoders!(i32, u32, claspotter_encode_u32);
decoders!(i32, u8, claspotter_decode_u8, claspotter_decode_general_u8, claspotter_decode_order_6_u8);
decoders!(i32, u16, claspotter_decode_u16, claspotter_decode_general_u16, claspotter_decode_order_6_u16);
decoders!(i32, u32, claspotter_decode_u32, claspotter_decode_general_u32, claspotter_decode_order_6_u32);
encoders!(u8, u8, claspotter_encode_bytes_8, claspotter_encode_bytes_16, claspotter_encode_bytes_32);
decoders!(u8, u8, claspotter_decode_bytes_8, claspotter_decode_general_bytes_8, claspotter_decode_order_6_bytes_8);
decoders!(u8, u8, claspotter_decode_bytes_16, claspotter_decode_general_bytes_16, claspotter_decode_order_6_bytes_16);
decoders!(u8, u8, claspotter_decode_bytes_32, claspotter_decode_general_bytes_32, claspotter_decode_order_6_bytes_32);
quantisers!(claspotter_quantise_8: u8, claspotter_quantise_16: u16, claspotter_quantise_32: u32);

extern "C" {
    pub fn claspotter_version() -> u32;
    pub fn claspotter_admits_8(bias: i64, weights: *const i32, weights_len: usize) -> u32;
    pub fn claspotter_admits_16(bias: i64, weights: *const i32, weights_len: usize) -> u32;
    pub fn claspotter_admits_32(bias: i64, weights: *const i32, weights_len: usize) -> u32;
    pub fn claspotter_read_record(
        bytes: *const u8,
        bytes_len: usize,
        variants: bool,
        variant: *mut u32,
        order: *mut usize,
        window_n_log: *mut u32,
        state_n_log: *mut u32,
        secondary_uses_delta: *mut u32,
        quantization: *mut u32,
        bias: *mut i64,
        weights: *mut i32,
        weights_len: usize,
        bits: *mut usize,
    ) -> u32;
    pub fn claspotter_write_record(
        variant: u32,
        order: usize,
        window_n_log: u32,
        state_n_log: u32,
        secondary_uses_delta: bool,
        quantization: u32,
        bias: i64,
        weights: *const i32,
        weights_len: usize,
        bytes: *mut u8,
        bytes_len: usize,
        bits: *mut usize,
    ) -> u32;
}
