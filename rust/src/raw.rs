//! The calls with the boundary's own numbers: slices in, refusal numbers out, 0 for done. Nothing is tested or changed on the way, so
//! that wrong orders and lengths reach the library, which refuses them.
//!
//! Everything here is safe. The library asks nothing of a caller but true pointers and lengths that do not overlap, which slices give.

use crate::{sys, Config, Sample, Way};

#[inline]
fn call<Weight, Entry>(function: sys::Coder<Weight, Entry>, c: &Config<Weight>, first: &mut [Entry], second: &mut [Entry]) -> u32 {
    // SAFETY: each pointer comes with the length of its slice, and three slices that are borrowed at once, two of them mutably, do not
    // overlap.
    unsafe {
        function(
            c.order,
            c.shift,
            c.bias,
            c.weights.as_ptr(),
            c.weights.len(),
            first.as_mut_ptr(),
            first.len(),
            second.as_mut_ptr(),
            second.len(),
        )
    }
}

/// The version of the linked library: a million for each major version, a thousand for each minor one.
pub fn version() -> u32 {
    // SAFETY: it takes nothing.
    unsafe { sys::claspotter_version() }
}

/// The accumulator rule alone, 0 or 3. It tests no order and no shift.
pub fn admits<T: Sample>(bias: i64, weights: &[i32]) -> u32 {
    // SAFETY: the pointer comes with the length of its slice.
    unsafe { T::ADMITS(bias, weights.as_ptr(), weights.len()) }
}

/// Encodes the samples in place; the first `order` of them go into the state.
#[inline]
pub fn encode<T: Sample>(config: &Config, samples: &mut [T], state: &mut [T]) -> u32 {
    call(T::ENCODE, config, samples, state)
}

/// Decodes a piece in place from the state, which becomes the one for the piece that follows.
#[inline]
pub fn decode<T: Sample>(way: Way, config: &Config, state: &mut [T], piece: &mut [T]) -> u32 {
    call(T::decoder(way), config, state, piece)
}

/// [`encode`] over little-endian bytes.
#[inline]
pub fn encode_bytes<T: Sample>(config: &Config<u8>, samples: &mut [u8], state: &mut [u8]) -> u32 {
    call(T::ENCODE_BYTES, config, samples, state)
}

/// [`decode`] over little-endian bytes.
#[inline]
pub fn decode_bytes<T: Sample>(way: Way, config: &Config<u8>, state: &mut [u8], piece: &mut [u8]) -> u32 {
    call(T::bytes_decoder(way), config, state, piece)
}

/// Float weights to a configuration: its weights fill the lent slice, its shift and bias are written. Beside a refusal both are 0.
pub fn quantise<T: Sample>(
    order: usize,
    fitted: &[f64],
    centred_bias: f64,
    centre: T,
    weights: &mut [i32],
    shift: &mut u32,
    bias: &mut i64,
) -> u32 {
    // SAFETY: each pointer comes with the length of its slice or is to one number, and nothing that is borrowed mutably overlaps.
    unsafe {
        T::QUANTISE(order, fitted.as_ptr(), fitted.len(), centred_bias, centre, weights.as_mut_ptr(), weights.len(), shift, bias)
    }
}

/// The fields of a record but its weights, as the plain numbers that cross the boundary. What a variant does not have is 0 after reading
/// and is not looked at in writing.
#[derive(Clone, Copy, Debug, Default, PartialEq, Eq)]
pub struct Numbers {
    /// 0 nothing, 1 Consecutive, 2 Lookback, 3 Conv1.
    pub variant: u32,
    /// Of Consecutive and Conv1.
    pub order: usize,
    /// Of Lookback.
    pub window_n_log: u32,
    /// Of Lookback.
    pub state_n_log: u32,
    /// Of Consecutive and Lookback. Reading gives 0 or 1; writing takes any number but 0 for yes.
    pub secondary_uses_delta: u32,
    /// Of Conv1, its shift.
    pub quantization: u32,
    /// Of Conv1.
    pub bias: i64,
}

/// Reads the record at the start of the bytes, and writes its numbers, its weights and the bits that it takes. `variants` is false for files
/// that hold only an order. The lent weights must number 32.
pub fn read_record(bytes: &[u8], variants: bool, numbers: &mut Numbers, weights: &mut [i32], bits: &mut usize) -> u32 {
    // SAFETY: each pointer comes with the length of its slice or is to one number, and nothing that is borrowed mutably overlaps.
    unsafe {
        sys::claspotter_read_record(
            bytes.as_ptr(),
            bytes.len(),
            variants,
            &mut numbers.variant,
            &mut numbers.order,
            &mut numbers.window_n_log,
            &mut numbers.state_n_log,
            &mut numbers.secondary_uses_delta,
            &mut numbers.quantization,
            &mut numbers.bias,
            weights.as_mut_ptr(),
            weights.len(),
            bits,
        )
    }
}

/// Writes a record from the buffer's first bit on, and says how many bits it takes.
pub fn write_record(numbers: &Numbers, weights: &[i32], bytes: &mut [u8], bits: &mut usize) -> u32 {
    // SAFETY: each pointer comes with the length of its slice or is to one number, and nothing that is borrowed mutably overlaps.
    unsafe {
        sys::claspotter_write_record(
            numbers.variant,
            numbers.order,
            numbers.window_n_log,
            numbers.state_n_log,
            numbers.secondary_uses_delta != 0,
            numbers.quantization,
            numbers.bias,
            weights.as_ptr(),
            weights.len(),
            bytes.as_mut_ptr(),
            bytes.len(),
            bits,
        )
    }
}
