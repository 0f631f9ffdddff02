//! An exact model of the coder, written from document 01 and from nothing of the port or of the Rust: sums are i128, so that nothing
//! wraps. It judges what the Rust cannot: refusals, configurations that are not admitted, inputs on which the Rust panics.

use crate::port::{Config, Way};

pub const DONE: u32 = 0;

/// M, the greatest sample.
pub fn greatest(w: u32) -> i128 {
    (1 << w) - 1
}

/// 2^(A-1)-1, with A twice W.
pub fn limit(w: u32) -> i128 {
    (1 << (2 * w - 1)) - 1
}

fn mid(w: u32) -> u64 {
    1 << (w - 1)
}

fn reduce(w: u32, x: i128) -> u64 {
    x.rem_euclid(1 << w) as u64
}

/// The accumulator rule.
pub fn admitted(w: u32, bias: i64, weights: &[i32]) -> bool {
    let sum: i128 = weights.iter().map(|&x| (x as i128).abs()).sum();
    (bias as i128).abs() + greatest(w) * sum <= limit(w)
}

/// Tests 1, 2, 4, 3 of a decoding call. `whole` says that every lent slice is a whole number of entries.
pub fn decoding_refusal(w: u32, way: Way, c: &Config, state: usize, whole: bool) -> u32 {
    if c.order == 0 || c.order > 32 || (way == Way::OrderSix && c.order != 6) {
        return 1;
    }
    if c.shift >= 2 * w {
        return 2;
    }
    if !whole || c.weights.len() != c.order || state != c.order {
        return 4;
    }
    if !admitted(w, c.bias, c.weights) {
        return 3;
    }
    DONE
}

/// Tests 1, 2, 4, 3, 5 of an encoding call.
pub fn encoding_refusal(w: u32, c: &Config, state: usize, samples: usize, whole: bool) -> u32 {
    let refusal = decoding_refusal(w, Way::General, c, state, whole);
    if refusal == DONE && samples < c.order {
        return 5;
    }
    refusal
}

/// The prediction from a window of as many samples as weights, the oldest first.
pub fn prediction(w: u32, c: &Config, window: &[u64]) -> u64 {
    let products = c.weights.iter().zip(window).map(|(&weight, &x)| weight as i128 * x as i128);
    let s = c.bias as i128 + products.sum::<i128>();
    reduce(w, s.max(0) >> c.shift)
}

/// The whole buffer after encoding.
pub fn encoded(w: u32, c: &Config, samples: &[u64]) -> Vec<u64> {
    (0..samples.len())
        .map(|i| {
            let predicted = if i < c.order { 0 } else { prediction(w, c, &samples[i - c.order..i]) };
            reduce(w, samples[i] as i128 - predicted as i128 + mid(w) as i128)
        })
        .collect()
}

/// The piece and the state after decoding.
pub fn decoded(w: u32, c: &Config, state: &[u64], piece: &[u64]) -> (Vec<u64>, Vec<u64>) {
    let mut list = state.to_vec();
    for &residual in piece {
        let predicted = prediction(w, c, &list[list.len() - c.order..]);
        list.push(reduce(w, residual as i128 - mid(w) as i128 + predicted as i128));
    }
    let after = list.split_off(piece.len());
    (list, after)
}
