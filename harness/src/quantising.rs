//! Compares quantising, and has the exact model of it. The sums, the divisor and the quotient are single f64 operations, as document
//! 01 asks; the exponent, the rounding and the cut are worked out from a float's bits in whole numbers.

use crate::differences;
use crate::inputs::{self, Source};
use crate::model;
use crate::port::{Port, Quantised};
use crate::quiet::unless_it_panics;
use crate::tally::Tally;
use crate::width::Sample;

/// A finite float as sign, digits and exponent: digits times 2^exponent, exactly.
fn unpack(x: f64) -> (bool, u64, i32) {
    let bits = x.to_bits();
    let (field, digits) = ((bits >> 52 & 0x7FF) as i32, bits & ((1 << 52) - 1));
    if field == 0 {
        (x.is_sign_negative(), digits, -1074)
    } else {
        (x.is_sign_negative(), digits | 1 << 52, field - 1075)
    }
}

/// The greatest e with 2^e not above x, for a finite x above 0.
pub fn exponent(x: f64) -> i32 {
    let (_, digits, scale) = unpack(x);
    63 - digits.leading_zeros() as i32 + scale
}

/// x times 2^q as an integer, or nothing where it is outside 100 bits: `round` goes to the nearest, halves away from zero; otherwise
/// it is cut toward zero.
pub fn whole(x: f64, q: u32, round: bool) -> Option<i128> {
    let (negative, digits, scale) = unpack(x);
    let by = scale + q as i32;
    let size = match by {
        _ if digits == 0 => 0,
        0..=46 => (digits as i128) << by,
        47.. => return None,
        -63..=-1 => {
            let half = if round { 1i128 << (-by - 1) } else { 0 };
            (digits as i128 + half) >> -by
        }
        // Fewer than 2^53 digits: less than a half.
        _ => 0,
    };
    Some(if negative { -size } else { size })
}

/// What steps 1 to 3 come to, for telling the listed differences apart.
pub enum Quotient {
    Refused,
    InfiniteDivisor,
    Is(f64, f64),
}

/// Steps 1 to 3: the float bias and the quotient.
pub fn quotient<T: Sample>(weights: &[f64], c: f64, centre: T) -> Quotient {
    let (mut total, mut total_abs) = (0.0f64, 0.0f64);
    for &w in weights {
        total += w;
        total_abs += f64::from_bits(w.to_bits() & !(1 << 63));
    }
    if !total.is_finite() || !total_abs.is_finite() {
        return Quotient::Refused;
    }
    let bias = (1.0 - total) * centre.to_u64() as f64 + c;
    let divisor = total_abs * model::greatest(T::W) as f64 + f64::from_bits(bias.to_bits() & !(1 << 63)) + 1.0;
    if divisor.is_nan() {
        return Quotient::Refused;
    }
    if divisor.is_infinite() {
        return Quotient::InfiniteDivisor;
    }
    Quotient::Is(bias, model::limit(T::W) as f64 / divisor)
}

/// What quantising gives, by document 01: shift, bias and weights, or the refusal.
pub fn quantised<T: Sample>(order: usize, floats: &[f64], c: f64, centre: T, lent: usize) -> Result<(u32, i64, Vec<i32>), u32> {
    if order == 0 || order > 32 {
        return Err(1);
    }
    if floats.len() != order || lent != order {
        return Err(4);
    }
    let Quotient::Is(float_bias, x) = quotient(floats, c, centre) else {
        return Err(6);
    };
    let q = (exponent(x) - 1).min(31).min(T::A as i32 - 1);
    if q < 0 {
        return Err(6);
    }
    let q = q as u32;
    let weights: Option<Vec<i32>> = floats.iter().map(|&w| whole(w, q, true).and_then(|w| i32::try_from(w).ok())).collect();
    let bias = whole(float_bias, q, false).and_then(|b| i64::try_from(b).ok());
    match (weights, bias) {
        (Some(weights), Some(bias)) if model::admitted(T::W, bias, &weights) => Ok((q, bias, weights)),
        _ => Err(6),
    }
}

/// One round at width T.
pub fn round<T: Sample, P: Port>(port: &P, s: &mut Source, tally: &mut Tally) {
    let (mut floats, c, centre) = inputs::fitted::<T>(s);
    let (mut order, mut lent) = (floats.len(), floats.len());
    if s.one_in(16) {
        match s.below(3) {
            0 => order = s.pick(&[0, 33, usize::MAX]),
            1 => lent = s.pick(&[0, lent - 1, lent + 1, 33]),
            _ => floats.resize(s.pick(&[0, lent - 1, lent + 1, 40]), 1.0),
        }
    }
    compare(port, tally, order, &floats, c, centre, lent);
}

pub fn compare<T: Sample, P: Port>(port: &P, tally: &mut Tally, order: usize, floats: &[f64], c: f64, centre: T, lent: usize) {
    let right = quantised(order, floats, c, centre, lent);
    if !matches!(right, Err(1 | 4)) {
        let mut list = floats.to_vec();
        list.push(c);
        let rust = unless_it_panics(|| T::rust_quantise(order, &list, centre));
        match quotient(floats, c, centre) {
            Quotient::InfiniteDivisor => {
                let listed = right.is_err() && !matches!(rust, Some(None));
                tally.holds("quantise", listed, || format!("W={} {floats:?} {c:?} {centre:?}: {rust:?}", T::W));
                tally.listed(differences::INFINITE_DIVISOR);
            }
            // Just below a power of two the library's logarithm may be the whole number above.
            Quotient::Is(_, x) if x.log2().floor() as i32 != exponent(x) => {
                let near = exponent(f64::from_bits(x.to_bits() + 64)) == exponent(x) + 1;
                tally.holds("quantise", near, || format!("W={} {floats:?} {c:?} {centre:?}: {rust:?}", T::W));
                tally.listed(differences::LOGARITHM);
            }
            _ => {
                let agrees = match (&rust, &right) {
                    (Some(Some(rust)), Ok((q, bias, weights))) => {
                        rust.shift == *q && rust.bias == *bias && rust.weights.iter().copied().eq(weights.iter().map(|&w| w as i64))
                    }
                    (Some(None), Err(_)) => true,
                    _ => false,
                };
                tally.holds("the Rust against the model", agrees, || {
                    format!("quantise W={} {floats:?} {c:?} {centre:?}: {rust:?}, {right:?}", T::W)
                });
            }
        }
    }

    let before: Vec<i32> = (0..lent as i32).map(|i| i - 1_000_000).collect();
    let mut weights = before.clone();
    let given = port.quantise(order, floats, c, centre, &mut weights);
    let kind = if right.is_ok() { "quantise" } else { "quantise, refused" };
    tally.call(kind);
    let held = match &right {
        Ok((shift, bias, list)) => given == Quantised { answer: 0, shift: *shift, bias: *bias } && weights == *list,
        Err(answer) => given == Quantised { answer: *answer, shift: 0, bias: 0 } && weights == before,
    };
    tally.holds(kind, held, || {
        format!("W={} order {order} {floats:?} {c:?} centre {centre:?}: right {right:?}, port {given:?} {weights:?}", T::W)
    });
}
