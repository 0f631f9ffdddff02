//! Inputs made from a seed: configurations, samples, lengths, floats. Every choice leans toward the edges.

use crate::model;
use crate::width::Sample;

/// A generator of 64-bit numbers (splitmix64): the same numbers from the same seed on every machine.
pub struct Source(u64);

impl Source {
    pub fn new(seed: u64) -> Self {
        Self(seed)
    }

    pub fn number(&mut self) -> u64 {
        self.0 = self.0.wrapping_add(0x9E37_79B9_7F4A_7C15);
        let mut z = self.0;
        z = (z ^ (z >> 30)).wrapping_mul(0xBF58_476D_1CE4_E5B9);
        z = (z ^ (z >> 27)).wrapping_mul(0x94D0_49BB_1331_11EB);
        z ^ (z >> 31)
    }

    /// Below `n`, which is not 0.
    pub fn below(&mut self, n: u64) -> u64 {
        ((self.number() as u128 * n as u128) >> 64) as u64
    }

    pub fn index(&mut self, n: usize) -> usize {
        self.below(n as u64) as usize
    }

    pub fn one_in(&mut self, n: u64) -> bool {
        self.below(n) == 0
    }

    pub fn pick<X: Copy>(&mut self, from: &[X]) -> X {
        from[self.index(from.len())]
    }

    /// From `from` to `to`, both included.
    pub fn between(&mut self, from: i128, to: i128) -> i128 {
        let span = (to - from + 1) as u128;
        let wide = (self.number() as u128) << 64 | self.number() as u128;
        from + (wide % span) as i128
    }
}

/// A configuration that owns its weights.
#[derive(Clone, Debug)]
pub struct Owned {
    pub order: usize,
    pub shift: u32,
    pub bias: i64,
    pub weights: Vec<i32>,
}

impl Owned {
    pub fn lent(&self) -> crate::port::Config<'_> {
        crate::port::Config { order: self.order, shift: self.shift, bias: self.bias, weights: &self.weights }
    }
}

pub fn order(s: &mut Source) -> usize {
    match s.below(4) {
        0 => s.pick(&[1, 2, 6, 6, 6, 8, 16, 31, 32]),
        1 => 6,
        _ => 1 + s.index(32),
    }
}

/// Weights and a bias that are admitted, most of them well inside, some of them exactly at the edge.
fn admitted<T: Sample>(s: &mut Source, order: usize) -> (i64, Vec<i32>) {
    let (m, limit) = (model::greatest(T::W), model::limit(T::W));
    // What the absolute weights may come to.
    let most = limit / m;
    let edge = s.one_in(3);
    let mut left = if edge { most } else { most >> s.below(T::W as u64) };
    let mut weights = vec![0i32; order];
    let start = s.index(order);
    for i in 0..order {
        let place = (start + i) % order;
        let size = if edge && i + 1 == order { left } else { s.between(0, left.max(0)) };
        let size = size.min(i32::MAX as i128 + 1);
        left -= size;
        let negative = s.one_in(2) || size > i32::MAX as i128;
        weights[place] = if negative { (-size) as i32 } else { size as i32 };
    }
    let spent: i128 = weights.iter().map(|&w| (w as i128).abs()).sum::<i128>() * m;
    let room = limit - spent;
    let bias = match s.below(4) {
        0 => 0,
        1 => s.between(-100, 100).clamp(-room, room),
        2 if edge => s.pick(&[room, -room]),
        _ => s.between(-room, room),
    };
    (bias as i64, weights)
}

/// Weights and a bias that are not admitted: one past the edge, or far past it.
fn too_large<T: Sample>(s: &mut Source, order: usize) -> (i64, Vec<i32>) {
    loop {
        let (mut bias, mut weights) = admitted::<T>(s, order);
        match s.below(4) {
            0 => {
                let spent: i128 = weights.iter().map(|&w| (w as i128).abs()).sum::<i128>() * model::greatest(T::W);
                let past = model::limit(T::W) - spent + 1;
                bias = s.pick(&[past, -past]).clamp(i64::MIN as i128, i64::MAX as i128) as i64;
            }
            1 => {
                let place = s.index(order);
                weights[place] = s.pick(&[i32::MIN, i32::MAX, i32::MIN + 1]);
            }
            2 => weights.iter_mut().for_each(|w| *w = s.number() as i32),
            _ => bias = s.pick(&[i64::MIN, i64::MAX, i64::MIN + 1]),
        }
        if !model::admitted(T::W, bias, &weights) {
            return (bias, weights);
        }
    }
}

pub fn shift<T: Sample>(s: &mut Source) -> u32 {
    match s.below(4) {
        0 => 0,
        1 => s.pick(&[T::W - 1, T::W, T::A - 2, T::A - 1]),
        _ => s.below(T::A as u64) as u32,
    }
}

/// A configuration that every test passes.
pub fn good<T: Sample>(s: &mut Source) -> Owned {
    let order = order(s);
    good_of::<T>(s, order)
}

/// The same, of a given order.
pub fn good_of<T: Sample>(s: &mut Source, order: usize) -> Owned {
    let (bias, weights) = admitted::<T>(s, order);
    // Sums are large where weights are, so that small shifts are the telling ones there.
    Owned { order, shift: shift::<T>(s), bias, weights }
}

/// A configuration, and the length of a state, of which at least one test is meant to fail. Several may.
pub fn damaged<T: Sample>(s: &mut Source) -> (Owned, usize) {
    let mut c = good::<T>(s);
    let mut state = c.order;
    for _ in 0..1 + s.below(2) {
        // Lengths stay small, whatever the order has become.
        let k = c.order.min(40);
        match s.below(6) {
            0 => c.order = s.pick(&[0, 33, 34, 64, usize::MAX, k + 1]),
            1 => c.shift = s.pick(&[T::A, T::A + 1, 64, 65, 255, u32::MAX]),
            2 => {
                let len = s.pick(&[0, k.saturating_sub(1), k + 1, 32, 33]);
                c.weights.resize(len, 1)
            }
            3 => state = s.pick(&[0, k.saturating_sub(1), k + 1, 32, 33, 40]),
            _ => {
                let order = c.weights.len().max(1);
                let (bias, mut weights) = too_large::<T>(s, order);
                weights.truncate(c.weights.len());
                (c.bias, c.weights) = (bias, weights);
            }
        }
    }
    (c, state)
}

/// How many samples: few most of the time, otherwise around the ends of a batch of 512 and of the 544 predictions.
pub fn length(s: &mut Source, order: usize) -> usize {
    let k = order.min(64);
    match s.below(16) {
        0 => s.pick(&[0, 1, k.saturating_sub(1), k, k + 1, 2 * k]),
        1 => {
            let whole = 512 * (1 + s.index(3));
            let near = [0, 1, 2, k.saturating_sub(1), k, k + 1, 31, 32, 33];
            if s.one_in(3) {
                whole - 1
            } else {
                whole + s.pick(&near)
            }
        }
        2 if s.one_in(8) => 512 + s.index(2100),
        _ => k + s.index(48),
    }
}

/// Samples of one of several kinds.
pub fn samples<T: Sample>(s: &mut Source, n: usize) -> Vec<T> {
    let m = model::greatest(T::W) as u64;
    let kind = s.below(6);
    let mut at = s.number();
    (0..n)
        .map(|i| {
            let x = match kind {
                0 => s.number(),
                1 => m,
                2 => s.pick(&[0, m]),
                3 => {
                    at = at.wrapping_add(s.below(9)).wrapping_sub(4);
                    at
                }
                4 => (i as u64).wrapping_mul(at & 7),
                _ => s.below(4),
            };
            T::from_u64(x)
        })
        .collect()
}

/// A float: ordinary, around a power of two, a half, or nasty.
pub fn float(s: &mut Source) -> f64 {
    let sign = if s.one_in(2) { 1.0 } else { -1.0 };
    let unit = (s.number() >> 11) as f64 / (1u64 << 53) as f64;
    sign * match s.below(16) {
        0 => 0.0,
        1 => s.pick(&[0.5, 1.0, 1.5, 2.5, 0.49999999999999994, 0.25, 3.0]),
        2 => (s.below(4096) as f64 + 0.5) / (1u64 << s.below(32)) as f64,
        3 => near_power(s),
        4 => unit * 10f64.powi(s.below(40) as i32 - 20),
        5 if s.one_in(4) => s.pick(&[f64::NAN, f64::INFINITY, f64::MAX, f64::MIN_POSITIVE, 5e-324, 1e308, 1e306, 1e300]),
        6 if s.one_in(4) => f64::from_bits(s.number()),
        7 => unit * (1u64 << s.below(62)) as f64,
        _ => unit * 2.0,
    }
}

fn near_power(s: &mut Source) -> f64 {
    let power = 2f64.powi(s.below(80) as i32 - 20);
    f64::from_bits(power.to_bits().wrapping_add(s.below(5)).wrapping_sub(2))
}

/// A set of floats for quantising: the weights and the centred bias. A quarter bring the quotient close to a power of two.
pub fn fitted<T: Sample>(s: &mut Source) -> (Vec<f64>, f64, T) {
    let order = order(s);
    let centre = T::from_u64(s.pick(&[0, 1, 7, 100, 128, 255, 1000, u64::MAX]) ^ if s.one_in(3) { s.number() } else { 0 });
    if s.one_in(4) {
        // A bias alone: the divisor is |c| + 1, so that this c brings the quotient next to 2^e.
        let e = s.below(T::A as u64 + 2) as i32 - 1;
        let c = model::limit(T::W) as f64 / 2f64.powi(e) - 1.0;
        let c = f64::from_bits(c.to_bits().wrapping_add(s.below(9)).wrapping_sub(4));
        return (vec![0.0; order], if c.is_finite() { c } else { 0.0 }, T::from_u64(0));
    }
    let weights = (0..order).map(|_| if s.one_in(3) { 0.0 } else { float(s) }).collect();
    (weights, float(s), centre)
}
