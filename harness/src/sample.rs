//! A sample of the Rust's answers, as text: a line for each case, whole numbers in decimal with one space between them. README.md has
//! the layout of each kind of line. A case on which the Rust and document 01 differ is left out. crates/rust_answers keeps the text and
//! replays it, so it must come out the same on every machine.

use crate::differences;
use crate::inputs::{self, Source};
use crate::quantising::{self, Quotient};
use crate::quiet::unless_it_panics;
use crate::records::{self, Fields};
use crate::width::{numbers, Sample};
use original::doors;

const SEED: u64 = 104;
/// Orders that are always there: the least, the fast way's and its neighbours, whole and broken groups of 8, the greatest.
const ORDERS: [usize; 8] = [1, 2, 6, 7, 8, 16, 31, 32];
/// Random cases of reading, and of writing.
const RECORDS: usize = 80;
/// Random cases of quantising, at each width.
const QUANTISED: usize = 30;

#[derive(Default)]
struct Line(String);

impl Line {
    fn put<N: std::fmt::Display>(&mut self, number: N) -> &mut Self {
        if !self.0.is_empty() {
            self.0.push(' ');
        }
        self.0 += &number.to_string();
        self
    }

    fn all<N: std::fmt::Display>(&mut self, numbers: impl IntoIterator<Item = N>) -> &mut Self {
        for number in numbers {
            self.put(number);
        }
        self
    }

    fn coding<T: Sample>(kind: u32, c: &inputs::Owned, count: usize) -> Self {
        let mut line = Self::default();
        line.put(kind).put(T::W).put(c.order).put(c.shift).put(c.bias).put(count).all(&c.weights);
        line
    }

    fn end(&self) -> String {
        format!("{}\n", self.0)
    }
}

pub fn text() -> String {
    let mut s = Source::new(SEED);
    let mut text = String::new();
    coding::<u8>(&mut s, &mut text);
    coding::<u16>(&mut s, &mut text);
    coding::<u32>(&mut s, &mut text);
    rows::<u8>(&mut s, &mut text);
    rows::<u16>(&mut s, &mut text);
    rows::<u32>(&mut s, &mut text);
    reading(&mut s, &mut text);
    writing(&mut s, &mut text);
    quantising_at::<u8>(&mut s, &mut text);
    quantising_at::<u16>(&mut s, &mut text);
    quantising_at::<u32>(&mut s, &mut text);
    text
}

/// A chain of calls: what encoding makes of the samples; that decoded from the saved state; and that decoded from the state afterwards.
fn chain<T: Sample>(c: &inputs::Owned, samples: &[T]) -> [Vec<T>; 3] {
    let config = doors::Config::new(c.shift, c.bias, &c.weights);
    let mut buffer = samples.to_vec();
    let mut state = T::rust_encode(&config, &mut buffer);
    let outputs = decoded(&config, &mut state, &buffer);
    let again = decoded(&config, &mut state, &outputs);
    [buffer, outputs, again]
}

/// What decoding gives. Both ways of the Rust must agree.
fn decoded<T: Sample>(config: &doors::Config, state: &mut [T], piece: &[T]) -> Vec<T> {
    let (mut general, mut after) = (piece.to_vec(), state.to_vec());
    T::rust_decode_general(config, &mut after, &mut general);
    let mut out = piece.to_vec();
    T::rust_decode(config, state, &mut out);
    assert!(out == general && *state == after, "the Rust's two ways differ at W={}: {piece:?}", T::W);
    out
}

/// A configuration; three in four times one whose predictions change most of what comes out of the chain, which a large shift seldom
/// does.
fn telling<T: Sample>(s: &mut Source, order: usize, samples: &[T]) -> inputs::Owned {
    let any = s.one_in(4);
    loop {
        let c = inputs::good_of::<T>(s, order);
        let blank = inputs::Owned { bias: 0, weights: vec![0; order], ..c.clone() };
        let [_, _, last] = chain(&c, samples);
        let [_, _, unpredicted] = chain(&blank, samples);
        let changed = last.iter().zip(unpredicted).filter(|&(&a, b)| a != b).count();
        if any || 2 * changed > samples.len() {
            return c;
        }
    }
}

/// Every number of a few short chains: as many samples as the order, or a few more.
fn coding<T: Sample>(s: &mut Source, text: &mut String) {
    for order in ORDERS {
        for n in [order + s.index(2), order + 2 + s.index(10)] {
            let samples = inputs::samples::<T>(s, n);
            let c = telling(s, order, &samples);
            let mut line = Line::coding::<T>(1, &c, n);
            line.all(numbers(&samples));
            for list in chain(&c, &samples) {
                line.put(0).all(numbers(&list));
            }
            *text += &line.end();
        }
    }
}

/// The next of a row of numbers that look like chance. crates/rust_answers has the same rows and the same sum.
fn next(x: u64) -> u64 {
    (x % 4294967291 * 1664525 + 1013904223) % 4294967291
}

fn row<T: Sample>(seed: u64, n: usize) -> Vec<T> {
    let mut x = seed;
    (0..n)
        .map(|_| {
            x = next(x);
            T::from_u64(x)
        })
        .collect()
}

/// The sum of numbers, each in its place, and with its high half behind the low one.
fn check_sum(numbers: impl IntoIterator<Item = u64>) -> u64 {
    let halves = numbers.into_iter().flat_map(|x| [x & 0xFFFF_FFFF, x >> 32]);
    halves.fold(7, |sum, half| (sum * 65599 + half) % 1099511627689)
}

/// Long chains, by a seed and a sum: lengths around the ends of a batch at the orders above, and one at each other order.
fn rows<T: Sample>(s: &mut Source, text: &mut String) {
    let mut seed = 0;
    for order in 1..=32 {
        let near = [order, order + 1, 511, 512, 512 + order, 543, 544, 545, 1024 + order];
        let lengths = if ORDERS.contains(&order) { near.to_vec() } else { vec![s.pick(&near)] };
        for n in lengths.into_iter().filter(|&n| !differences::short_last_batch(n, order)) {
            seed += 1;
            let samples = row::<T>(seed, n);
            let c = telling(s, order, &samples);
            let mut all: Vec<u64> = c.weights.iter().map(|&w| w as i64 as u64).collect();
            all.extend(numbers(&samples));
            for list in chain(&c, &samples) {
                all.push(0);
                all.extend(numbers(&list));
            }
            let mut line = Line::coding::<T>(2, &c, n);
            *text += &line.put(seed).put(check_sum(all)).end();
        }
    }
}

fn put_fields(line: &mut Line, fields: &Fields) {
    line.put(fields.variant).put(fields.order).put(fields.window).put(fields.state).put(fields.flag as u32);
    line.put(fields.shift).put(fields.bias);
    let weights = if fields.variant == 3 { fields.order } else { 0 };
    line.put(weights).all(&fields.weights[..weights]);
}

fn reading(s: &mut Source, text: &mut String) {
    for case in 0..RECORDS {
        let mut bytes: Vec<u8> = (0..142).map(|_| s.number() as u8).collect();
        bytes[0] = bytes[0] & 0xF0 | s.pick(&[0, 1, 2, 2, 3, 3, 3, 3, 4, 15]);
        // Five bits of byte 9 are the order of variant 3. Most orders are at most 4, so that the file stays small.
        match case % 16 {
            7 => bytes[9] |= 0x3E,
            15 => {}
            _ => bytes[9] &= !0x38,
        }
        let variants = !s.one_in(6);
        let needed = records::read(&bytes, variants).bits.div_ceil(8).max(2);
        bytes.truncate(if s.one_in(4) { s.index(needed) } else { needed + s.index(2) });
        let right = records::read(&bytes, variants);
        let mut line = Line::default();
        line.put(3).put(variants as u32).put(bytes.len()).all(&bytes).put(right.answer);
        match doors::read_record(&bytes, variants) {
            Ok((record, bits)) => {
                line.put(bits);
                put_fields(&mut line, &Fields::from_rust(&record));
            }
            Err(error) => {
                let said =
                    if error == doors::ReadError::InsufficientData { right.answer == 7 } else { matches!(right.answer, 8 | 9) };
                assert!(said, "the Rust says {error:?}, document 01 says {}", right.answer);
            }
        }
        *text += &line.end();
    }
}

fn writing(s: &mut Source, text: &mut String) {
    let mut case = 0;
    while case < RECORDS {
        let mut fields = records::fields(s);
        if fields.variant == 3 {
            match case % 16 {
                7 => fields.order = 32,
                15 => {}
                _ => fields.order = 1 + s.index(4),
            }
        }
        if records::written(&fields, fields.own_weights(), &[0; 142]).0.answer != 0 {
            continue;
        }
        let (bytes, bits) = doors::write_record(&fields.to_rust());
        let mut line = Line::default();
        line.put(4);
        put_fields(&mut line, &fields);
        line.put(0).put(bits).put(bytes.len()).all(&bytes);
        *text += &line.end();
        case += 1;
    }
}

/// Floats that chance gives too seldom: weights, and the centred bias. The last three are halves once they are shifted, at W = 8, 16
/// and 32 and with the centre 0.
const NASTY: [(&[f64], f64); 19] = [
    (&[f64::NAN], 0.0),
    (&[1.0], f64::NAN),
    (&[f64::INFINITY], 0.0),
    (&[0.5, f64::NEG_INFINITY], 0.0),
    (&[f64::INFINITY, f64::NEG_INFINITY], 1.0),
    (&[1e308, 1e308], 0.0),
    (&[1e308, -1e308], 0.0),
    (&[1e300], 0.0),
    (&[5e-324], 0.0),
    (&[f64::MIN_POSITIVE, -5e-324], 5e-324),
    (&[-0.0], -0.0),
    (&[0.0], -1e-300),
    (&[2.5], 0.5),
    (&[-2.5, 0.25], -0.5),
    (&[0.49999999999999994], 0.0),
    (&[1.5, -0.5], -1000.75),
    (&[0.5 / 8192.0, -0.5 / 8192.0, 1.5 / 8192.0], 0.0),
    (&[0.5 / 536870912.0, -0.5 / 536870912.0, 1.5 / 536870912.0], 0.0),
    (&[0.5 / 2147483648.0, -0.5 / 2147483648.0, 1.5 / 2147483648.0], 0.0),
];

fn quantising_at<T: Sample>(s: &mut Source, text: &mut String) {
    for (floats, c) in NASTY {
        quantising_case(text, floats, c, T::from_u64(0));
        quantising_case(text, floats, c, T::from_u64(100));
    }
    let mut case = 0;
    while case < QUANTISED {
        let (mut floats, c, centre) = inputs::fitted::<T>(s);
        if case % 10 != 9 {
            floats.truncate(1 + s.index(6));
        }
        case += quantising_case(text, &floats, c, centre) as usize;
    }
}

/// Whether a case was written.
fn quantising_case<T: Sample>(text: &mut String, floats: &[f64], c: f64, centre: T) -> bool {
    // A NaN's sign and digits are not the same on every machine.
    let one_nan = |x: f64| if x.is_nan() { f64::from_bits(0x7FF8_0000_0000_0000) } else { x };
    let list: Vec<f64> = floats.iter().copied().chain([c]).map(one_nan).collect();
    let order = floats.len();
    match quantising::quotient(&list[..order], list[order], centre) {
        Quotient::Refused => {}
        Quotient::InfiniteDivisor => return false,
        // So close below a power of two a library's logarithm may be the whole number above.
        Quotient::Is(_, x) if quantising::exponent(f64::from_bits(x.to_bits() + 64)) != quantising::exponent(x) => return false,
        Quotient::Is(..) => {}
    }
    let Some(rust) = unless_it_panics(|| T::rust_quantise(order, &list, centre)) else {
        return false;
    };
    let mut line = Line::default();
    line.put(5).put(T::W).put(order).put(centre.to_u64()).put(list[order].to_bits());
    line.all(list[..order].iter().map(|w| w.to_bits()));
    match rust {
        Some(rust) => line.put(0).put(rust.shift).put(rust.bias).all(&rust.weights),
        None => line.put(6),
    };
    *text += &line.end();
    true
}
