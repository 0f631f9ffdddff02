//! Compares coding: prediction, encoding, decoding in pieces, both ways, typed slices and byte slices.

use crate::differences;
use crate::inputs::{self, Owned, Source};
use crate::model;
use crate::port::{Config, Port, Way};
use crate::quiet::unless_it_panics;
use crate::tally::Tally;
use crate::width::{numbers, to_bytes, weights_to_bytes, Sample};
use original::doors;

/// Entries on both sides of a lent slice, to see that nothing outside it is written.
const FENCE: usize = 4;
/// Up to this many products, the model looks at a call that the Rust has judged.
const MODELLED: usize = 2000;

/// A buffer with fences around its content.
struct Fenced<T>(Vec<T>);

impl<T: Sample> Fenced<T> {
    fn new(content: &[T]) -> Self {
        let post = T::from_u64(0xA5A5_A5A5);
        let mut all = vec![post; content.len() + 2 * FENCE];
        all[FENCE..FENCE + content.len()].copy_from_slice(content);
        Self(all)
    }

    fn lent(&mut self) -> &mut [T] {
        let n = self.0.len();
        &mut self.0[FENCE..n - FENCE]
    }

    fn content(&self) -> &[T] {
        &self.0[FENCE..self.0.len() - FENCE]
    }

    fn stands(&self) -> bool {
        let post = T::from_u64(0xA5A5_A5A5);
        let n = self.0.len();
        self.0[..FENCE].iter().chain(&self.0[n - FENCE..]).all(|&x| x == post)
    }
}

/// Holds a call's answer, and what it left in its two lent slices and around them, against what is right.
fn judge<T: Sample>(
    tally: &mut Tally,
    kind: &'static str,
    (number, first, second): (u32, &[T], &[T]),
    answer: u32,
    (lent_first, lent_second): (&Fenced<T>, &Fenced<T>),
    call: impl Fn() -> String,
) {
    tally.call(kind);
    let left = lent_first.content() == first && lent_second.content() == second;
    let held = answer == number && left && lent_first.stands() && lent_second.stands();
    tally.holds(kind, held, || {
        format!("W={} {}: right {number} {first:?} {second:?}, port {answer} {:?} {:?}", T::W, call(), lent_first.0, lent_second.0)
    });
}

/// One round: a configuration at width T, coded and decoded in every way, or refused.
pub fn round<T: Sample, P: Port>(port: &P, s: &mut Source, tally: &mut Tally) {
    if s.one_in(4) {
        return refused::<T, P>(port, s, tally);
    }
    let c = inputs::good::<T>(s);
    let n = inputs::length(s, c.order);
    let samples = inputs::samples::<T>(s, n);
    let known = inputs::samples::<T>(s, c.order);
    if s.one_in(4) {
        let window = inputs::samples::<T>(s, c.order + 1);
        encode(port, s, tally, "prediction", &c, &window, &known);
    }
    let kind = if n < c.order { "encode, refused" } else { "encode" };
    if let Some((buffer, state)) = encode(port, s, tally, kind, &c, &samples, &known) {
        // What was coded comes back, whatever the cut: all samples but the last k as outputs, those as the state.
        let (outputs, last) = decode_all(port, s, tally, &c, &state, &buffer[c.order..]);
        tally.holds("round trip", [outputs, last].concat() == samples, || format!("W={} {c:?} {samples:?}", T::W));
    }
    if s.one_in(4) {
        let residuals = inputs::samples::<T>(s, n);
        decode_all(port, s, tally, &c, &known, &residuals);
    }
}

/// The Rust's buffer and state, or nothing where it panics.
fn rust_encoded<T: Sample>(c: &Owned, samples: &[T]) -> Option<(Vec<T>, Vec<T>)> {
    let config = doors::Config::new(c.shift, c.bias, &c.weights);
    let mut buffer = samples.to_vec();
    let state = unless_it_panics(|| T::rust_encode(&config, &mut buffer))?;
    Some((buffer, state))
}

/// Encodes, and gives the buffer and the state that are right, where the call is not refused.
fn encode<T: Sample, P: Port>(
    port: &P,
    s: &mut Source,
    tally: &mut Tally,
    kind: &'static str,
    c: &Owned,
    samples: &[T],
    before: &[T],
) -> Option<(Vec<T>, Vec<T>)> {
    let lent = c.lent();
    let number = model::encoding_refusal(T::W, &lent, before.len(), samples.len(), true);
    let right = if number == model::DONE {
        let rust = rust_encoded(c, samples);
        let modelled = || {
            let list = model::encoded(T::W, &lent, &numbers(samples));
            (list.into_iter().map(T::from_u64).collect::<Vec<_>>(), samples[..c.order].to_vec())
        };
        match rust {
            Some(rust) => {
                if samples.len() * c.order <= MODELLED || s.one_in(16) {
                    tally.holds("the Rust against the model", rust == modelled(), || format!("W={} {c:?} {samples:?}", T::W));
                }
                Some(rust)
            }
            None => {
                // The one place where the Rust panics on what the tests let pass.
                let listed = differences::short_last_batch(samples.len(), c.order);
                tally.holds(kind, listed, || format!("the Rust panics: W={} {c:?} n={}", T::W, samples.len()));
                tally.listed(differences::SHORT_LAST_BATCH);
                Some(modelled())
            }
        }
    } else {
        None
    };
    let (buffer, state) = match &right {
        Some((buffer, state)) => (&buffer[..], &state[..]),
        None => (samples, before),
    };

    let (mut lent_samples, mut lent_state) = (Fenced::new(samples), Fenced::new(before));
    let answer = port.encode(&lent, lent_samples.lent(), lent_state.lent());
    let lent_slices = (&lent_samples, &lent_state);
    judge(tally, kind, (number, buffer, state), answer, lent_slices, || format!("{c:?} samples {samples:?}"));

    if s.one_in(3) {
        encode_bytes(port, s, tally, c, samples, before, (number, buffer, state));
    }
    right
}

/// The same through bytes; one time in four with a slice that is no whole number of entries.
fn encode_bytes<T: Sample, P: Port>(
    port: &P,
    s: &mut Source,
    tally: &mut Tally,
    c: &Owned,
    samples: &[T],
    before: &[T],
    (number, buffer, state): (u32, &[T], &[T]),
) {
    let mut weights = weights_to_bytes(&c.weights);
    let (mut samples_in, mut state_in) = (to_bytes(samples), to_bytes(before));
    let ragged = s.one_in(4) && make_ragged::<T>(s, &mut weights, &mut samples_in, &mut state_in);
    let (right, samples_out, state_out) = if ragged {
        let number = model::encoding_refusal(T::W, &c.lent(), before.len(), samples.len(), false);
        (number, samples_in.clone(), state_in.clone())
    } else {
        (number, to_bytes(buffer), to_bytes(state))
    };
    let kind = if right == model::DONE { "encode, bytes" } else { "encode, bytes, refused" };
    let config = Config { order: c.order, shift: c.shift, bias: c.bias, weights: &weights[..] };
    let (mut lent_samples, mut lent_state) = (Fenced::new(&samples_in), Fenced::new(&state_in));
    let answer = port.encode_bytes::<T>(&config, lent_samples.lent(), lent_state.lent());
    let lent_slices = (&lent_samples, &lent_state);
    judge(tally, kind, (right, &samples_out[..], &state_out[..]), answer, lent_slices, || {
        format!("as bytes of W={} {config:?} samples {samples_in:?} state {state_in:?}", T::W)
    });
}

/// Adds some bytes to one slice, fewer than an entry has. Nothing is changed at W=8 but the weights.
fn make_ragged<T: Sample>(s: &mut Source, weights: &mut Vec<u8>, samples: &mut Vec<u8>, state: &mut Vec<u8>) -> bool {
    let which = if T::BYTES == 1 { 0 } else { s.below(3) };
    match which {
        0 => weights.extend(std::iter::repeat_n(1, 1 + s.index(3))),
        1 => samples.extend(std::iter::repeat_n(1, 1 + s.index(T::BYTES - 1))),
        _ => state.extend(std::iter::repeat_n(1, 1 + s.index(T::BYTES - 1))),
    }
    true
}

/// Decodes residuals in pieces cut at random, each piece by a way chosen at random; gives all outputs and the last state.
fn decode_all<T: Sample, P: Port>(
    port: &P,
    s: &mut Source,
    tally: &mut Tally,
    c: &Owned,
    state: &[T],
    residuals: &[T],
) -> (Vec<T>, Vec<T>) {
    let mut outputs = Vec::with_capacity(residuals.len());
    let mut state = state.to_vec();
    let mut left = residuals;
    loop {
        let m = match s.below(4) {
            0 => left.len(),
            1 => s.index(left.len() + 1),
            _ => s.index(left.len().min(40) + 1),
        };
        let (piece, rest) = left.split_at(m);
        let way =
            if c.order == 6 { s.pick(&[Way::Chosen, Way::General, Way::OrderSix]) } else { s.pick(&[Way::Chosen, Way::General]) };
        let (out, after) = decode(port, s, tally, way, c, &state, piece);
        outputs.extend(out);
        state = after;
        left = rest;
        if left.is_empty() {
            return (outputs, state);
        }
    }
}

fn way_kind(way: Way, refused: bool) -> &'static str {
    match (way, refused) {
        (Way::Chosen, false) => "decode",
        (Way::General, false) => "decode, the general way",
        (Way::OrderSix, false) => "decode, the way of order 6",
        (Way::Chosen, true) => "decode, refused",
        (Way::General, true) => "decode, the general way, refused",
        (Way::OrderSix, true) => "decode, the way of order 6, refused",
    }
}

/// Decodes one piece, and gives what is right for it.
fn decode<T: Sample, P: Port>(
    port: &P,
    s: &mut Source,
    tally: &mut Tally,
    way: Way,
    c: &Owned,
    before: &[T],
    piece: &[T],
) -> (Vec<T>, Vec<T>) {
    let lent = c.lent();
    let number = model::decoding_refusal(T::W, way, &lent, before.len(), true);
    let kind = way_kind(way, number != model::DONE);
    let (out, after) = if number == model::DONE {
        let config = doors::Config::new(c.shift, c.bias, &c.weights);
        let (mut out, mut after) = (piece.to_vec(), before.to_vec());
        let general = way == Way::General;
        let done = unless_it_panics(|| {
            if general {
                T::rust_decode_general(&config, &mut after, &mut out)
            } else {
                T::rust_decode(&config, &mut after, &mut out)
            }
        });
        tally.holds(kind, done.is_some(), || format!("the Rust panics: W={} {c:?} {before:?} {piece:?}", T::W));
        if piece.len() * c.order <= MODELLED || s.one_in(16) {
            let (a, b) = model::decoded(T::W, &lent, &numbers(before), &numbers(piece));
            let same = a == numbers(&out) && b == numbers(&after);
            tally.holds("the Rust against the model", same, || format!("W={} {c:?} {before:?} {piece:?}", T::W));
        }
        (out, after)
    } else {
        (piece.to_vec(), before.to_vec())
    };

    let (mut lent_piece, mut lent_state) = (Fenced::new(piece), Fenced::new(before));
    let answer = port.decode(way, &lent, lent_state.lent(), lent_piece.lent());
    let lent_slices = (&lent_piece, &lent_state);
    judge(tally, kind, (number, &out[..], &after[..]), answer, lent_slices, || format!("{c:?} state {before:?} piece {piece:?}"));

    if s.one_in(3) {
        decode_bytes(port, s, tally, way, c, before, piece, (number, &out, &after));
    }
    (out, after)
}

#[allow(clippy::too_many_arguments)]
fn decode_bytes<T: Sample, P: Port>(
    port: &P,
    s: &mut Source,
    tally: &mut Tally,
    way: Way,
    c: &Owned,
    before: &[T],
    piece: &[T],
    (number, out, after): (u32, &[T], &[T]),
) {
    let mut weights = weights_to_bytes(&c.weights);
    let (mut piece_in, mut state_in) = (to_bytes(piece), to_bytes(before));
    let ragged = s.one_in(4) && make_ragged::<T>(s, &mut weights, &mut piece_in, &mut state_in);
    let (right, piece_out, state_out) = if ragged {
        let number = model::decoding_refusal(T::W, way, &c.lent(), before.len(), false);
        (number, piece_in.clone(), state_in.clone())
    } else {
        (number, to_bytes(out), to_bytes(after))
    };
    let kind = if right == model::DONE { "decode, bytes" } else { "decode, bytes, refused" };
    let config = Config { order: c.order, shift: c.shift, bias: c.bias, weights: &weights[..] };
    let (mut lent_piece, mut lent_state) = (Fenced::new(&piece_in), Fenced::new(&state_in));
    let answer = port.decode_bytes::<T>(way, &config, lent_state.lent(), lent_piece.lent());
    let lent_slices = (&lent_piece, &lent_state);
    judge(tally, kind, (right, &piece_out[..], &state_out[..]), answer, lent_slices, || {
        format!("as bytes of W={} {way:?} {config:?} state {state_in:?} piece {piece_in:?}", T::W)
    });
}

/// Calls of which a test is meant to fail; the model alone says which number is right. The accumulator test is called alone too.
fn refused<T: Sample, P: Port>(port: &P, s: &mut Source, tally: &mut Tally) {
    let (c, state) = inputs::damaged::<T>(s);
    let n = inputs::length(s, c.order);
    let samples = inputs::samples::<T>(s, n);
    let known = inputs::samples::<T>(s, state);

    let number = if model::admitted(T::W, c.bias, &c.weights) { 0 } else { 3 };
    let answer = port.admits::<T>(c.bias, &c.weights);
    tally.call("accumulator test");
    tally.holds("accumulator test", answer == number, || format!("W={} {c:?}: right {number}, port {answer}", T::W));

    encode(port, s, tally, "encode, refused", &c, &samples, &known);
    let way = s.pick(&[Way::Chosen, Way::General, Way::OrderSix]);
    let piece = &samples[..n.min(80)];
    decode(port, s, tally, way, &c, &known, piece);
}
