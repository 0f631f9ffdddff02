//! Compares delta records, read and written, and has the exact model of both, written from document 01 bit by bit.

use crate::differences;
use crate::inputs::Source;
use crate::port::Port;
use crate::quiet::unless_it_panics;
use crate::tally::Tally;
use original::doors::{self, ReadError, Record};

/// A record in plain numbers. What a variant does not have is 0 when read, and is not looked at when written.
#[derive(Clone, Debug, Default, PartialEq, Eq)]
pub struct Fields {
    pub variant: u32,
    pub order: usize,
    pub window: u32,
    pub state: u32,
    pub flag: bool,
    pub shift: u32,
    pub bias: i64,
    pub weights: [i32; 32],
}

#[derive(Clone, Debug, PartialEq, Eq)]
pub struct Reading {
    pub answer: u32,
    pub fields: Fields,
    pub bits: usize,
}

#[derive(Clone, Copy, Debug, PartialEq, Eq)]
pub struct Writing {
    pub answer: u32,
    pub bits: usize,
}

/// Bits in order, the low end of each byte first.
struct Bits<'a> {
    bytes: &'a [u8],
    at: usize,
}

impl Bits<'_> {
    /// The next field, or 7 where the bytes end before or inside it.
    fn take(&mut self, width: usize) -> Result<u128, u32> {
        if self.at + width > 8 * self.bytes.len() {
            return Err(7);
        }
        let bit = |place: usize| (self.bytes[place / 8] >> (place % 8) & 1) as u128;
        let value = (0..width).map(|i| bit(self.at + i) << i).sum();
        self.at += width;
        Ok(value)
    }
}

/// What reading gives, by document 01.
pub fn read(bytes: &[u8], variants: bool) -> Reading {
    let mut bits = Bits { bytes, at: 0 };
    match read_fields(&mut bits, variants) {
        Ok(fields) => Reading { answer: 0, fields, bits: bits.at },
        Err(answer) => Reading::refused(answer),
    }
}

impl Reading {
    fn refused(answer: u32) -> Self {
        Reading { answer, fields: Fields::default(), bits: 0 }
    }
}

/// What reading into lent weights gives, and the weights afterwards: the record's array, which has 32 places, or what was there. The
/// weights of the fields are 0.
pub fn read_into(bytes: &[u8], variants: bool, lent: &[i32]) -> (Reading, Vec<i32>) {
    let mut reading = if lent.len() == 32 { read(bytes, variants) } else { Reading::refused(4) };
    let weights = std::mem::take(&mut reading.fields.weights);
    let after = if reading.answer == 0 { weights.to_vec() } else { lent.to_vec() };
    (reading, after)
}

fn read_fields(bits: &mut Bits, variants: bool) -> Result<Fields, u32> {
    let mut fields = Fields::default();
    if !variants {
        fields.order = bits.take(3)? as usize;
        fields.variant = (fields.order != 0) as u32;
        return Ok(fields);
    }
    fields.variant = bits.take(4)? as u32;
    match fields.variant {
        0 => {}
        1 => {
            fields.order = bits.take(3)? as usize;
            if fields.order == 0 {
                return Err(9);
            }
            fields.flag = bits.take(1)? == 1;
        }
        2 => {
            fields.window = 1 + bits.take(5)? as u32;
            fields.state = bits.take(4)? as u32;
            if fields.window > 24 || fields.state > fields.window {
                return Err(9);
            }
            fields.flag = bits.take(1)? == 1;
        }
        3 => {
            fields.shift = bits.take(5)? as u32;
            fields.bias = (bits.take(64)? as i128 - (1i128 << 63)) as i64;
            fields.order = 1 + bits.take(5)? as usize;
            for place in 0..fields.order {
                fields.weights[place] = (bits.take(32)? as i64 - (1i64 << 31)) as i32;
            }
        }
        _ => return Err(8),
    }
    Ok(fields)
}

/// What writing with these weights gives, by document 01: the answer, the bits, and the whole buffer afterwards.
pub fn written(fields: &Fields, weights: &[i32], buffer: &[u8]) -> (Writing, Vec<u8>) {
    let refused = |answer| (Writing { answer, bits: 0 }, buffer.to_vec());
    let mut list: Vec<(u128, usize)> = vec![(fields.variant as u128, 4)];
    match fields.variant {
        0 => {}
        1 => {
            if fields.order == 0 {
                return refused(9);
            }
            list.extend([(fields.order as u128, 3), (fields.flag as u128, 1)]);
        }
        2 => {
            if fields.window > 24 || fields.state > fields.window {
                return refused(9);
            }
            if fields.window == 0 {
                return refused(10);
            }
            list.extend([(fields.window as u128 - 1, 5), (fields.state as u128, 4), (fields.flag as u128, 1)]);
        }
        3 => {
            if fields.order == 0 || fields.order > 32 {
                return refused(1);
            }
            if weights.len() != fields.order {
                return refused(4);
            }
            list.push((fields.shift as u128, 5));
            list.push(((fields.bias as i128 + (1i128 << 63)) as u128, 64));
            list.push((fields.order as u128 - 1, 5));
            list.extend(weights.iter().map(|&w| ((w as i64 + (1i64 << 31)) as u128, 32)));
        }
        _ => return refused(8),
    }
    if list.iter().any(|&(value, width)| value >> width != 0) {
        return refused(10);
    }
    let bits: usize = list.iter().map(|&(_, width)| width).sum();
    let bytes = bits.div_ceil(8);
    if bytes > buffer.len() {
        return refused(11);
    }
    let mut after = buffer.to_vec();
    after[..bytes].fill(0);
    let mut at = 0;
    for (value, width) in list {
        for i in 0..width {
            after[at / 8] |= ((value >> i & 1) as u8) << (at % 8);
            at += 1;
        }
    }
    (Writing { answer: 0, bits }, after)
}

impl Fields {
    /// As many weights as the order says, where there are so many.
    pub fn own_weights(&self) -> &[i32] {
        &self.weights[..self.order.min(32)]
    }

    /// The same record as the Rust holds it. Orders above 32 have more weights than places: those are 0.
    pub fn to_rust(&self) -> Record {
        match self.variant {
            0 => Record::NoOp,
            1 => Record::Consecutive { order: self.order, flag: self.flag },
            2 => Record::Lookback { window: self.window, state: self.state, flag: self.flag },
            _ => Record::Conv1 {
                shift: self.shift,
                bias: self.bias,
                weights: (0..self.order.min(64)).map(|i| self.weights.get(i).copied().unwrap_or(0)).collect(),
            },
        }
    }

    pub fn from_rust(record: &Record) -> Self {
        let mut fields = Fields::default();
        match *record {
            Record::NoOp => {}
            Record::Consecutive { order, flag } => fields = Fields { variant: 1, order, flag, ..fields },
            Record::Lookback { window, state, flag } => fields = Fields { variant: 2, window, state, flag, ..fields },
            Record::Conv1 { shift, bias, ref weights } => {
                fields = Fields { variant: 3, order: weights.len(), shift, bias, ..fields };
                fields.weights[..weights.len()].copy_from_slice(weights);
            }
        }
        fields
    }
}

/// What lent weights hold before a record is read into them.
const LENT: [i32; 32] = [i32::MIN; 32];

/// Every buffer of no, one and two bytes, in both forms.
pub fn all_short<P: Port>(port: &P, tally: &mut Tally) {
    for variants in [false, true] {
        compare_read(port, tally, &[], variants, &LENT);
        for a in 0..=255 {
            compare_read(port, tally, &[a], variants, &LENT);
            for b in 0..=255 {
                compare_read(port, tally, &[a, b], variants, &LENT);
            }
        }
    }
}

/// One round: bytes read, and a record written.
pub fn round<P: Port>(port: &P, s: &mut Source, tally: &mut Tally) {
    // Enough for a Conv1 record of the order that byte 9 names, or cut short somewhere.
    let mut bytes: Vec<u8> = (0..142).map(|_| s.number() as u8).collect();
    if !s.one_in(8) {
        bytes[0] = bytes[0] & 0xF0 | s.pick(&[0, 1, 2, 3, 3, 3]);
    }
    let needed = read(&bytes, true).bits.div_ceil(8);
    let len = match s.below(4) {
        0 => s.index(bytes.len() + 1),
        1 => needed.saturating_sub(1),
        2 => needed,
        _ => needed + s.index(3),
    };
    let lent = if s.one_in(8) { any_number(s, &LENT) } else { LENT.to_vec() };
    compare_read(port, tally, &bytes[..len.min(142)], !s.one_in(8), &lent);

    let mut fields = fields(s);
    if s.one_in(16) {
        fields.variant = s.pick(&[4, 7, 15, 16, 19, u32::MAX]);
    }
    let lent = if s.one_in(8) { any_number(s, &fields.weights) } else { fields.own_weights().to_vec() };
    let buffer: Vec<u8> = (0..s.pick(&[0, 1, 2, 3, 13, 14, 15, 137, 138, 139, 142])).map(|_| s.number() as u8).collect();
    compare_write(port, tally, &fields, &lent, &buffer);
}

/// Some number of these weights, seldom the right one; from the start again where there are too few.
fn any_number(s: &mut Source, weights: &[i32; 32]) -> Vec<i32> {
    let count = s.pick(&[0, 1, 2, 31, 32, 33, 64]);
    weights.iter().copied().cycle().take(count).collect()
}

fn compare_read<P: Port>(port: &P, tally: &mut Tally, bytes: &[u8], variants: bool, lent: &[i32]) {
    let right = read(bytes, variants);
    let rust = unless_it_panics(|| doors::read_record(bytes, variants));
    let agrees = match (&rust, right.answer) {
        (Some(Ok((record, bits))), 0) => Fields::from_rust(record) == right.fields && *bits == right.bits,
        // The Rust has one kind of error for 8 and 9.
        (Some(Err(ReadError::Corruption)), 8 | 9) => true,
        (Some(Err(ReadError::InsufficientData)), 7) => true,
        _ => false,
    };
    tally.holds("the Rust against the model", agrees, || format!("read {bytes:?} {variants}: {rust:?}, {right:?}"));
    let (right, after) = read_into(bytes, variants, lent);
    let mut weights = lent.to_vec();
    let port = port.read_record(bytes, variants, &mut weights);
    tally.call(if right.answer == 0 { "read record" } else { "read record, refused" });
    tally.holds("read record", port == right && weights == after, || {
        format!("{bytes:?} {variants} into {lent:?}: right {right:?} {after:?}, port {port:?} {weights:?}")
    });
}

fn compare_write<P: Port>(port: &P, tally: &mut Tally, fields: &Fields, weights: &[i32], buffer: &[u8]) {
    let (right, after) = written(fields, weights, buffer);
    let rust = unless_it_panics(|| doors::write_record(&fields.to_rust()));
    match right.answer {
        0 => {
            let agrees = rust.as_ref().is_some_and(|(bytes, bits)| {
                *bits == right.bits && after[..bytes.len()] == bytes[..] && after[bytes.len()..] == buffer[bytes.len()..]
            });
            tally.holds("the Rust against the model", agrees, || format!("write {fields:?}: {rust:?}, {right:?} {after:?}"));
        }
        // A growing buffer has always room; a Rust record has a variant, and its weights' number is its order.
        4 | 8 | 11 => {}
        _ => tally.listed(differences::WRITTEN_ANYWAY),
    }
    let mut lent = buffer.to_vec();
    let port = port.write_record(fields, weights, &mut lent);
    tally.call(if right.answer == 0 { "write record" } else { "write record, refused" });
    tally.holds("write record", port == right && lent == after, || {
        format!("{fields:?} {weights:?} into {buffer:?}: right {right:?} {after:?}, port {port:?} {lent:?}")
    });
}

/// Fields of a record: most can be written, some break one rule or more. What the variant does not use is filled all the same.
pub fn fields(s: &mut Source) -> Fields {
    let good = !s.one_in(3);
    let mut weights = [0; 32];
    weights.iter_mut().for_each(|w| *w = s.number() as i32);
    let variant = s.pick(&[0, 1, 2, 3, 3, 3]);
    let order = match (variant, good) {
        (1, true) => 1 + s.index(7),
        (1, false) => s.pick(&[0, 7, 8, 9, 16, 1 << 40, usize::MAX]),
        (_, true) => 1 + s.index(32),
        (_, false) => s.pick(&[0, 1, 32, 33, 64, usize::MAX]),
    };
    let window = if good { 1 + s.below(24) as u32 } else { s.pick(&[0, 1, 15, 24, 25, 32, 33, 64, u32::MAX]) };
    let state = if good { s.below(1 + window.min(15) as u64) as u32 } else { s.pick(&[0, 1, 2, 15, 16, 24, 25, u32::MAX]) };
    let shift = if good { s.below(32) as u32 } else { s.pick(&[0, 31, 32, 63, 64, u32::MAX]) };
    let bias = if s.one_in(4) { s.pick(&[0, -1, i64::MIN, i64::MAX]) } else { s.number() as i64 };
    Fields { variant, order, window, state, flag: s.one_in(2), shift, bias, weights }
}
