//! Doors of our own into the Rust: coding at each width and both ways, quantising, records. They add no behaviour; a panic of the
//! Rust passes through them.

use crate::bit_reader::BitReader;
use crate::bit_writer::BitWriter;
use crate::constants::OVERSHOOT_PADDING;
use crate::delta::{conv1, conv1_general, tail};
use crate::errors::ErrorKind;
use crate::metadata::format_version::FormatVersion;
use crate::metadata::{DeltaConv1Config, DeltaEncoding, DeltaLookbackConfig};

/// A configuration as the Rust holds it.
pub struct Config(DeltaConv1Config);

impl Config {
    pub fn new(shift: u32, bias: i64, weights: &[i32]) -> Self {
        Self(DeltaConv1Config::new(shift, bias, weights.iter().map(|&w| w as i64).collect()))
    }
}

/// What quantising gives, as the Rust holds it: weights are i64 there.
#[derive(Clone, Debug, PartialEq, Eq)]
pub struct Quantised {
    pub shift: u32,
    pub bias: i64,
    pub weights: Vec<i64>,
}

macro_rules! width {
    ($t: ty, $encode: ident, $decode: ident, $general: ident, $quantise: ident) => {
        pub fn $encode(config: &Config, latents: &mut [$t]) -> Vec<$t> {
            conv1::encode_in_place(&config.0, latents)
        }

        pub fn $decode(config: &Config, state: &mut [$t], latents: &mut [$t]) {
            conv1::decode_in_place(&config.0, state, latents)
        }

        /// The general way at every order, 6 among them.
        pub fn $general(config: &Config, state: &mut [$t], latents: &mut [$t]) {
            conv1_general::decode_in_place(&config.0, state, latents)
        }

        /// `floats` are the weights and then the centred bias.
        pub fn $quantise(order: usize, floats: &[f64], centre: $t) -> Option<Quantised> {
            tail::quantise::<$t>(order, floats, centre).map(|config| Quantised {
                shift: config.quantization,
                bias: config.bias::<i64>(),
                weights: config.weights::<i64>(),
            })
        }
    };
}

width!(u8, encode_u8, decode_u8, decode_general_u8, quantise_u8);
width!(u16, encode_u16, decode_u16, decode_general_u16, quantise_u16);
width!(u32, encode_u32, decode_u32, decode_general_u32, quantise_u32);

/// A delta record's fields, in plain numbers.
#[derive(Clone, Debug, PartialEq, Eq)]
pub enum Record {
    NoOp,
    Consecutive { order: usize, flag: bool },
    Lookback { window: u32, state: u32, flag: bool },
    Conv1 { shift: u32, bias: i64, weights: Vec<i32> },
}

/// What the Rust says of bytes that it does not take.
#[derive(Clone, Copy, Debug, PartialEq, Eq)]
pub enum ReadError {
    Corruption,
    InsufficientData,
}

impl Record {
    fn to_rust(&self) -> DeltaEncoding {
        match *self {
            Record::NoOp => DeltaEncoding::NoOp,
            Record::Consecutive { order, flag } => DeltaEncoding::Consecutive { order, secondary_uses_delta: flag },
            Record::Lookback { window, state, flag } => DeltaEncoding::Lookback {
                config: DeltaLookbackConfig { window_n_log: window, state_n_log: state },
                secondary_uses_delta: flag,
            },
            Record::Conv1 { shift, bias, ref weights } => {
                DeltaEncoding::Conv1(DeltaConv1Config::new(shift, bias, weights.iter().map(|&w| w as i64).collect()))
            }
        }
    }

    fn from_rust(delta: DeltaEncoding) -> Self {
        match delta {
            DeltaEncoding::NoOp => Record::NoOp,
            DeltaEncoding::Consecutive { order, secondary_uses_delta } => Record::Consecutive { order, flag: secondary_uses_delta },
            DeltaEncoding::Lookback { config, secondary_uses_delta } => {
                Record::Lookback { window: config.window_n_log, state: config.state_n_log, flag: secondary_uses_delta }
            }
            DeltaEncoding::Conv1(config) => Record::Conv1 {
                shift: config.quantization,
                bias: config.bias::<i64>(),
                weights: config.weights::<i64>().into_iter().map(|w| w as i32).collect(),
            },
        }
    }
}

// Room for the longest record and for what the Rust may read or write behind it.
const PADDED: usize = DeltaEncoding::MAX_BIT_SIZE.div_ceil(8) + OVERSHOOT_PADDING + 8;

/// Reads as the Rust's readers do: from padded bytes, and the end is looked at afterwards.
pub fn read_record(bytes: &[u8], variants: bool) -> Result<(Record, usize), ReadError> {
    let kind = |error: crate::errors::PcoError| match error.kind {
        ErrorKind::InsufficientData => ReadError::InsufficientData,
        _ => ReadError::Corruption,
    };
    let mut padded = bytes.to_vec();
    padded.resize(bytes.len().max(PADDED) + PADDED, 0);
    let mut reader = BitReader::new(&padded, bytes.len(), 0);
    let version = FormatVersion { major: if variants { 4 } else { 2 }, minor: 0 };
    // The longest record fits the padding, so no read leaves the slice.
    let delta = unsafe { DeltaEncoding::read_from(&mut reader, &version) }.map_err(kind)?;
    reader.check_in_bounds().map_err(kind)?;
    Ok((Record::from_rust(delta), reader.bit_idx()))
}

/// The bytes that the Rust writes, its last byte filled up, and the bits before that.
pub fn write_record(record: &Record) -> (Vec<u8>, usize) {
    // Of a record with too many weights the Rust writes more than its own limit.
    let more = match record {
        Record::Conv1 { weights, .. } => weights.len() * 4,
        _ => 0,
    };
    let mut writer = BitWriter::new(Vec::new(), PADDED + more);
    // The buffer has room for every field and for the 15 bytes that a wide write may touch.
    unsafe { record.to_rust().write_to(&mut writer) };
    let bits = writer.stale_byte_idx * 8 + writer.bits_past_byte as usize;
    writer.finish_byte();
    writer.flush().expect("a vector takes all bytes");
    (writer.into_inner(), bits)
}
