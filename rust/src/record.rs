//! The delta record.

use crate::raw::{self, Numbers};
use crate::{Config, Refusal, MAX_ORDER};

/// A delta record. It knows no width: whether a configuration is admitted is tested where it codes.
#[derive(Clone, Copy, Debug, PartialEq, Eq)]
#[allow(clippy::large_enum_variant)] // a Conv1 is the usual one, and nothing is allocated
pub enum Record {
    /// Variant 0: the samples are kept as they are.
    Nothing,
    /// Variant 1.
    Consecutive {
        /// 1 to 7.
        order: usize,
        /// Whether a second variable is kept as deltas too.
        secondary_uses_delta: bool,
    },
    /// Variant 2.
    Lookback {
        /// 1 to 24.
        window_n_log: u32,
        /// 0 to 15, and not above the window's.
        state_n_log: u32,
        /// Whether a second variable is kept as deltas too.
        secondary_uses_delta: bool,
    },
    /// Variant 3: a configuration.
    Conv1(Conv1),
}

/// The configuration that a record of variant 3 holds.
#[derive(Clone, Copy, Debug, PartialEq, Eq)]
pub struct Conv1 {
    /// 1 to 32.
    pub order: usize,
    /// 0 to 31.
    pub shift: u32,
    /// Any.
    pub bias: i64,
    /// The first `order` places count. Reading leaves the others 0.
    pub weights: [i32; MAX_ORDER],
}

impl Conv1 {
    /// The configuration of a record, lent for coding.
    pub fn config(&self) -> Config<'_> {
        Config { order: self.order, shift: self.shift, bias: self.bias, weights: &self.weights[..self.order.min(MAX_ORDER)] }
    }
}

impl TryFrom<&Config<'_>> for Conv1 {
    type Error = Refusal;

    /// The configuration as a record holds it. Refused as in coding: [`Refusal::BadOrder`], then [`Refusal::BadLength`] where the weights
    /// number other than the order.
    fn try_from(config: &Config) -> Result<Conv1, Refusal> {
        if config.order == 0 || config.order > MAX_ORDER {
            return Err(Refusal::BadOrder);
        }
        if config.weights.len() != config.order {
            return Err(Refusal::BadLength);
        }
        let mut weights = [0; MAX_ORDER];
        weights[..config.order].copy_from_slice(config.weights);
        Ok(Conv1 { order: config.order, shift: config.shift, bias: config.bias, weights })
    }
}

impl Record {
    /// The record at the start of the bytes, and the bits that it takes. Bytes past it are not looked at. `variants` is false for files that
    /// hold only an order.
    ///
    /// Refused with [`Refusal::BytesEnd`] at the first missing field, [`Refusal::UnknownVariant`], [`Refusal::BadRecord`].
    pub fn read(bytes: &[u8], variants: bool) -> Result<(Record, usize), Refusal> {
        let (mut n, mut weights, mut bits) = (Numbers::default(), [0; MAX_ORDER], 0);
        Refusal::check(raw::read_record(bytes, variants, &mut n, &mut weights, &mut bits))?;
        let secondary_uses_delta = n.secondary_uses_delta != 0;
        let record = match n.variant {
            0 => Record::Nothing,
            1 => Record::Consecutive { order: n.order, secondary_uses_delta },
            2 => Record::Lookback { window_n_log: n.window_n_log, state_n_log: n.state_n_log, secondary_uses_delta },
            3 => Record::Conv1(Conv1 { order: n.order, shift: n.quantization, bias: n.bias, weights }),
            // No library of this version reads another.
            _ => return Err(Refusal::UnknownVariant),
        };
        Ok((record, bits))
    }

    /// Writes the record from the buffer's first bit on, and says how many bits it takes. The unused bits of its last byte are cleared, and
    /// later bytes stay. [`crate::MAX_RECORD_BYTES`] bytes are room for any record.
    ///
    /// Refused with [`Refusal::BadOrder`] for a Conv1, then [`Refusal::BadRecord`], [`Refusal::UnfitField`], [`Refusal::NoRoom`].
    pub fn write(&self, bytes: &mut [u8]) -> Result<usize, Refusal> {
        let mut bits = 0;
        let (numbers, weights) = match self {
            Record::Nothing => (Numbers::default(), &[][..]),
            Record::Consecutive { order, secondary_uses_delta } => {
                let flag = u32::from(*secondary_uses_delta);
                (Numbers { variant: 1, order: *order, secondary_uses_delta: flag, ..Numbers::default() }, &[][..])
            }
            Record::Lookback { window_n_log, state_n_log, secondary_uses_delta } => {
                let flag = u32::from(*secondary_uses_delta);
                let logs = Numbers { window_n_log: *window_n_log, state_n_log: *state_n_log, ..Numbers::default() };
                (Numbers { variant: 2, secondary_uses_delta: flag, ..logs }, &[][..])
            }
            Record::Conv1(conv1) => {
                let c = conv1.config();
                let numbers = Numbers { variant: 3, order: c.order, quantization: c.shift, bias: c.bias, ..Numbers::default() };
                (numbers, &conv1.weights[..c.weights.len()])
            }
        };
        Refusal::check(raw::write_record(&numbers, weights, bytes, &mut bits))?;
        Ok(bits)
    }
}
