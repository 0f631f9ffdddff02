//! The refusal numbers.

use std::fmt;

/// Why a call was refused. Every lent slice is then as it was.
#[derive(Clone, Copy, Debug, PartialEq, Eq, Hash)]
#[non_exhaustive]
pub enum Refusal {
    /// 1: the order is 0 or above 32; at the order-6 way, it is not 6.
    BadOrder,
    /// 2: the shift is A or more, A being 16, 32, 64 for samples of 8, 16, 32 bits.
    BadShift,
    /// 3: |bias| + M * (sum of the |weights|) is above 2^(A-1) - 1, M being the greatest sample.
    Overflows,
    /// 4: the weights, or the places of a state, number other than the order; bytes do not divide into entries.
    BadLength,
    /// 5: fewer samples than the order are to be encoded.
    TooFewSamples,
    /// 6: quantising gives no configuration.
    NoConfiguration,
    /// 7: the record goes on where the bytes have ended.
    BytesEnd,
    /// 8: the record's variant is none of the four.
    UnknownVariant,
    /// 9: Consecutive of order 0; a window log above 24; a state log above the window log.
    BadRecord,
    /// 10: a field of the record has no room for the number to be written there.
    UnfitField,
    /// 11: the record's bytes do not fit the buffer.
    NoRoom,
    /// A number that this version has no name for: the linked library is a later one.
    Unknown(u32),
}

impl Refusal {
    /// The refusal of a number; none for 0, which says that the call did its work.
    #[inline]
    pub fn from_number(number: u32) -> Option<Refusal> {
        Some(match number {
            0 => return None,
            1 => Refusal::BadOrder,
            2 => Refusal::BadShift,
            3 => Refusal::Overflows,
            4 => Refusal::BadLength,
            5 => Refusal::TooFewSamples,
            6 => Refusal::NoConfiguration,
            7 => Refusal::BytesEnd,
            8 => Refusal::UnknownVariant,
            9 => Refusal::BadRecord,
            10 => Refusal::UnfitField,
            11 => Refusal::NoRoom,
            _ => Refusal::Unknown(number),
        })
    }

    /// Its number, never 0.
    pub fn number(self) -> u32 {
        match self {
            Refusal::BadOrder => 1,
            Refusal::BadShift => 2,
            Refusal::Overflows => 3,
            Refusal::BadLength => 4,
            Refusal::TooFewSamples => 5,
            Refusal::NoConfiguration => 6,
            Refusal::BytesEnd => 7,
            Refusal::UnknownVariant => 8,
            Refusal::BadRecord => 9,
            Refusal::UnfitField => 10,
            Refusal::NoRoom => 11,
            Refusal::Unknown(number) => number,
        }
    }

    /// An answer of [`crate::raw`] as a result.
    #[inline]
    pub fn check(answer: u32) -> Result<(), Refusal> {
        match Refusal::from_number(answer) {
            None => Ok(()),
            Some(refusal) => Err(refusal),
        }
    }

    fn text(self) -> &'static str {
        match self {
            Refusal::BadOrder => "the order is not from 1 to 32, or not 6 at the order-6 way",
            Refusal::BadShift => "the shift is not below the accumulator's bits",
            Refusal::Overflows => "the bias and weights can overflow the accumulator",
            Refusal::BadLength => "a slice has the wrong length",
            Refusal::TooFewSamples => "there are fewer samples than the order",
            Refusal::NoConfiguration => "quantising gives no configuration",
            Refusal::BytesEnd => "the bytes end inside the record",
            Refusal::UnknownVariant => "the record's variant is unknown",
            Refusal::BadRecord => "the record's order or logs are out of range",
            Refusal::UnfitField => "a number does not fit its field of the record",
            Refusal::NoRoom => "the record does not fit the buffer",
            Refusal::Unknown(_) => "no answer of this version",
        }
    }
}

impl fmt::Display for Refusal {
    fn fmt(&self, f: &mut fmt::Formatter) -> fmt::Result {
        write!(f, "refused {}: {}", self.number(), self.text())
    }
}

impl std::error::Error for Refusal {}
