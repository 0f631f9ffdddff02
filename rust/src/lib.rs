//! Claspotter keeps wall traces as residuals of a linear prediction, and gives them back exactly. This crate is a safe wrapper over its
//! library, every function of which is proved to meet what it promises.
//!
//! A configuration is an order k, a shift q, a bias and k weights. From the k samples before place i, the oldest with weight 0, comes the
//! sum s of the bias and each weight times its sample. The prediction is max(s, 0) divided by 2^q, rounded down, modulo 2^W, and the
//! residual is the sample less the prediction plus [`Sample::MID`], modulo 2^W. W is the number of a sample's bits: 8, 16 or 32.
//!
//! ```
//! use claspotter::Config;
//!
//! # fn main() -> Result<(), claspotter::Refusal> {
//! let config = Config::new(0, 0, &[-1, 2]); // a straight line through the last two samples
//! let mut samples = [10u8, 12, 14, 15, 20];
//! let mut state = [0; 2];
//! let residuals = config.encode(&mut samples, &mut state)?;
//! assert_eq!((state, &*residuals), ([10, 12], &[128, 127, 132][..]));
//!
//! // The residuals come back in pieces of any length, in their order.
//! let (first, second) = residuals.split_at_mut(1);
//! config.decode(&mut state, first)?;
//! config.decode(&mut state, second)?;
//! assert_eq!((&samples[2..], state), (&[10, 12, 14][..], [15, 20]));
//! # Ok(())
//! # }
//! ```
//!
//! Slices are lent and never copied, nothing is allocated, and nothing is kept between calls. A refused call changes no slice. [`raw`] has
//! the same calls with the numbers of the boundary, [`sys`] the functions themselves.

#![deny(missing_docs)]

pub mod raw;
mod record;
mod refusal;
mod sample;
pub mod sys;

pub use record::{Conv1, Record};
pub use refusal::Refusal;
pub use sample::Sample;

/// The greatest order.
pub const MAX_ORDER: usize = 32;
/// The bytes of the longest record, a Conv1 with 32 weights.
pub const MAX_RECORD_BYTES: usize = 138;

/// A configuration, as a call gives it. Any numbers may stand in it; coding refuses what it should.
///
/// `Weight` is `i32`, or `u8` where weights and samples are lent as little-endian bytes.
#[derive(Clone, Copy, Debug, PartialEq, Eq)]
pub struct Config<'a, Weight = i32> {
    /// k, how many samples a prediction looks back at: 1 to 32. It is to be the number of weights, else coding refuses with
    /// [`Refusal::BadLength`].
    pub order: usize,
    /// q, by how many bits a sum is shifted down: below [`Sample::ACCUMULATOR`].
    pub shift: u32,
    /// What every sum begins with.
    pub bias: i64,
    /// The weights, the oldest sample's first.
    pub weights: &'a [Weight],
}

/// The ways to decode. All give the same samples.
#[derive(Clone, Copy, Debug, Default, PartialEq, Eq)]
pub enum Way {
    /// The quick way at order 6, the general one elsewhere.
    #[default]
    Chosen,
    /// The general way at every order.
    General,
    /// The way of order 6, which refuses every other order with [`Refusal::BadOrder`].
    OrderSix,
}

impl<'a> Config<'a> {
    /// A configuration whose order is the number of its weights.
    #[inline]
    pub fn new(shift: u32, bias: i64, weights: &'a [i32]) -> Config<'a> {
        Config { order: weights.len(), shift, bias, weights }
    }

    /// The accumulator rule alone, for samples of type `T`: no sum can leave the accumulator, whatever the samples. It tests no order and no
    /// shift.
    pub fn admits<T: Sample>(&self) -> Result<(), Refusal> {
        Refusal::check(raw::admits::<T>(self.bias, self.weights))
    }

    /// Encodes the samples in place and hands back the residuals, which are the places from the order on. The state, whose length is the
    /// order, gets the first samples, from which decoding starts. Each of the first places becomes its sample plus [`Sample::MID`].
    ///
    /// The tests are [`Refusal::BadOrder`], [`Refusal::BadShift`], [`Refusal::BadLength`], [`Refusal::Overflows`],
    /// [`Refusal::TooFewSamples`], in this order.
    #[inline]
    pub fn encode<'s, T: Sample>(&self, samples: &'s mut [T], state: &mut [T]) -> Result<&'s mut [T], Refusal> {
        Refusal::check(raw::encode(self, samples, state))?;
        Ok(&mut samples[self.order..])
    }

    /// Decodes a piece of residuals in place. In the list of the state and then the new samples, the first ones replace the piece and the
    /// last ones are the new state, so what comes out lags by the order. The joined pieces and then the last state are the trace.
    ///
    /// The tests are those of [`Config::encode`] but for the last. An empty piece changes nothing.
    #[inline]
    pub fn decode<T: Sample>(&self, state: &mut [T], piece: &mut [T]) -> Result<(), Refusal> {
        self.decode_by(Way::Chosen, state, piece)
    }

    /// [`Config::decode`], by a way of the caller's choice.
    #[inline]
    pub fn decode_by<T: Sample>(&self, way: Way, state: &mut [T], piece: &mut [T]) -> Result<(), Refusal> {
        Refusal::check(raw::decode(way, self, state, piece))
    }
}

impl<'a> Config<'a, u8> {
    /// A configuration whose weights are little-endian bytes, four to a weight; the order is a fourth of their number. Bytes left over are
    /// refused in coding, with [`Refusal::BadLength`].
    #[inline]
    pub fn over_bytes(shift: u32, bias: i64, weights: &'a [u8]) -> Config<'a, u8> {
        Config { order: weights.len() / 4, shift, bias, weights }
    }

    /// [`Config::encode`] over little-endian bytes, for callers that hold no aligned slices. `T` says the width. Bytes that do not divide into
    /// entries are refused with [`Refusal::BadLength`].
    #[inline]
    pub fn encode_bytes<'s, T: Sample>(&self, samples: &'s mut [u8], state: &mut [u8]) -> Result<&'s mut [u8], Refusal> {
        Refusal::check(raw::encode_bytes::<T>(self, samples, state))?;
        Ok(&mut samples[self.order * std::mem::size_of::<T>()..])
    }

    /// [`Config::decode`] over little-endian bytes.
    #[inline]
    pub fn decode_bytes<T: Sample>(&self, state: &mut [u8], piece: &mut [u8]) -> Result<(), Refusal> {
        self.decode_bytes_by::<T>(Way::Chosen, state, piece)
    }

    /// [`Config::decode_bytes`], by a way of the caller's choice.
    #[inline]
    pub fn decode_bytes_by<T: Sample>(&self, way: Way, state: &mut [u8], piece: &mut [u8]) -> Result<(), Refusal> {
        Refusal::check(raw::decode_bytes::<T>(way, self, state, piece))
    }
}

/// What quantising gives beside the weights.
#[derive(Clone, Copy, Debug, PartialEq, Eq)]
pub struct Quantised {
    /// Below [`Sample::ACCUMULATOR`], and at most 31, the greatest that a record holds.
    pub shift: u32,
    /// The whole bias.
    pub bias: i64,
}

/// Makes a configuration of float weights that were fitted to samples less a centre: a sample less the centre is about the centred bias plus
/// each fitted weight times its earlier sample less the centre. The order is the number of the fitted weights, and the integer weights fill
/// the lent slice, which is as long. What comes out is admitted at width `T`. `include/claspotter.h` has the six steps.
///
/// Any floats may be given. The tests are [`Refusal::BadOrder`], [`Refusal::BadLength`], [`Refusal::NoConfiguration`], in this order.
///
/// ```
/// let mut weights = [0; 1];
/// let quantised = claspotter::quantise(&[1.0], 0.0, 100u8, &mut weights)?;
/// assert_eq!((quantised.shift, quantised.bias, weights), (5, 0, [32]));
/// # Ok::<(), claspotter::Refusal>(())
/// ```
pub fn quantise<T: Sample>(fitted: &[f64], centred_bias: f64, centre: T, weights: &mut [i32]) -> Result<Quantised, Refusal> {
    let (mut shift, mut bias) = (0, 0);
    Refusal::check(raw::quantise(fitted.len(), fitted, centred_bias, centre, weights, &mut shift, &mut bias))?;
    Ok(Quantised { shift, bias })
}
