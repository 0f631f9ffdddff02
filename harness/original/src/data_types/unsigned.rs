//! Stands in for `data_types/unsigned.rs`, which was not supplied. Written from the traits that the supplied files ask for and from
//! document 01's table of widths: MID is half the range, `Conv` is the signed type of twice the width.

use super::latent_priv::LatentPriv;
use super::{Number, NumberPriv};
use crate::compression_intermediates::Bid;
use crate::constants::Bitlen;
use crate::describers::LatentDescriber;
use crate::dyn_slices::DynLatentSlice;
use crate::errors::PcoResult;
use crate::metadata::per_latent_var::PerLatentVar;
use crate::metadata::{ChunkMeta, Mode};
use crate::ChunkConfig;

// Modes belong to parts of the Rust that nothing here calls.
pub(crate) fn mode_is_valid<L>(_mode: &Mode) -> bool {
    unimplemented!("modes")
}

pub(crate) fn choose_mode_bids<T: NumberPriv>(_nums: &[T], _config: &ChunkConfig) -> PcoResult<Vec<Bid<T>>> {
    unimplemented!("modes")
}

pub(crate) fn join_latents<T>(
    _mode: &Mode,
    _primary: DynLatentSlice,
    _secondary: Option<DynLatentSlice>,
    _dst: &mut [T],
) -> PcoResult<()> {
    unimplemented!("modes")
}

macro_rules! impl_unsigned {
    ($t: ty, $conv: ty, $header_byte: expr) => {
        impl NumberPriv for $t {
            const NUMBER_TYPE_BYTE: u8 = $header_byte;
            type L = Self;

            fn mode_is_valid(mode: &Mode) -> bool {
                mode_is_valid::<Self>(mode)
            }
            fn choose_mode_bids(nums: &[Self], config: &ChunkConfig) -> PcoResult<Vec<Bid<Self>>> {
                choose_mode_bids(nums, config)
            }
            #[inline]
            fn from_latent_ordered(l: Self) -> Self {
                l
            }
            #[inline]
            fn to_latent_ordered(self) -> Self {
                self
            }
            fn join_latents(
                mode: &Mode,
                primary: DynLatentSlice,
                secondary: Option<DynLatentSlice>,
                dst: &mut [Self],
            ) -> PcoResult<()> {
                join_latents(mode, primary, secondary, dst)
            }
        }

        impl Number for $t {
            fn get_latent_describers(_meta: &ChunkMeta) -> PerLatentVar<LatentDescriber> {
                unimplemented!("describers")
            }
        }

        impl LatentPriv for $t {
            const ZERO: Self = 0;
            const ONE: Self = 1;
            const MID: Self = 1 << (<$t>::BITS - 1);
            const MAX: Self = <$t>::MAX;
            const BITS: Bitlen = <$t>::BITS;

            type Conv = $conv;

            #[inline]
            fn from_u32(x: u32) -> Self {
                x as Self
            }
            #[inline]
            fn from_u64(x: u64) -> Self {
                x as Self
            }
            #[inline]
            fn leading_zeros(self) -> Bitlen {
                <$t>::leading_zeros(self)
            }
            #[inline]
            fn to_u64(self) -> u64 {
                self as u64
            }
            #[inline]
            fn from_conv(x: Self::Conv) -> Self {
                x as Self
            }
            #[inline]
            fn to_conv(self) -> Self::Conv {
                self as Self::Conv
            }
            #[inline]
            fn wrapping_add(self, other: Self) -> Self {
                <$t>::wrapping_add(self, other)
            }
            #[inline]
            fn wrapping_sub(self, other: Self) -> Self {
                <$t>::wrapping_sub(self, other)
            }
            #[inline]
            fn wrapping_mul(self, other: Self) -> Self {
                <$t>::wrapping_mul(self, other)
            }
        }
    };
}

impl_unsigned!(u8, i16, 10);
impl_unsigned!(u16, i32, 7);
impl_unsigned!(u32, i64, 1);
impl_unsigned!(u64, i64, 2);
