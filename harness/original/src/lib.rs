//! The Rust, pco 1.0.4: its own files, compiled where they lie, beside stand-ins for the files that were not supplied, and doors
//! through which a program outside this crate reaches its private functions. ../README.md says file by file which is which.

#![allow(dead_code, clippy::extra_unused_type_parameters)]

// The supplied files name the crate `better_io`; its one trait that they use stands below.
extern crate self as better_io;

include!(concat!(env!("OUT_DIR"), "/root.rs"));

pub mod doors;

/// Stands in for the crate `better_io`. Nothing here reads from a stream.
pub trait BetterBufRead {
    fn capacity(&self) -> Option<usize>;
    fn resize_capacity(&mut self, desired: usize);
    fn fill_or_eof(&mut self, n_bytes: usize) -> std::io::Result<&[u8]>;
    fn consume(&mut self, n_bytes: usize);
}

/// Names that the supplied files mention and that nothing here calls.
#[derive(Clone, Debug)]
pub struct ChunkConfig;

pub(crate) mod compression_intermediates {
    pub struct Bid<T>(std::marker::PhantomData<T>);
}

pub(crate) mod dyn_slices {
    pub struct DynLatentSlice;
}

pub(crate) mod describers {
    use crate::metadata::{ChunkMeta, PerLatentVar};

    pub struct LatentDescriber;

    pub fn match_classic_mode<T>(_meta: &ChunkMeta, _unit: &str) -> Option<PerLatentVar<LatentDescriber>> {
        unimplemented!("describers")
    }

    pub fn match_int_modes<L>(_meta: &ChunkMeta, _signed: bool) -> Option<PerLatentVar<LatentDescriber>> {
        unimplemented!("describers")
    }
}

pub(crate) mod sort_utils {
    // `choose_config` asks for a centre before its tail, which alone is run here, with the caller's centre.
    pub fn choose_pivot<L>(_latents: &[L]) -> L {
        unimplemented!("the centre is the caller's")
    }
}

pub(crate) mod data_types {
    pub use latent_priv::LatentPriv;
    pub use number_priv::NumberPriv;

    use crate::describers::LatentDescriber;
    use crate::metadata::per_latent_var::PerLatentVar;
    use crate::metadata::ChunkMeta;

    include!(concat!(env!("OUT_DIR"), "/data_types.rs"));
    // The traits `Latent` and `Number`, cut out of data_types/mod.rs.
    include!(concat!(env!("OUT_DIR"), "/traits.rs"));

    pub(crate) mod unsigned;

    /// Stands in for the enum of data_types/dynamic.rs.
    #[derive(Clone, Copy, Debug, PartialEq, Eq)]
    pub enum LatentType {
        U8,
        U16,
        U32,
        U64,
    }
}

pub(crate) mod metadata {
    pub use delta_encoding::{DeltaConv1Config, DeltaEncoding, DeltaLookbackConfig};
    pub use per_latent_var::PerLatentVar;

    include!(concat!(env!("OUT_DIR"), "/metadata.rs"));

    pub struct ChunkMeta;
    pub struct Mode;
}

pub(crate) mod delta {
    use crate::data_types::Latent;

    include!(concat!(env!("OUT_DIR"), "/delta.rs"));
    // `toggle_center_in_place`, cut out of delta/mod.rs.
    include!(concat!(env!("OUT_DIR"), "/toggle.rs"));

    // The tail of `choose_config`, cut out of conv1.rs, with what its text needs in scope.
    pub(crate) mod tail {
        use crate::constants::{Bitlen, MAX_CONV1_DELTA_QUANTIZATION};
        use crate::data_types::signed::Signed;
        use crate::data_types::Latent;
        use crate::metadata::DeltaConv1Config;

        type Real = f64;

        include!(concat!(env!("OUT_DIR"), "/quantise.rs"));
    }
}
