//! The names of the crate `aes` 0.8, from `fotsgure-rustcrypto`: the types have the traits of cipher 0.4.
#![no_std]

pub use fotsgure_rustcrypto::v04::{Block, cipher};
pub use fotsgure_rustcrypto::{
    Aes128, Aes128Dec, Aes128Enc, Aes192, Aes192Dec, Aes192Enc, Aes256, Aes256Dec, Aes256Enc,
};

/// Eight blocks.
pub type Block8 = cipher::generic_array::GenericArray<Block, cipher::consts::U8>;
