//! The names of the crate `aes` 0.9, from `fotsgure-rustcrypto`.
#![no_std]

#[cfg(feature = "hazmat")]
pub use fotsgure_rustcrypto::hazmat;
pub use fotsgure_rustcrypto::{
    Aes128, Aes128Dec, Aes128Enc, Aes192, Aes192Dec, Aes192Enc, Aes256, Aes256Dec, Aes256Enc, Block, cipher,
    hardware_accelerated,
};
