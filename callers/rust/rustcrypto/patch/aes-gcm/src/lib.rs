//! The names of the crate `aes-gcm` 0.11, from `fotsgure-rustcrypto`.
#![no_std]

#[cfg(feature = "aes")]
pub use aes;
pub use fotsgure_rustcrypto::aes_gcm::{
    A_MAX, AeadCore, AeadInOut, Aes128Gcm, Aes256Gcm, AesGcm, Error, Key, KeyInit, KeySizeUser, Nonce, P_MAX, Tag,
    TagSize, aead,
};
