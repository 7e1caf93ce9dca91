//! The names of the crate `aes-gcm-siv`, from `fotsgure-rustcrypto`.
#![no_std]

#[cfg(feature = "aes")]
pub use aes;
pub use fotsgure_rustcrypto::aes_gcm_siv::{
    A_MAX, AeadCore, AeadInOut, Aes128GcmSiv, Aes256GcmSiv, AesGcmSiv, C_MAX, Error, Key, KeyInit, KeySizeUser, Nonce,
    P_MAX, Tag, aead,
};
