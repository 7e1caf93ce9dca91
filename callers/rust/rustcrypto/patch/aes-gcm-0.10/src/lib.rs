//! The names of the crate `aes-gcm` 0.10, from `fotsgure-rustcrypto`: the types have the traits of aead 0.5.
#![no_std]

pub use aead::{AeadCore, AeadInPlace, Error, Key, KeyInit, KeySizeUser};
#[cfg(feature = "aes")]
pub use aes;
pub use fotsgure_rustcrypto::aes_gcm::{Aes128Gcm, Aes256Gcm, AesGcm, TagSize};
pub use fotsgure_rustcrypto::v04::aead;

/// The most bytes of additional data in `aes-gcm` 0.10. Here more are allowed.
pub const A_MAX: u64 = 1 << 36;

/// The most bytes of a text in `aes-gcm` 0.10. Here 32 fewer are allowed, as SP 800-38D says.
pub const P_MAX: u64 = 1 << 36;

/// The most bytes of an encrypted text with its tag.
pub const C_MAX: u64 = (1 << 36) + 16;

/// A nonce.
pub type Nonce<NonceSize> = aead::generic_array::GenericArray<u8, NonceSize>;

/// A tag.
pub type Tag<TagSize = aead::consts::U16> = aead::generic_array::GenericArray<u8, TagSize>;
