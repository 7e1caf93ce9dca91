//! AES (FIPS 197), proved, under the names and traits of RustCrypto's crate `aes`, over the C library `fotsgure_aes`. With
//! the feature `aead` it has AES-GCM and AES-GCM-SIV under those of `aes-gcm` and `aes-gcm-siv`, over `fotsgure_gcm`.
//!
//! A crate that depends on `aes` 0.9 can use this one instead. A line of its `Cargo.toml` changes, and none of its code:
//!
//! ```toml
//! aes = { package = "fotsgure-rustcrypto", path = "CLONE/callers/rust/rustcrypto" }
//! ```
//!
//! The crates in `patch`, named `aes` and `aes-gcm`, do the same for dependencies of dependencies, by `[patch]`.
//!
//! **A block cipher alone protects no message.** Use AES-GCM-SIV or AES-GCM for messages.
//!
//! ```
//! use fotsgure_rustcrypto::Aes128;
//! use fotsgure_rustcrypto::cipher::{Array, BlockCipherDecrypt, BlockCipherEncrypt, KeyInit};
//!
//! let cipher = Aes128::new(&Array::from([0; 16]));
//! let mut blocks = [Array::from([42; 16]); 100];
//! cipher.encrypt_blocks(&mut blocks); // one call, whatever their number
//! cipher.decrypt_blocks(&mut blocks);
//! assert_eq!(blocks[99], Array::from([42; 16]));
//! ```
//!
//! # What is proved
//!
//! What the calls of C compute, for every key and every input, by a toolchain that isn't public, and again in the machine
//! code at fixed lengths. This crate around them is tested, not proved: that the arguments reach the calls, and that sizes
//! of keys and nonces are those of the types.
//!
//! # Errors
//!
//! [`KeyInit::new_from_slice`](cipher::KeyInit::new_from_slice) returns [`InvalidLength`](cipher::InvalidLength) if the
//! slice isn't as long as the key of the type. The calls named `_b2b` return
//! [`NotEqualError`](cipher::inout::NotEqualError) if the two slices differ in length, and nothing was changed then. No other
//! call of the block cipher fails, and none panics.
//!
//! # Not as in `aes`
//!
//! - No instructions for AES are used: [`hardware_accelerated`] returns false. That is the point on processors without
//!   them, and the price on others.
//! - It doesn't need `std`. On x86-64 with SSSE3 and SSE4.2 and on 64-bit ARM it needs libc's `memcpy`, `memmove` and
//!   `memset`, and 16 KiB of stack.
//! - With the feature `zeroize` the types are `ZeroizeOnDrop`. They are wiped without it too.
//!
//! # Features
//!
//! `aead`, with `alloc`, `arrayvec`, `bytes`, `getrandom` and `rand_core` as in the crate `aead`; `zeroize`;
//! `hazmat`, single rounds; `hazmat-tags`, tags of 4 and 8 bytes; `cipher04` and `aead05`, the same types under the traits
//! that aes 0.8 and aes-gcm 0.10 have.

#![no_std]
#![cfg_attr(docsrs, feature(doc_cfg))]

#[cfg(feature = "aead")]
pub mod aes_gcm;
#[cfg(feature = "aead")]
pub mod aes_gcm_siv;
#[cfg(feature = "hazmat")]
pub mod hazmat;
#[cfg(feature = "aead")]
mod keys;
mod schedule;
mod types;

pub use cipher;
pub use types::{Aes128, Aes128Dec, Aes128Enc, Aes192, Aes192Dec, Aes192Enc, Aes256, Aes256Dec, Aes256Enc};

/// The re-exports under the traits of cipher 0.4 and aead 0.5.
#[cfg(feature = "cipher04")]
pub mod v04 {
    #[cfg(feature = "aead05")]
    pub use aead05 as aead;
    pub use cipher04 as cipher;

    /// A block.
    pub type Block = cipher::generic_array::GenericArray<u8, cipher::consts::U16>;
}

/// A block.
pub type Block = cipher::Array<u8, cipher::consts::U16>;

/// Whether calls use instructions for AES: they don't.
pub fn hardware_accelerated() -> bool {
    false
}
