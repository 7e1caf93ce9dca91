//! The proved assembly of `dist`, and its calls under the names that they have in C: those of `fotsgure_aes.h` and, with
//! the feature `gcm`, of `fotsgure_gcm.h`. The heads of these files, in this package's folder `dist/include`, say what a
//! caller must ensure: each call here is unsafe, and nothing checks it. Use a crate over this one instead:
//! `fotsgure_aes`, or `fotsgure-rustcrypto`, which has the traits of RustCrypto.
//!
//! rustc assembles it: no C compiler is needed. On x86-64 there are three builds, and the first call asks the processor
//! which one it can run.
//!
//! A struct that holds a key may be copied and moved as bytes. None is wiped when it is dropped.

#![no_std]
#![allow(non_camel_case_types)]

#[cfg(target_arch = "x86_64")]
mod choose;
#[macro_use]
mod assembly;

/// The block cipher with counter mode, CBC and key wrap.
pub mod aes;
/// Authenticated encryption.
#[cfg(feature = "gcm")]
pub mod gcm;
#[cfg(feature = "random")]
mod random;
#[cfg(feature = "random")]
pub use random::fotsgure_gcm_siv_seal_random;
