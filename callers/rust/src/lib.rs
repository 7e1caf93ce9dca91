//! AES (FIPS 197), proved, with counter mode, CBC and key wrap; with the feature `gcm` AES-GCM-SIV and AES-GCM too.
//!
//! A block cipher alone protects no message: for messages use `gcm::GcmSiv`.
//!
#![cfg_attr(feature = "gcm", doc = "```")]
#![cfg_attr(not(feature = "gcm"), doc = "```ignore")]
//! use fotsgure_aes::gcm::GcmSiv;
//!
//! let key = [7; 32]; // draw it at random: a constant is for examples alone
//! let siv = GcmSiv::new(&key)?;
//! let mut text = *b"a message";
//! let (nonce, tag) = siv.seal_random(b"its name", &mut text)?;
//! // Send nonce, name, text and tag. Anyone who has the key opens the message:
//! siv.open(&nonce, b"its name", &mut text, &tag)?;
//! assert_eq!(&text, b"a message");
//! # Ok::<(), Box<dyn std::error::Error>>(())
//! ```
//!
//! # What is proved
//!
//! What the calls of `fotsgure-sys` compute, for every key and every input, and again at fixed lengths in the machine code.
//! This crate around them is tested, not proved. It meets the conditions that the head of `fotsgure_aes.h` asks of
//! callers, so nothing in it is unsafe to call.
//!
//! # Where it works
//!
//! On x86-64 (Linux, Android, the BSDs, Windows), on 64-bit ARM and RISC-V, and on 32-bit ARM (Linux). rustc assembles the
//! code, so no C compiler is needed. No instructions for AES are used, and no tables in memory.
//!
//! Keys are on the heap, so that a move leaves no copy, and are wiped when a value is dropped.

// The other lints are in Cargo.toml. Cargo before 1.74 ignores those, and then rustc calls a needed `unsafe` unused.
#![deny(unsafe_op_in_unsafe_fn)]

mod chain;
#[cfg(feature = "gcm")]
pub mod gcm;
mod wrap;

pub use chain::Cbc;
pub use wrap::{KeyWrap, NotWrapped};

use fotsgure_sys::aes as c;
use std::fmt;
use std::mem::MaybeUninit;

/// Returns the version of the assembly: 10000 times the first number, 100 times the second, plus the third.
#[must_use]
pub fn version() -> u32 {
    // SAFETY: the call has no arguments.
    unsafe { c::fotsgure_aes_version() }
}

/// The key's length isn't allowed. The message says which lengths are.
#[derive(Debug, Clone, Copy, PartialEq, Eq)]
pub struct InvalidLength(&'static str);

impl InvalidLength {
    pub(crate) const AES: InvalidLength = InvalidLength("an AES key has 16, 24 or 32 bytes");
    #[cfg(feature = "gcm")]
    pub(crate) const GCM_SIV: InvalidLength = InvalidLength("a key of AES-GCM-SIV has 16 or 32 bytes");
}

impl fmt::Display for InvalidLength {
    fn fmt(&self, f: &mut fmt::Formatter<'_>) -> fmt::Result {
        f.write_str(self.0)
    }
}

impl std::error::Error for InvalidLength {}

/// The keystream ends before the bytes do. Nothing was changed.
#[derive(Debug, Clone, Copy, PartialEq, Eq)]
pub struct KeystreamEnd;

impl fmt::Display for KeystreamEnd {
    fn fmt(&self, f: &mut fmt::Formatter<'_>) -> fmt::Result {
        f.write_str("the keystream ends before the bytes do")
    }
}

impl std::error::Error for KeystreamEnd {}

/// A struct of C on the heap that a call writes, and what the call returns.
///
/// # Safety
///
/// The call writes the whole struct, whatever it returns, and reads nothing of it before that.
pub(crate) unsafe fn boxed<T, R>(set: impl FnOnce(*mut T) -> R) -> (R, Box<T>) {
    let mut place = Box::new(MaybeUninit::<T>::uninit());
    let returned = set(place.as_mut_ptr());
    // SAFETY: the call wrote the whole struct.
    (returned, unsafe { Box::from_raw(Box::into_raw(place).cast::<T>()) })
}

/// A copy of a struct of C, from heap to heap, so that none is on the stack.
pub(crate) fn copied<T: Clone>(from: &T) -> Box<T> {
    // SAFETY: the closure writes the whole struct, from another one.
    unsafe { boxed(|to: *mut T| to.copy_from_nonoverlapping(from, 1)) }.1
}

/// An AES key of 16, 24 or 32 bytes. Its key schedule is on the heap, so that a move leaves no copy of it, and is
/// zeroized when the value is dropped. Threads may share a value.
///
/// ```
/// use fotsgure_aes::Aes;
///
/// // FIPS 197, C.1
/// let key: [u8; 16] = std::array::from_fn(|i| i as u8);
/// let mut blocks = [0x00112233445566778899aabbccddeeff_u128.to_be_bytes()];
/// let aes = Aes::new(&key)?;
/// aes.encrypt_blocks(&mut blocks);
/// assert_eq!(u128::from_be_bytes(blocks[0]), 0x69c4e0d86a7b0430d8cdb78070b4c55a);
/// # Ok::<(), fotsgure_aes::InvalidLength>(())
/// ```
pub struct Aes(Box<c::fotsgure_aes>);

impl Aes {
    /// Expands a key (KeyExpansion, FIPS 197, 5.2).
    ///
    /// # Errors
    ///
    /// [`InvalidLength`] if the key doesn't have 16, 24 or 32 bytes.
    pub fn new(key: &[u8]) -> Result<Aes, InvalidLength> {
        // SAFETY: the call writes the whole struct and reads none of it; the slice is borrowed for the call.
        let (status, aes) = unsafe { boxed(|aes| c::fotsgure_aes_set_key(aes, key.as_ptr(), key.len())) };
        if status == c::FOTSGURE_AES_DONE {
            Ok(Aes(aes))
        } else {
            Err(InvalidLength::AES)
        }
    }

    /// The struct of C, which has a key.
    pub(crate) fn as_c(&self) -> *const c::fotsgure_aes {
        &*self.0
    }

    /// Encrypts every block in place (Cipher, FIPS 197, 5.1).
    pub fn encrypt_blocks(&self, blocks: &mut [[u8; 16]]) {
        // SAFETY: the struct has a key, which `new` set; the slice is borrowed for the call.
        let status = unsafe { c::fotsgure_aes_encrypt_blocks(self.as_c(), blocks.as_mut_ptr().cast(), blocks.len()) };
        assert_eq!(status, c::FOTSGURE_AES_DONE);
    }

    /// Decrypts every block in place (InvCipher, FIPS 197, 5.3).
    pub fn decrypt_blocks(&self, blocks: &mut [[u8; 16]]) {
        // SAFETY: as in `encrypt_blocks`.
        let status = unsafe { c::fotsgure_aes_decrypt_blocks(self.as_c(), blocks.as_mut_ptr().cast(), blocks.len()) };
        assert_eq!(status, c::FOTSGURE_AES_DONE);
    }

    /// Counter mode from an initial counter block on, at position 0 (SP 800-38A, 6.5).
    ///
    /// **Never begin with the same counter block twice under one key.**
    #[must_use]
    pub fn keystream(&self, iv: [u8; 16]) -> Keystream<'_> {
        Keystream { aes: self, ctr: c::fotsgure_aes_ctr { iv, position: 0 } }
    }

    /// Cipher block chaining from an initialization vector on (SP 800-38A, 6.2).
    #[must_use]
    pub fn cbc(&self, iv: [u8; 16]) -> Cbc<'_> {
        Cbc::new(self, iv)
    }
}

impl Clone for Aes {
    /// Copies the key schedule from heap to heap. Each copy is zeroized when it is dropped.
    fn clone(&self) -> Aes {
        Aes(copied(&*self.0))
    }
}

impl Drop for Aes {
    fn drop(&mut self) {
        // SAFETY: a whole struct, borrowed for the call.
        unsafe { c::fotsgure_aes_wipe(&mut *self.0) }
    }
}

impl fmt::Debug for Aes {
    fn fmt(&self, f: &mut fmt::Formatter<'_>) -> fmt::Result {
        f.write_str("Aes { .. }")
    }
}

/// Counter mode under a key that is lent. It can't be cloned: a copy would give out the same keystream again.
///
/// ```
/// use fotsgure_aes::Aes;
///
/// // SP 800-38A, F.5.1
/// let aes = Aes::new(&0x2b7e151628aed2a6abf7158809cf4f3c_u128.to_be_bytes())?;
/// let mut stream = aes.keystream(0xf0f1f2f3f4f5f6f7f8f9fafbfcfdfeff_u128.to_be_bytes());
/// let mut bytes = 0x6bc1bee22e409f96e93d7e117393172a_u128.to_be_bytes();
/// stream.apply(&mut bytes)?;
/// assert_eq!(u128::from_be_bytes(bytes), 0x874d6191b620e3261bef6864990db6ce);
/// # Ok::<(), Box<dyn std::error::Error>>(())
/// ```
pub struct Keystream<'a> {
    aes: &'a Aes,
    ctr: c::fotsgure_aes_ctr,
}

impl Keystream<'_> {
    /// Encrypts or decrypts bytes in place, and moves the position on.
    ///
    /// # Errors
    ///
    /// [`KeystreamEnd`] if the position would pass 2^64 - 1.
    pub fn apply(&mut self, bytes: &mut [u8]) -> Result<(), KeystreamEnd> {
        // SAFETY: the references are valid for the call, and two of them are mutable, so that they don't overlap.
        done(unsafe { c::fotsgure_aes_add_keystream(self.aes.as_c(), &mut self.ctr, bytes.as_mut_ptr(), bytes.len()) })
    }

    /// Encrypts or decrypts bytes into a buffer of the same length, and moves the position on.
    ///
    /// # Errors
    ///
    /// [`KeystreamEnd`] if the position would pass 2^64 - 1.
    ///
    /// # Panics
    ///
    /// Panics if the slices differ in length.
    pub fn apply_to(&mut self, input: &[u8], output: &mut [u8]) -> Result<(), KeystreamEnd> {
        assert_eq!(input.len(), output.len(), "input and output differ in length");
        // SAFETY: as in `apply`.
        done(unsafe {
            c::fotsgure_aes_add_keystream_to(
                self.aes.as_c(),
                &mut self.ctr,
                input.as_ptr(),
                input.len(),
                output.as_mut_ptr(),
                output.len(),
            )
        })
    }

    /// How many bytes of the keystream come before the next.
    #[must_use]
    pub fn position(&self) -> u64 {
        self.ctr.position
    }

    /// Moves to a position.
    pub fn seek(&mut self, position: u64) {
        self.ctr.position = position;
    }
}

/// The result of a call that adds keystream under a key.
fn done(status: u32) -> Result<(), KeystreamEnd> {
    match status {
        c::FOTSGURE_AES_DONE => Ok(()),
        _ => Err(KeystreamEnd),
    }
}

impl fmt::Debug for Keystream<'_> {
    fn fmt(&self, f: &mut fmt::Formatter<'_>) -> fmt::Result {
        f.debug_struct("Keystream").field("position", &self.ctr.position).finish_non_exhaustive()
    }
}
