//! Authenticated encryption: feature `gcm`. Use AES-GCM-SIV (RFC 8452), which draws its nonces at random, unless you need
//! the speed of AES-GCM (SP 800-38D) or messages in pieces.
//!
//! **In GCM never use a nonce twice under one key**, over all messages, programs and restarts. If a nonce of a key is
//! random, or has another length than 12 bytes, use a new key before 2^32 messages.

mod message;
mod siv;
#[cfg(feature = "alloc")]
mod vec;

pub use message::{Message, NotAccepted};
pub use siv::GcmSiv;

use crate::{boxed, copied, Aes, InvalidLength};
use fotsgure_sys::gcm as c;
use std::fmt;

/// Why a message wasn't sealed. Nothing was changed.
#[derive(Debug, Clone, Copy, PartialEq, Eq)]
#[non_exhaustive]
pub enum NotSealed {
    /// The nonce is empty, or in AES-GCM-SIV doesn't have 12 bytes.
    NonceLength,
    /// The text has more than 2^36 - 32 bytes; in AES-GCM-SIV, text or additional data have more than 2^36.
    TooLong,
    /// The counter has come to its end: use a new key.
    NoncesEnd,
    /// The system gave no randomness for a nonce.
    NoRandomness,
}

impl fmt::Display for NotSealed {
    fn fmt(&self, f: &mut fmt::Formatter<'_>) -> fmt::Result {
        f.write_str(match self {
            NotSealed::NonceLength => "the nonce is empty, or in AES-GCM-SIV doesn't have 12 bytes",
            NotSealed::TooLong => "the text is longer than the standard allows",
            NotSealed::NoncesEnd => "no nonce is left",
            NotSealed::NoRandomness => "the system gave no randomness for a nonce",
        })
    }
}

impl std::error::Error for NotSealed {}

fn sealed(status: u32) -> Result<(), NotSealed> {
    match status {
        c::FOTSGURE_GCM_DONE => Ok(()),
        c::FOTSGURE_GCM_NONCE_LENGTH => Err(NotSealed::NonceLength),
        c::FOTSGURE_GCM_TOO_LONG => Err(NotSealed::TooLong),
        c::FOTSGURE_GCM_NONCES_END => Err(NotSealed::NoncesEnd),
        c::FOTSGURE_GCM_NO_RANDOMNESS => Err(NotSealed::NoRandomness),
        other => unreachable!("status {other} with a key"),
    }
}

/// The tag isn't that of this key, nonce, additional data and text, or they have lengths that no message has. Nothing
/// was changed. Tell nobody more than that.
#[derive(Debug, Clone, Copy, PartialEq, Eq)]
pub struct Refused;

impl fmt::Display for Refused {
    fn fmt(&self, f: &mut fmt::Formatter<'_>) -> fmt::Result {
        f.write_str("the message was refused")
    }
}

impl std::error::Error for Refused {}

fn opened(status: u32) -> Result<(), Refused> {
    match status {
        c::FOTSGURE_GCM_DONE => Ok(()),
        _ => Err(Refused),
    }
}

/// The lengths of two buffers, which are the same.
fn same_length(text: &[u8], output: &[u8]) -> usize {
    assert_eq!(text.len(), output.len(), "text and output differ in length");
    text.len()
}

/// The next nonce of a key: one number, highest byte first. Store `next` after each message and before it is sent, and
/// begin with what was stored after a restart; if it is lost, use a new key. It can't be cloned: a copy would give
/// out the same nonces again.
#[repr(C)]
#[derive(Debug, PartialEq, Eq)]
pub struct Counter {
    /// What was stored, or zeros with a new key.
    pub next: [u8; 12],
}

impl Counter {
    /// The same as C declares it.
    fn as_c(&mut self) -> *mut c::fotsgure_gcm_counter {
        (self as *mut Counter).cast()
    }
}

/// A key of AES-GCM, of 16, 24 or 32 bytes, prepared for messages. It is on the heap, so that a move leaves no copy of it,
/// and is zeroized when the value is dropped. Threads may share a value.
///
/// ```
/// use fotsgure_aes::gcm::{Counter, Gcm};
///
/// let gcm = Gcm::new(&[7; 32])?; // draw the key at random: a constant is for examples alone
/// let mut counter = Counter { next: [0; 12] }; // for a new key; else what was stored
/// let mut text = *b"a message";
/// let (nonce, tag) = gcm.seal_next(&mut counter, b"its name", &mut text)?;
/// // Store counter.next here, and then send nonce, name, text and tag.
/// gcm.open(&nonce, b"its name", &mut text, &tag)?;
/// assert_eq!(&text, b"a message");
/// # Ok::<(), Box<dyn std::error::Error>>(())
/// ```
pub struct Gcm(Box<c::fotsgure_gcm>);

impl Gcm {
    /// Prepares a key (KeyExpansion, FIPS 197, 5.2; H, SP 800-38D, 7.1).
    ///
    /// # Errors
    ///
    /// [`InvalidLength`] if the key doesn't have 16, 24 or 32 bytes.
    pub fn new(key: &[u8]) -> Result<Gcm, InvalidLength> {
        // SAFETY: the call writes the whole struct and reads none of it; the slice is borrowed for the call.
        let (status, gcm) = unsafe { boxed(|gcm| c::fotsgure_gcm_set_key(gcm, key.as_ptr(), key.len())) };
        if status == c::FOTSGURE_GCM_DONE {
            Ok(Gcm(gcm))
        } else {
            Err(InvalidLength::AES)
        }
    }

    /// Prepares the key that a block cipher has, which costs no key expansion.
    #[must_use]
    pub fn of(aes: &Aes) -> Gcm {
        // SAFETY: the call writes the whole struct and reads none of it; the other one has a key.
        let (status, gcm) = unsafe { boxed(|gcm| c::fotsgure_gcm_set_key_of(gcm, aes.as_c())) };
        assert_eq!(status, c::FOTSGURE_GCM_DONE);
        Gcm(gcm)
    }

    /// Encrypts a text in place under a nonce of yours, and returns the tag (SP 800-38D, 7.1). The additional data
    /// isn't encrypted, and the tag covers it.
    ///
    /// # Errors
    ///
    /// [`NotSealed::NonceLength`], [`NotSealed::TooLong`].
    pub fn seal(&self, nonce: &[u8], additional: &[u8], text: &mut [u8]) -> Result<[u8; 16], NotSealed> {
        let mut tag = [0; 16];
        // SAFETY: the struct has a key, which `new` or `of` set. The slices are borrowed for the call. Those that are written
        // are mutable, so that they overlap nothing.
        sealed(unsafe {
            c::fotsgure_gcm_seal(
                &*self.0,
                nonce.as_ptr(),
                nonce.len(),
                additional.as_ptr(),
                additional.len(),
                text.as_mut_ptr(),
                text.len(),
                &mut tag,
            )
        })?;
        Ok(tag)
    }

    /// The same under the counter's next nonce: returns that nonce and the tag, and moves the counter on by one.
    ///
    /// # Errors
    ///
    /// [`NotSealed::NoncesEnd`], [`NotSealed::TooLong`].
    pub fn seal_next(
        &self,
        counter: &mut Counter,
        additional: &[u8],
        text: &mut [u8],
    ) -> Result<([u8; 12], [u8; 16]), NotSealed> {
        let (mut nonce, mut tag) = ([0; 12], [0; 16]);
        // SAFETY: as in `seal`.
        sealed(unsafe {
            c::fotsgure_gcm_seal_next(
                &*self.0,
                counter.as_c(),
                &mut nonce,
                additional.as_ptr(),
                additional.len(),
                text.as_mut_ptr(),
                text.len(),
                &mut tag,
            )
        })?;
        Ok((nonce, tag))
    }

    /// Decrypts a text in place if the tag is right (SP 800-38D, 7.2).
    ///
    /// # Errors
    ///
    /// [`Refused`].
    pub fn open(&self, nonce: &[u8], additional: &[u8], text: &mut [u8], tag: &[u8]) -> Result<(), Refused> {
        // SAFETY: as in `seal`.
        opened(unsafe {
            c::fotsgure_gcm_open(
                &*self.0,
                nonce.as_ptr(),
                nonce.len(),
                additional.as_ptr(),
                additional.len(),
                text.as_mut_ptr(),
                text.len(),
                tag.as_ptr(),
                tag.len(),
            )
        })
    }

    /// `seal` from one buffer to another of the same length.
    ///
    /// # Errors
    ///
    /// [`NotSealed::NonceLength`], [`NotSealed::TooLong`].
    ///
    /// # Panics
    ///
    /// Panics if the buffers differ in length.
    pub fn seal_to(
        &self,
        nonce: &[u8],
        additional: &[u8],
        text: &[u8],
        output: &mut [u8],
    ) -> Result<[u8; 16], NotSealed> {
        let mut tag = [0; 16];
        let len = same_length(text, output);
        // SAFETY: as in `seal`.
        sealed(unsafe {
            c::fotsgure_gcm_seal_to(
                &*self.0,
                nonce.as_ptr(),
                nonce.len(),
                additional.as_ptr(),
                additional.len(),
                text.as_ptr(),
                len,
                output.as_mut_ptr(),
                len,
                &mut tag,
            )
        })?;
        Ok(tag)
    }

    /// `open` from one buffer to another of the same length. If the tag is wrong, the output is all zeros.
    ///
    /// # Errors
    ///
    /// [`Refused`].
    ///
    /// # Panics
    ///
    /// Panics if the buffers differ in length.
    pub fn open_to(
        &self,
        nonce: &[u8],
        additional: &[u8],
        text: &[u8],
        tag: &[u8],
        output: &mut [u8],
    ) -> Result<(), Refused> {
        let len = same_length(text, output);
        // SAFETY: as in `seal`.
        opened(unsafe {
            c::fotsgure_gcm_open_to(
                &*self.0,
                nonce.as_ptr(),
                nonce.len(),
                additional.as_ptr(),
                additional.len(),
                text.as_ptr(),
                len,
                output.as_mut_ptr(),
                len,
                tag.as_ptr(),
                tag.len(),
            )
        })
    }
}

impl From<&Aes> for Gcm {
    /// The same as [`Gcm::of`].
    fn from(aes: &Aes) -> Gcm {
        Gcm::of(aes)
    }
}

impl Clone for Gcm {
    /// Copies the prepared key from heap to heap. Each copy is zeroized when it is dropped.
    fn clone(&self) -> Gcm {
        Gcm(copied(&*self.0))
    }
}

impl Drop for Gcm {
    fn drop(&mut self) {
        // SAFETY: a whole struct, borrowed for the call.
        unsafe { c::fotsgure_gcm_wipe(&mut *self.0) }
    }
}

impl fmt::Debug for Gcm {
    fn fmt(&self, f: &mut fmt::Formatter<'_>) -> fmt::Result {
        f.write_str("Gcm { .. }")
    }
}
