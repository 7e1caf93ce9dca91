//! AES-GCM-SIV.

use super::{c, opened, same_length, sealed, NotSealed, Refused};
use crate::{boxed, copied, InvalidLength};
use fotsgure_sys::fotsgure_gcm_siv_seal_random;
use std::fmt;

/// A key of AES-GCM-SIV, of 16 or 32 bytes. It is on the heap, so that a move leaves no copy of it, and is zeroized when
/// the value is dropped. Threads may share a value.
///
/// ```
/// use fotsgure_aes::gcm::{GcmSiv, Refused};
///
/// let siv = GcmSiv::new(&[7; 32])?; // draw the key at random: a constant is for examples alone
/// let mut text = *b"a message";
/// let (nonce, mut tag) = siv.seal_random(b"its name", &mut text)?;
/// tag[0] ^= 1;
/// assert_eq!(siv.open(&nonce, b"its name", &mut text, &tag), Err(Refused));
/// # Ok::<(), Box<dyn std::error::Error>>(())
/// ```
pub struct GcmSiv(Box<c::fotsgure_gcm_siv>);

impl GcmSiv {
    /// Prepares a key (KeyExpansion, FIPS 197, 5.2).
    ///
    /// # Errors
    ///
    /// [`InvalidLength`] if the key doesn't have 16 or 32 bytes.
    pub fn new(key: &[u8]) -> Result<GcmSiv, InvalidLength> {
        // SAFETY: the call writes the whole struct and reads none of it; the slice is borrowed for the call.
        let (status, siv) = unsafe { boxed(|siv| c::fotsgure_gcm_siv_set_key(siv, key.as_ptr(), key.len())) };
        if status == c::FOTSGURE_GCM_DONE {
            Ok(GcmSiv(siv))
        } else {
            Err(InvalidLength::GCM_SIV)
        }
    }

    /// Encrypts a text in place under a nonce that is drawn at random, and returns that nonce and the tag (RFC 8452, 4).
    /// The additional data isn't encrypted, and the tag covers it.
    ///
    /// # Errors
    ///
    /// [`NotSealed::NoRandomness`], [`NotSealed::TooLong`].
    pub fn seal_random(&self, additional: &[u8], text: &mut [u8]) -> Result<([u8; 12], [u8; 16]), NotSealed> {
        let (mut nonce, mut tag) = ([0; 12], [0; 16]);
        // SAFETY: the struct has a key, which `new` set. The slices are borrowed for the call. Those that are written are
        // mutable, so that they overlap nothing.
        sealed(unsafe {
            fotsgure_gcm_siv_seal_random(
                &*self.0,
                &mut nonce,
                additional.as_ptr(),
                additional.len(),
                text.as_mut_ptr(),
                text.len(),
                &mut tag,
            )
        })?;
        Ok((nonce, tag))
    }

    /// The same under a nonce of yours, of 12 bytes. One that is used twice only shows whether the two messages are the
    /// same.
    ///
    /// # Errors
    ///
    /// [`NotSealed::NonceLength`], [`NotSealed::TooLong`].
    pub fn seal(&self, nonce: &[u8], additional: &[u8], text: &mut [u8]) -> Result<[u8; 16], NotSealed> {
        let (nonce, mut tag) = (nonce_of(nonce)?, [0; 16]);
        // SAFETY: as in `seal_random`.
        sealed(unsafe {
            c::fotsgure_gcm_siv_seal(
                &*self.0,
                nonce,
                additional.as_ptr(),
                additional.len(),
                text.as_mut_ptr(),
                text.len(),
                &mut tag,
            )
        })?;
        Ok(tag)
    }

    /// Decrypts a text in place if the tag is right (RFC 8452, 5).
    ///
    /// # Errors
    ///
    /// [`Refused`], also if the nonce doesn't have 12 bytes, or the tag 16.
    pub fn open(&self, nonce: &[u8], additional: &[u8], text: &mut [u8], tag: &[u8]) -> Result<(), Refused> {
        let (nonce, tag) = (whole(nonce)?, whole(tag)?);
        // SAFETY: as in `seal_random`.
        opened(unsafe {
            c::fotsgure_gcm_siv_open(
                &*self.0,
                nonce,
                additional.as_ptr(),
                additional.len(),
                text.as_mut_ptr(),
                text.len(),
                tag,
            )
        })
    }

    /// `seal` from one buffer to another of the same length.
    ///
    /// # Errors
    ///
    /// [`NotSealed::NonceLength`], [`NotSealed::TooLong`].
    ///
    /// # Panics
    ///
    /// Panics if the buffers differ in length.
    pub fn seal_to(
        &self,
        nonce: &[u8],
        additional: &[u8],
        text: &[u8],
        output: &mut [u8],
    ) -> Result<[u8; 16], NotSealed> {
        let len = same_length(text, output);
        let (nonce, mut tag) = (nonce_of(nonce)?, [0; 16]);
        // SAFETY: as in `seal_random`.
        sealed(unsafe {
            c::fotsgure_gcm_siv_seal_to(
                &*self.0,
                nonce,
                additional.as_ptr(),
                additional.len(),
                text.as_ptr(),
                len,
                output.as_mut_ptr(),
                len,
                &mut tag,
            )
        })?;
        Ok(tag)
    }

    /// `open` from one buffer to another of the same length. If the tag is wrong, the output is all zeros.
    ///
    /// # Errors
    ///
    /// [`Refused`].
    ///
    /// # Panics
    ///
    /// Panics if the buffers differ in length.
    pub fn open_to(
        &self,
        nonce: &[u8],
        additional: &[u8],
        text: &[u8],
        tag: &[u8],
        output: &mut [u8],
    ) -> Result<(), Refused> {
        let len = same_length(text, output);
        let (nonce, tag) = (whole(nonce)?, whole(tag)?);
        // SAFETY: as in `seal_random`.
        opened(unsafe {
            c::fotsgure_gcm_siv_open_to(
                &*self.0,
                nonce,
                additional.as_ptr(),
                additional.len(),
                text.as_ptr(),
                len,
                output.as_mut_ptr(),
                len,
                tag,
            )
        })
    }
}

/// A nonce of yours, if it has 12 bytes.
fn nonce_of(nonce: &[u8]) -> Result<&[u8; 12], NotSealed> {
    nonce.try_into().map_err(|_| NotSealed::NonceLength)
}

/// A nonce or a tag of a message, if it has as many bytes as all have.
fn whole<const N: usize>(bytes: &[u8]) -> Result<&[u8; N], Refused> {
    bytes.try_into().map_err(|_| Refused)
}

impl Clone for GcmSiv {
    /// Copies the prepared key from heap to heap. Each copy is zeroized when it is dropped.
    fn clone(&self) -> GcmSiv {
        GcmSiv(copied(&*self.0))
    }
}

impl Drop for GcmSiv {
    fn drop(&mut self) {
        // SAFETY: a whole struct, borrowed for the call.
        unsafe { c::fotsgure_gcm_siv_wipe(&mut *self.0) }
    }
}

impl fmt::Debug for GcmSiv {
    fn fmt(&self, f: &mut fmt::Formatter<'_>) -> fmt::Result {
        f.write_str("GcmSiv { .. }")
    }
}
