//! Keys under a key.

use crate::{c, Aes, InvalidLength};
use std::fmt;

const SEMIBLOCK: usize = 8;

/// Why a key wasn't wrapped or unwrapped.
#[derive(Debug, Clone, Copy, PartialEq, Eq)]
#[non_exhaustive]
pub enum NotWrapped {
    /// No key of this length is wrapped, or the output has another length than the call says. Nothing was changed.
    Length,
    /// The key was not wrapped under this one, or was changed. The output is all zeros.
    Refused,
}

impl fmt::Display for NotWrapped {
    fn fmt(&self, f: &mut fmt::Formatter<'_>) -> fmt::Result {
        f.write_str(match self {
            NotWrapped::Length => "no key of this length is wrapped, or the output has another length",
            NotWrapped::Refused => "the key was not wrapped under this one, or was changed",
        })
    }
}

impl std::error::Error for NotWrapped {}

/// A key that wraps other keys: encrypts them, and shows whether they were changed (SP 800-38F; RFC 3394, RFC 5649). It
/// needs no nonce: the same key, wrapped twice, gives the same bytes.
///
/// ```
/// use fotsgure_aes::{KeyWrap, NotWrapped};
///
/// // RFC 3394, 4.1
/// let wrapping = KeyWrap::new(&0x000102030405060708090a0b0c0d0e0f_u128.to_be_bytes())?;
/// let key = 0x00112233445566778899aabbccddeeff_u128.to_be_bytes();
/// let mut wrapped = [0; 16 + 8];
/// wrapping.wrap(&key, &mut wrapped)?;
/// assert_eq!(u128::from_be_bytes(wrapped[8..].try_into()?), 0xaef34bd8fb5a7b829d3e862371d2cfe5);
///
/// let mut unwrapped = [0; 16];
/// wrapping.unwrap_key(&wrapped, &mut unwrapped)?;
/// assert_eq!(unwrapped, key);
/// wrapped[0] ^= 1;
/// assert_eq!(wrapping.unwrap_key(&wrapped, &mut unwrapped), Err(NotWrapped::Refused));
/// # Ok::<(), Box<dyn std::error::Error>>(())
/// ```
#[derive(Debug, Clone)]
pub struct KeyWrap(Aes);

impl KeyWrap {
    /// Expands a key of 16, 24 or 32 bytes.
    ///
    /// # Errors
    ///
    /// [`InvalidLength`] if it has another length.
    pub fn new(key: &[u8]) -> Result<KeyWrap, InvalidLength> {
        Aes::new(key).map(KeyWrap)
    }

    /// Wraps a key of 16, 24, 32 .. bytes into an output that has 8 more (KW, SP 800-38F, 6.2).
    ///
    /// # Errors
    ///
    /// [`NotWrapped::Length`].
    pub fn wrap(&self, key: &[u8], output: &mut [u8]) -> Result<(), NotWrapped> {
        let input_count = semiblocks(key)?;
        let output_count = semiblocks(output)?;
        // SAFETY: the struct has a key. The slices are borrowed for the call, and have as many semiblocks.
        wrapped(unsafe {
            c::fotsgure_aes_wrap(self.0.as_c(), key.as_ptr(), input_count, output.as_mut_ptr(), output_count)
        })
    }

    /// Unwraps it again into an output that has 8 bytes less (6.2).
    ///
    /// # Errors
    ///
    /// [`NotWrapped::Length`], [`NotWrapped::Refused`].
    pub fn unwrap_key(&self, wrapped_key: &[u8], output: &mut [u8]) -> Result<(), NotWrapped> {
        let input_count = semiblocks(wrapped_key)?;
        let output_count = semiblocks(output)?;
        // SAFETY: as in `wrap`.
        wrapped(unsafe {
            c::fotsgure_aes_unwrap(self.0.as_c(), wrapped_key.as_ptr(), input_count, output.as_mut_ptr(), output_count)
        })
    }

    /// Wraps a key of any number of bytes but 0, below 2^32 (KWP, 6.3). The output has 8 bytes more than the next multiple
    /// of 8.
    ///
    /// # Errors
    ///
    /// [`NotWrapped::Length`].
    pub fn wrap_padded(&self, key: &[u8], output: &mut [u8]) -> Result<(), NotWrapped> {
        let output_count = semiblocks(output)?;
        // SAFETY: as in `wrap`.
        wrapped(unsafe {
            c::fotsgure_aes_wrap_padded(self.0.as_c(), key.as_ptr(), key.len(), output.as_mut_ptr(), output_count)
        })
    }

    /// Unwraps it again into an output that has 8 bytes less, and returns how many bytes the key has (6.3). They are the
    /// first ones of the output, and zeros follow them.
    ///
    /// # Errors
    ///
    /// [`NotWrapped::Length`], [`NotWrapped::Refused`].
    pub fn unwrap_padded(&self, wrapped_key: &[u8], output: &mut [u8]) -> Result<usize, NotWrapped> {
        let input_count = semiblocks(wrapped_key)?;
        let output_count = semiblocks(output)?;
        let mut length = 0;
        // SAFETY: as in `wrap`.
        wrapped(unsafe {
            c::fotsgure_aes_unwrap_padded(
                self.0.as_c(),
                wrapped_key.as_ptr(),
                input_count,
                output.as_mut_ptr(),
                output_count,
                &mut length,
            )
        })?;
        Ok(length)
    }
}

/// How many semiblocks a slice has, which is all that it has.
fn semiblocks(bytes: &[u8]) -> Result<usize, NotWrapped> {
    match bytes.len() % SEMIBLOCK {
        0 => Ok(bytes.len() / SEMIBLOCK),
        _ => Err(NotWrapped::Length),
    }
}

fn wrapped(status: u32) -> Result<(), NotWrapped> {
    match status {
        c::FOTSGURE_AES_DONE => Ok(()),
        c::FOTSGURE_AES_REFUSED => Err(NotWrapped::Refused),
        _ => Err(NotWrapped::Length),
    }
}
