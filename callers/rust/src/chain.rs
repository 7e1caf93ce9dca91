//! Cipher block chaining.

use crate::{c, Aes};
use std::fmt;

/// Cipher block chaining under a key that is lent (SP 800-38A, 6.2), on whole blocks. However blocks are cut into calls, the
/// result is the same.
///
/// It doesn't show whether a message was changed. A program that reveals whether padding was right reveals messages. So
/// first check a tag over the initialization vector and the encrypted blocks. Draw the vector at random for each message.
///
/// ```
/// use fotsgure_aes::Aes;
///
/// // SP 800-38A, F.2.1
/// let aes = Aes::new(&0x2b7e151628aed2a6abf7158809cf4f3c_u128.to_be_bytes())?;
/// let iv = 0x000102030405060708090a0b0c0d0e0f_u128.to_be_bytes();
/// let plain = [0x6bc1bee22e409f96e93d7e117393172a_u128.to_be_bytes()];
/// let mut blocks = plain;
/// aes.cbc(iv).encrypt(&mut blocks);
/// assert_eq!(u128::from_be_bytes(blocks[0]), 0x7649abac8119b246cee98e9b12e9197d);
/// aes.cbc(iv).decrypt(&mut blocks);
/// assert_eq!(blocks, plain);
/// # Ok::<(), fotsgure_aes::InvalidLength>(())
/// ```
pub struct Cbc<'a> {
    aes: &'a Aes,
    cbc: c::fotsgure_aes_cbc,
}

impl<'a> Cbc<'a> {
    pub(crate) fn new(aes: &'a Aes, iv: [u8; 16]) -> Cbc<'a> {
        Cbc { aes, cbc: c::fotsgure_aes_cbc { previous: iv } }
    }

    /// Encrypts the next blocks of a message in place.
    pub fn encrypt(&mut self, blocks: &mut [[u8; 16]]) {
        // SAFETY: the references are valid for the call, and two of them are mutable, so that they don't overlap.
        let status = unsafe {
            c::fotsgure_aes_cbc_encrypt(self.aes.as_c(), &mut self.cbc, blocks.as_mut_ptr().cast(), blocks.len())
        };
        assert_eq!(status, c::FOTSGURE_AES_DONE);
    }

    /// Decrypts the next blocks of a message in place.
    pub fn decrypt(&mut self, blocks: &mut [[u8; 16]]) {
        // SAFETY: as in `encrypt`.
        let status = unsafe {
            c::fotsgure_aes_cbc_decrypt(self.aes.as_c(), &mut self.cbc, blocks.as_mut_ptr().cast(), blocks.len())
        };
        assert_eq!(status, c::FOTSGURE_AES_DONE);
    }
}

impl fmt::Debug for Cbc<'_> {
    fn fmt(&self, f: &mut fmt::Formatter<'_>) -> fmt::Result {
        f.write_str("Cbc { .. }")
    }
}
