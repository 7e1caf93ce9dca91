//! Keys that are prepared for GCM and for AES-GCM-SIV, and the calls on them: every `unsafe` of both is here.

use crate::schedule::Schedule;
use aead::inout::InOutBuf;
use fotsgure_sys::gcm as c;

/// A text that is read in one buffer and written in the same or in another one.
pub(crate) type Text<'inp, 'out> = InOutBuf<'inp, 'out, u8>;

fn into_raw(text: Text<'_, '_>) -> (*const u8, *mut u8, usize) {
    let len = text.len();
    let (input, output) = text.into_raw();
    (input, output, len)
}

/// A struct without a key.
const NO_KEY: c::fotsgure_gcm = c::fotsgure_gcm { key_length: 0, round_keys: [0; 240], multiples: [0; 1536] };

/// A message before its first piece.
const NO_MESSAGE: c::fotsgure_gcm_message = c::fotsgure_gcm_message {
    additional: 0,
    text: 0,
    decrypted: 0,
    phase: 0,
    first: [0; 16],
    value: [0; 16],
    rest: [0; 16],
};

/// A call refused: the tag is wrong, a length isn't allowed.
pub(crate) struct Refused;

fn done(status: u32) -> Result<(), Refused> {
    if status == c::FOTSGURE_GCM_DONE { Ok(()) } else { Err(Refused) }
}

/// A key of GCM: round keys, and multiples of H. Overwritten when it is dropped.
#[derive(Clone)]
pub(crate) struct Gcm(c::fotsgure_gcm);

impl Gcm {
    /// Prepares a key of 16, 24 or 32 bytes.
    pub(crate) fn new(key: &[u8]) -> Self {
        let mut gcm = Gcm(NO_KEY);
        // SAFETY: the pointers come from references that are valid for the call, and one of them is mutable.
        let status = unsafe { c::fotsgure_gcm_set_key(&mut gcm.0, key.as_ptr(), key.len()) };
        assert_eq!(status, c::FOTSGURE_GCM_DONE, "types have keys of 16, 24 or 32 bytes alone");
        gcm
    }

    /// The same with the key of a block cipher.
    pub(crate) fn of(cipher: &Schedule) -> Self {
        let mut gcm = Gcm(NO_KEY);
        // SAFETY: as in `new`; the other struct holds a key.
        let status = unsafe { c::fotsgure_gcm_set_key_of(&mut gcm.0, cipher.as_c()) };
        assert_eq!(status, c::FOTSGURE_GCM_DONE, "a schedule has a key");
        gcm
    }

    /// Encrypts a text, and returns the whole tag.
    pub(crate) fn seal(&self, nonce: &[u8], additional: &[u8], text: Text<'_, '_>) -> Result<[u8; 16], Refused> {
        let mut tag = [0; 16];
        let (nonce_ptr, nonce_len) = (nonce.as_ptr(), nonce.len());
        let (data_ptr, data_len) = (additional.as_ptr(), additional.len());
        let (input, output, len) = into_raw(text);
        done(if input == output.cast_const() {
            // SAFETY: `self` holds a key; the slices are borrowed for the call, and those that are written are mutable, so
            // that they overlap nothing.
            unsafe { c::fotsgure_gcm_seal(&self.0, nonce_ptr, nonce_len, data_ptr, data_len, output, len, &mut tag) }
        } else {
            // SAFETY: as for `fotsgure_gcm_seal`; the two buffers of a `Text` are the same or don't overlap.
            unsafe {
                c::fotsgure_gcm_seal_to(
                    &self.0, nonce_ptr, nonce_len, data_ptr, data_len, input, len, output, len, &mut tag,
                )
            }
        })?;
        Ok(tag)
    }

    /// Decrypts a text if its tag of 16 bytes is right. If it isn't, another buffer is zeros.
    pub(crate) fn open(&self, nonce: &[u8], additional: &[u8], text: Text<'_, '_>, tag: &[u8]) -> Result<(), Refused> {
        let (nonce_ptr, nonce_len) = (nonce.as_ptr(), nonce.len());
        let (data_ptr, data_len) = (additional.as_ptr(), additional.len());
        let (input, output, len) = into_raw(text);
        let (tag_ptr, tag_len) = (tag.as_ptr(), tag.len());
        done(if input == output.cast_const() {
            // SAFETY: as in `seal`.
            unsafe {
                c::fotsgure_gcm_open(&self.0, nonce_ptr, nonce_len, data_ptr, data_len, output, len, tag_ptr, tag_len)
            }
        } else {
            // SAFETY: as in `seal`.
            unsafe {
                c::fotsgure_gcm_open_to(
                    &self.0, nonce_ptr, nonce_len, data_ptr, data_len, input, len, output, len, tag_ptr, tag_len,
                )
            }
        })
    }

    /// Checks a text that isn't written, whose tag has as many bytes as all tags of the type have.
    pub(crate) fn verify(
        &self,
        nonce: &[u8],
        additional: &[u8],
        text: &[u8],
        tag: &[u8],
    ) -> Result<Accepted<'_>, Refused> {
        let mut accepted = Accepted { gcm: self, message: NO_MESSAGE };
        let message = &mut accepted.message;
        // SAFETY: as in `seal`, and `message` is mutable.
        done(unsafe { c::fotsgure_gcm_begin(&self.0, message, nonce.as_ptr(), nonce.len()) })?;
        // SAFETY: as in `seal`, and `message` is mutable.
        done(unsafe { c::fotsgure_gcm_additional(&self.0, message, additional.as_ptr(), additional.len()) })?;
        // SAFETY: as in `seal`, and `message` is mutable.
        done(unsafe { c::fotsgure_gcm_verify(&self.0, message, text.as_ptr(), text.len()) })?;
        if tag.len() == 16 {
            // SAFETY: as in `seal`, and `message` is mutable.
            done(unsafe { c::fotsgure_gcm_accept(&self.0, message, tag.as_ptr(), tag.len()) })?;
        } else {
            // SAFETY: as in `seal`, and `message` is mutable.
            done(unsafe { c::fotsgure_gcm_accept_short(&self.0, message, tag.len(), tag.as_ptr(), tag.len()) })?;
        }
        Ok(accepted)
    }
}

impl Drop for Gcm {
    fn drop(&mut self) {
        // SAFETY: a whole struct, borrowed for the call.
        unsafe { c::fotsgure_gcm_wipe(&mut self.0) }
    }
}

/// A message whose tag was right.
pub(crate) struct Accepted<'a> {
    gcm: &'a Gcm,
    message: c::fotsgure_gcm_message,
}

impl Accepted<'_> {
    /// Decrypts the same text in place.
    pub(crate) fn decrypt(mut self, text: &mut [u8]) -> Result<(), Refused> {
        // SAFETY: `verify` began the message under this key; the slice is borrowed for the call, and mutable.
        done(unsafe { c::fotsgure_gcm_decrypt(&self.gcm.0, &mut self.message, text.as_mut_ptr(), text.len()) })
    }
}

impl Drop for Accepted<'_> {
    fn drop(&mut self) {
        // SAFETY: a whole struct, borrowed for the call.
        unsafe { c::fotsgure_gcm_wipe_message(&mut self.message) }
    }
}

/// A key of AES-GCM-SIV. Overwritten when it is dropped.
#[derive(Clone)]
pub(crate) struct GcmSiv(c::fotsgure_gcm_siv);

impl GcmSiv {
    /// Prepares a key of 16 or 32 bytes.
    pub(crate) fn new(key: &[u8]) -> Self {
        let mut siv = GcmSiv(c::fotsgure_gcm_siv { key_length: 0, round_keys: [0; 120] });
        // SAFETY: the pointers come from references that are valid for the call, and one of them is mutable.
        let status = unsafe { c::fotsgure_gcm_siv_set_key(&mut siv.0, key.as_ptr(), key.len()) };
        assert_eq!(status, c::FOTSGURE_GCM_DONE, "types have keys of 16 or 32 bytes alone");
        siv
    }

    /// Encrypts a text, and returns its tag.
    pub(crate) fn seal(&self, nonce: &[u8; 12], additional: &[u8], text: Text<'_, '_>) -> Result<[u8; 16], Refused> {
        let mut tag = [0; 16];
        let (data_ptr, data_len) = (additional.as_ptr(), additional.len());
        let (input, output, len) = into_raw(text);
        done(if input == output.cast_const() {
            // SAFETY: `self` holds a key; the slices are borrowed for the call, and those that are written are mutable, so
            // that they overlap nothing.
            unsafe { c::fotsgure_gcm_siv_seal(&self.0, nonce, data_ptr, data_len, output, len, &mut tag) }
        } else {
            // SAFETY: as for `fotsgure_gcm_siv_seal`; the two buffers of a `Text` are the same or don't overlap.
            unsafe {
                c::fotsgure_gcm_siv_seal_to(&self.0, nonce, data_ptr, data_len, input, len, output, len, &mut tag)
            }
        })?;
        Ok(tag)
    }

    /// Decrypts a text if its tag is right. If it isn't, another buffer is zeros.
    pub(crate) fn open(
        &self,
        nonce: &[u8; 12],
        additional: &[u8],
        text: Text<'_, '_>,
        tag: &[u8; 16],
    ) -> Result<(), Refused> {
        let (data_ptr, data_len) = (additional.as_ptr(), additional.len());
        let (input, output, len) = into_raw(text);
        done(if input == output.cast_const() {
            // SAFETY: as in `seal`.
            unsafe { c::fotsgure_gcm_siv_open(&self.0, nonce, data_ptr, data_len, output, len, tag) }
        } else {
            // SAFETY: as in `seal`.
            unsafe { c::fotsgure_gcm_siv_open_to(&self.0, nonce, data_ptr, data_len, input, len, output, len, tag) }
        })
    }
}

impl Drop for GcmSiv {
    fn drop(&mut self) {
        // SAFETY: a whole struct, borrowed for the call.
        unsafe { c::fotsgure_gcm_siv_wipe(&mut self.0) }
    }
}
