//! Messages of GCM in pieces.

use super::{c, sealed, Counter, Gcm, NotSealed};
use crate::boxed;
use std::fmt;

/// Why a call for a piece was refused. The message stays as it was.
#[derive(Debug, Clone, Copy, PartialEq, Eq)]
#[non_exhaustive]
pub enum NotAccepted {
    /// The call came at a time when it may not: additional data after text, text after the end, `decrypt` before
    /// `accept`.
    OutOfTurn,
    /// The message would be longer than GCM allows, or more would be decrypted than was verified.
    TooLong,
    /// The tag isn't that of this key and of what has come: drop the message. Tell nobody more than that.
    Refused,
}

impl fmt::Display for NotAccepted {
    fn fmt(&self, f: &mut fmt::Formatter<'_>) -> fmt::Result {
        f.write_str(match self {
            NotAccepted::OutOfTurn => {
                "the calls came in the wrong order, for example text after finish, or decrypt before accept"
            }
            NotAccepted::TooLong => "there are more bytes than GCM allows, or than were verified",
            NotAccepted::Refused => "the message was refused",
        })
    }
}

impl std::error::Error for NotAccepted {}

fn accepted(status: u32) -> Result<(), NotAccepted> {
    match status {
        c::FOTSGURE_GCM_DONE => Ok(()),
        c::FOTSGURE_GCM_TOO_LONG => Err(NotAccepted::TooLong),
        c::FOTSGURE_GCM_TAG_LENGTH | c::FOTSGURE_GCM_REFUSED => Err(NotAccepted::Refused),
        c::FOTSGURE_GCM_OUT_OF_TURN => Err(NotAccepted::OutOfTurn),
        other => unreachable!("status {other} with a key"),
    }
}

/// A message of GCM in pieces of any size. To encrypt: `additional`, `encrypt`, `finish`. To decrypt: `additional`,
/// `verify`, `accept`, and then `decrypt` with the same encrypted text once more, from its beginning. Count the bytes of
/// both passes. It is on the heap, so that a move leaves no copy of it, and is zeroized when it is dropped. It can't be
/// cloned: a copy would encrypt another text under the same nonce.
///
/// ```
/// use fotsgure_aes::gcm::{Counter, Gcm};
///
/// let gcm = Gcm::new(&[7; 32])?; // draw the key at random: a constant is for examples alone
/// let (nonce, mut message) = gcm.begin_next(&mut Counter { next: [0; 12] })?;
/// let mut text = *b"a message";
/// text.chunks_mut(4).try_for_each(|piece| message.encrypt(piece))?;
/// let tag = message.finish()?;
///
/// let mut message = gcm.begin(&nonce)?;
/// message.verify(&text)?;
/// message.accept(&tag)?;
/// message.decrypt(&mut text)?;
/// assert_eq!(&text, b"a message");
/// # Ok::<(), Box<dyn std::error::Error>>(())
/// ```
pub struct Message<'a> {
    gcm: &'a Gcm,
    message: Box<c::fotsgure_gcm_message>,
}

impl Gcm {
    /// Begins a message in pieces under a nonce of yours. Once some of it was encrypted, its nonce is used.
    ///
    /// # Errors
    ///
    /// [`NotSealed::NonceLength`].
    pub fn begin(&self, nonce: &[u8]) -> Result<Message<'_>, NotSealed> {
        // SAFETY: the struct has a key; the slice is borrowed for the call, which reads nothing of the message.
        self.begun(|message| unsafe { c::fotsgure_gcm_begin(&*self.0, message, nonce.as_ptr(), nonce.len()) })
    }

    /// The same under the counter's next nonce, which it returns: store the counter before anything of the message is
    /// sent.
    ///
    /// # Errors
    ///
    /// [`NotSealed::NoncesEnd`].
    pub fn begin_next(&self, counter: &mut Counter) -> Result<([u8; 12], Message<'_>), NotSealed> {
        let (mut nonce, next) = ([0; 12], counter.as_c());
        // SAFETY: as in `begin`; the counter and the nonce are mutable, so that they overlap nothing.
        let begun = self.begun(|message| unsafe { c::fotsgure_gcm_begin_next(&*self.0, message, next, &mut nonce) });
        begun.map(|message| (nonce, message))
    }

    /// A message that a call begins.
    fn begun(&self, begin: impl FnOnce(*mut c::fotsgure_gcm_message) -> u32) -> Result<Message<'_>, NotSealed> {
        // SAFETY: the closure writes the whole struct before the call, which reads none of it.
        let (status, message) = unsafe {
            boxed(|message: *mut c::fotsgure_gcm_message| {
                message.write_bytes(0, 1);
                begin(message)
            })
        };
        sealed(status).map(|()| Message { gcm: self, message })
    }
}

impl Message<'_> {
    /// Takes a piece of the additional data. All of it comes before the text.
    ///
    /// # Errors
    ///
    /// [`NotAccepted::OutOfTurn`], [`NotAccepted::TooLong`].
    pub fn additional(&mut self, bytes: &[u8]) -> Result<(), NotAccepted> {
        // SAFETY: the key and the message are whole structs that `new` and `begin` wrote, and the slice is borrowed for
        // the call. Those that are written are mutable, so that they overlap nothing.
        accepted(unsafe { c::fotsgure_gcm_additional(&*self.gcm.0, &mut *self.message, bytes.as_ptr(), bytes.len()) })
    }

    /// Encrypts a piece of the text in place.
    ///
    /// # Errors
    ///
    /// [`NotAccepted::OutOfTurn`], [`NotAccepted::TooLong`].
    pub fn encrypt(&mut self, text: &mut [u8]) -> Result<(), NotAccepted> {
        // SAFETY: as in `additional`.
        accepted(unsafe { c::fotsgure_gcm_encrypt(&*self.gcm.0, &mut *self.message, text.as_mut_ptr(), text.len()) })
    }

    /// Ends a message that was encrypted, and returns its tag.
    ///
    /// # Errors
    ///
    /// [`NotAccepted::OutOfTurn`].
    pub fn finish(mut self) -> Result<[u8; 16], NotAccepted> {
        let mut tag = [0; 16];
        // SAFETY: as in `additional`.
        accepted(unsafe { c::fotsgure_gcm_finish(&*self.gcm.0, &mut *self.message, &mut tag) }).map(|()| tag)
    }

    /// Takes a piece of an encrypted text, whose tag `accept` compares later. `Ok` doesn't say that the piece is authentic.
    ///
    /// # Errors
    ///
    /// [`NotAccepted::OutOfTurn`], [`NotAccepted::TooLong`].
    pub fn verify(&mut self, text: &[u8]) -> Result<(), NotAccepted> {
        // SAFETY: as in `additional`.
        accepted(unsafe { c::fotsgure_gcm_verify(&*self.gcm.0, &mut *self.message, text.as_ptr(), text.len()) })
    }

    /// Compares the tag of what has come.
    ///
    /// # Errors
    ///
    /// [`NotAccepted::OutOfTurn`], [`NotAccepted::Refused`].
    pub fn accept(&mut self, tag: &[u8]) -> Result<(), NotAccepted> {
        // SAFETY: as in `additional`.
        accepted(unsafe { c::fotsgure_gcm_accept(&*self.gcm.0, &mut *self.message, tag.as_ptr(), tag.len()) })
    }

    /// Compares a tag of 4, 8 or 12 to 15 bytes (SP 800-38D, 5.2.1.2). Call it instead of `accept`. `fixed_length` is how
    /// many bytes all tags under the key have. It is fixed with the key. **Never read it from a message**: a forger would
    /// choose how few bytes have to be right. For 4 and 8 bytes read appendix C of the standard first.
    ///
    /// # Errors
    ///
    /// [`NotAccepted::OutOfTurn`]; [`NotAccepted::Refused`], also if `fixed_length` is none of these numbers, or isn't that of `tag`.
    pub fn accept_short(&mut self, fixed_length: usize, tag: &[u8]) -> Result<(), NotAccepted> {
        // SAFETY: as in `additional`.
        accepted(unsafe {
            c::fotsgure_gcm_accept_short(&*self.gcm.0, &mut *self.message, fixed_length, tag.as_ptr(), tag.len())
        })
    }

    /// Decrypts in place a piece of the text whose tag was right.
    ///
    /// # Errors
    ///
    /// [`NotAccepted::OutOfTurn`], [`NotAccepted::TooLong`].
    pub fn decrypt(&mut self, text: &mut [u8]) -> Result<(), NotAccepted> {
        // SAFETY: as in `additional`.
        accepted(unsafe { c::fotsgure_gcm_decrypt(&*self.gcm.0, &mut *self.message, text.as_mut_ptr(), text.len()) })
    }
}

impl Drop for Message<'_> {
    fn drop(&mut self) {
        // SAFETY: a whole struct, borrowed for the call.
        unsafe { c::fotsgure_gcm_wipe_message(&mut *self.message) }
    }
}

impl fmt::Debug for Message<'_> {
    fn fmt(&self, f: &mut fmt::Formatter<'_>) -> fmt::Result {
        f.write_str("Message { .. }")
    }
}
