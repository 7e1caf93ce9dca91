//! Calls that leave the text as it is and return a `Vec`: feature `alloc`.

use super::{Counter, Gcm, GcmSiv, NotSealed, Refused};

const TAG: usize = 16;

/// A copy of a text, with space for its tag, so that the text isn't moved and left somewhere.
fn text_for_tag(text: &[u8]) -> Vec<u8> {
    let mut sealed = Vec::with_capacity(text.len() + TAG);
    sealed.extend_from_slice(text);
    sealed
}

/// The encrypted text and the tag after it.
fn text_and_tag(sealed: &[u8]) -> Result<(Vec<u8>, &[u8]), Refused> {
    let (text, tag) = sealed.split_at(sealed.len().checked_sub(TAG).ok_or(Refused)?);
    Ok((text.to_vec(), tag))
}

impl GcmSiv {
    /// [`seal_random`](GcmSiv::seal_random) that returns the nonce, and the encrypted text followed by its tag.
    ///
    /// ```
    /// # let siv = fotsgure_aes::gcm::GcmSiv::new(&[7; 32])?;
    /// let (nonce, sealed) = siv.seal_random_vec(b"its name", b"a message")?;
    /// assert_eq!(siv.open_vec(&nonce, b"its name", &sealed)?, b"a message");
    /// # Ok::<(), Box<dyn std::error::Error>>(())
    /// ```
    ///
    /// # Errors
    ///
    /// Those of `seal_random`.
    pub fn seal_random_vec(&self, additional: &[u8], text: &[u8]) -> Result<([u8; 12], Vec<u8>), NotSealed> {
        let mut sealed = text_for_tag(text);
        let (nonce, tag) = self.seal_random(additional, &mut sealed)?;
        sealed.extend_from_slice(&tag);
        Ok((nonce, sealed))
    }

    /// [`seal`](GcmSiv::seal) that returns the encrypted text followed by its tag.
    ///
    /// # Errors
    ///
    /// Those of `seal`.
    pub fn seal_vec(&self, nonce: &[u8], additional: &[u8], text: &[u8]) -> Result<Vec<u8>, NotSealed> {
        let mut sealed = text_for_tag(text);
        let tag = self.seal(nonce, additional, &mut sealed)?;
        sealed.extend_from_slice(&tag);
        Ok(sealed)
    }

    /// [`open`](GcmSiv::open) of an encrypted text that is followed by its tag. Returns the text.
    ///
    /// # Errors
    ///
    /// [`Refused`].
    pub fn open_vec(&self, nonce: &[u8], additional: &[u8], sealed: &[u8]) -> Result<Vec<u8>, Refused> {
        let (mut text, tag) = text_and_tag(sealed)?;
        self.open(nonce, additional, &mut text, tag)?;
        Ok(text)
    }
}

impl Gcm {
    /// [`seal`](Gcm::seal) that returns the encrypted text followed by its tag.
    ///
    /// # Errors
    ///
    /// Those of `seal`.
    pub fn seal_vec(&self, nonce: &[u8], additional: &[u8], text: &[u8]) -> Result<Vec<u8>, NotSealed> {
        let mut sealed = text_for_tag(text);
        let tag = self.seal(nonce, additional, &mut sealed)?;
        sealed.extend_from_slice(&tag);
        Ok(sealed)
    }

    /// [`seal_next`](Gcm::seal_next) that returns the nonce, and the encrypted text followed by its tag.
    ///
    /// # Errors
    ///
    /// Those of `seal_next`.
    pub fn seal_next_vec(
        &self,
        counter: &mut Counter,
        additional: &[u8],
        text: &[u8],
    ) -> Result<([u8; 12], Vec<u8>), NotSealed> {
        let mut sealed = text_for_tag(text);
        let (nonce, tag) = self.seal_next(counter, additional, &mut sealed)?;
        sealed.extend_from_slice(&tag);
        Ok((nonce, sealed))
    }

    /// [`open`](Gcm::open) of an encrypted text that is followed by its tag. Returns the text.
    ///
    /// # Errors
    ///
    /// [`Refused`].
    pub fn open_vec(&self, nonce: &[u8], additional: &[u8], sealed: &[u8]) -> Result<Vec<u8>, Refused> {
        let (mut text, tag) = text_and_tag(sealed)?;
        self.open(nonce, additional, &mut text, tag)?;
        Ok(text)
    }
}
