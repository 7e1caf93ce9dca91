//! AES-GCM-SIV (RFC 8452), under the names of the crate `aes-gcm-siv`. A nonce that is used twice under a key shows whether
//! the two messages, with their additional data, are the same, and nothing else.
//!
//! ```
//! use fotsgure_rustcrypto::aes_gcm_siv::{AeadInOut, Aes256GcmSiv, Error, KeyInit, Nonce};
//!
//! let cipher = Aes256GcmSiv::new(&[7; 32].into()); // draw a key: a constant is for examples alone
//! let nonce = Nonce::from([0; 12]); // draw it
//! let mut text = *b"a message";
//! let tag = cipher.encrypt_inout_detached(&nonce, b"its name", text.as_mut_slice().into())?;
//! cipher.decrypt_inout_detached(&nonce, b"its name", text.as_mut_slice().into(), &tag)?;
//! assert_eq!(&text, b"a message");
//! # Ok::<(), Error>(())
//! ```
//!
//! # Errors
//!
//! A call returns [`Error`], which says nothing more. Its message is `aead::Error`:
//!
//! - `encrypt..`, if the text has more than [`P_MAX`] bytes, or the additional data more than [`A_MAX`];
//! - `decrypt..`, in the same cases, and if the tag isn't that of this key, nonce, additional data and text.
//!
//! In place, a refused text is unchanged when the call returns. During the call it is decrypted. From buffer to buffer the
//! output of a refused text is all zeros. `encrypt_in_place` and `decrypt_in_place` also fail if the buffer can't hold a
//! tag, or holds none.

use crate::keys;
use aead::{TagPosition, inout::InOutBuf};
use cipher::array::Array;
use cipher::consts::{U12, U16};
use core::{fmt, marker::PhantomData};

pub use crate as aes;
pub use crate::{Aes128, Aes256};
pub use aead::{self, AeadCore, AeadInOut, Error, Key, KeyInit, KeySizeUser};

/// The most bytes of additional data.
pub const A_MAX: u64 = 1 << 36;

/// The most bytes of a text.
pub const P_MAX: u64 = 1 << 36;

/// The most bytes of an encrypted text with its tag.
pub const C_MAX: u64 = (1 << 36) + 16;

/// A nonce.
pub type Nonce = Array<u8, U12>;

/// A tag.
pub type Tag = Array<u8, U16>;

/// AES-GCM-SIV with a key of 16 bytes.
pub type Aes128GcmSiv = AesGcmSiv<Aes128>;

/// AES-GCM-SIV with a key of 32 bytes.
pub type Aes256GcmSiv = AesGcmSiv<Aes256>;

/// A cipher of this crate, as a name of the size of a key.
pub trait AesSize: sealed::AesSize + KeySizeUser {}

impl<Aes: sealed::AesSize + KeySizeUser> AesSize for Aes {}

mod sealed {
    pub trait AesSize {}
    impl AesSize for crate::Aes128 {}
    impl AesSize for crate::Aes256 {}
}

/// AES-GCM-SIV under a key.
///
/// The prepared key (484 bytes, 968 on 64-bit RISC-V) is in the value, and is overwritten when it is dropped. Threads may
/// share a value.
#[derive(Clone)]
pub struct AesGcmSiv<Aes> {
    key: keys::GcmSiv,
    size: PhantomData<fn() -> Aes>,
}

impl<Aes: KeySizeUser> KeySizeUser for AesGcmSiv<Aes> {
    type KeySize = Aes::KeySize;
}

impl<Aes: AesSize> KeyInit for AesGcmSiv<Aes> {
    fn new(key: &Key<Self>) -> Self {
        AesGcmSiv { key: keys::GcmSiv::new(key), size: PhantomData }
    }
}

impl<Aes> AeadCore for AesGcmSiv<Aes> {
    type NonceSize = U12;
    type TagSize = U16;
    const TAG_POSITION: TagPosition = TagPosition::Postfix;
}

impl<Aes> AeadInOut for AesGcmSiv<Aes> {
    fn encrypt_inout_detached(
        &self,
        nonce: &Nonce,
        associated_data: &[u8],
        buffer: InOutBuf<'_, '_, u8>,
    ) -> Result<Tag, Error> {
        self.key.seal(&nonce.0, associated_data, buffer).map(Array).map_err(|_| Error)
    }

    fn decrypt_inout_detached(
        &self,
        nonce: &Nonce,
        associated_data: &[u8],
        buffer: InOutBuf<'_, '_, u8>,
        tag: &Tag,
    ) -> Result<(), Error> {
        self.key.open(&nonce.0, associated_data, buffer, &tag.0).map_err(|_| Error)
    }
}

impl<Aes> fmt::Debug for AesGcmSiv<Aes> {
    fn fmt(&self, f: &mut fmt::Formatter<'_>) -> fmt::Result {
        f.debug_struct("AesGcmSiv").finish_non_exhaustive()
    }
}

#[cfg(feature = "zeroize")]
impl<Aes> zeroize::ZeroizeOnDrop for AesGcmSiv<Aes> {}

/// The traits of aead 0.5 and cipher 0.4.
#[cfg(feature = "aead05")]
mod v05 {
    use super::{AesGcmSiv, keys};
    use aead05::generic_array::GenericArray;
    use aead05::{AeadCore, AeadInPlace, Error, Key, KeyInit, KeySizeUser, consts};
    use core::marker::PhantomData;

    impl<Aes: KeySizeUser> KeySizeUser for AesGcmSiv<Aes> {
        type KeySize = Aes::KeySize;
    }

    impl<Aes: super::sealed::AesSize + KeySizeUser> KeyInit for AesGcmSiv<Aes> {
        fn new(key: &Key<Self>) -> Self {
            AesGcmSiv { key: keys::GcmSiv::new(key), size: PhantomData }
        }
    }

    impl<Aes> AeadCore for AesGcmSiv<Aes> {
        type NonceSize = consts::U12;
        type TagSize = consts::U16;
        type CiphertextOverhead = consts::U0;
    }

    impl<Aes> AeadInPlace for AesGcmSiv<Aes> {
        fn encrypt_in_place_detached(
            &self,
            nonce: &GenericArray<u8, consts::U12>,
            associated_data: &[u8],
            buffer: &mut [u8],
        ) -> Result<GenericArray<u8, consts::U16>, Error> {
            let tag = self.key.seal(nonce.as_ref(), associated_data, buffer.into());
            tag.map(Into::into).map_err(|_| Error)
        }

        fn decrypt_in_place_detached(
            &self,
            nonce: &GenericArray<u8, consts::U12>,
            associated_data: &[u8],
            buffer: &mut [u8],
            tag: &GenericArray<u8, consts::U16>,
        ) -> Result<(), Error> {
            self.key.open(nonce.as_ref(), associated_data, buffer.into(), tag.as_ref()).map_err(|_| Error)
        }
    }
}
