//! AES-GCM (SP 800-38D), under the names of the crate `aes-gcm` 0.11.
//!
//! **Never use a nonce twice under one key**, over all messages, programs and restarts. Under one key at most 2^32
//! messages may have random nonces of 12 bytes.
//!
//! ```
//! use fotsgure_rustcrypto::aes_gcm::{AeadInOut, Aes256Gcm, Error, KeyInit, Nonce};
//!
//! let cipher = Aes256Gcm::new(&[7; 32].into()); // draw a key: a constant is for examples alone
//! let nonce = Nonce::from([0; 12]); // another one for each message
//! let mut text = *b"a message";
//! let tag = cipher.encrypt_inout_detached(&nonce, b"its name", text.as_mut_slice().into())?;
//! cipher.decrypt_inout_detached(&nonce, b"its name", text.as_mut_slice().into(), &tag)?;
//! assert_eq!(&text, b"a message");
//! # Ok::<(), Error>(())
//! ```
//!
//! # Errors
//!
//! A call returns [`Error`], which says nothing more. Its message is `aead::Error`:
//!
//! - `encrypt..`, if the text has more than [`P_MAX`] bytes, the additional data more than [`A_MAX`], or the nonce none;
//! - `decrypt..`, in the same cases, and if the tag isn't that of this key, nonce, additional data and text.
//!
//! In place, a refused text stays unchanged. From buffer to buffer the output of a refused text is all zeros, or with short
//! tags unchanged. `encrypt_in_place` and `decrypt_in_place` also fail if the buffer can't hold a tag, or holds none.
//!
//! # Not as in `aes-gcm`
//!
//! [`AesGcm`] isn't generic over any block cipher: its first parameter is [`Aes128`], [`Aes192`] or [`Aes256`] of this
//! crate.

use crate::keys::{self, Text};
use aead::{TagPosition, inout::InOutBuf};
use cipher::array::{Array, ArraySize};
use cipher::consts::{U12, U16};
use core::{fmt, marker::PhantomData};

pub use crate as aes;
pub use crate::{Aes128, Aes192, Aes256};
pub use aead::{self, AeadCore, AeadInOut, Error, Key, KeyInit, KeySizeUser};

/// The most bytes of additional data.
pub const A_MAX: u64 = (1 << 61) - 1;

/// The most bytes of a text.
pub const P_MAX: u64 = (1 << 36) - 32;

/// A nonce.
pub type Nonce<NonceSize> = Array<u8, NonceSize>;

/// A tag.
pub type Tag<TagSize = U16> = Array<u8, TagSize>;

/// AES-GCM with a key of 16 bytes and nonces of 12 bytes.
pub type Aes128Gcm = AesGcm<Aes128, U12>;

/// AES-GCM with a key of 32 bytes and nonces of 12 bytes.
pub type Aes256Gcm = AesGcm<Aes256, U12>;

/// A number of bytes that a tag may have: 12 to 16, and with the feature `hazmat-tags` 4 and 8. All tags under a key have
/// the same.
pub trait TagSize: sealed::TagSize {}

impl<T: sealed::TagSize> TagSize for T {}

/// A cipher of this crate, as a name of the size of a key.
pub trait AesSize: sealed::AesSize + KeySizeUser {}

impl<Aes: sealed::AesSize + KeySizeUser> AesSize for Aes {}

mod sealed {
    use cipher::array::ArraySize;
    use cipher::consts;

    pub trait TagSize: ArraySize {}
    #[cfg(feature = "hazmat-tags")]
    impl TagSize for consts::U4 {}
    #[cfg(feature = "hazmat-tags")]
    impl TagSize for consts::U8 {}
    impl TagSize for consts::U12 {}
    impl TagSize for consts::U13 {}
    impl TagSize for consts::U14 {}
    impl TagSize for consts::U15 {}
    impl TagSize for consts::U16 {}

    pub trait AesSize {}
    impl AesSize for crate::Aes128 {}
    impl AesSize for crate::Aes192 {}
    impl AesSize for crate::Aes256 {}
}

/// Types that say how long things are, and have no values here.
type Sizes<Types> = PhantomData<fn() -> Types>;

/// AES-GCM under a key. `NonceSize` may be any but zero, and should be [`U12`].
///
/// The prepared key (1780 bytes) is in the value, and is overwritten when it is dropped. Threads may share a value.
#[derive(Clone)]
pub struct AesGcm<Aes, NonceSize, TagSize = U16>
where
    TagSize: self::TagSize,
{
    key: keys::Gcm,
    sizes: Sizes<(Aes, NonceSize, TagSize)>,
}

impl<Aes, NonceSize, TagSize> AesGcm<Aes, NonceSize, TagSize>
where
    TagSize: self::TagSize,
{
    /// Prepares a key (KeyExpansion, FIPS 197, 5.2; H, SP 800-38D, 7.1).
    fn of_bytes(key: &[u8]) -> Self {
        AesGcm { key: keys::Gcm::new(key), sizes: PhantomData }
    }

    /// Encrypts (SP 800-38D, 7.1), and returns the first bytes of the tag.
    fn seal<Tag: Default + AsMut<[u8]>>(&self, nonce: &[u8], additional: &[u8], text: Text<'_, '_>) -> Option<Tag> {
        let whole = self.key.seal(nonce, additional, text).ok()?;
        let mut tag = Tag::default();
        let bytes = tag.as_mut();
        bytes.copy_from_slice(&whole[..bytes.len()]);
        Some(tag)
    }

    /// Decrypts (SP 800-38D, 7.2).
    fn open(&self, nonce: &[u8], additional: &[u8], text: Text<'_, '_>, tag: &[u8]) -> Result<(), keys::Refused> {
        if tag.len() == 16 {
            self.key.open(nonce, additional, text, tag)
        } else {
            let accepted = self.key.verify(nonce, additional, text.get_in(), tag)?;
            accepted.decrypt(text.into_out_with_copied_in())
        }
    }
}

macro_rules! of_cipher {
    ($($name:ident),*) => {
        $(
            /// Takes the key of a block cipher, which costs no key expansion.
            impl<NonceSize, TagSize> From<$name> for AesGcm<$name, NonceSize, TagSize>
            where
                TagSize: self::TagSize,
            {
                fn from(cipher: $name) -> Self {
                    AesGcm { key: keys::Gcm::of(&cipher.0), sizes: PhantomData }
                }
            }
        )*
    };
}
of_cipher!(Aes128, Aes192, Aes256);

impl<Aes: KeySizeUser, NonceSize, TagSize> KeySizeUser for AesGcm<Aes, NonceSize, TagSize>
where
    TagSize: self::TagSize,
{
    type KeySize = Aes::KeySize;
}

impl<Aes: AesSize, NonceSize, TagSize> KeyInit for AesGcm<Aes, NonceSize, TagSize>
where
    TagSize: self::TagSize,
{
    fn new(key: &Key<Self>) -> Self {
        Self::of_bytes(key)
    }
}

impl<Aes, NonceSize, TagSize> AeadCore for AesGcm<Aes, NonceSize, TagSize>
where
    NonceSize: ArraySize,
    TagSize: self::TagSize,
{
    type NonceSize = NonceSize;
    type TagSize = TagSize;
    const TAG_POSITION: TagPosition = TagPosition::Postfix;
}

impl<Aes, NonceSize, TagSize> AeadInOut for AesGcm<Aes, NonceSize, TagSize>
where
    NonceSize: ArraySize,
    TagSize: self::TagSize,
{
    fn encrypt_inout_detached(
        &self,
        nonce: &Nonce<NonceSize>,
        associated_data: &[u8],
        buffer: InOutBuf<'_, '_, u8>,
    ) -> Result<Tag<TagSize>, Error> {
        self.seal(nonce, associated_data, buffer).ok_or(Error)
    }

    fn decrypt_inout_detached(
        &self,
        nonce: &Nonce<NonceSize>,
        associated_data: &[u8],
        buffer: InOutBuf<'_, '_, u8>,
        tag: &Tag<TagSize>,
    ) -> Result<(), Error> {
        self.open(nonce, associated_data, buffer, tag).map_err(|_| Error)
    }
}

impl<Aes, NonceSize, TagSize> fmt::Debug for AesGcm<Aes, NonceSize, TagSize>
where
    TagSize: self::TagSize,
{
    fn fmt(&self, f: &mut fmt::Formatter<'_>) -> fmt::Result {
        f.debug_struct("AesGcm").finish_non_exhaustive()
    }
}

#[cfg(feature = "zeroize")]
impl<Aes, NonceSize, TagSize> zeroize::ZeroizeOnDrop for AesGcm<Aes, NonceSize, TagSize> where TagSize: self::TagSize {}

/// The traits of aead 0.5 and cipher 0.4.
#[cfg(feature = "aead05")]
mod v05 {
    use super::{AesGcm, TagSize};
    use aead05::generic_array::{ArrayLength, GenericArray};
    use aead05::{AeadCore, AeadInPlace, Error, Key, KeyInit, KeySizeUser};

    impl<Aes: KeySizeUser, NonceSize, Size: TagSize> KeySizeUser for AesGcm<Aes, NonceSize, Size> {
        type KeySize = Aes::KeySize;
    }

    impl<Aes: super::sealed::AesSize + KeySizeUser, NonceSize, Size: TagSize> KeyInit for AesGcm<Aes, NonceSize, Size> {
        fn new(key: &Key<Self>) -> Self {
            Self::of_bytes(key)
        }
    }

    impl<Aes, NonceSize: ArrayLength<u8>, Size: TagSize + ArrayLength<u8>> AeadCore for AesGcm<Aes, NonceSize, Size> {
        type NonceSize = NonceSize;
        type TagSize = Size;
        type CiphertextOverhead = aead05::consts::U0;
    }

    impl<Aes, NonceSize: ArrayLength<u8>, Size: TagSize + ArrayLength<u8>> AeadInPlace for AesGcm<Aes, NonceSize, Size> {
        fn encrypt_in_place_detached(
            &self,
            nonce: &GenericArray<u8, NonceSize>,
            associated_data: &[u8],
            buffer: &mut [u8],
        ) -> Result<GenericArray<u8, Size>, Error> {
            self.seal(nonce, associated_data, buffer.into()).ok_or(Error)
        }

        fn decrypt_in_place_detached(
            &self,
            nonce: &GenericArray<u8, NonceSize>,
            associated_data: &[u8],
            buffer: &mut [u8],
            tag: &GenericArray<u8, Size>,
        ) -> Result<(), Error> {
            self.open(nonce, associated_data, buffer.into(), tag).map_err(|_| Error)
        }
    }
}
