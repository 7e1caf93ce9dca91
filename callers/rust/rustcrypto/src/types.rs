//! The nine types, each a schedule.

use crate::schedule::{Backend, Schedule};
use cipher::consts::{U16, U24, U32};
use cipher::{
    AlgorithmName, Block, BlockCipherDecClosure, BlockCipherDecrypt, BlockCipherEncClosure, BlockCipherEncrypt,
    BlockSizeUser, InOut, InOutBuf, Key, KeyInit, KeySizeUser,
};
use core::fmt;

macro_rules! common {
    ($name:ident, $key_size:ident, $doc:literal) => {
        #[doc = $doc]
        ///
        /// The key schedule (for both directions 484 bytes, 968 on 64-bit RISC-V) is in the value, and is overwritten when it is
        /// dropped.
        #[derive(Clone)]
        pub struct $name(pub(crate) Schedule);

        impl KeySizeUser for $name {
            type KeySize = $key_size;
        }

        impl KeyInit for $name {
            #[inline]
            fn new(key: &Key<Self>) -> Self {
                $name(Schedule::new(key))
            }
        }

        impl BlockSizeUser for $name {
            type BlockSize = U16;
        }

        impl AlgorithmName for $name {
            fn write_alg_name(f: &mut fmt::Formatter<'_>) -> fmt::Result {
                f.write_str(stringify!($name))
            }
        }

        impl fmt::Debug for $name {
            fn fmt(&self, f: &mut fmt::Formatter<'_>) -> fmt::Result {
                f.write_str(concat!(stringify!($name), " { .. }"))
            }
        }

        #[cfg(feature = "zeroize")]
        impl zeroize::ZeroizeOnDrop for $name {}

        #[cfg(feature = "cipher04")]
        impl cipher04::KeySizeUser for $name {
            type KeySize = cipher04::consts::$key_size;
        }

        #[cfg(feature = "cipher04")]
        impl cipher04::KeyInit for $name {
            #[inline]
            fn new(key: &cipher04::Key<Self>) -> Self {
                $name(Schedule::new(key))
            }
        }

        #[cfg(feature = "cipher04")]
        impl cipher04::BlockSizeUser for $name {
            type BlockSize = cipher04::consts::U16;
        }

        #[cfg(feature = "cipher04")]
        impl cipher04::BlockCipher for $name {}

        #[cfg(feature = "cipher04")]
        impl cipher04::AlgorithmName for $name {
            fn write_alg_name(f: &mut fmt::Formatter<'_>) -> fmt::Result {
                f.write_str(stringify!($name))
            }
        }
    };
}

macro_rules! encrypts {
    ($name:ident) => {
        impl BlockCipherEncrypt for $name {
            #[inline]
            fn encrypt_with_backend(&self, f: impl BlockCipherEncClosure<BlockSize = U16>) {
                f.call(&Backend(&self.0));
            }

            // A slice is one call, however long it is: by batches it would be many.
            #[inline]
            fn encrypt_blocks_inout(&self, blocks: InOutBuf<'_, '_, Block<Self>>) {
                self.0.encrypt(blocks.into());
            }

            #[inline]
            fn encrypt_blocks(&self, blocks: &mut [Block<Self>]) {
                self.encrypt_blocks_inout(blocks.into());
            }

            #[inline]
            fn encrypt_blocks_b2b(
                &self,
                in_blocks: &[Block<Self>],
                out_blocks: &mut [Block<Self>],
            ) -> Result<(), cipher::inout::NotEqualError> {
                InOutBuf::new(in_blocks, out_blocks).map(|blocks| self.encrypt_blocks_inout(blocks))
            }

            #[inline]
            fn encrypt_block_inout(&self, block: InOut<'_, '_, Block<Self>>) {
                self.0.encrypt(block.into());
            }
        }

        #[cfg(feature = "cipher04")]
        impl cipher04::BlockEncrypt for $name {
            #[inline]
            fn encrypt_with_backend(&self, f: impl cipher04::BlockClosure<BlockSize = cipher04::consts::U16>) {
                f.call(&mut crate::schedule::v04::Encrypts(&self.0));
            }

            #[inline]
            fn encrypt_blocks_inout(&self, blocks: cipher04::inout::InOutBuf<'_, '_, cipher04::Block<Self>>) {
                self.0.encrypt(blocks.into());
            }

            #[inline]
            fn encrypt_blocks(&self, blocks: &mut [cipher04::Block<Self>]) {
                cipher04::BlockEncrypt::encrypt_blocks_inout(self, blocks.into());
            }

            #[inline]
            fn encrypt_blocks_b2b(
                &self,
                in_blocks: &[cipher04::Block<Self>],
                out_blocks: &mut [cipher04::Block<Self>],
            ) -> Result<(), cipher04::inout::NotEqualError> {
                cipher04::inout::InOutBuf::new(in_blocks, out_blocks)
                    .map(|blocks| cipher04::BlockEncrypt::encrypt_blocks_inout(self, blocks))
            }
        }
    };
}

macro_rules! decrypts {
    ($name:ident) => {
        impl BlockCipherDecrypt for $name {
            #[inline]
            fn decrypt_with_backend(&self, f: impl BlockCipherDecClosure<BlockSize = U16>) {
                f.call(&Backend(&self.0));
            }

            #[inline]
            fn decrypt_blocks_inout(&self, blocks: InOutBuf<'_, '_, Block<Self>>) {
                self.0.decrypt(blocks.into());
            }

            #[inline]
            fn decrypt_blocks(&self, blocks: &mut [Block<Self>]) {
                self.decrypt_blocks_inout(blocks.into());
            }

            #[inline]
            fn decrypt_blocks_b2b(
                &self,
                in_blocks: &[Block<Self>],
                out_blocks: &mut [Block<Self>],
            ) -> Result<(), cipher::inout::NotEqualError> {
                InOutBuf::new(in_blocks, out_blocks).map(|blocks| self.decrypt_blocks_inout(blocks))
            }

            #[inline]
            fn decrypt_block_inout(&self, block: InOut<'_, '_, Block<Self>>) {
                self.0.decrypt(block.into());
            }
        }

        #[cfg(feature = "cipher04")]
        impl cipher04::BlockDecrypt for $name {
            #[inline]
            fn decrypt_with_backend(&self, f: impl cipher04::BlockClosure<BlockSize = cipher04::consts::U16>) {
                f.call(&mut crate::schedule::v04::Decrypts(&self.0));
            }

            #[inline]
            fn decrypt_blocks_inout(&self, blocks: cipher04::inout::InOutBuf<'_, '_, cipher04::Block<Self>>) {
                self.0.decrypt(blocks.into());
            }

            #[inline]
            fn decrypt_blocks(&self, blocks: &mut [cipher04::Block<Self>]) {
                cipher04::BlockDecrypt::decrypt_blocks_inout(self, blocks.into());
            }

            #[inline]
            fn decrypt_blocks_b2b(
                &self,
                in_blocks: &[cipher04::Block<Self>],
                out_blocks: &mut [cipher04::Block<Self>],
            ) -> Result<(), cipher04::inout::NotEqualError> {
                cipher04::inout::InOutBuf::new(in_blocks, out_blocks)
                    .map(|blocks| cipher04::BlockDecrypt::decrypt_blocks_inout(self, blocks))
            }
        }
    };
}

macro_rules! from_enc {
    ($name:ident, $enc:ident) => {
        impl From<$enc> for $name {
            #[inline]
            fn from(enc: $enc) -> Self {
                Self::from(&enc)
            }
        }

        impl From<&$enc> for $name {
            #[inline]
            fn from(enc: &$enc) -> Self {
                $name(enc.0.clone())
            }
        }
    };
}

macro_rules! size {
    ($name:ident, $enc:ident, $dec:ident, $key_size:ident, $doc:literal) => {
        common!($name, $key_size, $doc);
        encrypts!($name);
        decrypts!($name);
        from_enc!($name, $enc);
        common!($enc, $key_size, "The same, to encrypt alone.");
        encrypts!($enc);
        common!($dec, $key_size, "The same, to decrypt alone.");
        decrypts!($dec);
        from_enc!($dec, $enc);
    };
}

size!(Aes128, Aes128Enc, Aes128Dec, U16, "AES with keys of 16 bytes (FIPS 197).");
size!(Aes192, Aes192Enc, Aes192Dec, U24, "AES with keys of 24 bytes (FIPS 197).");
size!(Aes256, Aes256Enc, Aes256Dec, U32, "AES with keys of 32 bytes (FIPS 197).");
