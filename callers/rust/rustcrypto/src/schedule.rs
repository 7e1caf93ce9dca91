//! An expanded key, and the calls on it: every `unsafe` of the block cipher is here.

use cipher::consts::{U8, U16};
use cipher::{
    Array, Block, BlockCipherDecBackend, BlockCipherEncBackend, BlockSizeUser, InOut, InOutBuf, ParBlocks,
    ParBlocksSizeUser, typenum::Unsigned,
};
use fotsgure_sys::aes as c;

/// How many blocks a mode gives to one call of a backend. Fewer than these it gives block by block.
pub(crate) type Batch = U8;

/// The round keys of a key, for both directions. They are overwritten when the value is dropped; a move may leave a
/// copy, as in the crate `aes`.
#[derive(Clone)]
pub(crate) struct Schedule(c::fotsgure_aes);

impl Schedule {
    /// Expands a key of 16, 24 or 32 bytes.
    pub(crate) fn new(key: &[u8]) -> Self {
        let mut schedule = Schedule(c::fotsgure_aes { key_length: 0, round_keys: [0; 120] });
        // SAFETY: the pointers come from references that are valid for the call, and one of them is mutable.
        let status = unsafe { c::fotsgure_aes_set_key(&mut schedule.0, key.as_ptr(), key.len()) };
        assert_eq!(status, c::FOTSGURE_AES_DONE, "types have keys of 16, 24 or 32 bytes alone");
        schedule
    }

    /// The struct of C, which has a key.
    #[cfg(feature = "aead")]
    pub(crate) fn as_c(&self) -> *const c::fotsgure_aes {
        &self.0
    }

    /// Encrypts blocks, in place or from buffer to buffer.
    #[inline]
    pub(crate) fn encrypt(&self, blocks: Blocks<'_, '_>) {
        let (input, output, count) = blocks.into_raw();
        let status = if input == output.cast_const() {
            // SAFETY: `self` holds a key, and `Blocks` lends `count` blocks at `output`.
            unsafe { c::fotsgure_aes_encrypt_blocks(&self.0, output, count) }
        } else {
            // SAFETY: as for `fotsgure_aes_encrypt_blocks`; the two buffers of `Blocks` are the same or don't overlap.
            unsafe { c::fotsgure_aes_encrypt_blocks_to(&self.0, input, count, output, count) }
        };
        debug_assert_eq!(status, c::FOTSGURE_AES_DONE);
    }

    /// Decrypts blocks, in place or from buffer to buffer.
    #[inline]
    pub(crate) fn decrypt(&self, blocks: Blocks<'_, '_>) {
        let (input, output, count) = blocks.into_raw();
        let status = if input == output.cast_const() {
            // SAFETY: as in `encrypt`.
            unsafe { c::fotsgure_aes_decrypt_blocks(&self.0, output, count) }
        } else {
            // SAFETY: as in `encrypt`.
            unsafe { c::fotsgure_aes_decrypt_blocks_to(&self.0, input, count, output, count) }
        };
        debug_assert_eq!(status, c::FOTSGURE_AES_DONE);
    }
}

impl Drop for Schedule {
    #[inline]
    fn drop(&mut self) {
        // SAFETY: a whole struct, borrowed for the call.
        unsafe { c::fotsgure_aes_wipe(&mut self.0) }
    }
}

/// Blocks that are lent: `count` of them are read at one address and written at the other, which is the same or lies
/// beyond them. The pairs of the crate `inout`, of either version, give that, and they alone become `Blocks`.
pub(crate) struct Blocks<'inp, 'out> {
    input: *const u8,
    output: *mut u8,
    count: usize,
    lent: core::marker::PhantomData<(&'inp [u8], &'out mut [u8])>,
}

impl Blocks<'_, '_> {
    fn into_raw(self) -> (*const u8, *mut u8, usize) {
        (self.input, self.output, self.count)
    }
}

/// Makes `Blocks` of a pair of either version of `inout`: of one block, of a batch, or of a slice.
macro_rules! lent {
    ($pair:ident, $array:ty, $count:expr) => {
        impl<'inp, 'out> From<$pair<'inp, 'out, $array>> for Blocks<'inp, 'out> {
            #[inline]
            fn from(blocks: $pair<'inp, 'out, $array>) -> Self {
                #[allow(clippy::redundant_closure_call)]
                let count = $count(&blocks);
                let (input, output) = blocks.into_raw();
                Blocks { input: input.cast(), output: output.cast(), count, lent: core::marker::PhantomData }
            }
        }
    };
}

type Block5 = Array<u8, U16>;
lent!(InOut, Block5, |_| 1);
lent!(InOut, Array<Block5, Batch>, |_| Batch::USIZE);
lent!(InOutBuf, Block5, InOutBuf::<'_, '_, Block5>::len);

/// A schedule that a mode works with.
pub(crate) struct Backend<'a>(pub(crate) &'a Schedule);

impl BlockSizeUser for Backend<'_> {
    type BlockSize = U16;
}

impl ParBlocksSizeUser for Backend<'_> {
    type ParBlocksSize = Batch;
}

impl BlockCipherEncBackend for Backend<'_> {
    #[inline(always)]
    fn encrypt_block(&self, block: InOut<'_, '_, Block<Self>>) {
        self.0.encrypt(block.into());
    }

    #[inline(always)]
    fn encrypt_par_blocks(&self, blocks: InOut<'_, '_, ParBlocks<Self>>) {
        self.0.encrypt(blocks.into());
    }

    #[inline(always)]
    fn encrypt_tail_blocks(&self, blocks: InOutBuf<'_, '_, Block<Self>>) {
        self.0.encrypt(blocks.into());
    }
}

impl BlockCipherDecBackend for Backend<'_> {
    #[inline(always)]
    fn decrypt_block(&self, block: InOut<'_, '_, Block<Self>>) {
        self.0.decrypt(block.into());
    }

    #[inline(always)]
    fn decrypt_par_blocks(&self, blocks: InOut<'_, '_, ParBlocks<Self>>) {
        self.0.decrypt(blocks.into());
    }

    #[inline(always)]
    fn decrypt_tail_blocks(&self, blocks: InOutBuf<'_, '_, Block<Self>>) {
        self.0.decrypt(blocks.into());
    }
}

/// The same under the traits of cipher 0.4, which have one backend for both directions.
#[cfg(feature = "cipher04")]
pub(crate) mod v04 {
    use super::{Batch as Batch5, Blocks, Schedule};
    use cipher::typenum::Unsigned as _;
    use cipher04::inout::{InOut, InOutBuf};
    use cipher04::{Block, BlockBackend, BlockSizeUser, ParBlocks, ParBlocksSizeUser};
    use cipher04::{consts, generic_array::GenericArray};

    pub(crate) type Batch = Batch5;
    type Block4 = GenericArray<u8, consts::U16>;
    lent!(InOut, Block4, |_| 1);
    lent!(InOut, GenericArray<Block4, Batch>, |_| Batch::USIZE);
    lent!(InOutBuf, Block4, InOutBuf::<'_, '_, Block4>::len);

    pub(crate) struct Encrypts<'a>(pub(crate) &'a Schedule);
    pub(crate) struct Decrypts<'a>(pub(crate) &'a Schedule);

    macro_rules! backend {
        ($name:ident, $call:ident) => {
            impl BlockSizeUser for $name<'_> {
                type BlockSize = consts::U16;
            }

            impl ParBlocksSizeUser for $name<'_> {
                type ParBlocksSize = Batch;
            }

            impl BlockBackend for $name<'_> {
                #[inline(always)]
                fn proc_block(&mut self, block: InOut<'_, '_, Block<Self>>) {
                    self.0.$call(block.into());
                }

                #[inline(always)]
                fn proc_par_blocks(&mut self, blocks: InOut<'_, '_, ParBlocks<Self>>) {
                    self.0.$call(blocks.into());
                }

                #[inline(always)]
                fn proc_tail_blocks(&mut self, blocks: InOutBuf<'_, '_, Block<Self>>) {
                    self.0.$call(blocks.into());
                }
            }
        };
    }
    backend!(Encrypts, encrypt);
    backend!(Decrypts, decrypt);
}
