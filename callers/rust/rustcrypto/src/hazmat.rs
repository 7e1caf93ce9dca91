//! Single rounds of AES, under the names of `aes::hazmat`: feature `hazmat`.
//!
//! **They aren't AES.** They are for algorithms that are built of its rounds, such as AEGIS and Deoxys.
//!
//! ```
//! use fotsgure_rustcrypto::hazmat::{Block, cipher_round, equiv_inv_cipher_round, inv_mix_columns, mix_columns};
//!
//! let mut block = Block::from([7; 16]);
//! mix_columns(&mut block);
//! inv_mix_columns(&mut block);
//! assert_eq!(block, Block::from([7; 16]));
//! cipher_round(&mut block, &Block::from([1; 16]));
//! ```

use fotsgure_sys::aes as c;

pub use crate::Block;

/// Eight blocks.
pub type Block8 = cipher::Array<Block, cipher::consts::U8>;

macro_rules! rounds {
    ($($(#[$doc:meta])* $name:ident, $name_par:ident: $call:ident, $call_par:ident;)*) => {
        $(
            $(#[$doc])*
            pub fn $name(block: &mut Block, round_key: &Block) {
                // SAFETY: the references are valid for the call, and one of them is mutable, so that they don't overlap.
                unsafe { c::$call(&mut block.0, &round_key.0) }
            }

            /// The same of each of eight blocks, with the round key at the same place.
            pub fn $name_par(blocks: &mut Block8, round_keys: &Block8) {
                let (blocks, round_keys) = ((&raw mut *blocks).cast(), (&raw const *round_keys).cast());
                // SAFETY: the pointers come from references that are valid for the call, and one of them is mutable, so that
                // they don't overlap. Eight blocks are 128 bytes.
                unsafe { c::$call_par(blocks, round_keys) }
            }
        )*
    };
}

rounds! {
    /// A round of Cipher in place: SubBytes, ShiftRows, MixColumns, AddRoundKey (FIPS 197, 5.1).
    cipher_round, cipher_round_par: fotsgure_aes_cipher_round, fotsgure_aes_cipher_round_par;
    /// A round of EqInvCipher in place: InvSubBytes, InvShiftRows, InvMixColumns, AddRoundKey (5.3.5).
    equiv_inv_cipher_round, equiv_inv_cipher_round_par:
        fotsgure_aes_equiv_inv_cipher_round, fotsgure_aes_equiv_inv_cipher_round_par;
}

/// MixColumns in place (5.1.3).
pub fn mix_columns(block: &mut Block) {
    // SAFETY: the reference is valid for the call.
    unsafe { c::fotsgure_aes_mix_columns(&mut block.0) }
}

/// InvMixColumns in place (5.3.3).
pub fn inv_mix_columns(block: &mut Block) {
    // SAFETY: the reference is valid for the call.
    unsafe { c::fotsgure_aes_inv_mix_columns(&mut block.0) }
}
