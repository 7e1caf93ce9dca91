//! What the suites of RustCrypto's crates don't look at: buffers, wipes, threads.

use cipher::{Array, BlockCipherDecrypt, BlockCipherEncrypt, KeyInit, KeySizeUser};
use core::mem::ManuallyDrop;
use fotsgure_rustcrypto::{
    Aes128, Aes128Dec, Aes128Enc, Aes192, Aes192Dec, Aes192Enc, Aes256, Aes256Dec, Aes256Enc, Block,
};

fn blocks_of(count: u8) -> Vec<Block> {
    (0..count).map(|i| Array::from([i.wrapping_mul(37); 16])).collect()
}

/// However blocks are given, they become the same, and come back.
fn agrees<Both, Enc, Dec>()
where
    Both: KeyInit + BlockCipherEncrypt<BlockSize = cipher::consts::U16> + BlockCipherDecrypt,
    Enc: KeyInit + KeySizeUser<KeySize = Both::KeySize> + BlockCipherEncrypt<BlockSize = cipher::consts::U16>,
    Dec: From<Enc> + BlockCipherDecrypt<BlockSize = cipher::consts::U16>,
{
    let key = cipher::Key::<Both>::default();
    let (both, enc) = (Both::new(&key), Enc::new(&key));
    let dec = Dec::from(Enc::new(&key));
    for count in 0..70 {
        let text = blocks_of(count);
        let (mut single, mut whole, mut other) = (text.clone(), text.clone(), blocks_of(count));
        single.iter_mut().for_each(|block| both.encrypt_block(block));
        enc.encrypt_blocks(&mut whole);
        both.encrypt_blocks_b2b(&text, &mut other).unwrap();
        assert!(single == whole && single == other);
        single.iter_mut().for_each(|block| dec.decrypt_block(block));
        both.decrypt_blocks(&mut whole);
        dec.decrypt_blocks_b2b(&other, &mut single[..]).unwrap();
        assert!(single == text && whole == text);
        assert!(both.encrypt_blocks_b2b(&text, &mut [Block::default(); 70]).is_err());
    }
}

#[test]
fn blocks() {
    agrees::<Aes128, Aes128Enc, Aes128Dec>();
    agrees::<Aes192, Aes192Enc, Aes192Dec>();
    agrees::<Aes256, Aes256Enc, Aes256Dec>();
}

#[test]
fn other_lengths_of_keys() {
    for length in (0..40).filter(|length| *length != 24) {
        assert!(Aes192::new_from_slice(&vec![0; length]).is_err());
    }
}

#[test]
fn no_key_is_printed() {
    let (aes, dec) = (Aes256::new(&[7; 32].into()), Aes192Dec::new(&[7; 24].into()));
    assert_eq!(format!("{aes:?} {aes:#?} {dec:?}"), "Aes256 { .. } Aes256 { .. } Aes192Dec { .. }");
}

/// Drops a value where it stands, and looks whether all its bytes are zero.
fn is_wiped<T>(value: T) -> bool {
    let mut value = ManuallyDrop::new(value);
    let bytes = (&raw const value).cast::<u8>();
    // SAFETY: the value is dropped once, and not used afterwards.
    unsafe { ManuallyDrop::drop(&mut value) };
    // SAFETY: the type consists of bytes, without padding, in a place that is still there.
    unsafe { core::slice::from_raw_parts(bytes, size_of::<T>()) }.iter().all(|byte| *byte == 0)
}

#[test]
fn wiped() {
    assert!(is_wiped(Aes128::new(&[42; 16].into())));
    assert!(is_wiped(Aes192Enc::new(&[42; 24].into())));
    assert!(is_wiped(Aes256Dec::new(&[42; 32].into())));
    assert!(is_wiped(Aes256Dec::from(Aes256Enc::new(&[42; 32].into()))));
}

const fn is_shared<T: Send + Sync + Unpin>() {}
const _: () = {
    is_shared::<Aes128>();
    is_shared::<Aes192Enc>();
    is_shared::<Aes256Dec>();
};

#[cfg(feature = "zeroize")]
#[test]
fn marked() {
    fn marked<T: zeroize::ZeroizeOnDrop>() {}
    marked::<Aes128>();
    marked::<Aes128Enc>();
    marked::<Aes128Dec>();
}

/// FIPS 197, C.1: the first rounds of Cipher and of EqInvCipher.
#[cfg(feature = "hazmat")]
mod single_rounds {
    use fotsgure_rustcrypto::hazmat::*;

    fn block(number: u128) -> Block {
        Block::from(number.to_be_bytes())
    }

    fn turns(round: fn(&mut Block, &Block), round_par: fn(&mut Block8, &Block8), key: u128, start: u128, end: u128) {
        let mut one = block(start);
        round(&mut one, &block(key));
        assert_eq!(one, block(end));
        let mut eight = Block8::from([block(start); 8]);
        round_par(&mut eight, &Block8::from([block(key); 8]));
        assert_eq!(eight, Block8::from([block(end); 8]));
    }

    #[test]
    fn of_cipher() {
        let (start, end) = (0x00102030405060708090a0b0c0d0e0f0, 0x89d810e8855ace682d1843d8cb128fe4);
        turns(cipher_round, cipher_round_par, 0xd6aa74fdd2af72fadaa678f1d6ab76fe, start, end);
    }

    #[test]
    fn of_equiv_inv_cipher() {
        let (start, end) = (0x7ad5fda789ef4e272bca100b3d9ff59f, 0x54d990a16ba09ab596bbf40ea111702f);
        turns(equiv_inv_cipher_round, equiv_inv_cipher_round_par, 0x13aa29be9c8faff6f770f58000f7bf03, start, end);
    }

    #[test]
    fn columns() {
        let (row, column) = (block(0xbd6e7c3df2b5779e0b61216e8b10b689), block(0x4773b91ff72f354361cb018ea1e6cf2c));
        let mut mixed = row;
        inv_mix_columns(&mut mixed);
        assert_eq!(mixed, column);
        mix_columns(&mut mixed);
        assert_eq!(mixed, row);
    }
}

#[cfg(feature = "aead")]
mod messages {
    use super::{is_shared, is_wiped};
    use cipher::consts::{U0, U1, U12, U13, U16};
    use fotsgure_rustcrypto::aes_gcm::{AeadInOut, Aes128, Aes128Gcm, Aes192, AesGcm, Error, KeyInit};
    use fotsgure_rustcrypto::aes_gcm_siv::{Aes128GcmSiv, Aes256GcmSiv};

    const _: () = {
        is_shared::<Aes128Gcm>();
        is_shared::<Aes256GcmSiv>();
    };

    #[test]
    fn wiped() {
        assert!(is_wiped(Aes128Gcm::new(&[42; 16].into())));
        assert!(is_wiped(Aes128GcmSiv::new(&[42; 16].into())));
    }

    /// In place and from buffer to buffer; a text that is refused isn't given out, and leaves `left` in another buffer of 2.
    fn comes_back<A: AeadInOut>(aead: &A, nonce: &aead::Nonce<A>, left: u8) {
        for length in [0, 1, 15, 16, 17, 64, 300] {
            let text: Vec<u8> = (0..length).map(|i| i as u8).collect();
            let (mut sealed, mut other, mut opened) = (text.clone(), vec![1; length], vec![2; length]);
            let tag = aead.encrypt_inout_detached(nonce, b"name", sealed.as_mut_slice().into()).unwrap();
            let pair = aead::inout::InOutBuf::new(&text, &mut other).unwrap();
            assert_eq!(aead.encrypt_inout_detached(nonce, b"name", pair).unwrap(), tag);
            assert_eq!(sealed, other);

            let pair = aead::inout::InOutBuf::new(&sealed, &mut opened).unwrap();
            assert_eq!(aead.decrypt_inout_detached(nonce, b"another", pair, &tag), Err(Error));
            assert_eq!(opened, vec![left; length]);
            let mut wrong = tag.clone();
            *wrong.last_mut().unwrap() ^= 1;
            assert_eq!(aead.decrypt_inout_detached(nonce, b"name", other.as_mut_slice().into(), &wrong), Err(Error));
            assert_eq!(sealed, other);

            let pair = aead::inout::InOutBuf::new(&sealed, &mut opened).unwrap();
            aead.decrypt_inout_detached(nonce, b"name", pair, &tag).unwrap();
            aead.decrypt_inout_detached(nonce, b"name", other.as_mut_slice().into(), &tag).unwrap();
            assert!(opened == text && other == text);
        }
    }

    #[test]
    fn gcm() {
        comes_back(&Aes128Gcm::new(&[1; 16].into()), &[2; 12].into(), 0);
        comes_back(&AesGcm::<Aes192, U1, U12>::new(&[1; 24].into()), &[2; 1].into(), 2);
        comes_back(&AesGcm::<Aes128, U16, U13>::new(&[1; 16].into()), &[2; 16].into(), 2);
        comes_back(&Aes256GcmSiv::new(&[1; 32].into()), &[2; 12].into(), 0);
    }

    /// A key of GCM from a cipher's is that of the same bytes.
    #[test]
    fn of_a_cipher() {
        let (mut text, mut other) = ([3; 40], [3; 40]);
        let tag = AesGcm::<Aes192, U12>::new(&[1; 24].into())
            .encrypt_inout_detached(&[2; 12].into(), b"name", text.as_mut_slice().into())
            .unwrap();
        let gcm = AesGcm::<Aes192, U12>::from(Aes192::new(&[1; 24].into()));
        assert_eq!(gcm.encrypt_inout_detached(&[2; 12].into(), b"name", other.as_mut_slice().into()), Ok(tag));
        assert_eq!(text, other);
    }

    #[test]
    fn no_key_is_printed() {
        let gcm = AesGcm::<Aes128, U12>::new(&[7; 16].into());
        let siv = fotsgure_rustcrypto::aes_gcm_siv::Aes128GcmSiv::new(&[7; 16].into());
        assert_eq!(format!("{gcm:?} {gcm:#?} {siv:?}"), "AesGcm { .. } AesGcm { .. } AesGcmSiv { .. }");
    }

    #[cfg(feature = "hazmat-tags")]
    #[test]
    fn short_tags() {
        use cipher::consts::{U4, U8};
        comes_back(&AesGcm::<Aes128, U12, U4>::new(&[1; 16].into()), &[2; 12].into(), 2);
        comes_back(&AesGcm::<Aes128, U12, U8>::new(&[1; 16].into()), &[2; 12].into(), 2);
    }

    #[test]
    fn no_nonce() {
        let gcm = AesGcm::<Aes128, U0>::new(&[1; 16].into());
        let (text, mut other) = ([1], [2]);
        let pair = aead::inout::InOutBuf::new(&text, &mut other).unwrap();
        assert_eq!(gcm.encrypt_inout_detached(&[].into(), b"", pair), Err(Error));
        let pair = aead::inout::InOutBuf::new(&text, &mut other).unwrap();
        assert_eq!(gcm.decrypt_inout_detached(&[].into(), b"", pair, &[0; 16].into()), Err(Error));
        assert_eq!(other, [2]);
    }
}
