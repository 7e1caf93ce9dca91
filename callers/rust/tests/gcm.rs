//! GCM and AES-GCM-SIV through this crate: the standards' examples, whole and in pieces, and every refusal.

use fotsgure_aes::gcm::{Counter, Gcm, GcmSiv, NotAccepted, NotSealed, Refused};
use fotsgure_aes::Aes;

// Test case 4 of the submission of GCM (McGrew and Viega, appendix B).
const KEY: &str = "feffe9928665731c6d6a8f9467308308";
const NONCE: &str = "cafebabefacedbaddecaf888";
const ADDITIONAL: &str = "feedfacedeadbeeffeedfacedeadbeefabaddad2";
const PLAIN: &str = concat!(
    "d9313225f88406e5a55909c5aff5269a86a7a9531534f7da2e4c303d8a318a72",
    "1c3c0c95956809532fcf0e2449a6b525b16aedf5aa0de657ba637b39",
);
const CIPHER: &str = concat!(
    "42831ec2217774244b7221b784d0d49ce3aa212f2c02a4e035c17e2329aca12e",
    "21d514b25466931c7d8f6a5aac84aa051ba30b396a0aac973d58e091",
);
const TAG: &str = "5bc94fbc3221a5db94fae95ae7121a47";

fn bytes_of(digits: &str) -> Vec<u8> {
    (0..digits.len()).step_by(2).map(|i| u8::from_str_radix(&digits[i..i + 2], 16).unwrap()).collect()
}

fn gcm() -> Gcm {
    Gcm::new(&bytes_of(KEY)).unwrap()
}

#[test]
fn case_4() {
    let (gcm, nonce, additional) = (gcm(), bytes_of(NONCE), bytes_of(ADDITIONAL));
    let (mut text, tag) = (bytes_of(PLAIN), bytes_of(TAG));
    assert_eq!(gcm.seal(&nonce, &additional, &mut text).unwrap()[..], tag[..]);
    assert_eq!(text, bytes_of(CIPHER));
    assert_eq!(gcm.open(&nonce, b"", &mut text, &tag), Err(Refused));
    assert_eq!(gcm.open(&nonce, &additional, &mut text, &tag[..15]), Err(Refused));
    assert_eq!(gcm.open(b"", &additional, &mut text, &tag), Err(Refused));
    assert_eq!(text, bytes_of(CIPHER));
    assert_eq!(gcm.seal(b"", &additional, &mut text), Err(NotSealed::NonceLength));
    assert_eq!(gcm.open(&nonce, &additional, &mut text, &tag), Ok(()));
    assert_eq!(text, bytes_of(PLAIN));
}

#[test]
fn case_4_to_another_buffer() {
    let (nonce, additional, tag) = (bytes_of(NONCE), bytes_of(ADDITIONAL), bytes_of(TAG));
    for gcm in [gcm(), gcm().clone(), Gcm::from(&Aes::new(&bytes_of(KEY)).unwrap())] {
        let (mut sealed, mut opened) = (vec![1; PLAIN.len() / 2], vec![2; PLAIN.len() / 2]);
        assert_eq!(gcm.seal_to(&nonce, &additional, &bytes_of(PLAIN), &mut sealed).unwrap()[..], tag[..]);
        assert_eq!(sealed, bytes_of(CIPHER));
        assert_eq!(gcm.open_to(&nonce, &additional, &sealed, &tag[..15], &mut opened), Err(Refused));
        assert_eq!(opened, vec![2; PLAIN.len() / 2]);
        assert_eq!(gcm.open_to(&nonce, b"", &sealed, &tag, &mut opened), Err(Refused));
        assert_eq!(opened, vec![0; PLAIN.len() / 2]);
        assert_eq!(gcm.open_to(&nonce, &additional, &sealed, &tag, &mut opened), Ok(()));
        assert_eq!(opened, bytes_of(PLAIN));
    }
}

/// A text of each length comes back; one that was changed doesn't, and stays as it was.
#[test]
fn texts_under_the_next_nonce() {
    let (gcm, mut counter) = (gcm(), Counter { next: [0; 12] });
    for length in 0..=300 {
        let text: Vec<u8> = (0..length).map(|i| (i % 251) as u8).collect();
        let (additional, mut sealed) = (&text[..length / 3], text.clone());
        let (nonce, mut tag) = gcm.seal_next(&mut counter, additional, &mut sealed).unwrap();
        let mut opened = sealed.clone();
        assert_eq!(gcm.open(&nonce, additional, &mut opened, &tag), Ok(()));
        assert_eq!(opened, text);
        tag[length % 16] ^= 4;
        opened.copy_from_slice(&sealed);
        assert_eq!(gcm.open(&nonce, additional, &mut opened, &tag), Err(Refused));
        assert_eq!(opened, sealed);
    }
    assert_eq!(counter.next, [0, 0, 0, 0, 0, 0, 0, 0, 0, 0, 1, 45]);
}

#[test]
fn case_4_in_pieces() {
    let (gcm, additional, tag) = (gcm(), bytes_of(ADDITIONAL), bytes_of(TAG));
    for size in 1..70 {
        let mut text = bytes_of(PLAIN);
        let mut message = gcm.begin(&bytes_of(NONCE)).unwrap();
        additional.chunks(size).try_for_each(|piece| message.additional(piece)).unwrap();
        text.chunks_mut(size).try_for_each(|piece| message.encrypt(piece)).unwrap();
        assert_eq!(text, bytes_of(CIPHER));
        assert_eq!(message.finish().unwrap()[..], tag[..]);
        for length in [16, 15, 12, 8, 4] {
            let mut message = gcm.begin(&bytes_of(NONCE)).unwrap();
            additional.chunks(size).try_for_each(|piece| message.additional(piece)).unwrap();
            text.chunks(size).try_for_each(|piece| message.verify(piece)).unwrap();
            match length {
                16 => message.accept(&tag),
                _ => message.accept_short(length, &tag[..length]),
            }
            .unwrap();
            let mut opened = text.clone();
            opened.chunks_mut(size).try_for_each(|piece| message.decrypt(piece)).unwrap();
            assert_eq!(opened, bytes_of(PLAIN));
            assert_eq!(message.decrypt(&mut [0]), Err(NotAccepted::TooLong));
        }
    }
}

/// Calls out of turn, a wrong tag, a tag that was cut.
#[test]
fn pieces_that_are_refused() {
    let (gcm, cipher, tag) = (gcm(), bytes_of(CIPHER), bytes_of(TAG));
    let mut message = gcm.begin(&bytes_of(NONCE)).unwrap();
    message.verify(&cipher).unwrap();
    assert_eq!(message.additional(b""), Err(NotAccepted::OutOfTurn));
    assert_eq!(message.decrypt(&mut [0]), Err(NotAccepted::OutOfTurn));
    assert_eq!(message.accept(&tag), Err(NotAccepted::Refused));
    assert_eq!(message.accept(&tag[..15]), Err(NotAccepted::Refused));
    assert_eq!(message.accept_short(12, &tag[..12]), Err(NotAccepted::Refused));
    assert_eq!(message.accept_short(12, &tag[..11]), Err(NotAccepted::Refused));
    assert_eq!(message.accept_short(11, &tag[..11]), Err(NotAccepted::Refused));
    assert_eq!(message.encrypt(&mut [0]), Err(NotAccepted::OutOfTurn));
    assert_eq!(message.finish(), Err(NotAccepted::OutOfTurn));
    assert_eq!(gcm.begin(b"").unwrap_err(), NotSealed::NonceLength);
}

#[test]
fn the_end_of_the_nonces() {
    let gcm = gcm();
    let mut counter = Counter { next: [0xff; 12] };
    assert_eq!(gcm.begin_next(&mut counter).unwrap_err(), NotSealed::NoncesEnd);
    assert_eq!(gcm.seal_next(&mut counter, b"", &mut []), Err(NotSealed::NoncesEnd));
    let mut counter = Counter { next: [0, 0, 0, 0, 0, 0, 0, 0, 0, 0, 1, 45] };
    let (nonce, message) = gcm.begin_next(&mut counter).unwrap();
    assert_eq!((nonce[10..].to_vec(), counter.next[11]), (vec![1, 45], 46));
    assert!(message.finish().is_ok());
}

/// A message of RFC 8452, appendix C.1.
#[test]
fn gcm_siv_c_1() {
    let siv = GcmSiv::new(&bytes_of("01000000000000000000000000000000")).unwrap();
    let nonce = [3, 0, 0, 0, 0, 0, 0, 0, 0, 0, 0, 0];
    let mut text = bytes_of("0100000000000000");
    let tag = siv.seal(&nonce, b"", &mut text).unwrap();
    assert_eq!(text, bytes_of("b5d839330ac7b786"));
    assert_eq!(tag[..], bytes_of("578782fff6013b815b287c22493a364c"));
    let mut opened = [2; 8];
    assert_eq!(siv.open_to(&nonce, b"another name", &text, &tag, &mut opened), Err(Refused));
    assert_eq!(opened, [0; 8]);
    assert_eq!(siv.open_to(&nonce, b"", &text, &tag, &mut opened), Ok(()));
    assert_eq!(siv.seal_to(&nonce, b"", &opened, &mut [0; 8]), Ok(tag));
    for (nonce, tag) in [(&nonce[..11], &tag[..]), (&[3; 13], &tag), (&nonce, &tag[..15]), (&nonce, &[0; 17])] {
        assert_eq!(siv.open(nonce, b"", &mut text, tag), Err(Refused));
        assert_eq!(siv.open_to(nonce, b"", &text, tag, &mut [0; 8]), Err(Refused));
    }
    assert_eq!(siv.seal(&nonce[..11], b"", &mut text), Err(NotSealed::NonceLength));
    assert_eq!(siv.seal_to(&nonce[..11], b"", &opened, &mut [0; 8]), Err(NotSealed::NonceLength));
    assert_eq!(siv.clone().open(&nonce, b"", &mut text, &tag), Ok(()));
    assert_eq!(text, bytes_of("0100000000000000"));
    assert_eq!(opened[..], text);
}

#[test]
fn texts_under_random_nonces() {
    let siv = GcmSiv::new(&[7; 32]).unwrap();
    for length in 0..=300 {
        let text: Vec<u8> = (0..length).map(|i| (i % 251) as u8).collect();
        let (additional, mut sealed) = (&text[..length / 3], text.clone());
        let (nonce, mut tag) = siv.seal_random(additional, &mut sealed).unwrap();
        let mut opened = sealed.clone();
        assert_eq!(siv.open(&nonce, additional, &mut opened, &tag), Ok(()));
        assert_eq!(opened, text);
        tag[length % 16] ^= 4;
        opened.copy_from_slice(&sealed);
        assert_eq!(siv.open(&nonce, additional, &mut opened, &tag), Err(Refused));
        assert_eq!(opened, sealed);
    }
    let nonces = [(); 2].map(|()| siv.seal_random(b"", &mut []).unwrap().0);
    assert_ne!(nonces[0], nonces[1]);
}

/// Test case 4 of GCM, and the message of RFC 8452, with the tag after the text.
#[cfg(feature = "alloc")]
#[test]
fn messages_as_vec() {
    let (gcm, nonce, additional) = (gcm(), bytes_of(NONCE), bytes_of(ADDITIONAL));
    let sealed = gcm.seal_vec(&nonce, &additional, &bytes_of(PLAIN)).unwrap();
    assert_eq!(sealed, [bytes_of(CIPHER), bytes_of(TAG)].concat());
    assert_eq!(gcm.open_vec(&nonce, &additional, &sealed), Ok(bytes_of(PLAIN)));
    for length in 0..sealed.len() {
        assert_eq!(gcm.open_vec(&nonce, &additional, &sealed[..length]), Err(Refused));
    }
    let (first, sealed) = gcm.seal_next_vec(&mut Counter { next: [0; 12] }, b"", b"").unwrap();
    assert_eq!((first, sealed.len(), gcm.open_vec(&first, b"", &sealed)), ([0; 12], 16, Ok(vec![])));

    let siv = GcmSiv::new(&bytes_of("01000000000000000000000000000000")).unwrap();
    let nonce = [3, 0, 0, 0, 0, 0, 0, 0, 0, 0, 0, 0];
    let sealed = siv.seal_vec(&nonce, b"", &bytes_of("0100000000000000")).unwrap();
    assert_eq!(sealed, bytes_of("b5d839330ac7b786578782fff6013b815b287c22493a364c"));
    assert_eq!(siv.open_vec(&nonce, b"", &sealed), Ok(bytes_of("0100000000000000")));
    assert_eq!(siv.open_vec(&nonce, b"", &sealed[..15]), Err(Refused));
    let (nonce, sealed) = siv.seal_random_vec(b"its name", b"a message").unwrap();
    assert_eq!(siv.open_vec(&nonce, b"its name", &sealed).unwrap(), b"a message");
}

#[test]
fn no_key_is_printed() {
    let (gcm, siv) = (gcm(), GcmSiv::new(&[7; 16]).unwrap());
    assert_eq!(format!("{gcm:?} {gcm:#?} {siv:?} {siv:#?}"), "Gcm { .. } Gcm { .. } GcmSiv { .. } GcmSiv { .. }");
    assert_eq!(format!("{:?}", gcm.begin(&bytes_of(NONCE)).unwrap()), "Message { .. }");
}

#[test]
fn keys_of_other_lengths() {
    assert_eq!(Gcm::new(&[0; 17]).unwrap_err().to_string(), "an AES key has 16, 24 or 32 bytes");
    assert_eq!(GcmSiv::new(&[0; 24]).unwrap_err().to_string(), "a key of AES-GCM-SIV has 16 or 32 bytes");
}
