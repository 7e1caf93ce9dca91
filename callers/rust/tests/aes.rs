//! The block cipher and its modes through this crate: the standards' examples, and every refusal.

use fotsgure_aes::{version, Aes, KeyWrap, KeystreamEnd, NotWrapped};

// FIPS 197, appendix C: the key counts from 00 on.
const C_PLAIN: u128 = 0x00112233445566778899aabbccddeeff;
const C_ROWS: [(usize, u128); 3] = [
    (16, 0x69c4e0d86a7b0430d8cdb78070b4c55a),
    (24, 0xdda97ca4864cdfe06eaf70a0ec0d7191),
    (32, 0x8ea2b7ca516745bfeafc49904b496089),
];

// SP 800-38A, F.5.1, F.5.3 and F.5.5: two blocks of counter mode.
const F_IV: u128 = 0xf0f1f2f3f4f5f6f7f8f9fafbfcfdfeff;
const F_PLAIN: &str = concat!(
    "6bc1bee22e409f96e93d7e117393172aae2d8a571e03ac9c9eb76fac45af8e51",
    "30c81c46a35ce411e5fbc1191a0a52eff69f2445df4f9b17ad2b417be66c3710",
);
const F_ROWS: [(&str, &str); 3] = [
    (
        "2b7e151628aed2a6abf7158809cf4f3c",
        concat!(
            "874d6191b620e3261bef6864990db6ce9806f66b7970fdff8617187bb9fffdff",
            "5ae4df3edbd5d35e5b4f09020db03eab1e031dda2fbe03d1792170a0f3009cee",
        ),
    ),
    (
        "8e73b0f7da0e6452c810f32b809079e562f8ead2522c6b7b",
        concat!(
            "1abc932417521ca24f2b0459fe7e6e0b090339ec0aa6faefd5ccc2c6f4ce8e94",
            "1e36b26bd1ebc670d1bd1d665620abf74f78a7f6d29809585a97daec58c6b050",
        ),
    ),
    (
        "603deb1015ca71be2b73aef0857d77811f352c073b6108d72d9810a30914dff4",
        concat!(
            "601ec313775789a5b7a7f504bbf3d228f443e3ca4d62b59aca84e990cacaf5c5",
            "2b0930daa23de94ce87017ba2d84988ddfc9c58db67aada613c2dd08457941a6",
        ),
    ),
];

fn bytes_of(digits: &str) -> Vec<u8> {
    (0..digits.len()).step_by(2).map(|i| u8::from_str_radix(&digits[i..i + 2], 16).unwrap()).collect()
}

fn blocks_of(digits: &str) -> Vec<[u8; 16]> {
    bytes_of(digits).chunks(16).map(|block| block.try_into().unwrap()).collect()
}

fn counted(size: usize) -> Vec<u8> {
    (0..size as u8).collect()
}

#[test]
fn version_of_the_assembly() {
    let numbers: Vec<u32> = env!("CARGO_PKG_VERSION").split('.').map(|it| it.parse().unwrap()).collect();
    assert_eq!(version(), 10000 * numbers[0] + 100 * numbers[1] + numbers[2]);
}

#[test]
fn fips_197() {
    for (size, cipher) in C_ROWS {
        let aes = Aes::new(&counted(size)).unwrap();
        let mut block = [C_PLAIN.to_be_bytes()];
        aes.encrypt_blocks(&mut block);
        assert_eq!(u128::from_be_bytes(block[0]), cipher);
        aes.decrypt_blocks(&mut block);
        assert_eq!(u128::from_be_bytes(block[0]), C_PLAIN);
    }
}

/// A call on many blocks does what calls on each do.
#[test]
fn slices() {
    for (size, _) in C_ROWS {
        let aes = Aes::new(&counted(size)).unwrap();
        for count in 0..=40u128 {
            let text: Vec<[u8; 16]> = (0..count).map(|i| (i * i * i + 7).wrapping_mul(C_PLAIN).to_be_bytes()).collect();
            let (mut whole, mut single) = (text.clone(), text.clone());
            aes.encrypt_blocks(&mut whole);
            single.iter_mut().for_each(|block| aes.encrypt_blocks(std::slice::from_mut(block)));
            assert_eq!(whole, single);
            aes.decrypt_blocks(&mut whole);
            assert_eq!(whole, text);
        }
    }
}

#[test]
fn counter_mode_cut_at_each_place() {
    for (key, cipher) in F_ROWS {
        let (aes, plain, cipher) = (Aes::new(&bytes_of(key)).unwrap(), bytes_of(F_PLAIN), bytes_of(cipher));
        for cut in 0..=64 {
            let (mut stream, mut bytes) = (aes.keystream(F_IV.to_be_bytes()), plain.clone());
            stream.apply(&mut bytes[..cut]).unwrap();
            stream.apply(&mut bytes[cut..]).unwrap();
            assert_eq!(bytes, cipher);
            let mut copied = vec![0; 64 - cut];
            stream.seek(cut as u64);
            stream.apply_to(&cipher[cut..], &mut copied).unwrap();
            assert_eq!(copied, plain[cut..]);
            assert_eq!(stream.position(), 64);
        }
    }
}

#[test]
fn the_end_of_a_keystream() {
    let aes = Aes::new(&[7; 16]).unwrap();
    let mut stream = aes.keystream([0xff; 16]);
    stream.seek(u64::MAX - 1);
    let mut bytes = [1, 2];
    assert_eq!(stream.apply(&mut bytes), Err(KeystreamEnd));
    assert_eq!(bytes, [1, 2]);
    assert_eq!(stream.apply(&mut bytes[..1]), Ok(()));
}

/// SP 800-38A, F.2.1 and F.2.2, cut at each block.
#[test]
fn cbc() {
    let iv = 0x000102030405060708090a0b0c0d0e0f_u128.to_be_bytes();
    let cipher = blocks_of(concat!(
        "7649abac8119b246cee98e9b12e9197d5086cb9b507219ee95db113a917678b2",
        "73bed6b8e3c1743b7116e69e222295163ff1caa1681fac09120eca307586e1a7",
    ));
    let aes = Aes::new(&bytes_of(F_ROWS[0].0)).unwrap();
    for cut in 0..=4 {
        let (mut blocks, mut chain) = (blocks_of(F_PLAIN), aes.cbc(iv));
        chain.encrypt(&mut blocks[..cut]);
        chain.encrypt(&mut blocks[cut..]);
        assert_eq!(blocks, cipher);
        let mut chain = aes.cbc(iv);
        chain.decrypt(&mut blocks[..cut]);
        chain.decrypt(&mut blocks[cut..]);
        assert_eq!(blocks, blocks_of(F_PLAIN));
    }
}

/// RFC 3394, 4.6: a key of 32 bytes under another one.
#[test]
fn key_wrap() {
    let wrapping = KeyWrap::new(&counted(32)).unwrap();
    let key = bytes_of("00112233445566778899aabbccddeeff000102030405060708090a0b0c0d0e0f");
    let (mut wrapped, mut unwrapped) = ([0; 40], [1; 32]);
    wrapping.wrap(&key, &mut wrapped).unwrap();
    assert_eq!(
        wrapped[..],
        bytes_of("28c9f404c4b810f4cbccb35cfb87f8263f5786e2d80ed326cbc7f0e71a99f43bfb988b9b7a02dd21")
    );
    wrapping.unwrap_key(&wrapped, &mut unwrapped).unwrap();
    assert_eq!(unwrapped[..], key[..]);
    wrapped[39] ^= 1;
    assert_eq!(wrapping.unwrap_key(&wrapped, &mut unwrapped), Err(NotWrapped::Refused));
    assert_eq!(unwrapped, [0; 32]);
}

/// RFC 5649, 6: keys of 20 and of 7 bytes.
#[test]
fn key_wrap_with_padding() {
    let wrapping = KeyWrap::new(&bytes_of("5840df6e29b02af1ab493b705bf16ea1ae8338f4dcc176a8")).unwrap();
    let rows = [
        (
            "c37b7e6492584340bed12207808941155068f738",
            "138bdeaa9b8fa7fc61f97742e72248ee5ae6ae5360d1ae6a5f54f373fa543b6a",
        ),
        ("466f7250617369", "afbeb0f07dfbf5419200f2ccb50bb24f"),
    ];
    for (key, cipher) in rows {
        let (key, cipher) = (bytes_of(key), bytes_of(cipher));
        let (mut wrapped, mut unwrapped) = (vec![0; cipher.len()], vec![1; cipher.len() - 8]);
        wrapping.wrap_padded(&key, &mut wrapped).unwrap();
        assert_eq!(wrapped, cipher);
        assert_eq!(wrapping.unwrap_padded(&wrapped, &mut unwrapped), Ok(key.len()));
        assert_eq!(unwrapped[..key.len()], key[..]);
        assert!(unwrapped[key.len()..].iter().all(|byte| *byte == 0));
        wrapped[0] ^= 1;
        assert_eq!(wrapping.unwrap_padded(&wrapped, &mut unwrapped), Err(NotWrapped::Refused));
    }
}

#[test]
fn keys_of_lengths_that_are_not_wrapped() {
    let (wrapping, mut output) = (KeyWrap::new(&[7; 16]).unwrap(), [1; 40]);
    let lengths = [(8, 16), (15, 24), (16, 16), (16, 23), (16, 32), (0, 8)];
    for (key, other) in lengths {
        assert_eq!(wrapping.wrap(&[2; 40][..key], &mut output[..other]), Err(NotWrapped::Length));
        assert_eq!(wrapping.unwrap_key(&[2; 40][..other], &mut output[..key]), Err(NotWrapped::Length));
    }
    for (key, other) in [(0, 8), (9, 16), (8, 24), (9, 25)] {
        assert_eq!(wrapping.wrap_padded(&[2; 40][..key], &mut output[..other]), Err(NotWrapped::Length));
    }
    for (other, room) in [(8, 0), (24, 8), (24, 17)] {
        assert_eq!(wrapping.unwrap_padded(&[2; 40][..other], &mut output[..room]), Err(NotWrapped::Length));
    }
    assert_eq!(output, [1; 40]);
}

#[test]
fn a_clone_outlives_the_first_value() {
    let aes = Aes::new(&counted(32)).unwrap();
    let copy = aes.clone();
    drop(aes);
    let mut block = [C_PLAIN.to_be_bytes()];
    copy.encrypt_blocks(&mut block);
    assert_eq!(u128::from_be_bytes(block[0]), C_ROWS[2].1);
}

#[test]
fn no_key_and_no_counter_block_is_printed() {
    let aes = Aes::new(&counted(32)).unwrap();
    let mut stream = aes.keystream([7; 16]);
    stream.seek(21);
    assert_eq!(format!("{aes:?}"), "Aes { .. }");
    assert_eq!(format!("{stream:?}"), "Keystream { position: 21, .. }");
    assert_eq!(format!("{:?}", aes.cbc([7; 16])), "Cbc { .. }");
    assert_eq!(format!("{:?}", KeyWrap::new(&[7; 16]).unwrap()), "KeyWrap(Aes { .. })");
}

#[test]
fn keys_of_other_lengths() {
    for size in (0..=34).filter(|size| !matches!(size, 16 | 24 | 32)) {
        assert_eq!(Aes::new(&counted(size)).unwrap_err().to_string(), "an AES key has 16, 24 or 32 bytes");
        assert!(KeyWrap::new(&counted(size)).is_err());
    }
}
