//! The example of FIPS 197, C.3: a block is encrypted under a key of 32 bytes, and decrypted again. Bare blocks
//! protect no message.

use fotsgure_aes::{Aes, InvalidLength};

fn main() -> Result<(), InvalidLength> {
    let key: [u8; 32] = std::array::from_fn(|i| i as u8);
    let plain = [0x00112233445566778899aabbccddeeff_u128.to_be_bytes()];
    let mut blocks = plain;
    let aes = Aes::new(&key)?; // a slice of another length is an error
    aes.encrypt_blocks(&mut blocks);
    assert_eq!(u128::from_be_bytes(blocks[0]), 0x8ea2b7ca516745bfeafc49904b496089);
    aes.decrypt_blocks(&mut blocks);
    assert_eq!(blocks, plain);
    Ok(())
} // `aes` is dropped, which wipes its key schedule
