// Made by tools/dist from dist/include/fotsgure_aes.h. Don't edit it.
//! What `fotsgure_aes.h` declares. The header says what each call does, and what you have to ensure.

pub const FOTSGURE_AES_VERSION: u32 = 400;
pub const FOTSGURE_AES_BLOCK: u32 = 16;
pub const FOTSGURE_AES_EIGHT_BLOCKS: u32 = 128;
pub const FOTSGURE_AES_STACK: u32 = 16384;
pub const FOTSGURE_AES_DONE: u32 = 0;
pub const FOTSGURE_AES_KEY_LENGTH: u32 = 1;
pub const FOTSGURE_AES_NO_KEY: u32 = 2;
pub const FOTSGURE_AES_UNEQUAL_COUNTS: u32 = 3;
pub const FOTSGURE_AES_KEYSTREAM_END: u32 = 4;
pub const FOTSGURE_AES_INVALID_COUNT: u32 = 5;
pub const FOTSGURE_AES_REFUSED: u32 = 6;
pub const FOTSGURE_AES_TAG_LENGTH: u32 = 7;
pub const FOTSGURE_AES_NONCE_LENGTH: u32 = 8;
pub const FOTSGURE_AES_TOO_LONG: u32 = 9;
pub const FOTSGURE_AES_OUT_OF_TURN: u32 = 10;

#[cfg(target_arch = "riscv64")]
pub type fotsgure_aes_word = u64;
#[cfg(not(target_arch = "riscv64"))]
pub type fotsgure_aes_word = u32;

#[repr(C)]
#[derive(Clone)]
pub struct fotsgure_aes {
    pub key_length: fotsgure_aes_word,
    pub round_keys: [fotsgure_aes_word; 120],
}

#[repr(C)]
#[derive(Clone)]
pub struct fotsgure_aes_ctr {
    pub iv: [u8; 16],
    pub position: u64,
}

#[repr(C)]
#[derive(Clone)]
pub struct fotsgure_aes_cbc {
    pub previous: [u8; 16],
}

#[repr(C)]
#[derive(Clone)]
pub struct fotsgure_aes_cmac_message {
    pub begun: u64,
    pub rest_length: u64,
    pub value: [u8; 16],
    pub rest: [u8; 16],
}

const _: () = assert!(core::mem::size_of::<fotsgure_aes>() == 121 * core::mem::size_of::<fotsgure_aes_word>());
const _: () = assert!(core::mem::size_of::<fotsgure_aes_ctr>() == 24);
const _: () = assert!(core::mem::size_of::<fotsgure_aes_cbc>() == 16);
const _: () = assert!(core::mem::size_of::<fotsgure_aes_cmac_message>() == 48);

library! {
    "aes":
    fn fotsgure_aes_version() -> u32;
    fn fotsgure_aes_set_key(aes: *mut fotsgure_aes, key: *const u8, key_length: usize) -> u32;
    fn fotsgure_aes_key_length(aes: *const fotsgure_aes) -> usize;
    fn fotsgure_aes_wipe(aes: *mut fotsgure_aes);
    fn fotsgure_aes_encrypt_blocks(aes: *const fotsgure_aes, blocks: *mut u8, count: usize) -> u32;
    fn fotsgure_aes_decrypt_blocks(aes: *const fotsgure_aes, blocks: *mut u8, count: usize) -> u32;
    fn fotsgure_aes_encrypt_blocks_to(aes: *const fotsgure_aes, input: *const u8, input_count: usize,
        output: *mut u8, output_count: usize) -> u32;
    fn fotsgure_aes_decrypt_blocks_to(aes: *const fotsgure_aes, input: *const u8, input_count: usize,
        output: *mut u8, output_count: usize) -> u32;
    fn fotsgure_aes_add_keystream(aes: *const fotsgure_aes, ctr: *mut fotsgure_aes_ctr, bytes: *mut u8,
        count: usize) -> u32;
    fn fotsgure_aes_add_keystream_to(aes: *const fotsgure_aes, ctr: *mut fotsgure_aes_ctr, input: *const u8,
        input_count: usize, output: *mut u8, output_count: usize) -> u32;
    fn fotsgure_aes_cbc_encrypt(aes: *const fotsgure_aes, cbc: *mut fotsgure_aes_cbc, blocks: *mut u8,
        count: usize) -> u32;
    fn fotsgure_aes_cbc_decrypt(aes: *const fotsgure_aes, cbc: *mut fotsgure_aes_cbc, blocks: *mut u8,
        count: usize) -> u32;
    fn fotsgure_aes_wrap(aes: *const fotsgure_aes, input: *const u8, input_count: usize, output: *mut u8,
        output_count: usize) -> u32;
    fn fotsgure_aes_unwrap(aes: *const fotsgure_aes, input: *const u8, input_count: usize, output: *mut u8,
        output_count: usize) -> u32;
    fn fotsgure_aes_wrap_padded(aes: *const fotsgure_aes, input: *const u8, input_length: usize, output: *mut u8,
        output_count: usize) -> u32;
    fn fotsgure_aes_unwrap_padded(aes: *const fotsgure_aes, input: *const u8, input_count: usize, output: *mut u8,
        output_count: usize, key_length: *mut usize) -> u32;
    fn fotsgure_aes_cmac(aes: *const fotsgure_aes, message: *const u8, message_length: usize,
        tag: *mut [u8; 16]) -> u32;
    fn fotsgure_aes_cmac_verify(aes: *const fotsgure_aes, message: *const u8, message_length: usize, tag: *const u8,
        tag_length: usize) -> u32;
    fn fotsgure_aes_cmac_begin(aes: *const fotsgure_aes, message: *mut fotsgure_aes_cmac_message) -> u32;
    fn fotsgure_aes_cmac_update(aes: *const fotsgure_aes, message: *mut fotsgure_aes_cmac_message, bytes: *const u8,
        count: usize) -> u32;
    fn fotsgure_aes_cmac_finish(aes: *const fotsgure_aes, message: *mut fotsgure_aes_cmac_message,
        tag: *mut [u8; 16]) -> u32;
    fn fotsgure_aes_cmac_accept(aes: *const fotsgure_aes, message: *mut fotsgure_aes_cmac_message, tag: *const u8,
        tag_length: usize) -> u32;
    fn fotsgure_aes_cmac_wipe(message: *mut fotsgure_aes_cmac_message);
    fn fotsgure_aes_ccm_seal(aes: *const fotsgure_aes, nonce: *const u8, nonce_length: usize, additional: *const u8,
        additional_length: usize, text: *mut u8, text_length: usize, tag: *mut u8, tag_length: usize) -> u32;
    fn fotsgure_aes_ccm_open(aes: *const fotsgure_aes, nonce: *const u8, nonce_length: usize, additional: *const u8,
        additional_length: usize, text: *mut u8, text_length: usize, tag: *const u8, tag_length: usize) -> u32;
    fn fotsgure_aes_cipher_round(block: *mut [u8; 16], round_key: *const [u8; 16]);
    fn fotsgure_aes_equiv_inv_cipher_round(block: *mut [u8; 16], round_key: *const [u8; 16]);
    fn fotsgure_aes_cipher_round_par(blocks: *mut [u8; 128], round_keys: *const [u8; 128]);
    fn fotsgure_aes_equiv_inv_cipher_round_par(blocks: *mut [u8; 128], round_keys: *const [u8; 128]);
    fn fotsgure_aes_mix_columns(block: *mut [u8; 16]);
    fn fotsgure_aes_inv_mix_columns(block: *mut [u8; 16]);
    fn fotsgure_aes_encrypt_blocks_with(key: *const u8, key_length: usize, blocks: *mut u8, count: usize) -> u32;
    fn fotsgure_aes_decrypt_blocks_with(key: *const u8, key_length: usize, blocks: *mut u8, count: usize) -> u32;
    fn fotsgure_aes_add_keystream_with(key: *const u8, key_length: usize, ctr: *mut fotsgure_aes_ctr,
        bytes: *mut u8, count: usize) -> u32;
}
