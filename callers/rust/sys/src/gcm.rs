// Made by tools/dist from dist/include/fotsgure_gcm.h. Don't edit it.
//! What `fotsgure_gcm.h` declares. The header says what each call does, and what you have to ensure.

use crate::aes::fotsgure_aes;

pub const FOTSGURE_GCM_VERSION: u32 = 400;
pub const FOTSGURE_GCM_NONCE: u32 = 12;
pub const FOTSGURE_GCM_TAG: u32 = 16;
pub const FOTSGURE_GCM_SIV_NONCE: u32 = 12;
pub const FOTSGURE_GCM_STACK: u32 = 16384;
pub const FOTSGURE_GCM_DONE: u32 = 0;
pub const FOTSGURE_GCM_KEY_LENGTH: u32 = 1;
pub const FOTSGURE_GCM_NO_KEY: u32 = 2;
pub const FOTSGURE_GCM_NONCE_LENGTH: u32 = 3;
pub const FOTSGURE_GCM_TAG_LENGTH: u32 = 4;
pub const FOTSGURE_GCM_TOO_LONG: u32 = 5;
pub const FOTSGURE_GCM_REFUSED: u32 = 6;
pub const FOTSGURE_GCM_NONCES_END: u32 = 7;
pub const FOTSGURE_GCM_OUT_OF_TURN: u32 = 8;
pub const FOTSGURE_GCM_NO_RANDOMNESS: u32 = 9;
pub const FOTSGURE_GCM_UNEQUAL_LENGTHS: u32 = 10;
pub const FOTSGURE_GCM_ROUND_KEYS: u32 = 240;
pub const FOTSGURE_GCM_MULTIPLES: u32 = 1536;

#[cfg(target_arch = "riscv64")]
pub type fotsgure_gcm_word = u64;
#[cfg(not(target_arch = "riscv64"))]
pub type fotsgure_gcm_word = u32;

#[repr(C)]
#[derive(Clone)]
pub struct fotsgure_gcm {
    pub key_length: fotsgure_gcm_word,
    pub round_keys: [u8; 240],
    pub multiples: [u8; 1536],
}

#[repr(C)]
#[derive(Clone)]
pub struct fotsgure_gcm_counter {
    pub next: [u8; 12],
}

#[repr(C)]
#[derive(Clone)]
pub struct fotsgure_gcm_message {
    pub additional: u64,
    pub text: u64,
    pub decrypted: u64,
    pub phase: u64,
    pub first: [u8; 16],
    pub value: [u8; 16],
    pub rest: [u8; 16],
}

#[repr(C)]
#[derive(Clone)]
pub struct fotsgure_gcm_siv {
    pub key_length: fotsgure_gcm_word,
    pub round_keys: [fotsgure_gcm_word; 120],
}

const _: () = assert!(core::mem::size_of::<fotsgure_gcm_counter>() == 12);
const _: () = assert!(core::mem::size_of::<fotsgure_gcm_message>() == 80);
const _: () = assert!(core::mem::size_of::<fotsgure_gcm_siv>() == 121 * core::mem::size_of::<fotsgure_gcm_word>());

library! {
    "gcm":
    fn fotsgure_gcm_version() -> u32;
    fn fotsgure_gcm_set_key(gcm: *mut fotsgure_gcm, key: *const u8, key_length: usize) -> u32;
    fn fotsgure_gcm_set_key_of(gcm: *mut fotsgure_gcm, aes: *const fotsgure_aes) -> u32;
    fn fotsgure_gcm_key_length(gcm: *const fotsgure_gcm) -> usize;
    fn fotsgure_gcm_wipe(gcm: *mut fotsgure_gcm);
    fn fotsgure_gcm_seal(gcm: *const fotsgure_gcm, nonce: *const u8, nonce_length: usize, additional: *const u8,
        additional_length: usize, text: *mut u8, text_length: usize, tag: *mut [u8; 16]) -> u32;
    fn fotsgure_gcm_seal_to(gcm: *const fotsgure_gcm, nonce: *const u8, nonce_length: usize, additional: *const u8,
        additional_length: usize, input: *const u8, input_length: usize, output: *mut u8, output_length: usize,
        tag: *mut [u8; 16]) -> u32;
    fn fotsgure_gcm_seal_next(gcm: *const fotsgure_gcm, counter: *mut fotsgure_gcm_counter, nonce: *mut [u8; 12],
        additional: *const u8, additional_length: usize, text: *mut u8, text_length: usize,
        tag: *mut [u8; 16]) -> u32;
    fn fotsgure_gcm_open(gcm: *const fotsgure_gcm, nonce: *const u8, nonce_length: usize, additional: *const u8,
        additional_length: usize, text: *mut u8, text_length: usize, tag: *const u8, tag_length: usize) -> u32;
    fn fotsgure_gcm_open_to(gcm: *const fotsgure_gcm, nonce: *const u8, nonce_length: usize, additional: *const u8,
        additional_length: usize, input: *const u8, input_length: usize, output: *mut u8, output_length: usize,
        tag: *const u8, tag_length: usize) -> u32;
    fn fotsgure_gcm_begin(gcm: *const fotsgure_gcm, message: *mut fotsgure_gcm_message, nonce: *const u8,
        nonce_length: usize) -> u32;
    fn fotsgure_gcm_begin_next(gcm: *const fotsgure_gcm, message: *mut fotsgure_gcm_message,
        counter: *mut fotsgure_gcm_counter, nonce: *mut [u8; 12]) -> u32;
    fn fotsgure_gcm_additional(gcm: *const fotsgure_gcm, message: *mut fotsgure_gcm_message, additional: *const u8,
        additional_length: usize) -> u32;
    fn fotsgure_gcm_encrypt(gcm: *const fotsgure_gcm, message: *mut fotsgure_gcm_message, text: *mut u8,
        text_length: usize) -> u32;
    fn fotsgure_gcm_finish(gcm: *const fotsgure_gcm, message: *mut fotsgure_gcm_message, tag: *mut [u8; 16]) -> u32;
    fn fotsgure_gcm_verify(gcm: *const fotsgure_gcm, message: *mut fotsgure_gcm_message, text: *const u8,
        text_length: usize) -> u32;
    fn fotsgure_gcm_accept(gcm: *const fotsgure_gcm, message: *mut fotsgure_gcm_message, tag: *const u8,
        tag_length: usize) -> u32;
    fn fotsgure_gcm_accept_short(gcm: *const fotsgure_gcm, message: *mut fotsgure_gcm_message, fixed_length: usize,
        tag: *const u8, tag_length: usize) -> u32;
    fn fotsgure_gcm_decrypt(gcm: *const fotsgure_gcm, message: *mut fotsgure_gcm_message, text: *mut u8,
        text_length: usize) -> u32;
    fn fotsgure_gcm_decrypt_unverified(gcm: *const fotsgure_gcm, message: *mut fotsgure_gcm_message, text: *mut u8,
        text_length: usize) -> u32;
    fn fotsgure_gcm_finish_unverified(gcm: *const fotsgure_gcm, message: *mut fotsgure_gcm_message,
        tag: *mut [u8; 16]) -> u32;
    fn fotsgure_gcm_wipe_message(message: *mut fotsgure_gcm_message);
    fn fotsgure_gcm_siv_set_key(siv: *mut fotsgure_gcm_siv, key: *const u8, key_length: usize) -> u32;
    fn fotsgure_gcm_siv_seal(siv: *const fotsgure_gcm_siv, nonce: *const [u8; 12], additional: *const u8,
        additional_length: usize, text: *mut u8, text_length: usize, tag: *mut [u8; 16]) -> u32;
    fn fotsgure_gcm_siv_seal_to(siv: *const fotsgure_gcm_siv, nonce: *const [u8; 12], additional: *const u8,
        additional_length: usize, input: *const u8, input_length: usize, output: *mut u8, output_length: usize,
        tag: *mut [u8; 16]) -> u32;
    fn fotsgure_gcm_siv_open(siv: *const fotsgure_gcm_siv, nonce: *const [u8; 12], additional: *const u8,
        additional_length: usize, text: *mut u8, text_length: usize, tag: *const [u8; 16]) -> u32;
    fn fotsgure_gcm_siv_open_to(siv: *const fotsgure_gcm_siv, nonce: *const [u8; 12], additional: *const u8,
        additional_length: usize, input: *const u8, input_length: usize, output: *mut u8, output_length: usize,
        tag: *const [u8; 16]) -> u32;
    fn fotsgure_gcm_siv_wipe(siv: *mut fotsgure_gcm_siv);
}
