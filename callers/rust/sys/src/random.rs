//! A message of AES-GCM-SIV under a nonce that the system draws: the code around the proved call, as in dist's `seal_random.c`.

use crate::gcm::{fotsgure_gcm_siv, fotsgure_gcm_siv_seal, FOTSGURE_GCM_DONE, FOTSGURE_GCM_NO_RANDOMNESS};

#[cfg(not(any(unix, windows)))]
compile_error!("the feature `random` needs a system that has random numbers: use the feature `gcm`");

/// Fills a nonce with random bytes, and returns whether the system had them.
#[cfg(windows)]
fn draw(nonce: &mut [u8; 12]) -> bool {
    #[link(name = "bcrypt")]
    extern "system" {
        fn BCryptGenRandom(algorithm: *mut u8, to: *mut u8, count: u32, flags: u32) -> i32;
    }
    const USE_SYSTEM_PREFERRED_RNG: u32 = 2;
    let to = nonce.as_mut_ptr();
    // SAFETY: the system writes that many bytes there.
    unsafe { BCryptGenRandom(core::ptr::null_mut(), to, nonce.len() as u32, USE_SYSTEM_PREFERRED_RNG) == 0 }
}

/// The same, by the call that `seal_random.c` uses there.
#[cfg(target_vendor = "apple")]
fn draw(nonce: &mut [u8; 12]) -> bool {
    extern "C" {
        fn CCRandomGenerateBytes(to: *mut u8, count: usize) -> i32;
    }
    // SAFETY: the system writes that many bytes there.
    unsafe { CCRandomGenerateBytes(nonce.as_mut_ptr(), nonce.len()) == 0 }
}

/// The same. (The call waits while a system that starts has no randomness yet.)
#[cfg(all(unix, not(target_vendor = "apple")))]
fn draw(nonce: &mut [u8; 12]) -> bool {
    extern "C" {
        fn getentropy(to: *mut u8, count: usize) -> i32;
    }
    // SAFETY: the system writes that many bytes there.
    unsafe { getentropy(nonce.as_mut_ptr(), nonce.len()) == 0 }
}

#[allow(clippy::missing_safety_doc, clippy::too_many_arguments)]
pub unsafe extern "C" fn fotsgure_gcm_siv_seal_random(
    siv: *const fotsgure_gcm_siv,
    nonce: *mut [u8; 12],
    additional: *const u8,
    additional_length: usize,
    text: *mut u8,
    text_length: usize,
    tag: *mut [u8; 16],
) -> u32 {
    let mut drawn = [0; 12];
    if !draw(&mut drawn) {
        return FOTSGURE_GCM_NO_RANDOMNESS;
    }
    let status = fotsgure_gcm_siv_seal(siv, &drawn, additional, additional_length, text, text_length, tag);
    if status == FOTSGURE_GCM_DONE {
        *nonce = drawn;
    }
    status
}
