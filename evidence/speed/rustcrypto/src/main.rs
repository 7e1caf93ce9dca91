//! Times of this library through RustCrypto's traits, beside the crates `aes` and `aes-gcm`, with the code for which they are
//! compiled: nanoseconds of processor time, the least of ROUNDS rounds in turns, and the others divided by ours. The status is 1 if
//! all of them don't make the same bytes of the same data.

use cipher::{
    Array, BlockCipherDecrypt, BlockCipherEncrypt, BlockModeDecrypt, InnerIvInit, KeyInit, StreamCipher, consts::U16,
};
use std::hint::black_box;

/// Nanoseconds of processor time that this thread has taken: other programs don't count.
fn now() -> i64 {
    unsafe extern "C" {
        fn clock_gettime(clock: i32, time: *mut [i64; 2]) -> i32;
    }
    let mut time = [0; 2];
    // SAFETY: CLOCK_THREAD_CPUTIME_ID of Linux, and a timespec of 64-bit machines.
    assert_eq!(unsafe { clock_gettime(3, &mut time) }, 0);
    time[0] * 1_000_000_000 + time[1]
}

/// What is timed. It returns what it made, if that is asked.
type Work<'a> = Box<dyn FnMut(bool) -> Option<Vec<u8>> + 'a>;
type Block = Array<u8, U16>;

/// Bytes that tell one block from the next.
fn text(length: usize) -> Vec<u8> {
    (0..length).map(|at| (at + at / 256) as u8).collect()
}

fn blocks(count: usize) -> Vec<Block> {
    text(16 * count).chunks(16).map(|it| it.try_into().unwrap()).collect()
}

fn bytes_of(blocks: &[Block]) -> Vec<u8> {
    blocks.iter().flatten().copied().collect()
}

fn key<C: KeyInit + 'static>() -> Work<'static> {
    let key = cipher::Key::<C>::default();
    Box::new(move |_| {
        black_box(C::new(black_box(&key)));
        None
    })
}

/// Defines work on blocks in one direction, by a call on a single block or on all of them.
macro_rules! on_blocks {
    ($name:ident, $trait:ident, $of_one:ident, $of_all:ident) => {
        fn $name<C: KeyInit + $trait<BlockSize = U16> + 'static>(count: usize) -> Work<'static> {
            let (cipher, mut blocks) = (C::new(&Default::default()), blocks(count));
            Box::new(move |is_asked| {
                match &mut blocks[..] {
                    [block] => cipher.$of_one(black_box(block)),
                    blocks => cipher.$of_all(black_box(blocks)),
                }
                is_asked.then(|| bytes_of(&blocks))
            })
        }
    };
}
on_blocks!(encrypt, BlockCipherEncrypt, encrypt_block, encrypt_blocks);
on_blocks!(decrypt, BlockCipherDecrypt, decrypt_block, decrypt_blocks);

fn counter<C: KeyInit + BlockCipherEncrypt<BlockSize = U16> + Clone + 'static>(length: usize) -> Work<'static> {
    let (cipher, mut text) = (C::new(&Default::default()), text(length));
    Box::new(move |is_asked| {
        let core = ctr::CtrCore::<&C, ctr::flavors::Ctr128BE>::inner_iv_init(&cipher, &Array([9; 16]));
        cipher::StreamCipherCoreWrapper::from_core(core).apply_keystream(black_box(&mut text));
        is_asked.then(|| text.clone())
    })
}

fn chain<C: KeyInit + BlockCipherDecrypt<BlockSize = U16> + Clone + 'static>(count: usize) -> Work<'static> {
    let (cipher, mut blocks) = (C::new(&Default::default()), blocks(count));
    Box::new(move |is_asked| {
        let mut mode = cbc::Decryptor::<C>::inner_iv_init(cipher.clone(), &Array([9; 16]));
        mode.decrypt_blocks(black_box(&mut blocks));
        is_asked.then(|| bytes_of(&blocks))
    })
}

fn seal<A: KeyInit + aead::AeadInOut + 'static>(length: usize) -> Work<'static> {
    let (aead, mut text) = (A::new(&Default::default()), text(length));
    Box::new(move |is_asked| {
        let tag = aead.encrypt_inout_detached(&Default::default(), b"", black_box(text.as_mut_slice()).into());
        black_box(tag.is_ok());
        is_asked.then(|| [&text, tag.unwrap().as_slice()].concat())
    })
}

type Ours = fotsgure_rustcrypto::Aes128;
type Theirs = aes::Aes128;

/// Ends the program if some work makes other bytes than the first one.
fn compare(name: &str, works: &mut [Work<'_>]) {
    let answers: Vec<_> = works.iter_mut().map(|work| work(true)).collect();
    if answers.iter().any(|it| *it != answers[0]) {
        println!("{name}: the answers differ");
        std::process::exit(1);
    }
}

/// Nanoseconds a call: each kind in turns, the least of some rounds of about 200 microseconds.
fn measure(name: &str, rounds: u32, mut works: Vec<Work<'_>>) {
    let mut least = vec![f64::MAX; works.len()];
    let mut turns = vec![1u32; works.len()];
    for (work, turns) in works.iter_mut().zip(&mut turns) {
        let start = now();
        work(false);
        work(false);
        let once = ((now() - start) / 2) as u32;
        *turns = (100_000 / once.max(1)).clamp(1, 2000);
    }
    // A long call takes few rounds.
    let rounds = if turns[0] == 1 { rounds.min(15) } else { rounds };
    for _ in 0..rounds {
        for (i, work) in works.iter_mut().enumerate() {
            let start = now();
            (0..turns[i]).for_each(|_| drop(work(false)));
            least[i] = least[i].min((now() - start) as f64 / turns[i] as f64);
        }
    }
    print!("| {name} | {:.0} |", least[0]);
    least[1..].iter().for_each(|it| print!(" {:.2} |", it / least[0]));
    println!();
}

/// The same work by each of some types.
macro_rules! each {
    ($work:ident $given:tt: $($type:ty),*) => { vec![$($work::<$type> $given),*] };
}

fn main() {
    let rounds = std::env::args().nth(1).unwrap().parse().unwrap();
    assert!(!cfg!(aes_backend = "soft") || !aes::hardware_accelerated());
    let code = if aes::hardware_accelerated() { "instructions" } else { "portable" };
    println!("| | this library, ns | aes, {code} |\n|---|---|---|");
    let row = |name: &str, mut works: Vec<Work<'_>>| {
        compare(name, &mut works);
        measure(name, rounds, works)
    };
    row("a key of 16 bytes", each!(key(): Ours, Theirs));
    for count in [1, 2, 4, 8, 16, 256, 65536] {
        row(&format!("encrypt, {count} blocks"), each!(encrypt(count): Ours, Theirs));
        row(&format!("decrypt, {count} blocks"), each!(decrypt(count): Ours, Theirs));
    }
    for length in [16, 64, 112, 240, 256, 496, 1500, 4096, 16384, 1 << 20] {
        row(&format!("ctr, {length} bytes"), each!(counter(length): Ours, Theirs));
    }
    for count in [1, 16, 256] {
        row(&format!("cbc decrypt, {count} blocks"), each!(chain(count): Ours, Theirs));
    }
    type OurGcm = fotsgure_rustcrypto::aes_gcm::Aes128Gcm;
    type TheirGcm = aes_gcm::Aes128Gcm;
    row("a key of GCM", each!(key(): OurGcm, TheirGcm));
    // The crate aes-gcm over the block cipher of this library.
    type OverOurs = aes_gcm::AesGcm<Ours, cipher::consts::U12>;
    for length in [16, 64, 1500, 16384] {
        let name = format!("gcm, {length} bytes (last: aes-gcm over our blocks)");
        row(&name, each!(seal(length): OurGcm, TheirGcm, OverOurs));
    }
    for length in [64, 16384] {
        row(&format!("gcm-siv, {length} bytes"), each!(seal(length): fotsgure_rustcrypto::aes_gcm_siv::Aes128GcmSiv));
    }
}
