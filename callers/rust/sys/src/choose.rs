//! Which of a library's three builds this processor runs, as `choose.h` has it for C.

use core::arch::x86_64::{__cpuid, __cpuid_count, _xgetbv};
use core::sync::atomic::{AtomicU8, Ordering::Relaxed};

/// Of leaf 1, in ecx: SSE3, SSSE3, CMPXCHG16B, SSE4.1, SSE4.2, POPCNT.
const OF_V2: u32 = 1 | 1 << 9 | 1 << 13 | 1 << 19 | 1 << 20 | 1 << 23;
/// Of leaf 0x80000001, in ecx.
const LAHF_LM: u32 = 1;
/// Of leaf 1, in ecx: FMA, MOVBE, OSXSAVE, AVX, F16C.
const FIRST: u32 = 1 << 12 | 1 << 22 | 1 << 27 | 1 << 28 | 1 << 29;
/// Of leaf 7, in ebx: BMI1, AVX2, BMI2.
const SEVENTH: u32 = 1 << 3 | 1 << 5 | 1 << 8;
/// Of leaf 0x80000001, in ecx.
const LZCNT: u32 = 1 << 5;
/// Of XCR0: registers of 128 and of 256 bits.
const SAVED: u64 = 1 << 1 | 1 << 2;

#[target_feature(enable = "xsave")]
unsafe fn saved_by_the_system() -> u64 {
    _xgetbv(0)
}

/// What a leaf of the extended ones says in ecx.
#[allow(unused_unsafe)] // CPUID is safe in newer versions of Rust
fn extended() -> u32 {
    // SAFETY: each x86-64 processor has CPUID.
    unsafe {
        if __cpuid(0x8000_0000).eax >= 0x8000_0001 {
            __cpuid(0x8000_0001).ecx
        } else {
            0
        }
    }
}

/// Whether the processor has all of x86-64-v2.
#[allow(unused_unsafe)]
fn has_v2() -> bool {
    // SAFETY: each x86-64 processor has CPUID.
    unsafe { __cpuid(1).ecx & OF_V2 == OF_V2 && extended() & LAHF_LM != 0 }
}

/// Whether processor and system have all of x86-64-v3: registers of 256 bits that the system saves, AVX, AVX2, BMI1, BMI2,
/// F16C, FMA, LZCNT and MOVBE.
#[allow(unused_unsafe)]
fn has_v3() -> bool {
    // SAFETY: each x86-64 processor has CPUID; OSXSAVE says that the system allows XGETBV, and is asked before it.
    unsafe {
        __cpuid(0).eax >= 7
            && __cpuid(1).ecx & FIRST == FIRST
            && saved_by_the_system() & SAVED == SAVED
            && __cpuid_count(7, 0).ebx & SEVENTH == SEVENTH
            && extended() & LZCNT != 0
    }
}

const NOT_ASKED: u8 = 0;
/// For every processor.
const V1: u8 = 1;
/// For x86-64-v2, whose byte shuffle the library uses.
pub const V2: u8 = 2;
/// For x86-64-v3.
pub const V3: u8 = 3;
static KNOWN: AtomicU8 = AtomicU8::new(NOT_ASKED);

#[cold]
#[inline(never)]
fn ask() -> u8 {
    let found = match (has_v2(), has_v3()) {
        (true, true) => V3,
        (true, false) => V2,
        (false, _) => V1,
    };
    KNOWN.store(found, Relaxed);
    found
}

/// The build. The byte is all that threads share, and each of them would write the same.
#[inline]
pub fn build() -> u8 {
    match KNOWN.load(Relaxed) {
        NOT_ASKED => ask(),
        found => found,
    }
}
