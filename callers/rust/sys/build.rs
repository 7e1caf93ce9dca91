//! Says which assembly of dist is for the target, as `dist/machine.h` does for C compilers: the folder, and the suffix of
//! the library's file name there. The folder dist is in this package if it was packed, and else that of the repository.

use std::env;
use std::path::Path;

fn main() {
    println!("cargo:rerun-if-changed=build.rs");
    let target = env::var("TARGET").unwrap();
    let (folder, ending) = assembly(&target).unwrap_or_else(|| {
        panic!(
            "no assembly is for {target}: there is some for x86_64 on Linux, Android, FreeBSD, NetBSD, OpenBSD, Windows, \
             macOS and iOS; for aarch64, riscv64, armv7 (Linux), riscv32im.. and Cortex-M (thumb..), also without a system"
        )
    });
    let package = env::var("CARGO_MANIFEST_DIR").unwrap();
    let places = ["dist", "../../../dist"].map(|it| Path::new(&package).join(it));
    let dist = places.iter().find(|it| it.join("BUILD").exists());
    let dist = dist.unwrap_or_else(|| {
        panic!("there is no folder dist in {package}, nor three folders above it: copy that of the repository there")
    });
    println!("cargo:rustc-env=FOTSGURE_DIST={}", dist.display());
    println!("cargo:rustc-env=FOTSGURE_FOLDER={folder}");
    println!("cargo:rustc-env=FOTSGURE_ENDING={ending}");
}

fn is(variable: &str, values: &[&str]) -> bool {
    let value = env::var(format!("CARGO_CFG_{variable}")).unwrap_or_default();
    values.contains(&value.as_str())
}

fn assembly(target: &str) -> Option<(&'static str, &'static str)> {
    let (linux, bare) = (is("TARGET_OS", &["linux", "android"]), is("TARGET_OS", &["none"]));
    let (bits_64, unix) = (is("TARGET_POINTER_WIDTH", &["64"]), linux || is("TARGET_OS", &["freebsd", "netbsd"]));
    let apple = is("TARGET_VENDOR", &["apple"]);
    if !is("TARGET_ENDIAN", &["little"]) {
        return None;
    }
    match target.split('-').next()? {
        "x86_64" if bits_64 && is("TARGET_OS", &["windows"]) => Some(("windows_x86_64", "")),
        "x86_64" if bits_64 && apple => Some(("apple_x86_64", "")),
        "aarch64" if bits_64 && apple => Some(("apple_aarch64", "")),
        "x86_64" if bits_64 && (unix || is("TARGET_OS", &["openbsd"])) => Some(("x86_64", "")),
        "aarch64" if bits_64 && (unix || bare) => Some(("aarch64", "")),
        it if it.starts_with("riscv64") && (unix || bare) => {
            Some(("riscv64", if has_vectors() { "" } else { "_narrow" }))
        }
        it if it.starts_with("riscv32im") && bare => Some(("riscv32", "")),
        it if it.starts_with("armv7") && linux => Some(("arm", "")),
        "thumbv6m" | "thumbv8m.base" if bare => Some(("thumb", "_v6m")),
        "thumbv7m" | "thumbv7em" | "thumbv8m.main" if bare => Some(("thumb", "_v7m")),
        _ => None,
    }
}

/// Whether the program is built for RISC-V's vectors (`-C target-feature=+v`). Stable Rust doesn't say so by a cfg.
fn has_vectors() -> bool {
    let flags = env::var("CARGO_ENCODED_RUSTFLAGS").unwrap_or_default();
    let features = flags.split('\u{1f}').filter_map(|it| it.split("target-feature=").nth(1));
    features.flat_map(|it| it.split(',')).any(|it| it == "+v")
}
