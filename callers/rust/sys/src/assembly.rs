//! The assembly of dist, and the calls that it exports.

/// Around assembly that may have an extension of RISC-V that the target hasn't: vectors.
#[cfg(target_arch = "riscv64")]
macro_rules! extensions {
    (push) => {
        ".option push\n.option arch, +m, +a, +f, +d, +c, +v"
    };
    (pop) => {
        ".option pop"
    };
}
#[cfg(not(target_arch = "riscv64"))]
macro_rules! extensions {
    ($it:ident) => {
        ""
    };
}

/// Assembles a file of dist. With `in_rust` it leaves out what it would say of the whole object, and exports hidden names of its own.
macro_rules! assembled {
    ($($name:expr),*; $($option:ident),*) => {
        core::arch::global_asm!(
            extensions!(push),
            ".set in_rust, 1",
            include_str!(concat!(env!("FOTSGURE_DIST"), "/", env!("FOTSGURE_FOLDER"), "/", $($name,)* ".s")),
            ".text",
            extensions!(pop),
            options($($option),*)
        );
    };
}

#[cfg(target_arch = "x86_64")]
mod of_target {
    #[cfg(not(target_vendor = "apple"))]
    assembled!("aes_v1"; att_syntax, raw);
    assembled!("aes"; att_syntax, raw);
    assembled!("aes_v3"; att_syntax, raw);
    #[cfg(all(feature = "gcm", not(target_vendor = "apple")))]
    assembled!("gcm_v1"; att_syntax, raw);
    #[cfg(feature = "gcm")]
    assembled!("gcm"; att_syntax, raw);
    #[cfg(feature = "gcm")]
    assembled!("gcm_v3"; att_syntax, raw);
}

#[cfg(not(target_arch = "x86_64"))]
mod of_target {
    assembled!("aes", env!("FOTSGURE_ENDING"); raw);
    #[cfg(feature = "gcm")]
    assembled!("gcm", env!("FOTSGURE_ENDING"); raw);
}

/// Declares the calls of one build of a library, by the prefix that its assembly gives to names.
macro_rules! build {
    ($prefix:expr; $(fn $name:ident($($it:ident: $type:ty),*) $(-> $result:ty)?;)*) => {
        use super::*;
        extern "C" {
            $(
                #[link_name = concat!($prefix, ".", stringify!($name))]
                pub fn $name($($it: $type),*) $(-> $result)?;
            )*
        }
    };
}

/// Declares the calls of a library. Each is a function of this crate, which goes to that of the build that the processor
/// can run. They are never inlined: another shared library, as one of Rust's dylibs, can't name the hidden symbols.
macro_rules! library {
    ($library:literal: $(fn $name:ident($($it:ident: $type:ty),*) $(-> $result:ty)?;)*) => {
        // No Mac needs the first build: choose.h says why.
        #[cfg(all(target_arch = "x86_64", target_vendor = "apple"))]
        use v2 as v1;
        #[cfg(all(target_arch = "x86_64", not(target_vendor = "apple")))]
        mod v1 {
            build! { concat!($library, "_v1"); $(fn $name($($it: $type),*) $(-> $result)?;)* }
        }
        #[cfg(target_arch = "x86_64")]
        mod v2 {
            build! { concat!($library, "_v2"); $(fn $name($($it: $type),*) $(-> $result)?;)* }
        }
        #[cfg(target_arch = "x86_64")]
        mod v3 {
            build! { concat!($library, "_v3"); $(fn $name($($it: $type),*) $(-> $result)?;)* }
        }
        #[cfg(not(target_arch = "x86_64"))]
        mod only {
            build! { concat!($library, env!("FOTSGURE_ENDING")); $(fn $name($($it: $type),*) $(-> $result)?;)* }
        }
        $(
            #[allow(clippy::missing_safety_doc, clippy::too_many_arguments)]
            #[inline(never)]
            pub unsafe extern "C" fn $name($($it: $type),*) $(-> $result)? {
                #[cfg(not(target_arch = "x86_64"))]
                return only::$name($($it),*);
                #[cfg(target_arch = "x86_64")]
                match crate::choose::build() {
                    crate::choose::V3 => v3::$name($($it),*),
                    crate::choose::V2 => v2::$name($($it),*),
                    _ => v1::$name($($it),*),
                }
            }
        )*
    };
}
