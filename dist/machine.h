/* Which assembly is for the machine that a compiler compiles for: the folder, and the suffix of the library's file name there. The
 * makefile and CMake let the compiler read this file, and use what is left of it. Nothing is left for another machine. */
#if defined __BYTE_ORDER__ && __BYTE_ORDER__ == __ORDER_LITTLE_ENDIAN__
#if defined __x86_64__ && !defined __ILP32__
"x86_64"
#elif defined __aarch64__ && !defined __ILP32__
"aarch64"
#elif defined __riscv && __riscv_xlen == 64 && defined __riscv_v
"riscv64"
#elif defined __riscv && __riscv_xlen == 64
"riscv64" "_narrow"
#elif defined __riscv && __riscv_xlen == 32
"riscv32"
#elif defined __ARM_ARCH_PROFILE && __ARM_ARCH_PROFILE == 'M' && __ARM_ARCH_ISA_THUMB == 1
"thumb" "_v6m"
#elif defined __ARM_ARCH_PROFILE && __ARM_ARCH_PROFILE == 'M'
"thumb" "_v7m"
#elif defined __arm__ && __ARM_ARCH >= 7
"arm"
#elif defined __wasm32__ && defined __wasm_simd128__
"wasm32"
#elif defined __wasm32__
"wasm32" "_narrow"
#endif
#endif
