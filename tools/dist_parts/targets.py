"""Makes assembly for targets that the prover's compiler doesn't know, from the module that it gives to clang for x86-64.

That module has the layout of every 64-bit little-endian machine and no types of C, and calls nothing but memcpy, memmove and memset. The
kit's clang compiles it for another target after these changes, and no others:
 - For vectors of 32 bytes: frames are aligned (frames.py). That holds for x86-64 with Linux too.
 - All but Windows: the processor's name is left out.
 - RISC-V with vectors and WebAssembly with simd128: the byte shuffle of x86-64 is defined by vrgather or swizzle. The other targets have no
   shuffle, and are made from modules that have none.
 - RISC-V of 64 bits: a result of 32 bits is extended by its sign, as that ABI says.
 - Pointers of 32 bits: the changes of pointers32.py. The stack isn't probed.
 - WebAssembly: names have only letters, digits and _, for its assembler.
 - Windows: functions have the table for unwinding that its ABI asks for, touch the stack as that system does, and don't use what
   is below it. Except exports they call each other as on Linux: on Windows a function keeps vector registers for its caller, so it
   would leave values of GHASH on the stack. The wipe of the stack empties the two registers that memset may save. Exports have the
   suffix of their build.
"""
import dataclasses
import pathlib
import re
import sys

from . import pointers32

# The options that the kit's compiler gives to clang, without those of a target.
OPTIONS = """-mllvm -no-trap-after-noreturn -mllvm -trap-unreachable -mllvm -no-x86-call-frame-opt -mllvm -disable-machine-licm
    -mllvm -disable-postra-machine-licm -mllvm -sink-common-insts=false --no-default-config -no-canonical-prefixes
    -fintegrated-cc1 -fno-crash-diagnostics -Wno-override-module -O3 -fno-addrsig""".split()
SHUFFLE = "@llvm.x86.ssse3.pshuf.b.128"
# Places are below 16, or from 128 on, where the lane is 0.
BY_VRGATHER = """
declare <vscale x 8 x i8> @llvm.riscv.vrgather.vv.nxv8i8.i64(<vscale x 8 x i8>, <vscale x 8 x i8>, <vscale x 8 x i8>, i64)
declare <vscale x 8 x i8> @llvm.vector.insert.nxv8i8.v16i8(<vscale x 8 x i8>, <16 x i8>, i64)
declare <16 x i8> @llvm.vector.extract.v16i8.nxv8i8(<vscale x 8 x i8>, i64)
define internal <16 x i8> @byte_shuffle(<16 x i8> %table, <16 x i8> %places) alwaysinline nounwind {
  %t = call <vscale x 8 x i8> @llvm.vector.insert.nxv8i8.v16i8(<vscale x 8 x i8> poison, <16 x i8> %table, i64 0)
  %p = call <vscale x 8 x i8> @llvm.vector.insert.nxv8i8.v16i8(<vscale x 8 x i8> poison, <16 x i8> %places, i64 0)
  %g = call <vscale x 8 x i8> @llvm.riscv.vrgather.vv.nxv8i8.i64(<vscale x 8 x i8> poison, \
<vscale x 8 x i8> %t, <vscale x 8 x i8> %p, i64 16)
  %lanes = call <16 x i8> @llvm.vector.extract.v16i8.nxv8i8(<vscale x 8 x i8> %g, i64 0)
  %high = ashr <16 x i8> %places, splat (i8 7)
  %keep = xor <16 x i8> %high, splat (i8 -1)
  %result = and <16 x i8> %lanes, %keep
  ret <16 x i8> %result
}"""
# It gives 0 from place 16 on.
BY_SWIZZLE = """
declare <16 x i8> @llvm.wasm.swizzle(<16 x i8>, <16 x i8>)
define internal <16 x i8> @byte_shuffle(<16 x i8> %table, <16 x i8> %places) alwaysinline nounwind {
  %result = call <16 x i8> @llvm.wasm.swizzle(<16 x i8> %table, <16 x i8> %places)
  ret <16 x i8> %result
}"""
# The two registers that memset may save, emptied.
EMPTIES = 'call void asm sideeffect "xorl %edi, %edi; xorl %esi, %esi", "~{rdi},~{rsi},~{flags}"()'
# What GNU's assembler doesn't know: the versions of RISC-V's extensions, and the second version of Windows' tables. (variant_cc is for
# calls through the loader, and no export has it.) And what an assembly file doesn't say of itself: for which processor of ARM it is, and
# how its callers pass floating-point numbers. The assembler is told the one, and no call has the other.
LEFT_OUT = re.compile(r"^\t\.(?:attribute|variant_cc|seh_startepilogue|seh_endepilogue|eabi_attribute|cpu|fpu|arch)\b.*\n", re.M)
# Functions that small code has once each, where the quick code has them in each caller: the circuits of the S-boxes, the column mixing of
# each round of a period, the exchanges of bits, the steps of the key expansion, and those of counter mode.
ONCE = r"""aes_planes::soft::(?:sbox::(?:inv_)?sub_bytes(?:_nots)?|mix_columns::(?:inv_)?mix_columns_[0-3]|word::transpose::transpose
    |shifts::(?:swap_columns|delta_swap_1)|round_keys::(?:store_)?round_key|key_columns::\w+)
    |aes_soft::soft::(?:plane_words::(?:substitute|PlaneWordsFourWords::\w+)|key_layout::store)
    |aes_ctr::(?:add_blocks::add_(?:blocks|part)|counter_blocks::WholeBlockCounterBlocks::put|keystream::fill_by_backend
    |add_in_batches::add_(?:to_one|batch|by_backend))""".replace("\n    ", "")


def with_each_once(text):
    """The module with these functions out of line."""
    text, count = re.subn(rf'^(define internal .*@"(?:{ONCE})(?:::<[^"]*)?"\(.*\)) #\d+ \{{$', r"\1 noinline nounwind {", text, flags=re.M)
    if not count:
        sys.exit("dist: small code has none of the functions that it is to have once")
    return text


def with_shuffle(text, definition):
    """The module with its byte shuffle defined, or checked to have none."""
    text, count = re.subn(rf"^declare <16 x i8> {re.escape(SHUFFLE)}\(.*$", lambda _: definition, text, flags=re.M)
    if count != bool(definition) or "@llvm.x86." in text.replace(SHUFFLE, ""):
        sys.exit("dist: the module has other instructions of x86-64 than one byte shuffle, or a shuffle where the target has none")
    return text.replace(SHUFFLE, "@byte_shuffle")


def with_signs(text):
    """The module with results of 32 bits as RISC-V of 64 bits returns them."""
    text = re.sub(r"^define (?:noundef )?i32 (@fotsgure_)", r"define noundef signext i32 \1", text, flags=re.M)
    for head in re.findall(r"^define (?!internal).*$", text, re.M):
        # A parameter of fewer than 64 bits would have to be extended too.
        if not re.match(r"define (void|noundef signext i32|(noundef )?i64) @", head) or re.search(r"[(,] ?i(8|16|32)\b", head):
            sys.exit(f"dist: RISC-V may want another type of {head}")
    return text


def for_windows(text):
    """The module with functions as the ABI of Windows asks for them."""
    # (Clang reads `inline-asm` as the name of a function there, and without it calls ___chkstk_ms of the compiler's library.)
    text = text.replace(' "probe-stack"="inline-asm"', "")
    text = re.sub(r'^(attributes #\d+ = \{ .*?nounwind)(?= "stack-probe-size")', r"\1 noredzone uwtable", text, flags=re.M)
    text = re.sub(r'^(define internal |.*\bcall )(?=[^"@]*@"\w+::)', r"\1x86_64_sysvcc ", text, flags=re.M)
    return re.sub(r'^(define [^@]*@"[\w:]*::wipe_stack\b.*\nstart:\n)', rf"\1  {EMPTIES}\n", text, flags=re.M)


@dataclasses.dataclass(frozen=True)
class Target:
    """The folder of its assembly, what clang calls it, its options, the suffix of the library's file names, the definition of the byte
    shuffle, and whether its code is to be small."""

    folder: str
    triple: str
    options: tuple
    suffix: str = ""
    shuffle: str = ""
    is_small: bool = False

    def small(self):
        """The same target, with small code."""
        options = (*self.options, "-O2", "-Xclang", "-fmerge-functions")
        return dataclasses.replace(self, options=options, suffix=f"{self.suffix}_small", is_small=True)

    def changed(self, text, calls):
        """A module as it is compiled for the target; `calls` are those that the header declares."""
        if self.folder == "windows_x86_64":
            return for_windows(text)
        text = with_shuffle(re.sub(r' "(?:target-cpu|target-features|tune-cpu)"="[^"]*"', "", text), self.shuffle)
        if self.folder == "riscv64":
            return with_signs(text)
        text = with_each_once(text) if self.is_small else text
        text = pointers32.for_32(re.sub(r' "(?:probe-stack|stack-probe-size)"="[^"]*"', "", text), calls)
        return re.sub(r'@"([^"]+)"', lambda name: "@" + re.sub(r"\W", "_", name[1]), text) if self.folder == "wasm32" else text

    def compile(self, clang, module, calls):
        """The assembly for the target, of a module in the file of that name; `clang` runs the kit's."""
        own = ("-Wno-override-module", "-x", "ir", "-S")
        changed, to = (pathlib.Path(f"{module}.{self.folder}{self.suffix}{it}") for it in (".ll", ".s"))
        clang("--target=x86_64-unknown-linux-gnu", *own, "-emit-llvm", "-Xclang", "-disable-llvm-passes", module, "-o", changed)
        text = re.sub(r"^target (?:datalayout|triple) = .*\n", "", changed.read_text(), flags=re.M)
        changed.write_text(self.changed(text, calls))
        clang(f"--target={self.triple}", *own, *OPTIONS, *self.options, changed, "-o", to)
        return LEFT_OUT.sub("", to.read_text())


SECTIONS = ("-ffunction-sections", "-fdata-sections")
ON_RISCV64, ON_WINDOWS = ("riscv64", "riscv64-unknown-linux-gnu"), ("windows_x86_64", "x86_64-pc-windows-gnu")
ON_WASM, THUMB = ("wasm32", "wasm32-unknown-unknown"), ("-mfloat-abi=soft", *SECTIONS)
RISCV64 = Target(*ON_RISCV64, ("-march=rv64gcv", "-mabi=lp64d", "-fPIC", *SECTIONS), shuffle=BY_VRGATHER)
RISCV64_NARROW = Target(*ON_RISCV64, ("-march=rv64gc", "-mabi=lp64d", "-fPIC", *SECTIONS), "_narrow")
RISCV32 = Target("riscv32", "riscv32-unknown-elf", ("-march=rv32imc", "-mabi=ilp32", "-mcmodel=medany", *SECTIONS))
ARM = Target("arm", "armv7-unknown-linux-gnueabi", ("-march=armv7-a", "-mfloat-abi=soft", "-fPIC", *SECTIONS))
CORTEX_M0 = Target("thumb", "thumbv6m-unknown-none-gnueabi", ("-mcpu=cortex-m0", *THUMB), "_v6m")
CORTEX_M3 = Target("thumb", "thumbv7m-unknown-none-gnueabi", ("-mcpu=cortex-m3", *THUMB), "_v7m")
WINDOWS_V1 = Target(*ON_WINDOWS, ("-march=x86-64",), "_v1")
WINDOWS_V2 = Target(*ON_WINDOWS, ("-march=x86-64-v2",), "_v2")
WINDOWS_V3 = Target(*ON_WINDOWS, ("-march=x86-64-v3",), "_v3")
WASM32 = Target(*ON_WASM, ("-Os", "-mcpu=mvp", "-msimd128", "-mbulk-memory", *SECTIONS), shuffle=BY_SWIZZLE)
WASM32_NARROW = Target(*ON_WASM, ("-Os", "-mcpu=mvp", *SECTIONS), "_narrow")
