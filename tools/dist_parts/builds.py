"""Proves and builds the libraries and the program, and says what differs in each build."""
import dataclasses
import os
import re
import shutil
import sys

from tools import toolchain
from tools.crates import TOP, run, sum_of

from . import frames, targets
from .headers import Header
from .published import PROGRAM, Assembly

# The form of keys of the builds that use no byte shuffle, by crate.
FORMS_WITHOUT_SHUFFLE = TOP / "tools/dist_parts/without_shuffle"
WIDTH = "//! Words of {}.\n\npub type BuildWidth = {};\n"
# What differs in a copy of aes_narrow for words of 64 bits. Eight of them hold the planes of four blocks.
WORDS_OF_64 = (
    ("src/kept_word.rt", "KeptWord = u32;\n", "KeptWord = u64;\n"),
    ("specs/KeptWord.antt", "kept_bits = word_bits 32\n", "kept_bits = word_bits 64\n"),
    ("specs/KeptWord.antt", "kept_blocks = 2\n", "kept_blocks = 4\n"),
)
# What differs in a copy of gcm_c for processors on which the lower half of a product of two words always takes the same time. There H is
# four words, and is multiplied by such products.
OF_PRODUCTS = (
    ("src/form.rt", "GhashRoom = gcm::SubkeyRoom;\n", "GhashRoom = gcm::SubkeyWordsRoom;\n"),
    ("src/form.rt", "no_room ≡ replicate 1 (replicate 16 0)", "no_room ≡ replicate 4 0"),
    ("specs/Form.antt", "{subkey_alone, IsAlone}\n", "{subkey_of_words, AreSubkeyWords}\n"),
    ("specs/Form.antt", "List (List ℕ)\nno_room = replicate 1 (replicate 16 0)\n", "List ℕ\nno_room = replicate 4 0\n"),
    ("specs/Form.antt", "List (List ℕ) → Type 0\nIsRoom = IsAlone\n", "List ℕ → Type 0\nIsRoom = AreSubkeyWords\n"),
    ("specs/Form.antt", "List (List ℕ) → ℕ\nsubkey_of = subkey_alone\n", "List ℕ → ℕ\nsubkey_of = subkey_of_words\n"),
)
# For a processor without a byte shuffle the prover's compiler stores tables in memory, and reads them at secret places. So an assembly file
# has shuffles, or is of a build that uses none.
SHUFFLES = re.compile(r"^\t(?:(?:v?pshufb|tbl|vrgather\.vv)\t|i8x16\.swizzle)", re.M)
# The kit's clang compiles the module that the prover's compiler writes.
KIT_CLANG = toolchain.KIT / "toolchain/bin/clang"
# A script that is called instead of the kit's clang. It does what clang does, keeps the module, and compiles it a second time, to text.
# Before all of this it changes the module, if that is for vectors of 32 bytes. GNU's assembler doesn't know the table of .addrsig. On ARM
# the code doesn't use x18, which belongs to the system on Android, macOS and Windows.
CLANG = """#!/bin/sh
set -e
case " $* " in *' -c -x ir '*) ;; *) exec {clang} "$@" {reserved} ;; esac
for word; do
    case "$word" in *.bc)
        {changes}
        cp "$word" {text}.bc ;;
    esac
done
{clang} "$@" {reserved}
for word; do
    shift
    [ "$word" = -c ] || set -- "$@" "$word"
done
exec {clang} "$@" {reserved} -fno-addrsig -S -o {text}
"""
ALIGNED = '"{python}" -B "{frames}" "{clang}" "$word"'


def llvm(tool, *words, **options):
    """Runs a tool of LLVM. The kit's clang has all of them."""
    return run([tool, *words], f"dist: {tool}", executable=KIT_CLANG, **options)


def clang(*words):
    return llvm("clang", *words)


def held_by(file):
    """All that an object holds, as text: symbols, relocations and the bytes of its sections, without tables of names."""
    parts = llvm("llvm-objdump", "-t", "-r", "-s", file).partition("SYMBOL TABLE:")[2].split("Contents of section ")
    return [it for it in parts if not it.startswith((".strtab:", ".symtab:", ".llvm_addrsig:"))]


def prove_and_build(words, what, folder):
    """Proves a copy of a crate and builds it: returns the verdict."""
    verdict = re.findall(r"^logic=.*$", run(words, f"dist: the build of {what}", cwd=folder), re.M)[-1]
    if not verdict.startswith("logic=proved "):
        sys.exit(f"dist: {what} is not proved: {verdict}")
    print(f"dist: built {what}", file=sys.stderr, flush=True)
    return verdict


def change(folder, changes):
    """Changes files of a copy of a crate."""
    for path, old, new in changes:
        text = (folder / path).read_text()
        if old not in text:
            sys.exit(f"dist: {path} of a copy doesn't say '{old.strip()}'")
        (folder / path).write_text(text.replace(old, new))


def widen(folder):
    """Gives a copy of a crate the wide width."""
    (folder / "src/width.rt").write_text(WIDTH.format("256 bits", "aes_hybrid::widths::Width256"))


def without_shuffle(folder):
    """Gives a copy of a crate the form of keys that uses no byte shuffle: as words of bit planes, of 32 bits, or of 64 in W64."""
    (folder / "src/width.rt").write_text(WIDTH.format("planes", "aes_narrow::kept_word::KeptWord"))
    shutil.copyfile(FORMS_WITHOUT_SHUFFLE / folder.name / "form.rt.txt", folder / "src/form.rt")
    shutil.copyfile(FORMS_WITHOUT_SHUFFLE / folder.name / "Form.antt.txt", folder / "specs/Form.antt")


def by_products(folder):
    without_shuffle(folder)
    change(folder, OF_PRODUCTS)


@dataclasses.dataclass(frozen=True)
class Variant:
    """A way to build for a machine: the suffix of the library's file name, the processor, what is changed in a copy of the crate, and the
    targets whose assembly is made from its module."""

    folder: str
    suffix: str = ""
    cpu: str = ""
    changed: callable = None
    targets: tuple = ()
    # Whether it uses a byte shuffle, whether its own assembly is in dist/, and whether it is built over words of 64 bits.
    has_shuffle: bool = True
    is_published: bool = True
    is_of_64: bool = False
    # Whether frames are aligned for vectors of 32 bytes (frames.py).
    is_aligned: bool = False


# Assembly for these is made from the module that multiplies by products, if the library multiplies.
TARGETS_BY_PRODUCTS = (targets.ARM, targets.CORTEX_M3, targets.CORTEX_M3.small())
OF_32_BITS = (targets.CORTEX_M0, targets.CORTEX_M3, targets.RISCV32)
TARGETS_WITHOUT_SHUFFLE = (targets.WINDOWS_V1, targets.ARM, *(form for target in OF_32_BITS for form in (target, target.small())),
                           targets.WASM32_NARROW)
V2 = Variant("x86_64", "_v2", targets=(targets.RISCV64, targets.WINDOWS_V2, targets.WASM32))
V3 = Variant("x86_64", "_v3", "x86-64-v3", widen, (targets.WINDOWS_V3,), is_aligned=True)
V1 = Variant("x86_64", "_v1", "x86-64", without_shuffle, TARGETS_WITHOUT_SHUFFLE, has_shuffle=False)
# In words of 64 bits a key needs a larger struct, which only 64-bit RISC-V has.
W64 = Variant("x86_64", "_w64", "x86-64", without_shuffle, (targets.RISCV64_NARROW,), has_shuffle=False, is_published=False, is_of_64=True)
PRODUCTS = Variant("x86_64", "_products", "x86-64", by_products, TARGETS_BY_PRODUCTS, has_shuffle=False, is_published=False)
ARM = Variant("aarch64")
V1_OF_GCM = dataclasses.replace(V1, targets=tuple(it for it in TARGETS_WITHOUT_SHUFFLE if it not in TARGETS_BY_PRODUCTS))
# The program keeps no secrets, so it is for the first x86-64 processors.
VARIANTS = {
    "aes": (V2, V3, V1, W64, ARM),
    "gcm": (V2, V3, V1_OF_GCM, W64, PRODUCTS, ARM),
    PROGRAM: (Variant("x86_64", cpu="x86-64"), ARM),
}


class Words64:
    """A copy of aes_narrow for words of 64 bits, proved, and what a command names instead of the crate's own library."""

    def __init__(self, crate, room):
        folder, library = room / "crate", room / f"{crate.name}.rlib"
        shutil.copytree(crate.folder, folder)
        change(folder, WORDS_OF_64)
        toolchain.copy_kept_work(crate, room / "kept")
        words = toolchain.build_words(crate, "--incremental", f"{room}/kept", "-o", f"{library}")
        prove_and_build(words, f"{crate.name} for words of 64 bits", folder)
        self.names = {f"{crate.name}={crate.rlib}": f"{crate.name}={library}"}
        self.names[f"dependency={os.path.dirname(crate.rlib)}"] = f"dependency={room}"

    def named_in(self, words):
        return [self.names.get(it, it) for it in words]


class Build:
    """A library, or the program, by one variant."""

    def __init__(self, library, variant, room):
        self.variant, self.assembly = variant, Assembly(library, variant.folder, variant.suffix)
        self.room = room / self.assembly.name.replace("/", "-")
        # The name of its assembly file, or that of the build if it has none.
        self.name = f"{self.assembly.name}.s" if variant.is_published else self.assembly.name
        # What the compiler makes: of a program without a runtime around it, the object.
        self.kind = "object" if library == PROGRAM else "archive"
        self.made, self.text = self.room / ("made.o" if self.kind == "object" else "made.a"), self.room / "text.s"

    def toolchain(self):
        """A folder of links to the kit's toolchain, with the clang above."""
        here, there = self.room / "toolchain", toolchain.KIT / "toolchain"
        (here / "bin").mkdir(parents=True)
        for path in [*there.iterdir(), *(there / "bin").iterdir()]:
            if path.name not in ("bin", "clang"):
                (here / path.relative_to(there)).symlink_to(path)
        reserved = "-ffixed-x18" if self.variant.folder == "aarch64" else ""
        changes = ALIGNED.format(python=sys.executable, frames=frames.__file__, clang=KIT_CLANG) if self.variant.is_aligned else ":"
        (here / "bin/clang").write_text(CLANG.format(clang=KIT_CLANG, text=self.text, reserved=reserved, changes=changes))
        (here / "bin/clang").chmod(0o755)
        return here

    def run(self, crate, kept, words_64):
        """Proves and builds a copy of the crate, over what a folder keeps. Notes the verdict, and the assembly that is published."""
        copy, variant = self.room / crate.name, self.variant
        shutil.copytree(crate.folder, copy)
        shutil.copytree(kept, self.room / "kept")
        if variant.changed:
            variant.changed(copy)
        flags = ["--target", f"{variant.folder}-unknown-linux-gnu", *(["--cpu", variant.cpu] if variant.cpu else []), "--backend", "llvm"]
        flags += ["--toolchain", str(self.toolchain()), "--incremental", f"{self.room}/kept", "-o", f"{self.made}"]
        words = toolchain.build_words(crate, *flags)
        self.verdict = prove_and_build(words_64.named_in(words) if variant.is_of_64 else words, self.assembly.name, copy)
        self.texts = {assembly: assembly.published(text) for assembly, text in self.assemblies()}
        for assembly, text in self.texts.items():
            if assembly.library != PROGRAM and bool(SHUFFLES.search(text)) != variant.has_shuffle:
                has = "has no" if variant.has_shuffle else "has a"
                sys.exit(f"dist: {assembly.name}.s {has} byte shuffle, so that tables would be read at secret places")
            if variant.is_aligned and (found := frames.keeps_unaligned(text)):
                sys.exit(f"dist: {assembly.name}.s keeps vectors of 32 bytes in a frame that isn't aligned: {', '.join(found)}")
        return self

    def assemblies(self):
        """The assembly as the compiler writes it: its own, and that for the targets."""
        if self.variant.is_published:
            yield self.assembly, self.text.read_text()
        for target in self.variant.targets:
            calls = Header(self.assembly.library).calls
            yield Assembly(self.assembly.library, target.folder, target.suffix), target.compile(clang, f"{self.text}.bc", calls)

    def lines(self):
        """Its lines in BUILD."""
        others = [f"made from the module of {self.name}: {it.name}.s" for it in self.texts if it != self.assembly]
        return [f"verdict of {self.name}: {self.verdict}", self.line_of_made(), *others]

    def line_of_made(self):
        return f"{self.kind} of {self.name}: {sum_of(self.made.read_bytes())}"

    def has_same_code(self):
        """Whether the assembly in dist/, assembled as the compiler wrote it, is what the compiler made."""
        source, assembled = self.room / "compiled.s", self.room / "text.o"
        source.write_text(self.assembly.as_compiled(self.text.read_text()))
        # Told this processor, the assembler pads with the no-ops that the compiler uses for each x86-64.
        words = ["-target", f"{self.variant.folder}-unknown-linux-gnu", *(["-march=x86-64-v2"] if self.variant.folder == "x86_64" else [])]
        clang(*words, "-c", source, "-o", assembled)
        if self.kind == "object":
            return held_by(assembled) == held_by(self.made)
        members = llvm("llvm-ar", "t", self.made).split()
        llvm("llvm-ar", "x", self.made, cwd=self.room)
        return len(members) == 1 and held_by(assembled) == held_by(self.room / members[0])

    def comparisons(self, recorded):
        """What was compared with dist/, whose BUILD has the lines `recorded`: whether it is the same, and what to say if not."""
        yield self.line_of_made() in recorded, f"{self.name} is of another {self.kind} than these crates make"
        for assembly, text in self.texts.items():
            yield assembly.path.read_text() == text, f"{assembly.name}.s isn't what the compiler writes"
        is_same = not self.variant.is_published or self.has_same_code()
        yield is_same, f"{self.assembly.name}.s, assembled, is not the {self.kind} that these crates make"
