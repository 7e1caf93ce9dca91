"""Converts the compiler's assembly into the published form, and back.

The assembly of a library for 64 bits calls libc's functions at addresses that the loader writes before the program runs. It has marks for
processors that accept an indirect call or jump only to certain places, and names its sources. It has names of its own (symbols.py) and
empties registers (registers.py), except for WebAssembly, which has no registers and plain names. The program's assembly is as the compiler
writes it, since it keeps no secrets and calls more of libc.
"""
import dataclasses
import re
import sys

from tools import crates

from . import symbols
from .headers import DIST, Header
from .registers import Registers

LIBRARIES = {"aes": "aes_c", "gcm": "gcm_c"}
PROGRAM = "aes_kat"
CRATES = {**LIBRARIES, PROGRAM: "aes_kat_main"}
# How the compiler calls a function of libc, and how the published assembly does. A call that is bound at its first use has the loader save
# registers on the stack, and one may hold a key.
LIBC = ("memcpy", "memmove", "memset")
CALLS = {
    "x86_64": {"callq\t{}@PLT": "callq\t*{}@GOTPCREL(%rip)", "jmp\t{}@PLT": "jmpq\t*{}@GOTPCREL(%rip)"},
    "aarch64": {
        "bl\t{}": "adrp\tx16, :got:{0}\n\tldr\tx16, [x16, :got_lo12:{0}]\n\tblr\tx16",
        "b\t{}": "adrp\tx16, :got:{0}\n\tldr\tx16, [x16, :got_lo12:{0}]\n\tbr\tx16",
    },
    "riscv64": {"call\t{}": "la\tt1, {0}\n\tjalr\tt1", "tail\t{}": "la\tt1, {0}\n\tjr\tt1"},
}
# The marks (Intel's CET, ARM's BTI): an instruction at the beginning of each export, a prefix of jumps by tables, and a note for the
# linker, which marks only what is made from marked files. The object of a Rust crate has no note, since it has Rust's functions too. The
# words of the note are the sizes of its name and of what follows, its type, and "GNU"; then the property, its size, its bits and nothing.
ENTRIES = {"x86_64": "\tendbr64\n", "aarch64": "\thint\t#34\n"}
BY_TABLE = re.compile(r"^\t(notrack )?(jmpq\t\*%)", re.M)
NOTE = """
	.ifndef	in_rust
	.section	".note.gnu.property","a",{kind}note
	.p2align	3, 0x0
	.long	4, 16, 5
	.asciz	"GNU"
	.long	{property:#x}, 4, {bits}, 0
	.endif
"""
NOTES = {"x86_64": NOTE.format(kind="@", property=0xc0000002, bits=3), "aarch64": NOTE.format(kind="%", property=0xc0000000, bits=1)}
# A note in which each object names its sources, so that they can be read from an installed library or program. Linkers keep it. It is
# loaded with the program, but not on machines of 32 bits, where a linker's script might put it before the table of vectors. Windows has no
# notes, so there the words are among the constants.
SOURCES = """
	.section	.note.fotsgure,"{flags}",%note
	.p2align	2, 0x0
	.long	9, {length}, 1
	.asciz	"Fotsgure"
	.p2align	2, 0x0
	.asciz	"{words}"
	.p2align	2, 0x0
"""
SOURCES_ON_WINDOWS = """
	.section	.rdata,"dr"
	.asciz	"{words}"
"""
# Assembly for Windows says of the whole object that it has none of some features.
NO_FEATURES = re.compile(r"^\t\.def\t@feat\.00;\n(?:\t.*\n)*?@feat\.00 = 0\n", re.M)
COMMENTS = {"aarch64": "//", "arm": "@", "thumb": "@"}


def sum_of_library(library):
    """One sum of the crates that a library is made from: of their lines in BUILD."""
    crate = LIBRARIES[library]
    return crates.sum_of("".join(f"sources of {it}: {crates.sum_of_sources(it)}\n" for it in [*crates.below(crate), crate]).encode())


@dataclasses.dataclass(frozen=True)
class Assembly:
    """An assembly file below dist/: its library, or the program; its folder; and the suffix of the library's name, in the names of the file
    and of its functions. The file of the build for x86-64-v2 is called without it."""

    library: str
    folder: str
    suffix: str = ""

    name = property(lambda it: f"{it.folder}/{it.library}{it.suffix if it.suffix != '_v2' else ''}")
    path = property(lambda it: DIST / f"{it.name}.s")
    has_64_bits = property(lambda it: "64" in it.folder)
    is_as_compiled = property(lambda it: it.library == PROGRAM or it.folder == "wasm32")
    # What its own names begin with.
    prefix = property(lambda it: f"{it.library}{it.suffix}")
    registers = property(lambda it: Registers(it.folder, it.suffix == "_v3", it.suffix != "_narrow"))

    def published(self, text):
        """What the compiler wrote, as it is published."""
        if not self.is_as_compiled:
            text = self.marked(self.registers.emptied(self.bound_early(text)))
            exports = symbols.macro(self.folder, self.prefix, self.suffix if self.has_64_bits else "")
            text = exports + symbols.own(self.prefix, NO_FEATURES.sub("", text)) + self.of_sources()
        mark = COMMENTS.get(self.folder, "#")
        return f"{mark} Made by tools/dist from the proved crate {CRATES[self.library]}; BUILD says from what. Don't edit it.\n{text}"

    def calls_of_libc(self):
        """How each function of libc is called: by the compiler, and as it is published."""
        pairs = CALLS.get(self.folder, {}).items()
        return [(by_address.format(name), by_table.format(name)) for name in LIBC for by_address, by_table in pairs]

    def bound_early(self, text):
        """The assembly with calls of libc at addresses that the loader writes before the program runs."""
        for direct, by_table in self.calls_of_libc():
            text = re.sub(rf"^\t{direct}( *# TAILCALL)?$", "\t" + by_table, text, flags=re.M)
        if self.folder in CALLS and re.search(r"@PLT|^\t(?:bl?|call|tail)\tmem", text, re.M):
            sys.exit(f"dist: {self.name} calls a function of libc in a way that is bound at its first use")
        return text

    def marked(self, text):
        """The assembly with the marks of indirect calls and jumps, for a machine that has them."""
        if self.folder not in ENTRIES:
            return text
        text = re.sub(r"^fotsgure_\w+:.*\n", lambda label: label[0] + ENTRIES[self.folder], text, flags=re.M)
        return BY_TABLE.sub(r"\tnotrack \2", text) + NOTES[self.folder]

    def of_sources(self):
        """What the object says of its sources."""
        words = f"fotsgure_{self.library} {Header(self.library).version}, {self.name}.s, sources SHA-256 {sum_of_library(self.library)}"
        form = SOURCES_ON_WINDOWS if self.folder == "windows_x86_64" else SOURCES
        return form.format(words=words, length=len(words) + 1, flags="a" if self.has_64_bits else "")

    def as_compiled(self, compiled):
        """What is in dist/ as the compiler wrote it. `compiled` is assembly that it wrote, which has the names."""
        text = self.path.read_text()
        if self.is_as_compiled:
            return text
        text = symbols.as_compiled(self.prefix, text.partition(SOURCES.partition(",")[0])[0], compiled)
        text = BY_TABLE.sub(r"\t\2", text.replace(ENTRIES[self.folder], "").replace(NOTES[self.folder], ""))
        text = self.registers.as_compiled(text)
        for direct, by_table in self.calls_of_libc():
            text = text.replace(by_table, direct)
        return text
