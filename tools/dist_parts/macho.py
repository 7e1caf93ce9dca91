"""Makes assembly for Apple's systems (Mach-O) from the published assembly for Linux, line by line. No instruction changes.

What changes is how names and sections are written:
 - Names of functions and of libc begin with `_`. Labels of code begin with `L`, and those of constants with `l_`: the linker knows these,
   and can leave out a constant that nothing uses.
 - Code is in __TEXT,__text and constants are in __TEXT,__const. A function or constant is as much aligned as its section is on Linux.
 - On ARM an address is written NAME@PAGE and NAME@PAGEOFF, and that of a function of libc NAME@GOTPAGE and NAME@GOTPAGEOFF.
 - A hidden name is private_extern. What ELF says of a symbol's type and size, of stacks and of marks is left out.
 - With subsections_via_symbols the linker may leave out or move each function, as with sections of their own on Linux. So the assembler
   can't shorten a jump from one function to another, and each instruction has the bytes that it has on Linux.

A line of another form is refused. tools/check/macho compares what is linked from both.
"""
import re
import sys

from .headers import DIST
from .published import LIBC, LIBRARIES, NOTES, PROGRAM
from .symbols import macro

FOLDERS = {"x86_64": "apple_x86_64", "aarch64": "apple_aarch64"}
# There is no first build for x86-64: each processor that macOS 10.12 or later runs on has SSSE3 and SSE4.1.
BUILDS = {"x86_64": ("", "_v3"), "aarch64": ("",)}
PREFIX, WORDS = re.compile(r"^\t\.macro\texport_(\w+) name$", re.M), re.compile(r'^\t\.asciz\t"(fotsgure_.*)"$', re.M)
SECTION = re.compile(r'^\t\.section\t"?\.(text|rodata)\..*,"(?:ax|aM?)",@progbits(?:,(\d+))?\n', re.M)
SECTIONS = {"text": "\t.section\t__TEXT,__text,regular,pure_instructions\n", "rodata": "\t.section\t__TEXT,__const\n"}
LEFT_OUT = re.compile(r"""^(?:\.L\w*func_end\d+:|\t\.(?:file\t"rattle"|(?:type|size|ident)\t.*|section\t"\.note\.GNU-stack".*))\n""", re.M)
ALIGNMENT = re.compile(r"(?<=^\t\.p2align\t)\d", re.M)
# How each name is written. (The labels of constants are those of literals, statics and tables. The lines of the program are the compiler's
# own: it is called, and calls the system, by plain names.)
NAMES = [
    (r"\.L(?=\w*?(?:CPI\d|JTI\d|static\.\d|switch\.table\b))", "l_"),
    (r"\.L(?=\w*?BB\d)", "L"),
    (r"\b__sysv_signal\b", "signal"),
    (r"^(\t(?:callq|jmp)\t)(\w+)@PLT", r"\1_\2"),
    (r"^(\tbl?\t)([a-z]\w*)$", r"\1_\2"),
    (r"^(\t\.globl\t)?main\b", r"\1_main"),
    (rf"\*({'|'.join(LIBC)})@GOTPCREL", r"*_\1@GOTPCREL"),
    (rf":got:({'|'.join(LIBC)})$", r"_\1@GOTPAGE"),
    (rf":got_lo12:({'|'.join(LIBC)})\b", r"_\1@GOTPAGEOFF"),
    (r'^(\tadrp\tx\d+, (?:l_[\w.]+|"l_.*"))', r"\1@PAGE"),
    (r':lo12:(l_[\w.]+|"l_.*")', r"\1@PAGEOFF"),
]
# The words that name the sources, which the linker keeps.
SOURCES, SUBSECTIONS = '\n\t.section\t__TEXT,__fotsgure,regular,no_dead_strip\n\t.asciz\t"{}"\n', "\n.subsections_via_symbols\n"
COMMENT, QUOTED = re.compile(r"(?:^|\s)(?://|#(?= |APP|NO_APP)).*", re.M), re.compile(r'".*"|\texport_.*')
# What only ELF has.
OF_ELF = re.compile(rf"""^.*(?:^\t\.(?!(?:ascii|byte|short|hword|long|word|quad|xword|zero|p2align|globl|section\t__TEXT)\b)
    |\.L|@(?!(?:GOT)?PAGE(?:OFF)?\b|GOTPCREL\b)[A-Za-z]|:(?:lo12|got|got_lo12):|(?<![\w.])(?:{'|'.join(LIBC)})\b).*""", re.M | re.X)


def sections(body):
    """The code and the constants, with Mach-O's directives."""
    parts = SECTION.split(LEFT_OUT.sub("", body))
    for kind, size, lines in zip(parts[1::3], parts[2::3], parts[3::3]):
        if kind == "text":
            lines = ALIGNMENT.sub(max(ALIGNMENT.findall(lines)), lines, count=1)
        elif size and not lines.startswith("\t.p2align"):
            lines = f"\t.p2align\t{int(size).bit_length() - 1}\n{lines}"
        yield SECTIONS[kind] + lines


def for_apple(folder, text):
    """The assembly for Apple's systems of one for Linux, which is in that folder."""
    head, _, body = text.partition("\n")
    names, exports, end = NAMES, "", SUBSECTIONS
    if found := PREFIX.search(text):
        prefix, suffix, (words,) = found[1], re.search(r"(?:_v\d)?$", found[1])[0], WORDS.findall(text)
        names, exports = [*NAMES, (rf"(?<![\w.]){prefix}\.(?=\w)", f"_{prefix}.")], macro(FOLDERS[folder], prefix, suffix)
        body, end = body.partition("\t.endm\n")[2].partition(NOTES[folder])[0], SOURCES.format(words.replace(folder, FOLDERS[folder])) + end
    body = "".join(sections(body))
    for found, written in names:
        body = re.sub(found, written, body, flags=re.M)
    if other := OF_ELF.search(QUOTED.sub("", COMMENT.sub("", body))):
        sys.exit(f"dist: assembly for Apple's systems has another form of a line: {other[0]}")
    return f"{head}\n{exports}{body.rstrip()}\n{end}"


def files():
    """All of the assembly for Apple's systems: {file: what it holds}."""
    names = [(folder, f"{library}{build}.s") for folder, builds in BUILDS.items() for library in LIBRARIES for build in builds]
    names += [(folder, f"{PROGRAM}.s") for folder in FOLDERS]
    return {DIST / FOLDERS[folder] / name: for_apple(folder, (DIST / folder / name).read_text()) for folder, name in names}
