"""Makes files from the headers: the choice between builds, the list of a DLL's exports, and the declarations for Rust."""
import re
import textwrap

from tools.crates import TOP

DIST = TOP / "dist"
TYPES = {"uint8_t": "u8", "uint32_t": "u32", "uint64_t": "u64", "size_t": "usize"}
NUMBER = re.compile(r"^(?:#define |    )(FOTSGURE_\w+)(?: =)? (\d+),?(?: |$)", re.M)
# A word that has 64 bits on 64-bit RISC-V, and another type elsewhere.
WORD = re.compile(r"^#if defined\(__riscv\) && __riscv_xlen == 64\ntypedef (\w+) (\w+);\n#else\ntypedef (\w+) \w+;\n#endif$", re.M)
STRUCT = re.compile(r"^struct (\w+) \{\n(.*?)^\};", re.M | re.S)
SIZE = re.compile(r"sizeof\(struct (\w+)\) == (\d+)(?: \* sizeof\((\w+)\))?,")
FIELD = re.compile(r"(\w+) (\w+)(?:\[(\w+)\])?;")
PARAMETER = re.compile(r"(const )?(?:struct )?(\w+) (\*)?(\w+)(?:\[(\w+)\])?")
COMMENT = re.compile(r"/\*.*?\*/", re.S)


def in_lines(words, width, first, others):
    """Words in lines, each of which ends after a comma."""
    words = words.replace(", ", ",\n").replace(" ", "\0")
    return [it.replace("\0", " ") for it in textwrap.wrap(words, width, initial_indent=first, subsequent_indent=others)]


def word_in_rust(on_riscv, name, elsewhere):
    riscv = 'target_arch = "riscv64"'
    lines = [f"#[cfg({riscv})]", f"pub type {name} = {TYPES[on_riscv]};"]
    return [*lines, f"#[cfg(not({riscv}))]", f"pub type {name} = {TYPES[elsewhere]};", ""]


class Header:
    """The header of a library: its version, and the calls that it declares: result, name and parameters of each."""

    def __init__(self, library):
        self.library, self.name = library, f"fotsgure_{library}.h"
        self.text = (DIST / "include" / self.name).read_text()
        self.version = re.search(r'_VERSION_TEXT "(.*)"', self.text)[1]
        prefix = f"FOTSGURE_{library.upper()}"
        calls = re.findall(rf"^(?:{prefix}_CHECK )?(\w[\w ]*) (fotsgure_\w+)\(([^()]*)\) {prefix}_NOEXCEPT;$", self.text, re.M)
        self.calls = [
            (result, name, [" ".join(it.split()) for it in parameters.replace(f"{prefix}_ALONE ", "").split(",") if it.strip() != "void"])
            for result, name, parameters in calls
        ]
        self.numbers = dict(NUMBER.findall(self.text))

    def assembled(self):
        """Those of the calls that are in the assembly. What is C is in all builds."""
        in_c = re.findall(r"^\w.*\((fotsgure_\w+)\)\(", (DIST / "seal_random.c").read_text(), re.M)
        return [it for it in self.calls if it[1] not in in_c]

    def choice(self):
        """The file choose_LIBRARY.c: for each call, a function that jumps to that of one of several builds."""
        lines = ['/* Made by tools/dist from the header: the exports of a static library of several builds. */', '#include "choose.h"']
        lines += [f'#include "{self.name}"', ""]
        for result, name, parameters in self.assembled():
            names = [re.search(r"(\w+)(?:\[\w+\])?$", it)[1] for it in parameters]
            macro = f"EITHER_VOID({name}," if result == "void" else f"EITHER({result}, {name},"
            lines += in_lines(f"{macro} ({', '.join(parameters) or 'void'}), ({', '.join(names)}))", 118, "", "    ")
        return "\n".join(lines) + "\n"

    def definitions(self):
        """The file LIBRARY.def: how a DLL is called, and what it shows."""
        minor = self.version.rpartition(".")[0]
        return "\n".join([f'LIBRARY "libfotsgure_{self.library}-{minor}.dll"', "EXPORTS", *(name for _, name, _ in self.calls), ""])

    def array(self, element, length):
        """The type in Rust of a field or of a parameter, which may be an array."""
        element = TYPES.get(element, element)
        return f"[{element}; {self.numbers.get(length, length)}]" if length else element

    def parameter_in_rust(self, text):
        is_const, kind, is_pointer, name, length = PARAMETER.fullmatch(text).groups()
        pointer = "*const " if is_const else "*mut "
        return f"{name}: {pointer if is_pointer or length else ''}{self.array(kind, length)}"

    def call_in_rust(self, result, name, parameters):
        result = "" if result == "void" else f" -> {TYPES.get(result, 'u32')}"
        return in_lines(f"fn {name}({', '.join(map(self.parameter_in_rust, parameters))}){result};", 116, "    ", "        ")

    def struct_in_rust(self, name, fields):
        fields = [f"    pub {it}: {self.array(kind, length)}," for kind, it, length in FIELD.findall(COMMENT.sub("", fields))]
        return ["#[repr(C)]", "#[derive(Clone)]", f"pub struct {name} {{", *fields, "}", ""]

    def in_rust(self):
        """The file of the library in callers/rust/sys/src: the numbers, structs and calls, under the names that they have in C."""
        lines = [f"// Made by tools/dist from dist/include/{self.name}. Don't edit it."]
        lines += [f"//! What `{self.name}` declares. The header says what each call does, and what you have to ensure.", ""]
        if "struct fotsgure_aes *" in self.text and self.library != "aes":
            lines += ["use crate::aes::fotsgure_aes;", ""]
        lines += [*(f"pub const {name}: u32 = {number};" for name, number in self.numbers.items()), ""]
        lines += [line for word in WORD.findall(self.text) for line in word_in_rust(*word)]
        lines += [line for struct in STRUCT.findall(self.text) for line in self.struct_in_rust(*struct)]
        for name, size, word in SIZE.findall(self.text):
            times = f" * core::mem::size_of::<{word}>()" if word else ""
            lines += [f"const _: () = assert!(core::mem::size_of::<{name}>() == {size}{times});"]
        calls = [line for call in self.assembled() for line in self.call_in_rust(*call)]
        return "\n".join([*lines, "", "library! {", f'    "{self.library}":', *calls, "}", ""])

    def files(self):
        """All that is made from it: {file: what it holds}."""
        return {
            DIST / f"x86_64/choose_{self.library}.c": self.choice(),
            DIST / f"windows_x86_64/{self.library}.def": self.definitions(),
            TOP / f"callers/rust/sys/src/{self.library}.rs": self.in_rust(),
        }
