"""Gives each assembly file names of its own, so that one object can hold several files, as that of a Rust crate does.

Each name begins with a prefix, which is the library and its build, as `aes_v3`:
 - the label .LBB0_1 becomes .Laes_v3_BB0_1;
 - a function becomes aes_v3.aes_permute.lane_keys.expand_lanes, without quotes, which LLVM's assembler for RISC-V refuses after `call`.
   The compiler tells functions that differ in their types apart by a hash: here they are numbered, in the order of the file;
 - the export fotsgure_aes_wipe gets the label aes_v3.fotsgure_aes_wipe, and the macro export_aes_v3 gives it the name that others call.
"""
import re

LABEL = re.compile(r"\.L(?=[A-Za-z])")
QUOTED = re.compile(r'"(\.\w+\.)?([^"\n]*::[^"\n]*)"')
EXPORT = re.compile(r"(?<![\w.:])(\.text\.)?(fotsgure_\w+)\b(?!::)")
GLOBAL = re.compile(r"^\t\.globl\t(fotsgure_\w+).*$", re.M)
COMMENT = re.compile(r"(?:^|\s)(?:#|//|@) .*")
# What a function is made for: values, which belong to its name, and types or a hash of them, which don't.
ARGUMENTS, VALUE = re.compile(r"::<([^<>]*)>"), re.compile(r"(?:^|,)=(\w+)")
CONDITIONS = "A Rust crate defines in_rust; for x86-64, a static library of both builds defines chosen, and choose_*.c calls these names."
# What assembly for Windows says of an export's name.
DEFINITION = re.compile(r"^\t\.def\tfotsgure_\w+;\n(?:\t.*\n)*?\t\.endef\n", re.M)


def plain(name):
    """A name without types, and without what needs quotes."""
    name = ARGUMENTS.sub(lambda them: "".join(f".{it}" for it in VALUE.findall(them[1])), name)
    return re.sub(r"[^\w.]", "_", name.replace("::", "."))


def of_functions(text):
    """What the functions of an assembly file are called instead: {name: another one, without a prefix}."""
    quoted = re.findall(r'^"([^"\n]+)":', text, re.M)
    names = [plain(it) for it in quoted]
    numbered = [f"{it}.{names[:at].count(it) + 1}" if names.count(it) > 1 else it for at, it in enumerate(names)]
    for name in numbered:
        if numbered.count(name) > 1:
            raise SystemExit(f"dist: {name} would be the name of two functions")
    return dict(zip(quoted, numbered))


def macro(folder, prefix, suffix):
    """The macro by which an assembly file exports, under a name with a suffix. In a Rust crate, which defines `in_rust`, the label itself
    is exported: a library in C beside it has other names. On x86-64, `chosen` is for static libraries of several builds: without it no name
    has a suffix. On Apple's systems each name begins with `_`."""
    is_windows, start = folder == "windows_x86_64", "_" if folder.startswith("apple") else ""
    label, plain_name = f"{start}{prefix}.\\name", f"{start}\\name"
    name = f"{plain_name}\\(){suffix}" if suffix else plain_name

    def shown(name, *more):
        lines = [f".globl\t{name}", *more, *([f".set\t{name}, {label}"] if name != label else [])]
        return [*lines, f".def\t{name}; .scl\t2; .type\t32; .endef"] if is_windows else lines

    def hidden(name):
        return shown(name, *([] if is_windows else [f".private_extern\t{name}" if start else f".hidden\t{name}"]))

    lines = shown(name)
    if suffix and not is_windows:
        lines = [".ifdef\tchosen", *hidden(name), ".else", *shown(plain_name), ".endif"]
    lines = [f".macro\texport_{prefix} name", ".ifdef\tin_rust", *hidden(label), ".else", *lines, ".endif", ".endm"]
    return f"/* {CONDITIONS} */\n" + "".join(f"\t{it}\n" for it in lines)


def own(prefix, text):
    """Assembly with names of its own."""
    functions = of_functions(text)

    def of_function(found):
        section, name = found[1] or "", found[2]
        return f"{section}{prefix}.{functions[name]}" if name in functions else found[0]

    text = GLOBAL.sub(rf"\texport_{prefix}\t\1", DEFINITION.sub("", LABEL.sub(f".L{prefix}_", text)))
    lines = [it if "\texport_" in it else EXPORT.sub(rf"\1{prefix}.\2", QUOTED.sub(of_function, it)) for it in text.split("\n")]
    if left := next((it for it in lines if QUOTED.search(COMMENT.sub("", it))), ""):
        raise SystemExit(f"dist: a name is still that of the compiler: {left}")
    return "\n".join(lines)


def as_compiled(prefix, text, compiled):
    """Assembly with the names of another file, which is as the compiler wrote it."""
    names = {new: old for old, new in of_functions(compiled).items()}

    def of_compiler(found):
        section, name = found[1] or "", found[2]
        return f'"{section}{names[name]}"' if name in names else f"{section}{name}"

    text = text.replace(f".L{prefix}_", ".L").replace(f"\texport_{prefix}\t", "\t.globl\t")
    return re.sub(rf"(?<![\w.])(\.\w+\.)?{prefix}\.([\w.]+)", of_compiler, text)
