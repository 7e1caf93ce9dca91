"""Refuses assembly files, objects and linked files that have something else than what is proved: other lines (directives.py), symbols,
sections or instructions."""
import re

from linked.builds import BUILDS, source
from linked.directives import refuse_lines
from linked.elf import (CONTENT, DEFAULT, FUNCTION, GLOBAL, HIDDEN, LOADED, LOCAL, MARKED, NEEDED, NO_BITS, NOTE, RELOCATIONS,
                        RISCV_ATTRIBUTES, STRINGS, SYMBOLS, UNDEFINED, WRITTEN, Elf, exports_of)
from linked.tools import run
from machines.machine import LIBC
from machines.x86_64 import Windows
from symbols.bits import Unproved

HOST = "start", "area", "odd"  # names of host.c


def fault_of(check, *arguments):
    """Runs a check, and gives the text of what it refuses, or "" if it refuses nothing."""
    try:
        check(*arguments)
    except Unproved as e:
        return str(e)
    return ""


def line_cases(dist, builds):
    """Checks that assembly files have only lines that directives.py allows."""
    for path, machine in {source(dist, build): BUILDS[build] for build in builds}.items():
        yield "%s: its lines" % path, fault_of(refuse_lines, path, machine)


def refuse_names_of_windows(path, suffix):
    """Refuses in an object for Windows what refuse_names refuses. `nm` prints a letter for each symbol: T is a function of ours, and U one
    of others. Small letters are for names that no other file sees."""
    symbols = re.findall(r"(?m)^[0-9a-f ]{16} (\w) (\S+)$", run(Windows.tools + "nm", path))
    ours = lambda name: name.startswith("fotsgure_") and name.endswith(suffix)
    known = {*LIBC, *Windows.also_called}
    others = [name for kind, name in symbols if not (
        kind.islower() and kind not in "wv" and not ours(name) and name not in {*LIBC, *HOST} or kind == "T" and ours(name)
        or kind == "U" and name in known)]
    if others:
        raise Unproved("depends on what else is linked: " + ", ".join(others))
    names = [name for kind, name in symbols if kind == "T"]
    if len(set(names)) != len(names):
        raise Unproved("defines a name twice")


# The names that sections may have, by whether they are loaded and written; and the kinds that they may have.
SECTIONS = {LOADED: r"\.(text|rodata|note\.gnu\.property|note\.fotsgure)(\..+)?", LOADED | WRITTEN: r"\.(data|bss)",
            0: r"|\.(comment|note\.(GNU-stack|fotsgure)|riscv\.attributes|symtab|strtab|shstrtab|debug_\w+|rela\..+)"}
KINDS = 0, CONTENT, SYMBOLS, STRINGS, RELOCATIONS, NOTE, NO_BITS, RISCV_ATTRIBUTES


def refuse_sections(path, in_rust=False):
    """Refuses sections other than code, constants that nothing writes, notes, and those that aren't loaded and on which no linker acts.
    Also refuses a stack that may be run, and an object without the note of its marks, except in a Rust crate."""
    elf = Elf(path)

    def is_right(s):
        return s.kind in KINDS and re.fullmatch(SECTIONS.get(s.flags & (LOADED | WRITTEN), "(?!)"), s.name)
    wrong = [s.name for s in elf.sections if not is_right(s) or s.flags & WRITTEN and s.size]
    stacks = [s.flags for s in elf.sections if s.name == ".note.GNU-stack"]
    kind, value = (None, None) if in_rust else MARKED.get(elf.machine, (None, None))
    properties = [one for one in elf.properties() if one[0] in (NEEDED, kind)]
    faults = {"a stack that may be run": not stacks or any(stacks),
              "a note that says something else of marks or processors": properties != [(kind, value)] * bool(kind)}
    wrong += [what for what, is_wrong in faults.items() if is_wrong]
    if wrong:
        raise Unproved("%s has more than code and constants: %s" % (path, ", ".join(wrong)))


def refuse_plain(path, member, suffix):
    """Checks an object in which names have no suffix, made from the same assembly file as a member of a static library. Refuses sections,
    names, and exports that the member doesn't have."""
    refuse_sections(path)
    refuse_names(path, "")
    if sorted(Elf(path).exports) != sorted(exports_of(member, suffix)):
        raise Unproved("%s has other exports than the static library" % path)


def refuse_names(path, suffix):
    """Refuses a symbol that another file may define instead, and a name that isn't ours or that comes twice."""
    elf, known = Elf(path), {*LIBC, "_GLOBAL_OFFSET_TABLE_"}

    def is_known(s):
        if s.section == UNDEFINED:
            return s.name in known and s.binding == GLOBAL
        visibility = HIDDEN if suffix else DEFAULT
        is_ours = s.name.startswith("fotsgure_") and s.name.endswith(suffix)
        return s.binding == GLOBAL and s.visibility == visibility and s.kind == FUNCTION and is_ours
    others = sorted(s.name for s in elf.all_symbols() if s.binding != LOCAL and not is_known(s))
    if others:
        raise Unproved("depends on what else is linked: " + ", ".join(others))
    names = [s.name for s in elf.all_symbols() if s.section != UNDEFINED and s.name]
    taken = {*LIBC, *HOST} & {*names} | {name for name in names if name.startswith("fotsgure_") and names.count(name) > 1}
    if taken:
        raise Unproved("defines a name that is taken: " + ", ".join(sorted(taken)))


def refuse_instructions(program, suffix):
    """Refuses an instruction that isn't covered, or that not all processors of the build have. Refuses an export without the mark that some
    processors expect where an indirect call arrives, and a function that no export leads to."""
    functions = program.functions()
    without = [name for name, address in program.exports.items() if not re.match(program.machine.landing_mark, program.lines[address])]
    if without:
        raise Unproved("has no mark at the beginning of " + ", ".join(without))
    machine, elf = program.machine, Elf(program.path)
    later = [] if not suffix else machine.from_v2_and_v3[int(suffix[2]) - 1:]
    for address in (address for addresses in functions.values() for address in addresses):
        name, line = program.decoded(address).name, program.lines[address]
        if any(re.fullmatch(pattern, name) for pattern in later) or elf.bytes_at(address, 1) == machine.avx512:
            raise Unproved("has an instruction that not all of its processors have: " + line)
        if re.match(machine.jumps_to_mark, line):
            raise Unproved("has an indirect jump or call that arrives where a mark has to be: " + line)
    reached = set().union(*program.reached_by_exports(functions).values())
    if reached != set(functions):
        raise Unproved("has functions that no export leads to: " + ", ".join(sorted(set(functions) - reached)))
