"""Places sections otherwise than a linker usually does. So nothing that is proved depends on what lies behind a section, or on how far
sections are apart."""
import random
import re
from itertools import pairwise

from linked.elf import EXECUTED, LOADED, MERGED, UNDEFINED, Elf
from linked.tools import run, write
from machines.operands import Memory, concatenated, is_int, lanes
from machines.x86_64 import Windows
from symbols.bits import Unproved

MOVED_BY = 0x1235000  # how much higher the addresses of the other link are, with which numbers are compared
TARGET = r"\b(?:0x)?[0-9a-f]+ <[^>]*>"  # an address in the code, as objdump prints it
NUMBER = r"#?-?\b(?:0x[0-9a-f]+|\d+)\b"
PAGE = r"(?:adrp|(?:c\.)?auipc)\t(\w+)"  # finds the register that gets a part of an address, if code makes an address in two steps
NO_STACK = '\t.section\t.note.GNU-stack,"",%progbits\n'
OF_HOST = "start", "memmove", "memcpy", "memset"  # the functions of host.c
# Windows' linker needs room between sections. Tables for unwinding are left out. Around constants both links have other bytes.
WINDOWS_SCRIPT = """SECTIONS {
    . = 0x%x; .text : { %s *(.text*) }
    . = ALIGN(4096); .rdata : { FILL(%s) . = . + %d; *host.o(.rdata*) . = . + %d; *(.rdata*) . = . + 4096; }
    . = ALIGN(4096); .data : { *(.data*) }
    . = ALIGN(4096); .bss : { *(.bss*) *(COMMON) }
    /DISCARD/ : { *(.pdata*) *(.xdata*) }
}"""


def reversed_script(machine, objects, moved):
    """Gives the linker's own script, with the sections of objects in the reverse of their order. Behind each there is something else: an
    instruction that fails, or bytes that both links have differently. Constants begin at a multiple of their alignment, and of no higher
    power of two up to 64. With `moved` all distances between sections are greater, each by another number. (For a linker that makes code
    shorter, only those of constants are. Else it might do so at other places then.)"""
    _, script, *_ = run(*machine.linker, "-static", "-z", "noexecstack", "--verbose").split("=" * 50) + ["", ""]
    if "*(.text.unlikely" not in script or "*(.rodata" not in script:
        raise Unproved("%s doesn't print a script as GNU's linker does" % machine.linker[0])
    names = {s.name: None for path in objects for s in reversed(Elf(path).sections) if s.flags & LOADED and not s.flags & MERGED}
    byte = "0x5a" if moved else "0xa5"
    for kind, first, begin, before in (
            (r"\.text\.", "*(.text.unlikely", "", machine.trap + ". = . + 16; " * (moved and not machine.relaxed)),
            (r"\.rodata\.", "*(.rodata", "FILL(%s) " % (byte + 3 * byte[2:]) + ". = . + 4352; " * moved,
             "BYTE(%s) " % byte + ". = . + 64; " * moved + ". = ALIGN(64) + 1; ")):
        at = script.index(first)
        own = "".join("%s*(%s) " % (before, name) for name in names if re.match(kind, name))
        end = script.index(")", at) + 1
        script = script[:at] + begin + own + before + script[at:end] + " . = . + 12288; " * (moved and not machine.relaxed) + script[end:]
    return script


def parted_constants(machine, objects, out, moved):
    """Makes an object that has each constant of the sections that a linker merges, in the reverse of their order, and with random bytes
    between. If it is linked first, it parts these constants, as other objects of a program may do. With `moved` all distances are
    greater."""
    drawn, lines = random.Random(moved), [NO_STACK]
    for s in (s for path in objects for s in Elf(path).sections if is_merged(s)):
        lines.append('\t.section\t%s,"aM",%%progbits,%d\n\t.balign\t%d\n' % (s.name, s.entry, s.align))
        for constant in reversed(lanes(s.content, s.entry)):
            lines += ["\t.byte\t%s\n" % ", ".join(map(str, some)) for some in (*random_entries(drawn, s, moved), constant)]
    write(out + ".s", "".join(lines))
    run(*machine.compiler, "-c", out + ".s", "-o", out + ".o")
    return out + ".o"


def random_entries(drawn, section, moved):
    """Draws what comes before a constant: one entry, or two."""
    return [drawn.randbytes(section.entry) for _ in range(1 + moved)]


def is_merged(section):
    return section.flags & LOADED and section.flags & MERGED


def sections_in(program):
    """Gives (name, address, size, object) of each section that the linker placed, by its map."""
    with open(program.path + ".map") as file:
        placed = re.findall(r"(?m)^ (\.(?:text|rodata|rdata)\S*)\s+0x([0-9a-f]+)\s+0x([0-9a-f]+) (.+)$", file.read())
    return [(name, int(at, 16), int(size, 16), path) for name, at, size, path in placed if int(size, 16)]


def related_constants(program, path):
    """Gives the addresses of bytes of constants that an object's relocations set."""
    begins = {name: at for name, at, size, placed in sections_in(program) if placed == path and not name.startswith(".text")}
    listing = run(program.machine.tools + "objdump", "-r", path).split("RELOCATION RECORDS FOR [")
    for name, records in (part.split("]:", 1) for part in listing[1:]):
        for offset, kind in re.findall(r"(?m)^([0-9a-f]{8,})\s+(\S+)", records) if name in begins else ():
            yield from range(begins[name] + int(offset, 16), begins[name] + int(offset, 16) + (8 if kind.endswith("64") else 4))


def places_of_units(program, path):
    """Gives (first address, size) of all that a linker places by itself: sections, constants of sections that it merges, and its own table
    of addresses."""
    placed = sections_in(program)
    own = [name for name, *_, file in placed if file == path]
    if len(own) != len({*own}):
        raise Unproved("has two sections of one name")
    merged = [] if program.machine is Windows else list(filter(is_merged, Elf(path).sections))
    parted = {name: (at, size) for name, at, size, file in reversed(placed) if file.endswith(".parted.o")}
    out = [(at, size) for name, at, size, _ in placed if name not in {s.name for s in merged}]
    out += [(program.place_of(constant, *parted[s.name]), s.entry) for s in merged for constant in dict.fromkeys(lanes(s.content, s.entry))]
    return out + [(at, program.machine.word) for at in words_of_table(program)]


def words_of_table(program):
    """Gives where the words of the linker's table of addresses lie."""
    return [at for s in Elf(program.path).sections if s.name == ".got"
            for at in range(s.address, s.address + len(s.content), program.machine.word)]


def compare_links(program, other, path):
    """Refuses instructions that have other numbers in another link, except in addresses. Notes how much higher each section is there, and
    by how much the numbers of instructions differ. A direct jump has to lead to the same place."""
    here, there = lines_of(program), lines_of(other)
    units = zip(places_of_units(program, path), places_of_units(other, path), strict=True)
    program.units = sorted((at, at + size, moved - at) for (at, size), (moved, _) in units)
    program.own_units = {at for _, at, _, file in sections_in(program) if file == path}
    table = {*words_of_table(program)}
    for (before, _, x), (at, _, y) in pairwise(sorted(program.units, key=lambda unit: (unit[2], unit[0]))):
        if x == y and not {before, at} <= table and not (program.machine.relaxed and (at in program.lines or at in table)):
            raise Unproved("another link moves two sections alike")
    if program.machine is not Windows:
        refuse_other_addresses(program.machine, Elf(path))
    for name, lines in here.items():
        if [*lines.values()] != [*there[name].values()]:
            raise Unproved("has a number that depends on where code lies, in " + name)
        for a, b in zip(lines, there[name]):
            compare_numbers(program, a, other, b)
    program.other, program.related = other, {*related_constants(program, path)}


def lines_of(program):
    """Gives {function: {address: the line without addresses}}."""
    return {name: dict(zip(sorted(addresses), without_addresses(program, sorted(addresses))))
            for name, addresses in program.functions().items()}


def without_addresses(program, addresses):
    """Gives the lines of a function without addresses. A register that got the upper part of one holds a part until it is written again.
    (Jumps don't count. So a load with such a register counts everywhere in the function.)"""
    ever = {page[1] for page in (re.match(PAGE, program.lines[a]) for a in addresses) if page}
    pages = set()
    for address in addresses:
        text = re.sub(r"\s*%s.*" % program.machine.comment, "", program.lines[address])
        text = re.sub(r"\[rip[^\]]*\]", "[rip]", re.sub(TARGET, "to", text))
        used = re.split(r"\W+", text)
        page = re.match(PAGE, text)
        if page or pages & {*used[1:]} or used[0] == "ldr" and ever & {*used[2:]}:
            text = re.sub(r"\[(\w+)\]", r"[\1, part]", re.sub(NUMBER, "part", text))  # (0 isn't printed)
        pages -= {*used[1:2]} if not page else set()
        pages |= {page[1]} if page else set()
        yield text


def compare_numbers(program, at, other, there):
    """Refuses an instruction that has another number in another link, unless it makes an address in the code. Notes how much greater the
    number is there, and the number of the lower part of an address."""
    if program.lines[at] == other.lines[there] and at not in program.upper_parts and at not in program.low_parts:
        return
    one, two = program.decoded(at), other.decoded(there)
    numbers = [(x.offset, y.offset) if isinstance(x, Memory) and isinstance(y, Memory) and x._replace(offset=y.offset) == y else (x, y)
               for x, y in zip(one.operands, two.operands) if x != y]
    if len(numbers) > 1 or not is_int(*concatenated(numbers)):
        raise Unproved("has more than a number that depends on where code lies: " + program.lines[at])
    (x, y), last = numbers[0] if numbers else (0, 0), one.operands[-1]
    if at in program.upper_parts:
        program.moved_numbers[at] = program.machine.upper_part(there, two) - program.machine.upper_part(at, one)
    elif at in program.low_parts:
        program.low_parts[at] = program.low_parts[at], last.offset if isinstance(last, Memory) else last
        program.moved_numbers[at] = y - x
    elif leads(program, at):
        if y - x != program.moved_by(x, 1):
            raise Unproved("leads to a place that depends on where code lies: " + program.lines[at])
    elif numbers:
        if not any(isinstance(o, Memory) and not (o.base or o.index) for o in one.operands):
            raise Unproved("has a number that depends on where code lies: " + program.lines[at])
        program.moved_numbers[at] = y - x


def leads(program, at):
    """Whether an instruction is a direct jump or call."""
    return re.search(r"\b[0-9a-f]+ <", program.lines[at].partition(program.machine.comment)[0])


def refuse_other_addresses(machine, elf):
    """Refuses an address beside one of another file. For a linker that makes code shorter, it also refuses an address beside one in the
    code, by the name of another section, or by none."""
    for r in (r for all_ in elf.relocations.values() for r in all_):
        if r.symbol.section == UNDEFINED:
            if r.symbol.name and r.addend != machine.usual_addend:
                raise Unproved("an address beside one of another file")
        elif machine.relaxed:
            section = elf.sections[r.symbol.section] if r.symbol.section < len(elf.sections) else None
            is_within = section and 0 <= r.symbol.value + r.addend <= len(section.content)
            if not is_within or r.addend and section.flags & EXECUTED:
                raise Unproved("an address beside one in the code, by the name of another section, or a number")
