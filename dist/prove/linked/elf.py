"""Reads ELF files: objects of the assembler, and shared libraries. Compares a library with the code and the constants of objects."""
import functools
import struct
from collections import namedtuple

from symbols.bits import Unproved

Section = namedtuple("Section", "name kind flags address content size entry link info align")
Symbol = namedtuple("Symbol", "name binding kind visibility section value")
Relocation = namedtuple("Relocation", "offset kind symbol addend")

# Kinds of sections.
CONTENT = 1
SYMBOLS = 2
STRINGS = 3
RELOCATIONS = 4
NOTE = 7
NO_BITS = 8
DYNAMIC_SYMBOLS = 11
RISCV_ATTRIBUTES = 0x70000003
# Flags of sections.
WRITTEN = 1
LOADED = 2
EXECUTED = 4
MERGED = 16
FLAGS = 7  # those for written, loaded and run
LOCAL, GLOBAL = 0, 1  # of symbols
FUNCTION = 2  # a kind of symbols
DEFAULT, HIDDEN = 0, 2
UNDEFINED = 0  # instead of the section of a symbol that another file defines
LOAD, STACK = 1, 0x6474e551  # kinds of parts of the memory
# Where a library says which functions the loader runs: one function, or an array of them and its size.
ALONE, ARRAYS = (12, 13), ((25, 27), (26, 28), (32, 33))
FLAGS_OF_LOADER, BIND_NOW = 30, 8


class Elf:
    """Reads one file. `narrow`: its words have 32 bits."""

    def __init__(self, path):
        self.path = path
        with open(path, "rb") as file:
            self.raw = file.read()
        self.narrow, self.machine = self.raw[4] == 1, struct.unpack_from("<H", self.raw, 0x12)[0]
        table, = struct.unpack_from(*("<I", self.raw, 0x20) if self.narrow else ("<Q", self.raw, 0x28))
        size, count, names = struct.unpack_from("<HHH", self.raw, 0x2e if self.narrow else 0x3a)
        headers = [struct.unpack_from("<10I" if self.narrow else "<IIQQQQIIQQ", self.raw, table + k * size) for k in range(count)]

        def name(header):
            return self.string(headers[names][4] + header[0])

        def content(header):
            return b"" if header[1] == NO_BITS else self.raw[header[4]:header[4] + header[5]]

        self.sections = [Section(name(h), *h[1:4], content(h), h[5], h[9], *h[6:9]) for h in headers]
        self.offsets = [header[4] for header in headers]

    def string(self, at):
        return self.raw[at:self.raw.index(b"\0", at)].decode()

    def symbols_of(self, number):
        """Gives the symbols of a table, by the number of its section."""
        table = self.sections[number]
        for fields in struct.iter_unpack("<IIIBBH" if self.narrow else "<IBBHQQ", table.content):
            name, info, other, section, value = (fields[k] for k in ((0, 3, 4, 5, 1) if self.narrow else range(5)))
            yield Symbol(self.string(self.offsets[table.link] + name), info >> 4, info & 15, other & 3, section, value)

    def all_symbols(self, kind=SYMBOLS):
        return [symbol for number, s in enumerate(self.sections) if s.kind == kind for symbol in self.symbols_of(number)]

    @functools.cached_property
    def exports(self):
        """Gives {name: Symbol} of what other files may call by its name."""
        return {s.name: s for s in self.all_symbols() if s.binding != LOCAL and s.section != UNDEFINED}

    @functools.cached_property
    def relocations(self):
        """Gives {number of a section: its Relocations}."""
        found = {}
        for section in self.sections:
            if section.kind == RELOCATIONS:
                symbols = list(self.symbols_of(section.link))
                layout, bits = ("<IIi", 8) if self.narrow else ("<QQq", 32)
                found.setdefault(section.info, []).extend(
                    Relocation(offset, info & (1 << bits) - 1, symbols[info >> bits], addend)
                    for offset, info, addend in struct.iter_unpack(layout, section.content))
        return found

    def properties(self):
        """Gives (kind, value) of each property that notes have."""
        for section in (s for s in self.sections if s.name == ".note.gnu.property"):
            at = 0
            while at < len(section.content):
                # A note has a header of 16 bytes, which says how many bytes follow it.
                end, at = at + 16 + struct.unpack_from("<I", section.content, at + 4)[0], at + 16
                while at < end:
                    kind, size = struct.unpack_from("<II", section.content, at)
                    value, at = section.content[at + 8:][:size], at + 8 + (size + 7 & ~7)
                    yield kind, int.from_bytes(value, "little")

    # Of a linked file.
    def may_run_what_is_written(self):
        """Whether a part of the memory for this library, or the stack of its program, may be both written and run."""
        at, size, count = struct.unpack_from("<Q", self.raw, 0x20) + struct.unpack_from("<HH", self.raw, 0x36)
        flags = {(kind, flags & 3) for kind, flags in (struct.unpack_from("<II", self.raw, at + k * size) for k in range(count))}
        return (LOAD, 3) in flags or (STACK, 2) not in flags

    @functools.cached_property
    def tags(self):
        """Gives {kind: value} of what a loader is told of this library."""
        return dict(struct.iter_unpack("<QQ", next(s.content for s in self.sections if s.name == ".dynamic")))

    def run_by_loader(self):
        """Gives the addresses of what the loader runs when a program starts or ends."""
        tags = self.tags
        arrays = [range(tags[begin], tags[begin] + tags[size]) for begin, size in ARRAYS if begin in tags]
        yield from (tags[tag] for tag in ALONE if tag in tags)
        for array in arrays:
            yield from (address for address, in struct.iter_unpack("<Q", self.bytes_at(array.start, len(array))))
            yield from (r.symbol.value + r.addend for all_ in self.relocations.values() for r in all_ if r.offset in array)

    def bytes_at(self, address, size):
        """Gives the bytes of a loaded section at an address."""
        for s in self.sections:
            if s.flags & LOADED and s.address <= address and address + size <= s.address + len(s.content):
                return s.content[address - s.address:][:size]
        raise Unproved("%s has nothing at %x" % (self.path, address))

    @functools.cached_property
    def imported(self):
        """Gives {address: name} of the words that the loader sets to the address of another file's function."""
        return {r.offset: r.symbol.name for all_ in self.relocations.values() for r in all_ if r.symbol.section == UNDEFINED}


def exports_of(path, suffix):
    """Gives {name without the suffix: name} of an object's exports."""
    return {name.removesuffix(suffix): name for name in Elf(path).exports}


# A relocation has three parts here: the bits of four bytes that the linker sets, what they say, and a function that computes this from the
# four bytes and their own address. They say an "address", or the higher bits of one ("page"), or the lowest twelve ("low").
def signed(number, bits):
    return number - (number >> bits - 1 << bits)


def page(word, place):
    """Gives the page that ARM's adrp names. The linker may put adr instead, which names the address."""
    number = signed(word >> 5 & 0x7ffff, 19) << 2 | word >> 29 & 3
    return (place & ~4095) + (number << 12) if word >> 31 else place + number


BY_DISTANCE = 0xffffffff, "address", lambda word, place: place + signed(word, 32)
BY_WORDS = 0x3ffffff, "address", lambda word, place: place + 4 * signed(word & 0x3ffffff, 26)
BY_PAGE = 0xe0ffffe0, "page", page
LOW = {shift: (0x3ffc00, "low", lambda word, place, shift=shift: (word >> 10 & 4095) << shift) for shift in range(5)}
X86_64, AARCH64 = 62, 183
FIELDS = {X86_64: dict.fromkeys((2, 4, 9, 41, 42), BY_DISTANCE),
          AARCH64: {261: BY_DISTANCE, 275: BY_PAGE, 311: BY_PAGE, 282: BY_WORDS, 283: BY_WORDS, 277: LOW[0], 278: LOW[0], 284: LOW[1],
                    285: LOW[2], 286: LOW[3], 312: LOW[3], 299: LOW[4]}}
# Properties that a loader reads. NEEDED names the processor that the code needs. MARKED says that there is a mark wherever an indirect call
# may arrive, and on x86-64 also that no code changes return addresses. A linker says MARKED of a library only if all objects say it.
NEEDED, MARKED = 0xc0008002, {X86_64: (0xc0000002, 3), AARCH64: (0xc0000000, 1)}
WORD_KINDS = {X86_64: (9, 41, 42), AARCH64: (311, 312)}  # the kinds that lead to a word with the address


class Comparison:
    """Compares a shared library with the objects that were linked into it: each export, and all that it leads to."""

    def __init__(self, library, objects):
        self.library, self.objects = library, objects
        self.fields, self.word_kinds = FIELDS[library.machine], WORD_KINDS[library.machine]
        self.placed, self.waiting = {}, []  # {(object, number of a section): its address in the library}

    def compare_exports(self, exports, kind=DYNAMIC_SYMBOLS):
        """Compares all that these exports lead to. `exports` is {name in the library: name in an object}, for symbols of this kind."""
        have = {s.name: s for s in self.library.all_symbols(kind) if s.section != UNDEFINED}
        for name, of_object in exports.items():
            if name not in have:
                raise Unproved("%s has no %s" % (self.library.path, name))
            self.note_place(*self.defined(of_object), have[name].value)
        while self.waiting:
            self.compare_section(*self.waiting.pop())

    def refuse_what_a_loader_runs(self):
        """Refuses a library if the loader runs code of the objects, or if some memory may be both written and run."""
        ranges = [range(address, address + len(elf.sections[number].content)) for (elf, number), address in self.placed.items()]
        if any(address in one for address in self.library.run_by_loader() for one in ranges):
            raise Unproved("%s runs its code when a program starts or ends" % self.library.path)
        if self.library.may_run_what_is_written():
            raise Unproved("%s has memory, or a stack, that may be both written and run" % self.library.path)
        if not self.library.tags.get(FLAGS_OF_LOADER, 0) & BIND_NOW:
            raise Unproved("%s lets the loader find functions of libc at their first use, with registers on the stack" % self.library.path)

    def defined(self, name):
        """Finds the object that defines a name, and the symbol."""
        for elf in self.objects:
            if name in elf.exports:
                return elf, elf.exports[name]
        raise Unproved("no object of %s has %s" % (self.library.path, name))

    def note_place(self, elf, symbol, address, by=0):
        """Notes that the byte `by` bytes after a symbol of an object lies at this address of the library. Refuses a second place of a
        section. (In a merged section each entry has a place of its own, and a label has one entry at most: directives.py.)"""
        section, at = elf.sections[symbol.section], symbol.value + by
        if section.flags & MERGED:
            if self.library.bytes_at(address, section.entry) != section.content[at:at + section.entry]:
                self.refuse(elf, section, "has another constant")
            return
        place = elf, symbol.section
        if place not in self.placed:
            self.placed[place] = address - at
            self.waiting.append(place)
        elif self.placed[place] != address - at:
            self.refuse(elf, section, "lies at two places")

    def refuse(self, elf, section, why):
        raise Unproved("%s is not what was proved: %s of %s %s" % (self.library.path, section.name, elf.path, why))

    def compare_section(self, elf, number):
        """Compares a section with its place in the library, without the bits that the linker sets. Then notes where these lead: all
        relocations of one target have to mean one address."""
        section, address = elf.sections[number], self.placed[elf, number]
        if section.kind == NO_BITS:
            return
        have, want = bytearray(self.library.bytes_at(address, len(section.content))), bytearray(section.content)
        targets = {}
        for r in elf.relocations.get(number, ()):
            if r.kind not in self.fields:
                self.refuse(elf, section, "has a relocation of kind %d" % r.kind)
            mask, part, meaning = self.fields[r.kind]
            word, = struct.unpack_from("<I", have, r.offset)
            key = r.symbol, r.addend, r.kind in self.word_kinds
            targets.setdefault(key, {}).setdefault(part, set()).add(meaning(word, address + r.offset))
            for content in have, want:
                struct.pack_into("<I", content, r.offset, struct.unpack_from("<I", content, r.offset)[0] & ~mask)
        if have != want:
            self.refuse(elf, section, "has other bytes")
        for (symbol, addend, of_word), parts in targets.items():
            if any(len(values) != 1 for values in parts.values()) or set(parts) not in ({"address"}, {"page", "low"}):
                self.refuse(elf, section, "means two addresses by %s" % symbol.name)
            # A distance counts from the end of the instruction, which the addend says. A page and its low bits are those of the whole
            # address.
            found, by = sum(value for values in parts.values() for value in values), addend * ("page" in parts)
            self.note_target(elf, section, symbol, found - addend + by, by, of_word)

    def note_target(self, elf, section, symbol, address, by, of_word):
        """Notes the place of a symbol, or checks that a word has the address of another file's function."""
        if of_word and self.library.imported.get(address) != symbol.name:
            self.refuse(elf, section, "calls something else than %s" % symbol.name)
        if not of_word:
            of = (elf, symbol) if symbol.section != UNDEFINED else self.defined(symbol.name)
            self.note_place(*of, address, by)
