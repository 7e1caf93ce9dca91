"""Keeps bits in canonical forms. Every proof here rests on these.

A *cell* is a byte that may have any of 256 values: a byte of the key schedule, of a block, or what enters an S-box. A bit is kept as the
exclusive or of functions of single cells, and perhaps of 1. Each function is a truth table of 256 entries: a Python int whose entry 0 is 0.
So equal forms are equal functions of the cells. Exclusive or is exact, cell by cell. `And` and look-ups are done only where everything
involved depends on one cell. Then they are exact too, on the 256 values of that cell. There are two exceptions. A look-up that is an affine
map of its index's bits is a sum, and needs no cell. GHASH multiplies bits of two cells: a sum of such products is kept beside the forms, in
`products`, and is only added.

Bits may depend on several cells. Then `named` asks whether they are sums of bits of one byte that the specification named (an input of an
S-box). If so, it writes that byte instead. This is an equation, and it is checked: both sides are computed. There is no search, and nothing
is approximated. What can't be done raises Unproved.

A bit is an int. 0 and 1 are constants. Any other bit is form << 9 | block << 1 | complement. Blocks are processed alike, so a form is kept
once for all of them. `block` (1 to 253) says whose cells are meant. It is 0 if the form has cells of keys alone. (`block` may also be MIXED
or PRODUCT. Then the number before it isn't that of a form.)

A byte is an int too: place << 24 | shape. Its shape is eight bits without blocks, the lowest first. Its place has the
block of each bit, or 0 for a bit that has none. Shapes and places have numbers. So what is computed with bytes of some
blocks is known for the same functions of other blocks (`by_shapes`). Below 256 a byte is a constant: its place is 0,
and the number of its shape is the constant. A byte with a bit that is MIXED or a PRODUCT has a shape of its own and
the place 0, and the bits of that shape have their blocks.

An opaque byte has a shape of its own too, which is None if its bits aren't known. It may be moved, but nothing may be
computed with it then. What a buffer or a register held before is opaque. The name of an opaque byte is a string, or
(value, k) for byte k of a value of machine.py or of a buffer."""

import functools
import operator
import sys

if sys.version_info < (3, 11):
    sys.exit("the proof needs Python 3.11 or later: name one, as in 'make prove PYTHON=python3.11'")

KEY, DATA, PUBLIC = 1, 2, 4  # what a cell depends on
ONES = (1 << 256) - 1
LINEAR = [sum((v >> j & 1) << v for v in range(256)) for j in range(8)]  # the truth table of bit j of a cell
CONSTANTS = [tuple([v >> j & 1 for j in range(8)]) for v in range(256)]  # the bits of constant bytes
BLOCK = 255 << 1
MIXED = 255  # instead of a block: the bit is a sum over several blocks, an entry of `mixed`
PRODUCT = 254  # instead of a block: the bit is one plus products of two bits of cells, an entry of `products`
OF_PRODUCT = PRODUCT << 1
SHAPE = (1 << 24) - 1  # the number of a byte's shape
OWN = -1  # instead of the bits of a shape that have a block: the shape is that of one byte alone

UNDEFINED, LOST = "undefined", "lost"  # names of opaque bytes that nobody wrote, and of those that were forgotten


class Unproved(Exception):
    """Is raised for what this program can't prove, or for what is wrong. An argument may be a function that makes a part of the message,
    since most messages are never read."""

    def __str__(self):
        return "".join(part() if callable(part) else str(part) for part in self.args)


class Undefined(Unproved):
    """Is raised where a byte or a flag is asked for that nobody wrote, or of which nothing is known."""


class Pause(Unproved):
    """Is raised when a call is about to compute with a byte of which only the name is known. A call that expands a key begins in the key's
    domain. It goes on in the domain of round keys, where the byte is known (aes.py, go_on)."""


@functools.lru_cache(None)
def composed_tables(table, tables):
    """Gives the truth tables of the bits of table[i], if the bits of i have these truth tables."""
    entries = [table[sum((t >> v & 1) << i for i, t in enumerate(tables))] for v in range(256)]
    return [sum((entries[v] >> j & 1) << v for v in range(256)) for j in range(8)]


@functools.lru_cache(None)
def affine_columns(table, constant, variable):
    """Gives what each variable bit of an index adds, if the table is an affine map of these bits; else None. The other bits of the index
    are those of `constant`."""
    columns = [table[constant | 1 << i] ^ table[constant] for i in variable]
    for s in range(1 << len(variable)):
        at, value = constant, table[constant]
        for k, i in enumerate(variable):
            if s >> k & 1:
                at, value = at | 1 << i, value ^ columns[k]
        if table[at] != value:
            return None
    return columns


def linear_bits(table):
    """Gives the bits of a cell whose sum is a truth table. Refuses any other table."""
    bits = [j for j in range(8) if table >> (1 << j) & 1]
    if functools.reduce(int.__xor__, (LINEAR[j] for j in bits), table):
        raise Unproved("a bit that is not linear in the bits of a byte")
    return bits


class Forms:
    """Keeps cells, the forms of bits and bytes of cells, and sums of forms."""

    def __init__(self):
        # Of cells, by their numbers: names, whether each block has one, and what they depend on.
        self.names, self.of_block, self.depends = [], [], []
        # Forms, ((cell, table), ..), by their numbers; the number of each; whether a form has cells of a block.
        self.forms = [()]
        self.ids = {(): 0}
        self.has_block = [False]
        self.xors = {}  # sums that were computed once, by their numbers
        # Shapes by numbers; which bits of each have a block, as an int, or OWN; numbers of shapes; and bytes by bits.
        self.shapes, self.with_block = list(CONSTANTS), [0] * 256
        self.shape_ids, self.byte_ids = ({bits: byte for byte, bits in enumerate(CONSTANTS)} for _ in range(2))
        # Places, as blocks << 1 of the eight bits, by their numbers; the number of each, shifted; and sets of blocks.
        self.places, self.place_ids, self.blocks_at = [(0,) * 8], {(0,) * 8: 0}, [frozenset()]
        self.blocks_of = {}  # {a byte with a shape of its own: its blocks}, of bytes that were asked for them
        # {the name of a counter of a call of any length: a function from the number of a block and k to the bits of byte k}
        self.placed = {}
        # {the name of an opaque byte: the byte}, and {the byte: its name}
        self.opaque_of_name, self.name_of_opaque = {}, {}
        self.of_verdicts = set()  # opaque bytes of Verdicts
        # {the name of a word of unknown value: a function from an offset and k to the bits of byte k of word + offset, or to None}
        self.bits_of_word = {}
        # {a cell that is a byte of such a word: (a Pointer, or None for the low word of a call's counter; which byte it is)}
        self.word_of_cell = {}
        # {a cell of a number that isn't known (linear.py): (the number, which byte it is)}, and {a byte: its cells of this kind}
        self.number_of_cell, self.unknown_cells_of = {}, {}
        self.sizes = {}  # {such a number: how many bits it has at most}; each call that has the number says so
        self.without_numbers = set()  # bytes that were seen to have no cell of such a number
        self.public = {}  # whether shapes have public cells alone
        self.of_forgotten = {}  # {what was forgotten: the cell of its byte}; see forget_bits
        # {a cell of a number that is one more in each block: (which byte it is, all bytes, the lowest first)}
        self.numbers = {}
        self.mixed = []
        self.mixed_ids, self.mixed_xors, self.halves = {}, {}, {}
        self.undefined = self.opaque(UNDEFINED)

    # Cells and bytes.
    def cell(self, name, of_block, depends):
        self.names.append(name)
        self.of_block.append(of_block)
        self.depends.append(depends)
        return len(self.names) - 1

    def fresh(self, name, depends, of_block=False):
        """Makes a byte that is a new cell. If each block has such a cell, the byte is that of block 1."""
        return self.byte_of_cell(self.cell(name, of_block, depends), int(of_block))

    def forget_bits(self, byte, number):
        """Makes a byte whose bits are arbitrary where they aren't constant. If such a byte is left, it counts as key."""
        cell = self.of_forgotten.setdefault(number, len(self.names))
        if cell == len(self.names):
            self.cell("forgotten byte %s" % (number,), False, KEY)
        return self.pack([x if x < 2 else self.bit(cell, table, 0) for x, table in zip(self.bits(byte), LINEAR)])

    def byte_of_cell(self, cell, block, tables=LINEAR):
        """Makes the byte whose bits have these truth tables."""
        return self.pack([self.bit(cell, t, block) for t in tables])

    def opaque(self, name):
        """Gives the byte with this name. Its bits are known only if it is a byte of a word or number that has forms."""
        if name not in self.opaque_of_name:
            word, number = self.bits_of_word.get(getattr(name[0], "base", None)), getattr(name[0], "byte", None)
            try:
                bits = number(self, name[1]) if number else word and word(name[0].offset, name[1])
            except Unproved:  # no number of a block that has a form
                bits = None
            byte = self.opaque_of_name[name] = self.new_shape(bits, OWN)
            self.name_of_opaque[byte] = name
            if hasattr(name[0], "differences"):
                self.of_verdicts.add(byte)
        return self.opaque_of_name[name]

    def new_shape(self, bits, with_block):
        """Gives a number to a shape."""
        if len(self.shapes) > SHAPE:
            raise Unproved("too many different bytes")
        self.shapes.append(bits)
        self.with_block.append(with_block)
        return len(self.shapes) - 1

    def shape_of(self, bits):
        """Gives the number of the shape that has these bits, which have no blocks."""
        shape = self.shape_ids.get(bits)
        if shape is None:
            has_block, factors = self.has_block, self.factor_bits
            own = factors and not factors.isdisjoint([x & ~1 for x in bits])
            with_block = OWN if own else sum([has_block[x >> 9] << j for j, x in enumerate(bits)])
            shape = self.shape_ids[bits] = self.new_shape(bits, with_block)
        return shape

    def place_of(self, blocks):
        """Gives a place, shifted as in a byte."""
        if blocks not in self.place_ids:
            self.place_ids[blocks] = len(self.places) << 24
            self.places.append(blocks)
            self.blocks_at.append(frozenset(b >> 1 for b in blocks if b))
        return self.place_ids[blocks]

    def pack(self, bits):
        """Gives the byte that has these bits."""
        bits = tuple(bits)
        byte = self.byte_ids.get(bits)
        if byte is None:
            blocks = tuple([x & BLOCK for x in bits])
            if max(blocks) < OF_PRODUCT:
                byte = self.shape_of(tuple([x & ~BLOCK for x in bits])) | self.place_of(blocks)
            else:
                byte = self.new_shape(bits, OWN)
                if OF_PRODUCT in blocks:
                    self.with_products.add(byte)
            self.byte_ids[bits] = byte
        return byte

    def prefer(self, bytes_):
        """Lets opaque bytes whose bits are known be the bytes with these bits, where these are computed from now on."""
        for byte in bytes_:
            bits = self.bits(byte)
            shape = self.pack(bits) & SHAPE
            if self.with_block[shape] != OWN:
                self.with_block[shape] = OWN  # so that nothing is known any more of bytes with this shape
                for known in self.shape_xors, self.shape_ands, self.list_xors:
                    known.clear()
            self.byte_ids[bits] = byte

    def plain(self, byte):
        """Gives a byte without its name, if its bits are known."""
        return self.pack(self.known_bits(byte)) if self.symbolic(byte) else byte

    def known_bits(self, byte):
        """Gives the bits of a byte, or None if it is opaque."""
        shape = self.shapes[byte & SHAPE]
        return shape if byte <= SHAPE else tuple(map(operator.or_, shape, self.places[byte >> 24]))

    def bits(self, byte):
        """Gives the bits of a byte. Refuses an opaque one."""
        bits = self.known_bits(byte)
        if bits is None:
            if self.name_of_opaque[byte] not in (UNDEFINED, LOST):
                raise Pause("computes with a byte of which only the name is known: " + self.describe(byte))
            raise Undefined("computes with a byte that is undefined: " + self.describe(byte))
        return bits

    def cell_of(self, byte):
        """Gives (cell, block) of a byte that is a cell. Bits may be flipped, and the byte of a number may be added."""
        bit = self.known_bits(byte)[0]
        cell, = (c for c, _ in self.forms[bit >> 9] if c not in self.number_of_cell)
        return cell, (bit & BLOCK) >> 1 if self.of_block[cell] else 0

    def symbolic(self, byte):
        """Whether a byte depends on cells."""
        return byte >= 256 and self.shapes[byte & SHAPE] is not None

    def cells(self, byte):
        bits = self.shapes[byte & SHAPE] if self.symbolic(byte) else ()
        return {c for b in bits for _, n in self.parts(b) for c, _ in self.forms[n]}

    def blocks(self, byte):
        """Gives the blocks whose cells a byte has."""
        if byte > SHAPE or self.with_block[byte] != OWN:
            return self.blocks_at[byte >> 24]
        if byte not in self.blocks_of:
            bits = self.shapes[byte] or ()
            self.blocks_of[byte] = frozenset(block for b in bits for block, _ in self.parts(b) if block)
        return self.blocks_of[byte]

    def depends_on(self, x):
        out = 0
        for _, n in self.parts(x):
            for c, _ in self.forms[n]:
                out |= self.depends[c]
        return out

    def is_public(self, byte):
        """Whether a byte has cells, and public ones alone."""
        shape = byte & SHAPE
        if shape not in self.public:
            bits = self.shapes[shape]
            self.public[shape] = bits is not None and not any(self.depends_on(x) & ~PUBLIC for x in bits)
        return self.public[shape]

    def cells_of_bit(self, x):
        """Gives the cells of a bit, with their blocks."""
        return [(c, block if self.of_block[c] else 0) for block, n in self.parts(x) for c, _ in self.forms[n]]

    def describe(self, byte):
        if byte < 256:
            return "%02x" % byte
        if not self.symbolic(byte):
            return str(self.name_of_opaque[byte])
        blocks = self.blocks(byte)
        cells = sorted(self.cells(byte))
        names = ", ".join(self.names[c] for c in cells[:6]) + (", …" if len(cells) > 6 else "")
        return "a function of %s%s" % (names, " of block %s" % sorted(b - 1 for b in blocks) if blocks else "")

    def is_same(self, a, b):
        """Whether two bytes are the same function. (A byte of a word of unknown value has a number of its own.)"""
        return a == b or self.symbolic(a) and self.symbolic(b) and self.known_bits(a) == self.known_bits(b)

    # Bits.
    def one_block(self, bits):
        """Gives the block of these bits, or 0 if they have none. Refuses bits of several blocks."""
        blocks = {b & BLOCK for b in bits} - {0}
        if len(blocks) > 1 or MIXED << 1 in blocks or OF_PRODUCT in blocks:
            raise Unproved("a product of bits of different blocks")
        return blocks.pop() >> 1 if blocks else 0

    def in_block(self, x, block):
        """Gives a bit as the same function of the cells of this block, which is less than PRODUCT (see byte_in_block)."""
        return x & ~BLOCK | block << 1 if self.has_block[x >> 9] else x

    def intern(self, form):
        """Gives the number of a form, {cell: (cell, table)}."""
        key = tuple(sorted(form.values()))
        n = self.ids.get(key)
        if n is None:
            n = self.ids[key] = len(self.forms)
            self.forms.append(key)
            self.has_block.append(any(map(self.of_block.__getitem__, form)))
        return n

    def bit(self, cell, table, block):
        """Gives the bit that is this function of one cell."""
        complement = table & 1
        table ^= ONES * complement
        if not table:
            return complement
        n = self.ids.get(((cell, table),)) or self.intern({cell: (cell, table)})
        return self.in_block(n << 9 | complement, block)

    def xor(self, x, y):
        """Adds two bits. Forms of one block are added cell by cell, and equal truth tables cancel. `mix` and `add_products` make the other
        sums."""
        if x < 2 or y < 2:
            return x ^ y
        bx, by = x & BLOCK, y & BLOCK
        if bx != by and bx and by or bx >= OF_PRODUCT or by >= OF_PRODUCT:
            return self.add_products(x, y) if OF_PRODUCT in (bx, by) else self.mix(x, y)
        key = x >> 9 << 32 | y >> 9
        n = self.xors.get(key)
        if n is None:
            form = {pair[0]: pair for pair in self.forms[x >> 9]}
            for pair in self.forms[y >> 9]:
                c, t = pair
                if c not in form:
                    form[c] = pair
                elif form[c][1] == t:
                    del form[c]
                else:
                    form[c] = c, form[c][1] ^ t
            n = self.xors[key] = self.intern(form)
        return (n << 9 | (bx | by if self.has_block[n] else 0) if n else 0) | (x ^ y) & 1

    # Sums over several blocks, as transposing makes them. Each block has a form without keys, and block 0 has the part of keys.
    def parts(self, x):
        """Gives the forms whose sum is a bit, each with its block. A bit of one block has one form, perhaps with cells of keys too."""
        if x < 2:
            return ()
        if x & BLOCK == BLOCK:
            return self.mixed[x >> 9]
        if x & BLOCK == OF_PRODUCT:
            linear, pairs = self.products[x >> 9]
            return [part for y in (linear, *map(self.numbered_bit, self.factors(pairs))) for part in self.parts(y)]
        return [((x & BLOCK) >> 1, x >> 9)]

    def halves_of(self, x):
        """Gives the parts of a bit, in which the cells of keys have a part of their own."""
        if x < 2 or x & BLOCK == BLOCK:
            return self.parts(x)
        n = x >> 9
        if n not in self.halves:
            parts = ({pair[0]: pair for pair in self.forms[n] if self.of_block[pair[0]] is own} for own in (True, False))
            self.halves[n] = [*map(self.intern, parts)]
        return [(block, n) for block, n in zip(((x & BLOCK) >> 1, 0), self.halves[n]) if n]

    def mix(self, x, y):
        """Adds bits of different blocks, block by block. If one block is left, the sum is a usual bit again. Else it is an entry of
        `mixed`."""
        key = (x & ~1, y & ~1)
        z = self.mixed_xors.get(key)
        if z is None:
            sums = dict(self.halves_of(x))
            for block, n in self.halves_of(y):
                n = self.xor(n << 9, sums.pop(block) << 9) >> 9 if block in sums else n
                if n:
                    sums[block] = n
            if len(set(sums) - {0}) < 2:
                z = 0
                for block, n in sums.items():
                    z = self.xor(z, n << 9 | block << 1)
            else:
                parts = tuple(sorted(sums.items()))
                if parts not in self.mixed_ids:
                    self.mixed_ids[parts] = len(self.mixed)
                    self.mixed.append(parts)
                z = self.mixed_ids[parts] << 9 | BLOCK
            self.mixed_xors[key] = z
        return z ^ (x ^ y) & 1
