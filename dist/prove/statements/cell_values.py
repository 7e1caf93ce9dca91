"""Gives each cell one value, and so each bit and byte. A run beside the processor has random values. To try the statements, cells have the
values of the standards' vectors."""
from loops.linear import Linear
from machines.operands import CODE, PAGE, WORD, Distance, Negated, Number, Pointer, Scaled, Shifted, Verdict
from symbols.bits import BLOCK, LINEAR, PRODUCT


class Values:
    def __init__(self, domain, random, counter=None, highest=WORD):
        """Prepares the values. `counter` is for counter mode, where the initial counter block consists of words (see operands.CounterWord).
        `most` is the highest number in a word of the machine."""
        self.domain, self.random, self.counter, self.highest = domain, random, counter, highest
        self.cells, self.bytes = {}, {}
        self.base = {}  # by names: the values of regions, and of what has a name alone
        self.groups = {}  # see `group`

    def cell(self, cell, block):
        d = self.domain
        if cell in d.word_of_cell:
            word, k = d.word_of_cell[cell]
            return self.word(word or Pointer(self.counter.word, self.counter.first + block - 1)) >> 8 * k & 255
        if cell in d.number_of_cell:
            number, k = d.number_of_cell[cell]
            return self.word(number) >> 8 * k & 255
        if cell in d.numbers and block > 1:
            k, number = d.numbers[cell]
            return sum(self.cell(d.cell_of(b)[0], 1) << 8 * j for j, b in enumerate(number)) + block - 1 >> 8 * k & 255
        key = (cell, block if d.of_block[cell] else 0)
        if key not in self.cells:
            bits = d.definitions.get(cell)
            self.cells[key] = self.random.randrange(256) if bits is None else self.number(
                [d.in_block(b, block) if d.of_block[cell] else b for b in bits])
        return self.cells[key]

    def number(self, bits):
        return sum(self.bit(x) << j for j, x in enumerate(bits))

    def bit(self, x):
        """Gives the value of a bit: the sum of its functions of cells, and of its products."""
        d, value = self.domain, x & 1
        if x > 1 and x & BLOCK == PRODUCT << 1:
            linear, pairs = d.split(x)
            for a, group, columns in d.filled_rows(pairs):
                if self.numbered_bit(a):
                    value ^= (columns & self.group(group, columns)).bit_count() & 1
            return value ^ self.bit(linear)
        for block, n in d.parts(x):
            for c, t in d.forms[n]:
                value ^= t >> self.cell(c, block) & 1
        return value

    def group(self, group, columns):
        """Gives the bits of cells of a group of 128 numbers, in an int. It has at least those of `columns`."""
        known, bits = self.groups.get(group, (0, 0))
        for k in range(128) if columns & ~known else ():
            if (columns & ~known) >> k & 1:
                bits |= self.numbered_bit(group << 7 | k) << k
        self.groups[group] = known | columns, bits
        return bits

    def numbered_bit(self, number):
        """Gives the bit of a cell that has this number."""
        return self.cell(number >> 3 & 0xffffff, number >> 27) >> (number & 7) & 1

    def byte(self, b):
        """Gives the value of a byte. It is None if the byte is undefined or a sum of products. What sums of products become is compared."""
        if b not in self.bytes:
            self.bytes[b] = None if b in self.domain.with_products else self.full_byte(b)
        return self.bytes[b]

    def bytes_of(self, content):
        known = list(map(self.bytes.get, content))
        return list(map(self.byte, content)) if None in known else known  # (None may also mean that a byte was never asked for)

    def full_byte(self, b):
        """Gives the value of a byte, also of a sum of products, which is slow."""
        d, name = self.domain, self.domain.name_of_opaque.get(b)
        if any(self.word(d.number_of_cell[c][0]) is None for c in d.unknown_cells(b)):
            return None
        if not name or d.symbolic(b):
            return self.number(d.bits(b))
        if isinstance(name, str):
            return None
        of, k = name
        if isinstance(of, Number):
            return self.base[of.base] + self.integer(of.offset) >> 8 * k & 255 if of.base in self.base else None
        word = self.base.setdefault(name, self.random.randrange(256)) << 8 * k if isinstance(of, str) else self.word(of)
        return None if word is None else word >> 8 * k & 255

    def word(self, v):
        """Gives the number that a value of machine.py is. It is None if a byte of the value has none."""
        if isinstance(v, int):
            return v
        if isinstance(v, Pointer):
            if v.base not in self.base:
                self.base[v.base] = self.first_value(v.base)
            return self.base[v.base] + self.integer(v.offset) & self.highest
        if isinstance(v, Distance):
            return self.base[v.base] - self.base[v.other] + self.integer(v.offset) & self.highest
        if isinstance(v, Negated):
            return self.integer(v.offset) - self.base[v.base] & self.highest
        if isinstance(v, Linear):
            x = self.integer(v)
            return x and x & self.highest
        if isinstance(v, (Shifted, Scaled)):
            x = self.word(v.number)
            return x and (x >> v.count if isinstance(v, Shifted) else x * v.factor >> 64)
        if isinstance(v, Verdict):
            zero = self.flag(("zero", *v.differences))
            return v.right if zero else v.wrong if zero == 0 else None
        b = [None] if isinstance(v, Number) else list(map(self.byte, v))
        return None if None in b else int.from_bytes(bytes(b), "little")

    def integer(self, x):
        """Gives an unknown number as an integer, and not only as a word. It is None if an unknown has no value."""
        if not isinstance(x, Linear):
            return self.word(x)
        known = [self.base.get(name) for name, _ in x.terms]
        return None if None in known else x.constant + sum(k * value for (_, k), value in zip(x.terms, known))

    def flag(self, flag):
        """Gives the value of a flag. It is None if that isn't known."""
        if not isinstance(flag, tuple):
            return flag if flag in (0, 1) else None
        if flag[0] == "not":
            value = self.flag(flag[1])
            return None if value is None else 1 - value
        if flag[0] == "zero":
            known = set(map(self.byte, flag[1:]))
            return 0 if known - {0, None} else None if None in known else 1
        if flag[0] == "bit":
            return self.byte(self.domain.pack([flag[1]] + [0] * 7))
        x, y, what = flag
        if what == "before":
            return int(self.base[x.base] + x.offset < self.base[x.other])
        x, y = self.integer(x), self.integer(y)
        return None if None in (x, y) else int(x < y if what == "below" else x == y)

    def first_value(self, base):
        """Gives a number to a word of unknown value, by the name of the word."""
        if base.startswith((CODE, PAGE)):
            return 0
        if self.counter and base == self.counter.word and self.counter.wrap < 1 << 63:
            return self.highest + 1 - self.counter.wrap
        if base == "nonce low":
            return self.number([x for k in range(8) for x in self.domain.bits_of_word[base](0, k)])
        return self.random.getrandbits(46) & self.highest >> 2 & ~1  # (an address is even)

    def set_byte(self, b, value):
        """Sets the value of a byte that is a function of one cell: the cell gets a value that makes it so."""
        bits = self.domain.bits(b)
        tables, flipped = [self.domain.forms[x >> 9][0][1] for x in bits], sum((x & 1) << j for j, x in enumerate(bits))
        byte = lambda c: sum((t >> c & 1) << j for j, t in enumerate(tables))
        value ^= flipped
        self.groups = {}
        self.cells[self.domain.cell_of(b)] = value if tables == LINEAR else next(c for c in range(256) if byte(c) == value)

    def give(self, b, value):
        """Gives this value to a byte of a statement's content. The byte is a constant, a byte of a word, or a cell."""
        name = self.domain.name_of_opaque.get(b)
        if name and not isinstance(name[0], Number):
            word, k = name
            self.base[word.base] = self.base.get(word.base, 0) | value << 8 * k
        elif b >= 256:
            self.set_byte(b, value)

    def rename(self, pairs, domain):
        """Gives new bytes the values of old ones, by pairs of an old byte and a new one. A proof may go on with arbitrary bytes instead of
        others. The new bytes may be of another domain."""
        known = [(new, self.full_byte(b)) for b, new in pairs if (new != b or domain is not self.domain) and domain.symbolic(new)]
        if domain is not self.domain:
            self.domain, self.cells = domain, {}
        self.bytes, self.groups = {}, {}
        for new, value in known:
            self.set_byte(new, value)
        for cell in domain.factor_cells.values():  # they stand for other bytes from now on
            self.cells.pop((cell, 0), None)
