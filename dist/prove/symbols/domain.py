"""Computes with symbolic bits and bytes. A domain has the cells of one proof."""
import functools
import itertools

from symbols.bits import (BLOCK, OF_PRODUCT, OWN, PRODUCT, SHAPE, Forms, Unproved, affine_columns, composed_tables,
                          linear_bits)
from symbols.products import Products
from symbols.sum_names import Names


def moved_block(block, by):
    """Gives the number of a block that is later by `by`, or 0 for cells of keys alone."""
    if block and not 0 < block + by < PRODUCT:
        raise Unproved("a block whose number is too high or too low")
    return block and block + by


class Domain(Forms, Products, Names):
    """Has the cells of one proof, and all that is computed with them."""

    def __init__(self):
        Products.__init__(self)
        Names.__init__(self)
        Forms.__init__(self)
        # Results by their operands, so that each is computed once. (bytewise.py uses `entries` and `shifted`.)
        self.ands, self.byte_xors, self.byte_ands, self.lookups, self.moves, self.entries, self.shifted = ({} for _ in range(7))
        self.shape_xors, self.shape_ands, self.places_without, self.list_xors = {}, {}, {}, {}
        self.serials = itertools.count(1)  # of Verdicts
        self.named_bits = {}  # what left_behind.named_bits gives for bytes

    def and_(self, x, y):
        """Multiplies two bits. Bits of factors give a sum of products. Any other two bits have to depend on one cell: then their truth
        tables are multiplied."""
        if x < 2 or y < 2:
            return (x and y) if x < 2 else (y and x)
        if x == y:
            return x
        if x ^ y == 1:
            return 0
        if x & ~1 in self.factor_bits:
            return self.dot([x], [y])
        key = (x & ~BLOCK, y & ~BLOCK)
        block = (x & BLOCK) >> 1 if x & BLOCK == y & BLOCK < OF_PRODUCT else self.one_block((x, y))
        z = self.ands.get(key)
        if z is None:
            cell, (t, u) = self.common(key)
            z = self.ands[key] = self.bit(cell, t & u, 0)
        return self.in_block(z, block)

    def or_(self, x, y):
        return self.and_(x ^ 1, y ^ 1) ^ 1

    def by_shapes(self, known, operation, a, b):
        """Combines two bytes bit by bit, if their blocks are the same, or if one has no blocks. Gives None for others,
        and if a shape is that of one byte alone. `known` has for two shapes that of the result, and above it which bits
        have lost their block."""
        p, q, a, b, with_block = a & ~SHAPE, b & ~SHAPE, a & SHAPE, b & SHAPE, self.with_block
        if p != q and p and q or with_block[a] == OWN or with_block[b] == OWN:
            return None
        c = known.get((a, b))
        if c is None:
            x, y = self.shapes[a], self.shapes[b]
            alike = x.count(x[0]) == y.count(y[0]) == 8  # as in a byte of a plane
            c = self.shape_of((operation(x[0], y[0]),) * 8 if alike else tuple(map(operation, x, y)))
            if with_block[c] == OWN:
                return None
            c = known[a, b] = c | ((with_block[a] | with_block[b]) & ~with_block[c]) << 24
        return c | p | q if c <= SHAPE else c & SHAPE | self.place_without(p | q, c >> 24)

    def place_without(self, place, lost):
        """Gives a place in which these bits have lost their block."""
        if (place, lost) not in self.places_without:
            left = [0 if lost >> j & 1 else block for j, block in enumerate(self.places[place >> 24])]
            self.places_without[place, lost] = self.place_of(tuple(left))
        return self.places_without[place, lost]

    def xor_byte(self, a, b):
        if a < 256 and b < 256 or not a or not b:
            return a ^ b
        c = self.by_shapes(self.shape_xors, self.xor, a, b)
        if c is None:
            known = self.product_xors if a in self.with_products or b in self.with_products else self.byte_xors
            c = known.get((a, b))
            if c is None:
                c = known[a, b] = self.pack(list(map(self.xor, self.bits(a), self.bits(b))))
        return c

    def xor_bytes(self, a, b):
        """Adds bytes of a register to those of another one."""
        key = len(a), *a, *b
        c = self.list_xors.get(key)
        if c is None:
            c = self.list_xors[key] = list(map(self.xor_byte, a, b))
        return [*c]

    def and_byte(self, a, b):
        if a < 256 and b < 256 or not a or not b:
            return a & b
        if 255 in (a, b):
            return b if a == 255 else a
        c = None if self.factor_of else self.by_shapes(self.shape_ands, self.and_, a, b)
        if c is None:
            key = self.with_factors(a, b) if self.factor_of else (a, b)
            known = self.byte_ands if key == (a, b) else self.product_ands
            c = known.get(key)
            if c is None:
                c = known[key] = self.pack(list(map(self.and_, *map(self.bits, key))))
        return c

    def with_factors(self, a, b):
        """Gives two bytes, and puts factors instead of the bits of one of them, if each bit has a factor (name_factors). That byte comes
        first. (No bit of the other byte is 1, so factors come into products only.)"""
        for x, y in ((a, b), (b, a)) if a > 255 and b > 255 else ():
            if 1 not in self.bits(y) and all(bit & ~1 in self.factor_of for bit in self.bits(x)):
                return self.pack([self.factor_of[bit & ~1] | bit & 1 for bit in self.bits(x)]), y
        return a, b

    def or_byte(self, a, b):
        if not a or not b:
            return a | b
        return self.xor_byte(self.and_byte(self.xor_byte(a, 255), self.xor_byte(b, 255)), 255)

    def lookup(self, table, index):
        """Gives table[index] for a constant table (a tuple of 2^k bytes) and the k bits of an index."""
        block = self.one_block(index)
        key = (table, tuple([b & ~BLOCK for b in index]))
        c = self.lookups.get(key)
        if c is None:
            c = self.lookups[key] = self.affine(*key)
        if c is None:
            cell, tables = self.common(key[1])
            c = self.lookups[key] = self.byte_of_cell(cell, 0, composed_tables(table, tuple(tables)))
        return self.byte_in_block(c, block)

    def affine(self, table, index):
        """Gives table[index] if that is an affine map of the bits of the index that vary, else None. Such a look-up needs no cell."""
        constant = sum(b << i for i, b in enumerate(index) if b < 2)
        variable = tuple([i for i, b in enumerate(index) if b > 1])
        columns = affine_columns(table, constant, variable)
        if columns is None:
            return None
        bits = list(self.bits(table[constant]))
        for i, column in zip(variable, columns):
            bits = [self.xor(b, index[i]) if column >> j & 1 else b for j, b in enumerate(bits)]
        return self.pack(bits)

    def byte_in_block(self, byte, block):
        """Gives a byte as the same function of the cells of this block."""
        if not 0 <= block < PRODUCT:
            raise Unproved("a block whose number is too large")
        if not self.symbolic(byte):
            return byte
        bits, with_block = self.known_bits(byte), self.with_block[byte & SHAPE]
        if not block and any([self.has_block[b >> 9] for b in bits]):
            raise Unproved("a block before the first one")  # 0 means cells of keys alone
        if with_block == OWN:
            return self.pack([self.in_block(b, block) for b in bits])
        return byte & SHAPE | self.place_of(tuple([(with_block >> j & 1) * block << 1 for j in range(8)]))

    def moved(self, byte, by):
        """Gives a byte as the same function of the cells of other blocks, whose numbers are higher by `by`."""
        if not by or not self.symbolic(byte):
            return byte
        own = self.with_block[byte & SHAPE] == OWN
        key = byte if own else byte & ~SHAPE, by  # (the place alone is no byte that depends on cells)
        if key not in self.moves:
            self.moves[key] = self.moved_bits(byte, by) if own else self.place_of(
                tuple([moved_block(block >> 1, by) << 1 for block in self.places[byte >> 24]]))
        return self.moves[key] if own else byte & SHAPE | self.moves[key]

    def moved_bits(self, byte, by):
        """Moves a byte with a shape of its own bit by bit."""
        bits = []
        for x in self.known_bits(byte):
            y = x & 1
            if x & BLOCK == OF_PRODUCT:
                raise Unproved("a product, of other blocks")
            for block, n in self.parts(x):
                block = moved_block(block, by)
                y = self.xor(y, n << 9 | block << 1) if n else y
            bits.append(y)
        return byte if tuple(bits) == self.known_bits(byte) else self.pack(bits)

    def unknown_cells(self, byte):
        """Gives the cells of a byte that belong to numbers that aren't known."""
        shape = byte & SHAPE
        if shape not in self.unknown_cells_of:
            simple = self.symbolic(byte) and byte not in self.with_products
            self.unknown_cells_of[shape] = self.cells(byte) & self.number_of_cell.keys() if simple else ()
        return self.unknown_cells_of[shape]

    def put_in(self, byte, others):
        """Gives a byte as the same function of other bytes instead of cells. `others` is {a cell: a byte}."""
        bits = []
        for x in self.bits(byte):
            y = x & 1
            for block, n in self.parts(x):
                for c, t in self.forms[n]:
                    y = self.xor(y, self.image(t, others[c]) if c in others else self.bit(c, t, block))
            bits.append(y)
        return self.pack(bits)

    def image(self, table, byte):
        """Gives the bit that a truth table of a cell makes of another byte."""
        if byte < 256:
            return table >> byte & 1
        return functools.reduce(self.xor, (self.bits(byte)[j] for j in linear_bits(table)), 0)

    def substitute(self, byte, table, name):
        """Gives table[byte] for a table of 256 bytes. Names the byte if it is no function of one cell."""
        if byte < 256:
            return table[byte]
        try:
            return self.lookup(table, self.bits(byte))
        except Unproved:
            self.name(byte, name)
            return self.lookup(table, self.bits(byte))
