"""Gives names to sums of bits, such as the inputs of S-boxes."""
import functools

from symbols.bits import BLOCK, LINEAR, ONES, Unproved


class Names:
    """Cells that are names of bytes, whose bits are sums."""

    def __init__(self):
        self.by_cells = {}  # {the cells of a sum: the cells that are names of such sums}
        self.ways = {}  # {a form: the ways to write it} (`single`)
        self.asked = {}  # {cells: the forms of these cells that are in `ways`}
        self.definitions = {}  # {a cell that is a name: the bits that it replaces}
        self.defined_by = {}  # {a cell that is a name: the cells of these bits, with places for their tables}

    def define(self, cell, bits):
        """Makes a cell the name of the byte with these bits, in all blocks."""
        cells = tuple(sorted({c for b in bits for c, _ in self.forms[b >> 9]}))
        # For sums of bits of the byte: the form as a vector, the truth table of the sum, and the complement.
        places = {c: 256 * i for i, c in enumerate(cells)}
        rows = [(self.vector(self.forms[b >> 9], places), LINEAR[j], b & 1) for j, b in enumerate(bits)]
        echelon = []  # Gaussian elimination, in which the lowest set bit is the pivot
        for v, table, complement in rows:
            for p, w, t, c in echelon:
                if v & p:
                    v, table, complement = v ^ w, table ^ t, complement ^ c
            if not v:
                raise Unproved("the bits of %s are not independent" % self.names[cell])
            echelon.append((v & -v, v, table, complement))
        self.definitions[cell], self.defined_by[cell] = bits, places
        for some in {cells, *(tuple(c for c, _ in self.forms[b >> 9]) for b in bits)}:
            self.by_cells.setdefault(some, []).append((cell, echelon))
            for n in self.asked.pop(some, ()):
                del self.ways[n]

    def vector(self, form, places):
        """Gives the tables of a form as one int, each at the place of its cell."""
        return sum([t << places[c] for c, t in form])

    def named(self, form, cells):
        """Gives [(cell, table)] for each name of a byte of whose bits a form is the sum."""
        out = []
        for cell, echelon in self.by_cells.get(cells, ()):
            v, table, complement = self.vector(form, self.defined_by[cell]), 0, 0
            for p, w, t, c in echelon:
                if v & p:
                    v, table, complement = v ^ w, table ^ t, complement ^ c
            if not v:
                out.append((cell, table ^ ONES * complement))
        return out

    def single(self, n):
        """Gives the ways to write form n as a function of one cell, {cell: table}. It may be one already, or by a name, or be a function of
        a named cell plus a sum that has the same name."""
        ways = self.ways.get(n)
        if ways is None:
            form = self.forms[n]
            cells = tuple([c for c, _ in form])
            ways = self.ways[n] = dict(self.named(form, cells)) if cells in self.by_cells else {}
            self.asked.setdefault(cells, []).append(n)
            last, t = form[-1]  # a cell that is the name of the others is newer than these
            if len(form) == 1:
                ways[last] = t
            elif cells[:-1] in self.by_cells:
                ways.update((cell, t ^ table) for cell, table in self.named(form[:-1], cells[:-1]) if cell == last)
        return ways

    def common(self, bits):
        """Gives a cell so that all these bits are functions of it, and their truth tables."""
        variable = [b for b in bits if b > 1]
        ways = [self.single(b >> 9) for b in variable]
        cells = set(ways[0]).intersection(*ways[1:])
        if not cells:
            raise Unproved(lambda: "a product of bits that are not functions of one byte: "
                           + "; ".join(self.describe(self.pack([b] + [0] * 7)) for b in variable))
        cell, ways = max(cells), iter(ways)
        return cell, [next(ways)[cell] ^ ONES * (b & 1) if b > 1 else ONES * b for b in bits]

    def name(self, byte, name):
        """Gives the cell that is the name of this byte. Makes it if there is none."""
        self.one_block(self.bits(byte))  # so that without the block each bit is a form
        bits = tuple(b & ~BLOCK for b in self.bits(byte))
        try:
            cell, tables = self.common(bits)
            if tables == LINEAR:
                return cell
        except Unproved:
            pass
        depends = functools.reduce(int.__or__, map(self.depends_on, bits))
        cell = self.cell(name, any(self.has_block[b >> 9] for b in bits if b > 1), depends)
        self.define(cell, bits)
        return cell
