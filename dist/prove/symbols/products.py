"""Keeps sums of products of two bits of cells, for GHASH."""
import functools

from symbols.bits import BLOCK, LINEAR, PRODUCT, Unproved, linear_bits


class Products:
    """A sum of products is a bit, and an int that has a bit for each pair of bits of cells.

    Bits of cells have numbers. There is a row for each higher bit of a pair and each group of 128 lower bits. A pair is in that row, at the
    lower bit's place in its group. The rows follow each other in the order in which they were first needed (`row_keys`)."""

    def __init__(self):
        self.products = []
        self.product_ids, self.product_xors, self.product_ands = {}, {}, {}
        self.with_products = set()
        self.linear_tables, self.linear_parts, self.column_parts, self.rows = {}, {}, {}, {}
        self.row_keys = []
        self.known_products, self.factor_of, self.factor_cells = {}, {}, {}
        self.cells_of_bytes = {}  # see `cells_in`
        self.linear_entries = {}  # {bytes that were named as factors: {a table: its entries by bytes}}
        self.entries_now = {}  # those for the factors that are named now
        self.factor_bits = set()

    def bit_number(self, cell, block, j):
        """Gives the number of bit j of a cell in a block."""
        return (block << 24 | cell) << 3 | j

    def numbered_bit(self, number):
        """Gives the bit with this number."""
        return self.bit(number >> 3 & 0xffffff, LINEAR[number & 7], number >> 27)

    def split(self, x):
        """Gives the linear part of a bit, and the int with its pairs."""
        return self.products[x >> 9] if x & BLOCK == PRODUCT << 1 else (x & ~1, 0)

    def add_products(self, x, y):
        """Gives the sum of two bits that may have products."""
        (a, p), (b, q) = self.split(x), self.split(y)
        return self.product_bit(self.xor(a, b), p ^ q) ^ (x ^ y) & 1

    def product_bit(self, linear, pairs):
        """Gives the bit that is the sum of a linear bit and of products."""
        if not pairs:
            return linear
        key = linear & ~1, pairs
        number = self.product_ids.setdefault(key, len(self.products))  # (looked up once, since the hash of a long int takes long)
        if number == len(self.products):
            self.products.append(key)
        return number << 9 | PRODUCT << 1 | linear & 1

    def forget_products(self):
        """Forgets products before a call, as none of its values has a byte with products of another call."""
        for byte in self.with_products:
            del self.byte_ids[self.shapes[byte]]
            self.shapes[byte] = None
        for known in (self.products, self.product_ids, self.with_products, self.product_xors, self.product_ands, self.shifted,
                      self.linear_tables, self.known_products, self.rows, self.row_keys, self.cells_of_bytes,
                      self.linear_entries, self.entries_now, self.public, self.list_xors):
            known.clear()

    def filled_rows(self, pairs):
        """Gives the rows that have pairs: the number of a bit, a group, and the bits of the group that are multiplied with that bit."""
        rows = pairs.to_bytes(16 * len(self.row_keys), "little")
        for row, (a, group) in enumerate(self.row_keys):
            columns = int.from_bytes(rows[16 * row:16 * row + 16], "little")
            if columns:
                yield a, group, columns

    def factors(self, pairs):
        """Gives the numbers of all bits that are in a product."""
        out, groups = [], {}
        for a, group, columns in self.filled_rows(pairs) if pairs else ():
            out.append(a)
            groups[group] = groups.get(group, 0) | columns
        return out + [group << 7 | k for group, columns in groups.items() for k in range(128) if columns >> k & 1]

    def name_factors(self, bytes_):
        """Replaces these bytes by cells where they are the first factor of products, until this is called again. Gives the bytes of the
        cells. These are the same each time, so a product is computed only once. Such a cell is only in products, and in no form."""
        self.factor_of, out = {}, []
        self.entries_now = self.linear_entries.setdefault(tuple(bytes_), {})
        for i, byte in enumerate(bytes_):
            if self.symbolic(byte):
                cell = self.factor_cells.setdefault(i, len(self.names))
                if cell == len(self.names):
                    self.cell("factor byte %d" % i, False, 0)
                    self.factor_bits.update(self.bit(cell, table, 0) for table in LINEAR)
                self.definitions[cell] = [x & ~1 for x in self.bits(byte)]
                depends = functools.reduce(int.__or__, map(self.depends_on, self.bits(byte)))
                if self.depends[cell] != depends:
                    self.depends[cell] = depends
                    self.public.clear()
                for j, x in enumerate(self.definitions[cell]):
                    if x:
                        self.factor_of.setdefault(x, self.bit(cell, LINEAR[j], 0))
                byte = self.pack([self.factor_of[x & ~1] | x & 1 if x > 1 else x for x in self.bits(byte)])
            out.append(byte)
        return out

    def forget_factors(self):
        """Forgets which bytes are replaced by cells."""
        self.factor_of, self.entries_now = {}, self.linear_entries.setdefault((), {})

    def cells_in(self, bytes_):
        """Gives the cells of bytes, also those in products, with their blocks."""
        if bytes_ not in self.cells_of_bytes:
            out, pairs = set(), 0
            for x in (x for b in bytes_ if self.symbolic(b) for x in self.bits(b)):
                linear, products = self.split(x)
                out.update(self.cells_of_bit(linear))
                pairs |= products
            out.update((number >> 3 & 0xffffff, number >> 27) for number in self.factors(pairs))
            self.cells_of_bytes[bytes_] = out
        return self.cells_of_bytes[bytes_]

    def linear_part(self, x):
        """Gives the numbers of the bits of cells whose sum a bit is."""
        out = self.linear_parts.get(x & ~1)
        if out is None:
            if x & BLOCK == PRODUCT << 1:
                raise Unproved("a product of three bits")
            out = self.linear_parts[x & ~1] = []
            for block, n in self.parts(x):
                for c, t in self.forms[n]:
                    out += [self.bit_number(c, block if self.of_block[c] else 0, j) for j in linear_bits(t)]
        return out

    def linear_image(self, x, bits_of_cell, source):
        """Gives the same sum as a bit of another domain, which is a sum of bits of cells there. `bits_of_cell` gives the bits that replace
        those of a cell."""
        out = x & 1
        for number in source.linear_part(x) if x > 1 else ():
            out = self.xor(out, bits_of_cell(number >> 3 & 0xffffff)[number & 7])
        return out

    def columns(self, y):
        """Gives for a sum of bits of cells the places of these bits in a row, as an int for each group, and the highest number."""
        out = self.column_parts.get(y & ~1)
        if out is None:
            groups, numbers = {}, self.linear_part(y)
            for b in numbers:
                groups[b >> 7] = groups.get(b >> 7, 0) ^ 1 << (b & 127)
            out = self.column_parts[y & ~1] = list(groups.items()), max(numbers)
        return out

    def row(self, a, group):
        """Gives where the row of bit a and of this group of 128 bits begins."""
        if (a, group) not in self.rows:
            self.rows[a, group] = 128 * len(self.row_keys)
            self.row_keys.append((a, group))
        return self.rows[a, group]

    def dot(self, xs, ys):
        """Gives the sum of the products of each x and its y, which are sums of bits of cells."""
        linear, pairs = 0, 0
        rows = self.rows
        for x, y in zip(xs, ys):
            if not x or not y:
                continue
            if x < 2 or y < 2 or x == y:
                linear = self.xor(linear, self.and_(x, y))
                continue
            if x & 1:
                linear = self.xor(linear, y & ~1)
            if y & 1:
                linear = self.xor(linear, x & ~1)
            linear ^= x & y & 1
            groups, highest = self.columns(y)
            for a in self.linear_part(x):
                if a > highest:
                    for group, columns in groups:
                        at = rows.get((a, group))
                        pairs ^= columns << (self.row(a, group) if at is None else at)
                    continue
                for b in self.linear_part(y):
                    if a == b:
                        linear = self.xor(linear, self.numbered_bit(a))
                    else:
                        pairs ^= 1 << self.row(max(a, b), min(a, b) >> 7) + (min(a, b) & 127)
        return self.product_bit(linear, pairs)

    def bilinear_lookup(self, table, index):
        """Gives table[index] for a linear table of 16 bytes: the sum of the entries at those powers of two that the index has."""
        index = tuple([self.factor_of.get(x & ~1, x & ~1) | x & 1 for x in index])
        if table not in self.linear_tables:
            self.check_linear(table)
        entries = self.linear_tables.setdefault(table, {})
        if index not in entries:
            entries[index] = self.pack([self.dot(index, column) for column in zip(*(self.bits(table[1 << i]) for i in range(4)))])
        return entries[index]

    def check_linear(self, table):
        """Fails if an entry of a table isn't the sum of the entries at powers of two."""
        for k in range(16):
            total = 0
            for i in range(4):
                if k >> i & 1:
                    total = self.xor_byte(total, table[1 << i])
            if total != table[k] or any(x & 1 for x in self.bits(total)):
                raise Unproved("a look-up in a table that is neither constant nor linear")
