"""Does what instructions of all machines do with single bytes: `and`, `or`, shifts, look-ups, and comparisons of secrets."""
from loops.linear import Linear, step_of
from machines.operands import Scaled, Shifted, Verdict, constant, is_int, is_pointer, lanes, number_of_entry
from symbols.bits import Pause, Undefined, Unproved


class Bytewise:
    def some_of(self, x, y):
        """Makes a byte that is 0 only if both are."""
        if self.has_no_value((x, y)):
            return self.any_byte()
        both = sorted({*self.secret.any_of.get(x, [x]), *self.secret.any_of.get(y, [y])})
        b = self.domain.opaque("0 if these are: %s" % both)
        self.secret.any_of[b] = both
        self.secret.lost.add(b)
        return b

    # Comparisons of secrets, byte by byte. Only whether all are equal may be asked, and only where a call may reveal it.
    def equality(self, difference, equal, unequal):
        """Makes a byte that is `equal` if the difference is 0, else `unequal`."""
        if difference < 256 or 1 in self.domain.bits(difference) or equal == unequal:
            return unequal if difference else equal
        unknown = [x for x in self.domain.bits(difference) if x]
        if len(unknown) == 1:
            bit = {(0, 0): 0, (0, 1): unknown[0], (1, 0): unknown[0] ^ 1, (1, 1): 1}
            return self.domain.pack([bit[equal >> j & 1, unequal >> j & 1] for j in range(8)])
        b = self.domain.opaque("%d if %d is 0, else %d" % (equal, difference, unequal))
        self.secret.equalities[b] = difference, equal, unequal
        self.secret.lost.add(b)
        return b

    def verdict(self, right, differences, size, wrong=None):
        """Makes a value that says whether all these differences are 0: then it is `right`."""
        is_one_value = wrong is not None and not self.has_no_value(differences)
        value = Verdict(right, tuple(differences), size, wrong, 0 if is_one_value else next(self.domain.serials))
        self.secret.lost.update(self.to_bytes(value, size))
        return value

    def with_verdict(self, name, x, y, size):
        """Computes `and`, `or` or `xor` of a verdict and another value. Refuses those whose result is no verdict."""
        if name == "or" and x.right == 0:  # 0 if both are
            also = y.differences if isinstance(y, Verdict) and y.right == 0 else self.to_bytes(y, size)
            return self.verdict(0, [*x.differences, *also], size)
        if name == "xor" and is_int(y) and not y >> 8 * x.size:
            return self.verdict(x.right ^ y, x.differences, x.size)
        if name == "and" and y in (x, (1 << 8 * x.size) - 1):
            return x
        raise Unproved("computes with whether bytes are equal")

    # What instructions of all machines do.
    def bytewise(self, name, a, b):
        """Computes `and`, `or` or `xor` of bytes; or `and` or `or` of a and the complement of b."""
        d = self.domain
        if name == "xor":
            return d.xor_bytes(a, b)
        if name.endswith("not"):
            b = [d.xor_byte(y, 255) for y in b]
        return list(map(d.and_byte if name[0] == "a" else self.or_byte, a, b))

    def or_byte(self, x, y):
        """Computes `or` of two bytes. If that can't be done, the result says only whether both are 0."""
        if (x in self.secret.any_of or y in self.secret.any_of) and x and y:
            return self.some_of(x, y)
        try:
            return self.domain.or_byte(x, y)
        except (Undefined, Pause):
            raise
        except Unproved:
            return self.some_of(x, y)

    def logic(self, name, x, y, size):
        """Does what `bytewise` does, with two values."""
        if type(x) is type(y) is tuple and x != y:
            return self.from_bytes(self.bytewise(name, x[:size], y[:size]))
        if is_int(x, y):
            y = ~y if name.endswith("not") else y
            return {"a": x & y, "o": x | y, "x": x ^ y}[name[0]] & (1 << 8 * size) - 1
        if name == "or" and y == 0 or name == "and" and x == y:
            return x
        masked = self.masked(name, x, y) if name in ("and", "or") and size == self.word else None
        if masked is not None:
            return masked
        if name == "and" and self.allowed.divides and is_int(y) and (whole := self.whole(x, size)) is not None:
            return self.from_bytes(self.fewest_bytes(self.bits_of_number(self.ranged(whole), y), size))
        if name == "or" and x == 0:
            return y
        if isinstance(x, Verdict) or isinstance(y, Verdict):
            return self.with_verdict(name, *((x, y) if isinstance(x, Verdict) else (y, x)), size)
        if is_pointer(x) and is_int(y) and x.base in self.regions:
            region, low = self.regions[x.base], -y & self.highest
            if name == "or" and (past := region.past_multiple(x.offset, 1 << y.bit_length())) is not None and not past & y:
                return self.offset(x, y)
            if name == "and" and low and not low & low - 1 and (past := region.past_multiple(x.offset, low)) is not None:
                return x._replace(offset=x.offset - past)
        return self.from_bytes(self.bytewise(name, *(self.fewest_bytes(v, size) for v in (x, y))))

    def add_byte(self, x, y, carry=0):
        if max(x, y) < 256:
            return x + y + carry & 255
        return self.domain.pack(self.full_adder(self.domain.bits(x), self.domain.bits(y), carry)[0])

    def signs(self, x):
        """Gives a byte of ones if the highest bit of x is set, else 0."""
        return self.domain.pack([self.domain.bits(x)[7]] * 8)

    def shift(self, how, v, count, size):
        """Shifts a value to the left ("lsl"), or to the right with zeros ("lsr") or copies of the highest bit ("asr")."""
        if is_int(v) and how == "lsl":
            return v << count & (1 << 8 * size) - 1
        if isinstance(v, Linear) and size == self.word and how == "lsl" and (count < 32 or not self.fits(v)):  # else its lowest bits count
            return self.offset(v * (1 << count), 0)
        divides = isinstance(v, Linear) and (self.allowed.divides or not self.allowed.any_length or step_of(v) >> count)
        if divides and size == self.word and how == "lsr" and self.fits(self.ranged(v)):
            return self.quotient(self.ranged(v), 1 << count)
        if isinstance(v, Linear) and size == 8 and how == "lsr" and self.fits(v):
            return Shifted(v, count)
        if how == "lsr" and self.allowed.divides and size < self.word and isinstance(part := self.low_part(v, size), Linear):
            return self.from_bytes(self.fewest_bytes(self.quotient(part, 1 << count), size))
        if isinstance(v, Scaled) and how == "lsr":
            return self.quotient_by_product(v, count)
        if count % 8 == 0 and how != "asr":  # whole bytes: so opaque bytes may be moved too
            b, empty = self.to_bytes(v, size), [0] * (count // 8)
            return self.from_bytes((empty + b)[:size] if how == "lsl" else (b + empty)[-size:])
        b = self.bits(v, size)
        if how == "lsl":
            return self.unbits(([0] * count + b)[:8 * size])
        return self.unbits((b + [b[-1] if how == "asr" else 0] * count)[count:])

    def shift_lanes(self, how, b, width, count):
        constant("the count of a shift", count)
        return [x for lane in lanes(b, width) for x in self.shifted_lane(how, lane, width, count)]

    def shifted_lane(self, how, lane, width, count):
        """Shifts one lane. The result is kept if the lane is bytes. How an unknown number is shifted depends on facts, which may change."""
        shifted, key = self.domain.shifted, (how, count, *lane)
        if key not in shifted:
            value = self.from_bytes(lane)
            out = self.to_bytes(self.shift(how, value, count, width), width)
            if type(value) is not tuple or self.whole(value, width) is not None:
                return out
            shifted[key] = out
        return shifted[key]

    def look_up(self, table, indices, significant):
        """Gives the bytes of a table, a tuple, at these indices. `significant` gives the bits of an index that count."""
        if max(indices) < 256:
            numbers = [number_of_entry(x, significant) for x in indices]
            return [table[at] if at < len(table) else 0 for at in numbers]
        memo = (self.domain.entries if max(table) < 256 else self.domain.entries_now).setdefault(table, {})
        for x in indices:
            if x not in memo:
                memo[x] = self.entry(table, significant(self.domain.bits(x)))
        return [memo[x] for x in indices]

    def entry(self, table, index):
        """Gives the byte of a table at an index of these bits, or 0 past its end."""
        if max(index) < 2:
            at = sum(bit << k for k, bit in enumerate(index))
            return table[at] if at < len(table) else 0
        if max(table) < 256:
            return self.domain.lookup(table + (0,) * ((1 << len(index)) - len(table)), index)
        if len(table) != 16 or any(index[4:]):
            raise Unproved("a look-up in a table that isn't constant, by an index that may be past its end")
        return self.domain.bilinear_lookup(table, index[:4])
