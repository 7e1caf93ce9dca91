"""Gives the bytes and bits of a machine's values. Adds and subtracts values, and gives the flags of the results."""
from loops.linear import Linear, is_number, wrapped
from machines.operands import (SECRET, Distance, Negated, Number, Placed, Pointer, Scaled, Shifted, Verdict, concatenated, contrary,
                               is_in_code, is_int, is_pointer)
from machines.regions import Window
from symbols.bits import PUBLIC, Unproved


class Arithmetic:
    def to_bytes(self, value, size):
        if type(value) in (tuple, list):
            return list(value[:size])
        if isinstance(value, int):
            return list((value & (1 << 8 * size) - 1).to_bytes(size, "little"))
        named = self.size_of(value)
        above = self.any_byte() if isinstance(value, Number) else 0
        counter = self.allowed.any_length and isinstance(value, (Pointer, Number)) and self.counter
        if counter and value.base == counter.word and not (  # J_0 has a word of its own
                value.offset == 0 != counter.first and value.base in self.domain.bits_of_word):
            value = Placed(value, self.first_block + counter.first)
        return [self.domain.opaque((value, k)) for k in range(min(named, size))] + [above] * (size - named)

    def size_of(self, value):
        """Counts the bytes of a value that are known by its name. The result is None if the value is bytes."""
        value = value.value if isinstance(value, Placed) else value
        if isinstance(value, (Verdict, Number)):
            return value.size if isinstance(value, Verdict) else 4
        return self.word if isinstance(value, (Pointer, Distance, Negated, Linear, Scaled, Shifted)) else None

    def from_bytes(self, b):
        if max(b) < 256:
            return int.from_bytes(bytes(b), "little")
        if b[0] in self.domain.name_of_opaque:
            value = self.domain.name_of_opaque[b[0]][0]
            named = self.size_of(value)
            if named and len(b) >= named and list(b[:named]) == self.names(value):
                value = value.value if isinstance(value, Placed) else value
                if {*b[named:]} <= {self.any_byte() if isinstance(value, Number) else 0}:  # known bytes above a Number stay bytes
                    return value
        return tuple(b)

    def low_number(self, v):
        """Gives the Number in the lowest bytes of a word, or else the value itself. Sums with a Number are modulo 2^32."""
        name = self.domain.name_of_opaque.get(v[0]) if type(v) is tuple else None
        low = self.from_bytes(v[:4]) if isinstance(name, tuple) and isinstance(name[0], (Number, Placed)) else None
        return low if isinstance(low, Number) else v

    def has_more(self, v, size):
        """Whether a word has a Number in its lowest bytes, and bytes above that aren't 0."""
        return self.low_number(v) is not v and any(v[4:size])

    def bits(self, value, size):
        return [x for b in self.to_bytes(value, size) for x in self.domain.bits(b)]

    def unbits(self, bits):
        return self.from_bytes([self.domain.pack(bits[i:i + 8]) for i in range(0, len(bits), 8)])

    def full_adder(self, x, y, carry):
        """Adds two lists of bits. Gives the sum and the carry out."""
        d, out = self.domain, []
        for a, b in zip(x, y):
            out.append(d.xor(d.xor(a, b), carry))
            if a == b:
                carry = a
            elif carry > 1 or a > 1 or b > 1:
                carry = d.or_(d.and_(a, b), d.and_(carry, d.xor(a, b)))
            else:
                carry = a + b + carry >> 1
        return out, carry

    def offset(self, a, b):
        """Adds two values of a word. One at most may be a Pointer or a Number, and others are constants."""
        if isinstance(b, (Pointer, Number)):
            a, b = b, a
        if not isinstance(a, (int, Linear, Pointer, Number)) or not is_number(b):
            raise Unproved("an address is the sum of two addresses")
        if is_number(a):
            r = wrapped(a + b, self.highest)
            return r & self.highest if is_int(r) else r
        if isinstance(a, Number):
            return Number(a.base, wrapped(a.offset + b, 0xffffffff))
        return Pointer(a.base, wrapped(a.offset + b, self.highest))

    def plus(self, x, y, carry, size):
        """Computes x + y + carry and its flags: (result, {flag: value}). Flags that aren't named are undefined."""
        mask, top = (1 << 8 * size) - 1, 8 * size - 1
        more = self.has_more(x, size) or self.has_more(y, size)
        x, y = self.low_number(x), self.low_number(y)
        if is_int(x, y):
            full = (x & mask) + (y & mask) + carry
            r = full & mask
            return r, {"c": int(full != r), "z": int(r == 0), "s": r >> top, "o": ((x ^ r) & ~(x ^ y)) >> top & 1}
        if is_number(x, y) and size == self.word:
            x, y = self.ranged(x), self.ranged(y)
            r = self.offset(self.offset(x, carry), y)
            return r, {"c": (self.highest, x + y + carry, "below"), **self.zero_and_sign(r, size)} if self.fits(x) and self.fits(y) else {}
        if Number in (type(x), type(y)):  # modulo 2^32: so the lowest bytes of other values are enough
            x, y = (v if (whole := self.whole(v, size)) is None else whole for v in (x, y))
            r = self.offset(self.offset(x, carry), y)
            return self.with_any_above(r, size) if more else (r, {})
        part, other = (self.low_part(v, size) for v in (x, y))
        if isinstance(part, Linear) and is_number(other) and size < self.word:
            full = part + (other & mask if is_int(other) else other) + carry
            fits = self.allowed.divides and self.implied(full) and self.implied(mask - full)
            return tuple(self.fewest_bytes(full, size) if fits else (self.any_byte() for _ in range(size))), {"c": (mask, full, "below")}
        if isinstance(x, (Distance, Negated)) and is_int(y):
            return x._replace(offset=wrapped(x.offset + y + carry, self.highest)), {}
        if isinstance(x, Negated) and is_pointer(y) and x.base == y.base and not carry and size == self.word:
            return self.offset(y.offset, x.offset), {}
        if (is_pointer(x) or is_pointer(y)) and size == self.word:
            return self.plus_pointer(x, y, carry)
        return self.plus_bits(x, y, carry, size)

    def with_any_above(self, r, size):
        """Gives a sum with a Number in its lowest bytes, where the bytes above and the flags may depend on a secret."""
        return (*self.to_bytes(r, 4), *(self.any_byte() for _ in range(size - 4))), dict.fromkeys(self.flag_names, SECRET)

    def plus_pointer(self, x, y, carry):
        """Adds to a Pointer. If that is a counter, the flag c says whether it wraps around."""
        old, r = x if is_pointer(x) else y, self.offset(self.offset(x, carry), y)
        counter = self.counter
        by = (y if is_pointer(x) else x) + carry  # the increase, if neither has wrapped around
        known = counter and r.base == counter.word and self.implied(old.offset) and old.offset + by == r.offset and (
            self.fits(by) and self.implied(counter.end - r.offset * 16))
        return r, {"c": self.wraps(old.offset, r.offset)} if known else {}

    def plus_bits(self, x, y, carry, size):
        """Adds bit by bit."""
        fixed, rest = (x, y) if is_int(x) else (y, x)
        try:
            bits, out = self.full_adder(self.bits(x, size), self.bits(y, size), carry)
        except Unproved:  # then only whether the sum is 0 is kept
            if not is_int(fixed):
                raise
            zero = self.differences(rest, -fixed - carry, size)
            return self.only_zero(zero), {"c": SECRET, "z": self.zero_flag(zero), "s": SECRET, "o": SECRET}
        return self.unbits(bits), {"c": self.flag_of(out), "z": SECRET, "s": SECRET, "o": SECRET}

    def only_zero(self, differences):
        """Makes a value that is 0 if these bytes are all 0. Nothing else is known of it."""
        return self.verdict(0, differences, len(differences))

    def whole_number(self, v, size):
        """Gives the number whose bytes a word holds, perhaps with zeros above them. Else gives the value itself."""
        name = self.domain.name_of_opaque.get(v[0]) if type(v) is tuple and size == self.word else None
        if not isinstance(name, tuple) or not isinstance(name[0], Linear):
            return v
        count = max(k + 1 for k in range(size) if v[k] != 0)
        has_no_more = count == size or self.implied(name[0]) and self.implied((1 << 8 * count) - 1 - name[0])
        return name[0] if has_no_more and list(v[:count]) == self.to_bytes(name[0], count)[:count] else v

    def whole(self, v, size):
        """Gives the unknown number whose lowest bytes these are, or None."""
        name = self.domain.name_of_opaque.get(v[0]) if type(v) is tuple and size < self.word else None
        whole = name[0] if isinstance(name, tuple) else None
        is_whole = isinstance(whole, Linear) and (v == tuple(self.to_bytes(whole, self.word)[:size])
                                                  or self.allowed.divides and list(v) == self.fewest_bytes(whole, size))
        return whole if is_whole else None

    def low_part(self, v, size):
        """Gives the lowest bytes of an unknown number as a number, if the bytes above them are 0 or 1. Else gives the value itself."""
        whole, most = self.whole(v, size), (1 << 8 * size) - 1
        if whole is None:
            return v
        fitting = [part for part in (whole, whole - (most + 1)) if self.implied(part) and self.implied(most - part)]
        return fitting[0] if fitting else v

    def wraps(self, block, later):
        """Whether the low half of the counter wraps around between two blocks."""
        return self.compare_numbers(block, self.counter.wrap, "below") and 1 - self.compare_numbers(later, self.counter.wrap, "below")

    def flag_of(self, bit):
        """Gives a bit as a flag. A flag that depends on public bytes alone may be asked."""
        return bit if bit < 2 else SECRET if self.domain.depends_on(bit) & ~PUBLIC else ("bit", bit)

    def is_placed(self, *addresses):
        """Whether each address lies in an object or near it, so that none is 0 and none wraps. Then addresses are ordered as their offsets
        are. With 64 bits, up to 4,095 bytes before an object are near, and up to 2^47 bytes after its start: no object lies in the first
        4,096 bytes of memory, or in its upper half. With 32 bits, an address is in the object or at its end. (A counter isn't placed.)"""
        for a in addresses:
            region = isinstance(a, Pointer) and self.regions.get(a.base)
            if isinstance(region, Window) and self.implied(a.offset) and self.implied(region.whole - a.offset):
                continue
            # (An empty buffer may be at 16, which the header passes instead of NULL. So no address before it is near.)
            if not region:
                return False
            low, high = (-4095 * bool(region.content), (1 << 47) - 1) if self.word == 8 else (0, len(region.content))
            if not low <= a.offset <= high:
                return False
        return True

    def minus(self, x, y, size, carry=1):
        """Computes x - y, or one less if `carry` is 0, and its flags. The flag c says that there is no borrow."""
        if is_in_code(y):
            raise Unproved("computes with where the code lies")
        if y == 0 and carry and self.is_placed(x):
            return x, {"z": 0, "c": 1}
        x, y = self.whole_number(x, size), self.whole_number(y, size)
        if is_number(x, y) and not is_int(x, y) and size == self.word:
            return self.minus_numbers(x, y, carry)
        if is_pointer(x) or is_pointer(y):
            return self.minus_pointers(x, y, size, carry)
        if isinstance(x, Distance) and is_number(y) and carry:
            return self.minus_from_distance(x, y)
        if is_int(x) and isinstance(y, Negated) and carry and size == self.word:
            return self.offset(Pointer(y.base, 0), x - y.offset), {}
        return self.plus(x, ~y if is_int(y) else self.bytewise("xor", self.to_bytes(y, size), [255] * size), carry, size)

    def minus_numbers(self, x, y, carry):
        """Subtracts numbers of a word that aren't both known."""
        x, y = self.ranged(x), self.ranged(y)
        flags = {"c": ("not", (x, y + 1 - carry, "below"))} if self.fits(x) and self.fits(y) else {}
        apart = self.implied(self.highest - x + y) and self.implied(self.highest + x - y)  # by less than 2^64
        return self.offset(x, carry - 1 - y), {**flags, **({"z": (x, y, "equal")} if apart and carry else {})}

    def minus_from_distance(self, x, y):
        """Subtracts a number from a Distance."""
        y = self.ranged(y)
        flags = {"c": ("not", (x, y, "below")) if y != 0 else 1, "z": (x, y, "equal")}
        return x._replace(offset=x.offset - y), flags if self.fits(y) else {}

    def minus_pointers(self, x, y, size, carry):
        """Subtracts where one value is a Pointer, or both are."""
        if is_pointer(x, y) and carry and x.base == y.base:
            return self.minus_in_region(x, y)
        if is_pointer(x, y) and carry and {x.base, y.base} <= set(self.regions):
            return Distance(x.base, y.base, x.offset - y.offset), {}
        if is_pointer(x) and is_number(y) and size == self.word:
            return self.offset(x, carry - 1 - y), {}
        if is_int(x) and is_pointer(y) and is_int(y.offset) and carry and size == self.word:
            return Negated(y.base, x - y.offset), {}
        raise Unproved("computes with addresses")

    def minus_in_region(self, x, y):
        """Subtracts addresses in one region: the difference of their offsets."""
        if not is_int(x.offset, y.offset):
            flags = {"c": ("not", (x.offset, y.offset, "below")), "z": (x.offset, y.offset, "equal")}
            return self.offset(x.offset, -y.offset), flags if self.is_placed(x, y) else {}
        order = {"c": int(x.offset >= y.offset)} if self.is_placed(x, y) else {}
        return x.offset - y.offset & self.highest, {**order, "z": int(x.offset == y.offset)}

    def flags_of_difference(self, x, y, size):
        """Gives the flags of x - y without the result. If values depend on the key or on data, only whether they are equal may be asked,
        and only where a call may reveal it. That is asked as whether the differences of their bytes are all zero."""
        if isinstance(x, Verdict):
            zero = self.zero_flag(x.differences)
            return {"z": zero} if y == x.right else {"z": contrary(zero)} if is_int(y) and y == x.wrong else {}
        if is_in_code(x) and is_in_code(y):
            if x.base != y.base or not is_int(x.offset, y.offset):
                raise Unproved("compares addresses of which the distance depends on a length, or on where code lies")
            return {"z": int(x.offset == y.offset)}
        if isinstance(x, Shifted) and y == 0:
            return self.zero_and_sign(x, size)
        if isinstance(x, Shifted) and is_int(y):
            x = self.quotient(x.number, 1 << x.count)
        if self.allowed.divides:
            x, y = self.whole_number(x, size), self.whole_number(y, size)
        if tuple not in (type(x), type(y)):
            return self.minus(x, y, size)[1]
        never = y == 0 and any(1 in self.domain.bits(b) for b in self.to_bytes(x, size) if b not in self.secret.any_of)
        public = self.is_public(self.to_bytes(x, size) + self.to_bytes(y, size))
        carry = self.minus(x, y, size)[1].get("c") if public else SECRET
        flags = {"c": carry, "s": SECRET, "o": SECRET}
        if public:  # then flags that aren't known are no secret
            flags = {name: None if flag == SECRET else flag for name, flag in flags.items()}
        return {**flags, "z": 0 if never else self.zero_flag(self.differences(x, y, size))}

    def differences(self, x, y, size):
        """Gives bytes that are all 0 exactly if two values are equal."""
        return self.bytewise("xor", self.to_bytes(x, size), self.to_bytes(y, size))

    def zero_flag(self, b):
        """Gives the flag that says whether all these bytes are zero."""
        b = concatenated(self.secret.any_of.get(x, [x]) for x in b)
        unknown = {x for x in b if x > 255}
        return int(not any(b)) if any(0 < x < 256 for x in b) or not unknown else ("zero", *sorted(unknown))

    def zero_and_sign(self, r, size):
        """Gives the flags z and s of a result."""
        if is_int(r):
            return {"z": int(r == 0), "s": r >> 8 * size - 1}
        if isinstance(r, Linear):
            r = self.ranged(r)
            return {"z": (r, 0, "equal")} if self.fits(r) else {}
        if isinstance(r, Shifted):
            return {"z": (r.number, 1 << r.count, "below")}
        if isinstance(r, Verdict):
            return {} if r.right else {"z": self.zero_flag(r.differences)}
        if self.is_placed(r):
            return {"z": 0}
        b = self.to_bytes(r, size)
        if not self.secret.any_of.keys().isdisjoint(b):
            return {"z": self.zero_flag(b), "s": SECRET}
        return {"z": 0 if any([1 in self.domain.bits(x) for x in b]) else SECRET, "s": SECRET}
