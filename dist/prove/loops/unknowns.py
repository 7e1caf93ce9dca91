"""Tracks what is known of the unknown numbers (linear.py) of a machine. A fact is a number that is 0 or more."""
from loops.linear import Linear, implied, names_in, refuted, replaced, step_of, terms, tightened, unknown
from machines.operands import (SECRET, Content, Distance, Negated, Number, Placed, Pointer, Question, Scaled, Shifted, Verdict,
                               concatenated, constant, is_int, is_pointer, lanes)
from machines.regions import Window
from symbols.bits import LOST, Unproved

WRAPPED = "wrapped"  # an unknown: the block in which the counter wrapped around, if that block is done


def replacing(convert, stay, only, *lists):
    """Gives a function that replaces the bytes of a list by those that `convert` gives. The list has to be one of these. Bytes in `stay`
    aren't replaced, and if `only` isn't None no others than those in it. Gives a false value if nothing changes."""
    bytes_ = set().union(*lists) - stay
    bytes_ = bytes_ if only is None else bytes_ & only
    other = {x: y for x in bytes_ if x > 255 and (y := convert(x)) != x}
    return other and (lambda b: b if other.keys().isdisjoint(b) else list(map(other.get, b, b)))


def has_number(x):
    """Whether a value contains an unknown number."""
    return isinstance(x, Linear) or isinstance(x, tuple) and any(map(has_number, x))


class Unknowns:
    """A part of Machine."""

    def implied(self, x):
        """Whether x >= 0 follows from the facts of the machine."""
        return implied(self.facts, x)

    def fits(self, x):
        """Whether a number is equal to the machine's word, and not only modulo 2^64 (or 2^32)."""
        return self.implied(x) and self.implied(self.highest - x)

    def fewest_bytes(self, x, size):
        """Gives the bytes of a value. If a number is known to be small, its higher bytes are zeros."""
        sizes = [k for k in range(size) if self.implied((1 << 8 * k) - 1 - x)] if isinstance(x, Linear) and self.implied(x) else []
        return self.to_bytes(x, sizes[0])[:sizes[0]] + [0] * (size - sizes[0]) if sizes else self.to_bytes(x, size)

    def ranged(self, x):
        """Gives a number as the machine's word, from 0 on. Whether it has wrapped around is a question. (Calls of any length don't ask it,
        because it would make passes of a loop differ.)"""
        while not self.fits(x):
            if self.allowed.any_length and None in (self.is_below(x, 0), self.is_below(self.highest, x)):
                break
            if self.compare_numbers(x, 0, "below"):
                x += self.highest + 1
            elif self.compare_numbers(self.highest, x, "below"):
                x -= self.highest + 1
        return x

    def quotient(self, x, by):
        """Gives the quotient of a number by a power of two. If it can't be written in the same unknowns, it is a new unknown."""
        if all(k % by == 0 for _, k in x.terms):
            return divmod(x, by)[0]
        return self.defined("(%s) / %d" % (x, by), lambda q: {x - q * by, q * by + by - 1 - x})

    def defined(self, name, facts):
        """Gives an unknown with this name, of which `facts` gives what is known. If that doesn't follow from what is known of the name, it
        gets another one: the numbers in it may have meant something else before."""
        number = unknown(name)
        while name in names_in(self.facts) and not all(map(self.implied, facts(number))):
            name += "'"
            number = unknown(name)
        self.facts |= facts(number)
        return number

    def high_product(self, x, y):
        """Gives the higher 64 bits of a product."""
        if isinstance(x, Linear) and is_int(y) and self.fits(x):
            return Scaled(x, y)
        return constant("a factor", x) * constant("a factor", y) >> 64

    def quotient_by_product(self, scaled, count):
        """Gives the result of a division by a constant d that the code does by a product. d * factor has to be from 2^(64 + count) to
        2^(64 + count) + 2^count. Then x * factor / 2^(64 + count) is at least x / d, and more by less than 1 / d, for x below 2^64. So both
        have the same whole part."""
        x, factor, _ = scaled
        by = -(-(1 << 64 + count) // factor)
        if by * factor > (1 << 64 + count) + (1 << count):
            raise Unproved("a product that isn't a division")
        return self.quotient(x, by)

    def masked(self, name, x, y):
        """Gives the result of `and` or `or` of an unknown number and a constant, or None if it can't be computed this way."""
        x, y = (y, x) if is_int(x) else (x, y)
        if isinstance(x, Linear) and is_int(y) and name == "or":
            return x + (y & ~x.constant) if 0 <= y < step_of(x) else None
        if isinstance(x, Linear) and is_int(y):
            low = -y & self.highest  # if this is a power of two, the mask clears all bits below it
            if y < step_of(x):
                return x.constant & y
            if low and not low & low - 1 and step_of(x) % low == 0:
                return x - x.constant % low
            return None if self.allowed.any_length and not self.allowed.divides else self.bits_of_number(self.ranged(x), y)
        return None

    def bits_of_number(self, x, mask):
        """Gives the bits of a number that a mask has. They are computed by quotients where a run of ones in the mask begins and ends."""
        bits = 8 * self.word

        def shifted(k):
            return x if k == 0 else self.quotient(x, 1 << k) if k < bits else 0
        ends = [k for k in range(bits + 1) if (mask >> k & 1) != (k and mask >> k - 1 & 1)]
        return sum(shifted(a) * (1 << a) - shifted(b) * (1 << b) for a, b in zip(ends[::2], ends[1::2]))

    def compare_numbers(self, x, y, what):
        """Whether x is below y, or equal to y, as `what` says. If the facts don't decide it, it is a question. Each answer is a fact."""
        if what == "equal":
            return int(not (self.compare_numbers(x, y, "below") or self.compare_numbers(y, x, "below")))
        below = self.is_below(x, y)
        if below is None:
            raise Question((x, y, what))
        fact = y - x - 1 if below else x - y
        if not is_int(fact):
            self.decided.append((self.last, fact))
        return below

    def is_below(self, x, y):
        """Gives 1 if it follows that x is below y, 0 if it follows that it isn't, else None."""
        return 1 if self.implied(y - x - 1) else 0 if self.implied(x - y) else None

    def assume(self, fact):
        """Adds a fact. If it says what an unknown is, that number replaces the unknown everywhere."""
        fact = tightened(fact)
        one = [(name, k) for name, k in fact.terms if k in (1, -1)] if self.implied(-fact) else []
        if one:
            name, k = one[-1]
            self.replace_unknown(name, unknown(name) - fact * k)
        else:
            self.facts |= {fact}
        self.replace_known()

    def replace_known(self):
        """Replaces unknowns of which the facts allow only the lowest value."""
        for lowest in [f for f in self.facts if [*terms(f).values()] == [1]]:  # a lower limit of one unknown
            if self.implied(-lowest):
                self.replace_unknown(lowest.terms[0][0], -lowest.constant)

    def with_number(self, x, value):
        """Gives a copy of the machine in which a number has this value."""
        m = self.copied().with_facts((x - value, value - x))
        m.tighten()
        return m

    def tighten(self):
        """Tightens all facts, and replaces the unknowns of which they allow only one value, such as a quotient of a known number."""
        before = None
        while before != self.facts:
            before = self.facts = frozenset(map(tightened, self.facts))
            self.replace_known()

    def with_facts(self, facts):
        """Adds these facts of the statement, and gives the machine."""
        for fact in facts:
            if not is_int(fact := self.known(fact)):
                self.assume(fact)
        return self

    def replace_unknown(self, name, by):
        """Replaces an unknown by a number everywhere."""
        self.replace_numbers(lambda x: replaced(x, name, by))
        self.replaced = [*self.replaced, (name, by)]

    def replace_numbers(self, other):
        """Replaces numbers everywhere by those that `other` gives for them, or for a tuple of them."""
        def new(x):
            y = other(x)
            return y.value() if isinstance(y, Shifted) else y
        self.each_byte(lambda b: self.renumbered(b, new), stay=self.domain.without_numbers)
        self.facts = frozenset(f for f in map(new, self.facts) if not is_int(f) or f < 0)
        self.flags, self.first_block = {f: new(x) for f, x in self.flags.items()}, new(self.first_block)
        self.general = {r: new(v) & self.highest if isinstance(v, Linear) and is_int(new(v)) else new(v) for r, v in self.general.items()}
        for region in self.regions.values():
            if isinstance(region, Window):
                for what in region.numbers:
                    setattr(region, what, new(getattr(region, what)))
        self.counter, self.steps_found = new(self.counter), new(self.steps_found)
        self.loops, self.expected_step = {}, None

    def renumbered(self, b, new):
        """Gives a byte in which `new` replaces numbers. It may be a byte of a number, or be computed from bytes of numbers."""
        d = self.domain
        name, cells = d.name_of_opaque.get(b), d.unknown_cells(b)
        if not cells and not has_number(name):
            d.without_numbers.add(b)
            return b
        if isinstance(name, tuple) and isinstance(name[0], (Linear, Pointer, Number, Distance, Negated, Placed, Scaled, Shifted, Content)):
            (value, k), by = name, new(name[0])
            if by != value:
                return self.to_bytes(by, self.word)[k] if is_int(by) else d.opaque((by, k))
        if not cells:
            return b
        others = {c: (new(d.number_of_cell[c][0]), d.number_of_cell[c]) for c in cells}
        others = {c: self.to_bytes(by, self.word)[k] for c, (by, (number, k)) in others.items() if by != number}
        return d.put_in(b, others) if others else b

    def known(self, x):
        """Gives a number of the statement with what this machine knows of its unknowns."""
        for name, by in self.replaced:
            x = replaced(x, name, by)
        return x

    def known_bytes(self, bytes_):
        """Gives bytes of the statement with what this machine knows of their unknowns."""
        stay = self.domain.without_numbers
        new = lambda b: b if b is None or b in stay else self.renumbered(b, self.known)
        return list(map(new, bytes_)) if self.replaced else bytes_

    def settle(self):
        """Simplifies the state at the head of a loop. (Bytes of a counter are kept as such only in whole words.)"""
        named, undefined = self.domain.name_of_opaque.keys(), self.domain.undefined

        def settled(b, sizes=(self.word, 4)):
            return concatenated(x if x.count(undefined) == len(x) or named.isdisjoint(x) else of_word(x, sizes) for x in lanes(b, sizes[0]))

        def of_word(x, sizes):
            v = self.from_bytes(x)
            is_counter = is_pointer(v) or isinstance(v, Number) and len(x) == 4
            return self.names(v) if is_counter else settled(x, sizes[1:]) if sizes[1:] else map(self.without_name, x)
        for name, region in self.regions.items():
            if isinstance(region, Window):
                region.settle(self)
            elif self.counter:
                begin = self.accessed_from(name)
                region.content[begin:] = settled(region.content[begin:])
        if self.counter:
            self.vectors = [settled(v) for v in self.vectors]
            self.forget_wrap()

    def forget_wrap(self):
        """Forgets where the counter wrapped around, if that block of the text is done. It is only kept that it did."""
        done = [r.origin + r.skip for r in self.regions.values() if isinstance(r, Window) and r.writable]
        if not self.counter or is_int(self.counter.wrap) or len(done) != 1:
            return
        wrap, (done,) = self.counter.wrap, done
        here = self.counter.first + divmod(done, 16)[0]
        if self.implied(here - wrap):
            other = {WRAPPED, *(name for name, _ in wrap.terms if wrap == unknown(name))}
            self.counter = self.counter._replace(wrap=unknown(WRAPPED))
            self.facts = frozenset(f for f in self.facts if other.isdisjoint(terms(f))) | {unknown(WRAPPED) - 1, here - unknown(WRAPPED)}

    def without_name(self, byte):
        """Gives a byte of a counter without the name that says so. Other bytes stay as they are."""
        placed = isinstance(self.domain.name_of_opaque.get(byte, [0])[0], Placed)
        return self.domain.plain(byte) if placed else byte

    def names(self, value):
        """Gives the bytes of a value as opaque bytes."""
        return [self.domain.opaque((value, k)) for k in range(self.size_of(value))]

    def window(self, pointer):
        """Gives the buffer of any size whose blocks begin at a pointer, or None."""
        region = self.regions.get(pointer.base) if is_pointer(pointer) else None
        return region if isinstance(region, Window) and pointer.offset == region.head else None

    def copy_all(self, to, source, count):
        """Copies a whole buffer that nothing wrote to another one."""
        a, b = self.window(to), self.window(source)
        alike = a and b and (a.backwards, a.skip) == (b.backwards, b.skip)
        if not (alike and a.size == b.size == count and a.writable and not b.writable and a.is_untouched()):
            raise Unproved("a copy of an unknown number of bytes, and not of a whole buffer")
        a.initial, a.origin, a.end, a.content, a.copied, a.turn = b.initial, 0, a.size, [], True, a.turn + 1

    def fill(self, to, value, count):
        """Fills the first `count` bytes of a buffer that nothing accessed. They have to become what they should be."""
        a, byte = self.window(to), self.to_bytes(value, 1)
        if not (a and a.writable and a.is_untouched() and self.implied(a.size - count) and self.implied(count)):
            raise Unproved("fills an unknown number of bytes, and not from the beginning of a buffer")
        whole, rest = divmod(count, a.unit)
        if a.want != byte * a.unit or a.backwards and rest:
            raise Unproved("an unknown number of bytes is overwritten, and not as it has to be")
        if a.backwards:
            a.end = a.size - count
        else:
            self.forget_blocks(whole)
            a.origin = whole * a.unit
            self.store(to._replace(offset=a.head + a.origin), byte * rest)

    def overlaps(self, x, y, what):
        """Whether a flag says that two buffers overlap. The header excludes that if one is written to. The flag says that the first buffer,
        or its part from an offset on, begins in the first y bytes of the second one."""
        a, b = (self.regions.get(name) for name in (x.base, x.other))
        if not (isinstance(a, Window) and isinstance(b, Window) and a.writable | b.writable and what == "below" and is_int(x.offset)
                and self.fits(y)):
            return False
        ends = max(x.offset, 0) - a.whole, max(-x.offset, 0) + y - b.whole - 1
        return all(refuted(self.facts | {y - 1, end}) for end in ends)

    def says_buffers_overlap(self):
        """Whether in this run one buffer begins within another, whose size is known. Such runs are proved, although the header excludes
        them if one of the two is written to."""
        below = [flag[:2] for flag, answer in self.answers.items() if answer and isinstance(flag[0], Distance) and flag[2] == "below"]
        is_written = lambda x: any(self.regions[name].writable for name in (x.base, x.other))
        has_bytes = lambda r: self.implied(r.whole - 1) if isinstance(r, Window) else r.content  # (an empty buffer overlaps nothing)
        return any(x.offset == 0 and is_int(y) and y <= len(self.regions[x.other].content) and is_written(x)
                   and has_bytes(self.regions[x.base]) for x, y in below)

    def any_byte(self):
        """Gives a byte of which nothing is known. It may depend on the key."""
        return self.secret.lose(self.domain.opaque(LOST))

    def has_no_value(self, bytes_):
        """Whether some of these bytes were written by nobody, or nothing is known of them. Such bytes may differ though they have the same
        number."""
        return not {self.domain.undefined, self.any_byte()}.isdisjoint(bytes_)

    def next_phase(self):
        """Begins another phase. Blocks that are done are dropped."""
        self.phase, self.steps_found = self.phase + 1, 0
        for window in (r for r in self.regions.values() if isinstance(r, Window)):
            window.settle(self)

    def begin_again(self, name=None, *new):
        """Begins another phase. What is left of blocks is forgotten, and they are numbered again. The buffer `name` begins again as `new`
        says. Other buffers of the same cells can't be read any more. What the call reveals may not have been asked before, unless it is
        refused: the same bytes may stand for others now."""
        if self.asked_of_secrets() and not self.was_refused():
            raise Unproved("asks something of blocks before they get other numbers")
        self.next_phase()
        cells = {c for b in new[0] for c in self.domain.cells(b)} if name else set()
        for window in (r for r in self.regions.values() if isinstance(r, Window)):
            if not all(cells.isdisjoint(self.domain.cells(b)) for b in window.initial):
                window.initial = [self.any_byte()] * window.unit
        if name:
            self.regions[name].begin_again(*new)
        self.forget_blocks(0)

    def forget_blocks(self, first):
        """Counts blocks from this one on. What is left of earlier ones in a register becomes arbitrary bits. The code may use these."""
        self.forget_questions()
        self.times_forgotten += 1  # so that these bits aren't those of the last time
        d, times = self.domain, self.times_forgotten
        for r, v in self.general.items():
            if type(v) is tuple:
                self.general[r] = self.from_bytes([d.forget_bits(b, (times, r, i)) if d.blocks(b) else b for i, b in enumerate(v)])
        self.each_byte(lambda b: self.any_byte() if d.blocks(b) else b)
        self.first_block, self.origins = first, {place: on for place, on in self.origins.items() if not place[1]}

    def forget_questions(self):
        """Forgets whether bytes of blocks are zero, and flags and answers that say so, because the blocks get other numbers. What was asked
        of secret bytes is kept, but can't be asked again."""
        d, of_blocks = self.domain, lambda bytes_: any(map(self.says_of_blocks, bytes_))

        def is_of_blocks(flag):
            flag = flag[1] if isinstance(flag, tuple) and flag[0] == "not" else flag
            if not isinstance(flag, tuple):
                return False
            return any(block for block, _ in d.parts(flag[1])) if flag[0] == "bit" else flag[0] == "zero" and of_blocks(flag[1:])
        kept = {flag for flag in self.asked_of_secrets() if of_blocks(flag[1:])}
        self.stale_answers |= kept
        self.answers = {flag: answer for flag, answer in self.answers.items() if flag in kept or not is_of_blocks(flag)}
        self.flags = {name: (SECRET if self.is_secret(flag) else None) if is_of_blocks(flag) else flag for name, flag in self.flags.items()}
        is_lost = lambda v: isinstance(v, Verdict) and of_blocks(v.differences)
        self.general = {r: (self.any_byte(),) * self.word if is_lost(v) else v for r, v in self.general.items()}
        says = d.of_verdicts | self.secret.any_of.keys() | self.secret.equalities.keys()
        self.each_byte(lambda b: self.any_byte() if not d.blocks(b) and self.says_of_blocks(b) else b, only=says)
        self.secret.forget(of_blocks)

    def says_of_blocks(self, byte):
        """Whether a byte depends on blocks, or says whether bytes are 0 that do."""
        value = self.domain.name_of_opaque.get(byte, [0])[0]
        about = value.differences if isinstance(value, Verdict) else self.secret.about(byte)
        return bool(self.domain.blocks(byte)) or any(map(self.says_of_blocks, about))

    def each_byte(self, convert, whole=False, stay=frozenset(), only=None):
        """Replaces the bytes of registers and memory by those that `convert` gives. With `whole` this includes the stack that wasn't
        accessed. Constants stay as they are (and see `replacing`)."""
        contents = [(r.content, 0 if whole else self.accessed_from(name)) for name, r in self.regions.items()]
        words = {r: v for r, v in self.general.items() if type(v) is tuple}
        lists = *[content[begin:] for content, begin in contents], *self.vectors, *words.values()
        all_of = replacing(convert, stay, only, *lists)
        if all_of:
            for content, begin in contents:
                content[begin:] = all_of(content[begin:])
            self.vectors = list(map(all_of, self.vectors))
            self.general.update((r, self.from_bytes(all_of(v))) for r, v in words.items())

    def accessed_from(self, name):
        """Gives where the part of a region begins that may differ from what it was before the call. The stack is unchanged below the lowest
        access."""
        return self.stack.lowest // self.word * self.word if name == "stack" else 0

    def note_buffers(self, other):
        """Notes to which buffers another machine wrote. (What it wrote is looked at where its run ends.)"""
        self.ever_written.update((name, set()) for name in other.ever_written.keys() - self.ever_written.keys())

    def settle_verdicts(self, differences, equal):
        """Replaces Verdicts of these bytes by numbers, once it is known whether all these bytes are 0."""
        def number(v):
            return v.right if equal else v.wrong

        def is_this(v):
            return isinstance(v, Verdict) and v.differences == differences and (equal or v.wrong is not None)

        def byte(b):
            value, k = name if isinstance(name := self.domain.name_of_opaque.get(b), tuple) else (None, 0)
            return self.to_bytes(number(value), self.word)[k] if is_this(value) else b
        self.each_byte(byte)
        self.general = {r: number(v) if is_this(v) else v for r, v in self.general.items()}
