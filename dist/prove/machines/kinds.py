"""Draws addresses, distances, unknown numbers and words of a counter, for instructions that run by themselves (native.py)."""
import functools

from loops.linear import names_in, unknown
from machines.machine import Allowed
from machines.operands import (NEVER, WORD, CounterWord, Distance, Negated, Number, Pointer, Question, Scaled, Shifted, concatenated,
                               is_pointer)
from symbols.bits import Unproved

MOST_QUESTIONS = 20
FEW = (*range(-2, 3), 7, 8, 15, 16, 31, 32, 63, 64, 255, 256, 4095, 4096)


class Kinds:
    """Draws such values for a machine, and sets what they are in `values`. Names of unknowns are new each time, as values are kept by
    names."""

    def __init__(self, random, values):
        self.random, self.values = random, values
        self.drawn, self.asked = 0, 0  # how often values were drawn, and what was asked of them since

    def give(self, m):
        """Puts values of some kinds into registers and memory, and numbers that are close to some of them."""
        r, word = self.random, m.word
        self.drawn, self.asked = self.drawn + 1, 0
        draws = r.sample((self.addresses, self.numbers, self.counter), r.choice((1, 1, 1, 2, 3)))
        m.allowed = Allowed(any_length=self.counter not in draws and r.random() < 0.5, divides=r.random() < 0.5)
        m.quotient, m.compare_numbers = functools.partial(self.quotient, m), functools.partial(self.compare_numbers, m)
        values = concatenated(draw(m) for draw in draws)
        words = [x for x in map(self.values.word, values) if x is not None]
        values += [r.choice(words) + r.choice(FEW) & m.highest, r.choice(words) + r.choice(FEW) & m.highest, r.choice(FEW) & m.highest]
        m.general.update({name: r.choice(values) for name in m.registers if name != "zero" and not is_pointer(m.general[name])})
        lanes = [m.to_bytes(x, word) for x in values]
        m.vectors = [concatenated(r.choices(lanes, k=m.vector_size // word)) for _ in m.vectors]
        m.regions["buffer"].content = concatenated(r.choices(lanes, k=len(m.regions["buffer"].content) // word))

    def addresses(self, m):
        """Draws addresses in both regions, and how far they are apart."""
        draw, base, size = self.random.choice, self.values.base, len(m.regions["buffer"].content)
        apart = base["buffer"] - base["stack"]
        return [*(Pointer(region, draw((0, 16, size // 2, size))) for region in ("buffer", "stack")), Negated("buffer", draw(FEW)),
                Distance("buffer", "stack", draw((0, -apart)) + draw(FEW)), Distance("stack", "buffer", draw((0, apart)) + draw(FEW))]

    def numbers(self, m):
        """Draws numbers with an unknown, and facts about it. Some of the numbers are below 0, or don't fit into a word."""
        draw, name, counted = self.random.choice, "n%d" % self.drawn, "counted %d" % self.drawn
        most = draw((31, 0xffff, m.highest >> 24, m.highest >> 1))
        self.values.base[name] = draw((0, 1, most, self.random.randint(0, most)))
        self.values.base[counted] = draw((0, 1, 0xffffffff, self.random.getrandbits(32)))
        m.facts = frozenset((unknown(name), most - unknown(name)))
        parts = [Shifted(unknown(name), draw((1, 4, 7)))] + [Scaled(unknown(name), draw((0xaaaaaaaaaaaaaaab, WORD)))] * (m.word == 8)
        numbers = [unknown(name) * draw((1, 1, 2, 16, 256, -1, -16)) + draw(FEW) for _ in range(4)]
        return [Number(counted, draw(FEW) & 0xffffffff), *parts, *numbers]

    def counter(self, m):
        """Draws words of a counter. All bits of its highest word may be set. Those of a word between that and the lowest may not."""
        draw, base, blocks = self.random.choice, self.values.base, 64
        low, highest = "counter low, from %d" % self.drawn, m.word == 8 or draw((False, True))
        high = "counter high %d" % self.drawn + ", 2 full" * (highest and m.word == 4)
        wrap = draw((NEVER, NEVER, 1, 2, 5))
        m.counter = CounterWord(low, 0, wrap, 16 * blocks)
        base[low] = draw((0, 1, m.highest - blocks)) if wrap == NEVER else m.highest + 1 - wrap
        base[high] = draw((0, 1, m.highest - 1, m.highest - (not highest)))
        return [Pointer(low, draw((0, 0, 0, 1, 2, 5))) for _ in range(4)] + [Pointer(high, k) for k in range(2)]

    def quotient(self, m, x, by):
        """Does what the machine does, and gives a value to a new unknown."""
        q = type(m).quotient(m, x, by)
        for name in names_in([q]) - self.values.base.keys():
            self.values.base[name] = self.values.integer(x) // by
        return q

    def compare_numbers(self, m, x, y, what):
        """Compares unknown numbers as the machine does. If their values are needed for that, it uses these."""
        try:
            return type(m).compare_numbers(m, x, y, what)
        except Question:
            self.asked += 1
            if self.asked > MOST_QUESTIONS:  # how often a multiple of an unknown wrapped around is asked for each time
                raise Unproved("asks too much of a number") from None
            below = self.values.flag((x, y, what))
            m.facts |= {y - x - 1 if below else x - y}
            return below
