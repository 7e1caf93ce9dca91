"""Computes with unknown public numbers, such as lengths, and decides what follows from facts about them. Such a number is a constant plus
multiples of unknown integers."""
import functools
import itertools
import math
from collections import namedtuple

from symbols.bits import PUBLIC, Unproved

WORD = (1 << 64) - 1


def refuse(*_):
    """Refuses an operation that has no meaning for unknown numbers."""
    raise Unproved("this can't be done with a number that isn't known")


class Linear(namedtuple("Linear", "terms constant")):
    """An integer, of which a machine has the lowest 64 bits. `terms` is ((unknown, coefficient), ..), sorted and not empty, and an unknown
    is a string. Operations that this class doesn't define fail."""
    __slots__ = ()

    def __add__(self, other, times=1):
        """Gives the sum with the other number, or with a multiple of it."""
        if not isinstance(other, Linear):
            return Linear(self.terms, self.constant + other * times)
        terms = dict(self.terms)
        for name, k in other.terms:
            terms[name] = terms.get(name, 0) + k * times
        return linear(terms, self.constant + other.constant * times)

    def __mul__(self, k):
        return Linear(tuple([(name, c * k) for name, c in self.terms]), self.constant * k) if k else 0

    def __neg__(self):
        return self * -1

    def __sub__(self, other):
        return self.__add__(other, -1)

    def __rsub__(self, other):
        return -self + other

    def __divmod__(self, k):
        """Gives the quotient by a constant, and the remainder. Fails if the remainder isn't known."""
        if any(c % k for _, c in self.terms):
            refuse()
        return linear({name: c // k for name, c in self.terms}, self.constant // k), self.constant % k

    def byte(self, domain, k):
        """Gives the bits of byte k. A power of two may divide all coefficients: then the lowest bits are known, and the others are bits of
        the quotient, which may be any. `domain.sizes` says how many bits some numbers have. Bits above these are 0."""
        power = step_of(self)
        if power == 1:
            byte = domain.fresh("byte %d of %s" % (k, self), PUBLIC)
            domain.number_of_cell[domain.cell_of(byte)[0]] = self, k
            return tuple(bit if 8 * k + j < domain.sizes.get(self, 64) else 0 for j, bit in enumerate(domain.bits(byte)))
        known, (rest, low) = power.bit_length() - 1, divmod(self, power)

        def bit(j):
            return low >> j & 1 if j < known else domain.bits(domain.opaque((rest, (j - known) // 8)))[(j - known) % 8]
        return tuple(map(bit, range(8 * k, 8 * k + 8)))

    def __str__(self):
        return " + ".join(["%d %s" % (c, name) for name, c in self.terms] + [str(self.constant)])

    __radd__, __rmul__ = __add__, __mul__
    __lt__ = __gt__ = __le__ = __ge__ = __mod__ = __and__ = __rand__ = __floordiv__ = __rshift__ = __len__ = refuse


def linear(terms, constant):
    """Gives the number with these terms: a Linear, or an int if no term is left."""
    terms = tuple(sorted((name, k) for name, k in terms.items() if k))
    return Linear(terms, constant) if terms else constant


def unknown(name):
    """Gives the unknown number with this name."""
    return Linear(((name, 1),), 0)


def wrapped(x, most=WORD):
    """Gives a number modulo `most` + 1, where `most` is the highest word of the machine. Its constants are as near to 0 as they can be."""
    half = most + 1 >> 1

    def near(k):
        return (k + half & most) - half
    return linear({name: near(k) for name, k in x.terms}, near(x.constant)) if isinstance(x, Linear) else near(x)


def is_number(*values):
    for v in values:  # (not by `all`, which is slower; see is_int)
        if not isinstance(v, (int, Linear)):
            return False
    return True


def is_known_distance(x, y):
    """Whether x - y is known, for two numbers."""
    return x.terms == y.terms if isinstance(x, Linear) and isinstance(y, Linear) else isinstance(x, int) and isinstance(y, int)


def terms(x):
    """Gives {unknown: coefficient} of a number."""
    return dict(x.terms) if isinstance(x, Linear) else {}


def names_in(numbers):
    """Gives the names of the unknowns in these numbers."""
    return {name for x in numbers for name in terms(x)}


def may_be_zero(x):
    """Whether some integers make this number 0."""
    return x.constant % math.gcd(*(c for _, c in x.terms)) == 0 if isinstance(x, Linear) else x == 0


def step_of(x):
    """Gives the highest power of two that divides all coefficients. Modulo this power the number is known."""
    power = math.gcd(*(c for _, c in x.terms))
    return power & -power


def replaced(x, name, by):
    """Gives a number, or a tuple of anything, in which a number replaces an unknown."""
    def other(number):
        k = terms(number).get(name, 0)
        return number + (by - unknown(name)) * k if k else number
    return with_numbers(x, other)


def with_numbers(x, other):
    """Gives a number, or a tuple of anything, in which the numbers that `other` gives replace those with unknowns."""
    if isinstance(x, Linear):
        return other(x)
    if isinstance(x, tuple) and any(isinstance(y, tuple) for y in x):
        new = [with_numbers(y, other) for y in x]
        return x if new == list(x) else x._make(new) if hasattr(x, "_make") else tuple(new)
    return x


def rewritten(x, number, name):
    """Gives a number, or a tuple of anything, in which an unknown replaces this number. The number has one other unknown. Fails if a number
    isn't a multiple of it plus numbers without that unknown."""
    (old, step), = number.terms

    def other(this):
        k = terms(this).get(old, 0)
        if k % step:
            raise Unproved("a number that can't be written with another unknown")
        return this + (unknown(name) - number) * (k // step)
    return with_numbers(x, other)


def tightened(x):
    """Gives the number with the least coefficients that is 0 or more for the same integers as x."""
    if not isinstance(x, Linear):
        return x
    k = math.gcd(*(c for _, c in x.terms))
    return linear({name: c // k for name, c in x.terms}, x.constant // k)


def tightened_row(row):
    """Does what `tightened` does for a number that is given as its coefficients and its constant."""
    k = math.gcd(*row[:-1])
    return tuple(row) if k < 2 else tuple([c // k for c in row])


@functools.lru_cache(1 << 16)
def refuted(facts):
    """Whether no integers make all these numbers >= 0. It eliminates one unknown after the other (Fourier-Motzkin). Each sum follows from
    the facts, so True is always right. False may mean that it didn't find the contradiction."""
    names, zeros = sorted({name for f in facts if isinstance(f, Linear) for name, _ in f.terms}), itertools.repeat(0)
    rows = {tightened_row([*map(terms(f).get, names, zeros), f.constant if isinstance(f, Linear) else f]) for f in facts}
    return refuted_rows(rows, len(names))


def refuted_rows(rows, unknowns):
    """Does what `refuted` does for tightened rows."""
    for _ in range(unknowns):
        if any(row[-1] < 0 and not any(row[:-1]) for row in rows):
            return True
        up, down = [row for row in rows if row[0] > 0], [row for row in rows if row[0] < 0]
        sums = {tightened_row([y * a[0] - x * b[0] for x, y in zip(a[1:], b[1:])]) for a in up for b in down}
        rows = {row[1:] for row in rows if not row[0]} | sums
    return any(row[0] < 0 for row in rows)


class WithValue:
    """Facts in which an unknown gets one value after the other. What doesn't depend on the value is done once."""

    def __init__(self, facts, name):
        facts = without_equations(facts, name)
        connected = connected_with(facts, name)
        self.always_refuted = refuted(frozenset(facts - connected))
        names, self.rows = sorted(names_in(connected) - {name}), set()
        self.unknowns = len(names)
        for f in connected:
            row = [terms(f).get(other, 0) for other in names]
            divisor = math.gcd(*row) or 1
            self.rows.add((tuple([c // divisor for c in row]), terms(f).get(name, 0), f.constant, divisor))

    def refuted(self, value):
        """Whether no integers make all these numbers >= 0 with this value, as `refuted` says it."""
        rows = {(*row, (constant + k * value) // divisor) for row, k, constant, divisor in self.rows}
        return self.always_refuted or refuted_rows(rows, self.unknowns)


def connected_with(facts, name):
    """Gives the facts about an unknown, about the other unknowns in these, and so on."""
    names, before = {name}, 0
    while len(names) > before:
        before = len(names)
        found = {f for f in facts if not names.isdisjoint(terms(f))}
        names |= names_in(found)
    return found


def without_equations(facts, kept):
    """Gives facts in which other numbers replace the unknowns that they are equal to, but for one unknown that is kept."""
    for f in facts:
        for name, k in f.terms if isinstance(f, Linear) and -f in facts else ():
            if k in (1, -1) and name != kept:
                return without_equations({replaced(x, name, unknown(name) - f * k) for x in facts}, kept)
    return facts


def implied(facts, x):
    """Whether x >= 0 follows from these facts."""
    return refuted(facts | {-x - 1})
