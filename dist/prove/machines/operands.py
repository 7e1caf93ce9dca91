"""Defines what instructions are and what they work on, for all machines: values and operands."""
import functools
from collections import namedtuple

from symbols.bits import Unproved

# Values. Python compares them as tuples, without their types. So `kind` makes values of different types differ.
Pointer = namedtuple("Pointer", "base offset")  # base: the name of a region, or of a register's value before the call
Distance = namedtuple("Distance", "base other offset")  # the address of a buffer, less that of another, plus a constant
Negated = namedtuple("Negated", "base offset kind", defaults=["negated"])  # a constant, less the address of a buffer
# 32 bits: a number of unknown value, plus another. Higher bytes aren't known.
Number = namedtuple("Number", "base offset kind", defaults=["number"])
# `size` bytes, and zeros above: the number `right` if all the differences are 0, else another one, which is `wrong` if that is known. If it
# isn't, each has its own `serial`, since with the same differences there may be several such numbers. So it has if a difference has no
# known value.
Verdict = namedtuple("Verdict", "right differences size wrong serial", defaults=[None, 0])
# The higher 64 bits of the product of a number that isn't known and a constant.
Scaled = namedtuple("Scaled", "number factor kind", defaults=["scaled"])


class Shifted(namedtuple("Shifted", "number count")):
    """An unknown number, moved to the right by `count` bits. It is used if the result is no multiple of other unknowns."""

    def byte(self, domain, k):
        """Gives the bits of byte k."""
        def bit(j):
            return domain.bits(domain.opaque((self.number, j // 8)))[j % 8] if j < 64 else 0
        return tuple(bit(8 * k + j + self.count) for j in range(8))

    def value(self):
        """Gives the number, if what is moved is known now."""
        return (self.number & WORD) >> self.count if is_int(self.number) else self


# Operands. Others are ints, and strings or tuples of these, which only instructions of one machine have.
Register = namedtuple("Register", "name size at", defaults=[0])  # at: the first byte; x86's ah, bh, ch and dh begin at byte 1
# Bytes of a vector register; `clears` says that a write clears the rest, and `lane` how many bytes an element has.
Vector = namedtuple("Vector", "number size lane at clears", defaults=[1, 0, True])
# `before` and `after` are how far an access moves the base register.
Memory = namedtuple("Memory", "size base index scale offset align before after", defaults=[1, 0, 0])
Instruction = namedtuple("Instruction", "run name operands next form")  # form: see `form`

# The low half of a counter: `word` is its name, and with an offset i it is that of block i. A call begins at block `first`. From block
# `wrap` on the half has wrapped around. Blocks that begin behind byte `end` don't occur. (Block k begins at byte 16 k.)
CounterWord = namedtuple("CounterWord", "word first wrap end")
NEVER = 1 << 64  # as `wrap`

# How many bytes the stack pointer may move at once, or an address in a pass of a loop. All frames are smaller.
FARTHEST = 1 << 16
HEAD = " head"  # how the name of a buffer's head ends
LEAD, LAST = 2, 200  # The first block of a buffer of unknown length has the number LEAD. All numbers of blocks are less than LAST.
SECRET = "secret"  # a flag that depends on the key or on data (None is an undefined flag)
RETURN_ADDRESS = Pointer("return address", 0)
# How the base of an address in the file of the code begins. Its offset is the address in one link. The base says from which section the
# address was made. Only an access or a jump to that section may be made from it, or another such address. So nothing depends on where a
# linker puts sections.
CODE = "the code at "
# How the base of the upper part of such an address begins, in code that makes it in two steps. The base says of which address, and how much
# higher it is in another link. Only the lower part of the same address may be added.
PAGE = "a page of "
WORD = (1 << 64) - 1


def is_int(*values):
    for v in values:  # (not by `all`, which is slower: this runs for each instruction)
        if not isinstance(v, int):
            return False
    return True


def is_pointer(*values):
    for v in values:
        if not isinstance(v, Pointer):
            return False
    return True


def is_in_code(value):
    return isinstance(value, Pointer) and value.base.startswith(CODE)


def constant(what, value):
    """Gives a value that has to be a constant. `what` names it if it isn't."""
    if not is_int(value):
        raise Unproved(what + " isn't constant")
    return value


def lanes(b, size):
    """Gives the parts of this size of a list or tuple."""
    return [b[i:i + size] for i in range(0, len(b), size)]


def concatenated(parts):
    return [x for part in parts for x in part]


def interleaved(a, b, size):
    """Gives parts of this size of two lists by turns."""
    return concatenated(x + y for x, y in zip(lanes(a, size), lanes(b, size)))


def contrary(flag):
    """Gives the flag that is 1 if this one is 0."""
    if isinstance(flag, tuple):
        return flag[1] if flag[0] == "not" else ("not", flag)
    return 1 - flag if flag in (0, 1) else flag


def form(name, operands, with_target):
    """Gives the form of an instruction, for comparisons with a processor. It says which registers are the same, but not which they are. It
    doesn't say how far an access lies from its base, or what address a target is."""
    numbers = {}

    def same(register):
        return register if register in ("xzr", "sp", "rsp") else numbers.setdefault(register, len(numbers))
    kinds = [kind(o, same) for o in operands]
    return " ".join([name, *(kinds[:-1] + ["to"] if with_target and is_int(operands[-1]) else kinds)])


def kind(o, same):
    """Gives the form of an operand. `same` gives a number or name for each register."""
    if isinstance(o, Register):
        return "r%d.%s%s" % (o.size, same(o.name), "h" * o.at)
    if isinstance(o, Vector):
        return "%s%d.%d.%s%s" % ("v" if o.clears else "part", o.size, o.lane, same(o.number), "[%d]" % o.at * bool(o.at))
    if isinstance(o, Memory):
        parts = [str(same(o.base))] * bool(o.base) + ["%s*%d" % (same(o.index), o.scale)] * bool(o.index)
        return "%sm%d[%s]%s" % ("+" * bool(o.before), o.size, " ".join(parts), "+" * bool(o.after))
    if isinstance(o, tuple):  # several of these
        return "{%s}" % " ".join(kind(x, same) for x in o)
    return str(o)


@functools.lru_cache(None)
def number_of_entry(index, significant):
    """Gives the number of the entry that a constant index means. `significant` gives the bits of an index that count."""
    return sum(bit << k for k, bit in enumerate(significant([index >> j & 1 for j in range(8)])))


class Table(dict):
    """The meanings of instructions by their names."""

    def of(self, *names):
        """Lets the function that follows be the meaning of these names."""
        def add(f):
            self.update(dict.fromkeys(names, f))
            return f
        return add


class Placed(namedtuple("Placed", "value first")):
    """The counter of a block (Machine.counter) as a number. It counts from the block with number LEAD."""

    def byte(self, domain, k):
        """Gives the bits of byte k, or None if the number of the block isn't known."""
        number = self.value.offset - self.first + LEAD
        return domain.placed[self.value.base](number, k) if is_int(number) else None


# A byte of a buffer that is as it was, at an offset whose block isn't known. (`what` distinguishes its name from that of an address.)
Content = namedtuple("Content", "base offset what", defaults=["content 0"])


class Question(Exception):
    """Asks for the value of a flag. Both values have to be proved."""
