"""Keeps the memory of a machine: buffers of a known size, and parts of buffers of any size."""
import copy
import functools

from loops.linear import is_known_distance
from machines.operands import Content, is_int
from symbols.bits import Unproved

ABI_ALIGN = 16  # to how many bytes a caller aligns the stack, on each machine


class Region:
    """A buffer: its bytes, whether a call may write them, and how it is aligned. It begins `past` bytes after a multiple of `align`, which
    is a power of two."""

    def __init__(self, content, writable=True, align=1, past=0):
        self.content = list(content)
        self.writable, self.align, self.past = writable, align, past

    def past_multiple(self, offset, align):
        """Gives how far a place in the buffer is past a multiple of `align`, or None if that isn't known."""
        return None if self.align % align else (offset + self.past) % align if align > 1 else 0

    def copy(self):
        other = copy.copy(self)
        other.content = list(self.content)
        return other


class Stack(Region):
    """A call's stack. Callers align it to ABI_ALIGN only. Code may align it to twice that, and then a call is proved for both `past`.
    `counts` has whether any machine of the call counted on the higher alignment; it is shared by their copies."""

    def __init__(self, content, past=0):
        super().__init__(content, align=2 * ABI_ALIGN, past=past)
        self.counts = set()

    def past_multiple(self, offset, align):
        if align > ABI_ALIGN:
            self.counts.add(align)
        return super().past_multiple(offset, align)


class Window(Region):
    """A buffer whose size isn't known. It consists of blocks.

        content      the bytes from `origin` on, as far as they were accessed
        initial      the pattern of a block before the call; blocks after `content` have it
        want         the pattern that a block has to have, or a function that gives it for a machine and the number of the block in the
                     buffer. Blocks before `origin` have it, and so have those from `end` on
        unit         the bytes of a block
        head         how many bytes a region of its own has, which lies before all blocks
        backwards    whether blocks are counted from the last one to the first one
        skip         how many bytes of its first block come before the buffer

    The patterns are those of the block with number LEAD."""

    numbers = "size", "end", "origin", "head", "skip"  # what may depend on a length

    def __init__(self, size, initial, want, head=0, backwards=False, skip=0):
        super().__init__([], want is not None)
        self.size, self.end = size, size
        self.initial, self.want = initial, want
        self.origin = 0
        self.unit = len(initial)
        self.head, self.backwards, self.skip = head, backwards, skip
        self.turn = 0  # how often it began again, or was copied over
        self.undoes = False  # whether its blocks become again what they were
        self.copied = False  # whether another buffer was copied to it
        self.waits = False  # whether its patterns are of a later domain: a call that expands a key begins in another one

    def bytes_before(self, m):
        """Gives how far `content` begins after the block with number LEAD."""
        at = self.origin + self.skip - self.unit * m.first_block
        if not is_int(at):
            raise Unproved("a block whose number isn't known")
        return at

    def extend(self, m, count):
        """Extends `content` to this number of bytes."""
        for i in range(self.bytes_before(m) + len(self.content), self.bytes_before(m) + count):
            self.content.append(m.domain.moved(self.initial[i % self.unit], i // self.unit))

    @property
    def whole(self):
        """The size with the head."""
        return self.head + self.size

    def turned(self, offset, size):
        """Gives the offset of an access, counted in the order of the blocks."""
        if self.backwards:
            within = divmod(offset, self.unit)[1]
            if within + size > self.unit:
                raise Unproved("accesses two blocks at once that are processed backwards")
            offset = self.size - self.unit - offset + 2 * within
        return offset

    def reached(self, m, offset, size):
        """Gives the place of an access in `content`."""
        at = offset - self.origin
        if not is_int(at) or at < 0:
            raise Unproved("accesses a buffer at %s, where %s is next" % (offset, self.origin))
        self.extend(m, at + size)
        return at

    def wanted(self, m):
        """Gives what the first block of `content` has to be, from the first byte of `content` on. A byte is None if this isn't known."""
        want, unit, at, before = self.want, self.unit, self.origin + self.skip, self.bytes_before(m)
        if callable(want):
            want = want(m, divmod(at, unit)[0])
        return [x if x is None else m.domain.moved(x, before // unit) for x in want[before % unit:]]

    def settle(self, m):
        """Drops the first blocks of `content` if they are what they have to be. A block that is as it was stays."""
        if not self.content:
            return
        at, begin = divmod(self.bytes_before(m), self.unit)
        while len(self.content) >= (size := self.unit - begin):
            have, before = self.content[:size], [m.domain.moved(x, at) for x in self.initial[begin:]]
            if have == before or have != self.wanted(m):
                return
            self.origin, self.content, at, begin = self.origin + size, self.content[size:], at + 1, 0

    def has_begun(self, m):
        """Whether the first block is what it has to be."""
        copy = self.copy()
        copy.settle(m)
        return copy.origin != self.origin

    def is_untouched(self):
        """Whether no block was accessed."""
        return self.origin == 0 and not self.content and self.end == self.size

    def initial_at(self, m, base, offset, size):
        """Gives bytes as they were before the call."""
        number, unit = offset + self.skip - self.unit * m.first_block, self.unit
        if not is_int(number):
            is_written = m.domain.undefined not in self.initial
            return [m.domain.opaque((Content(base, offset + k, "content %d" % self.turn), 0)) if is_written else m.domain.undefined
                    for k in range(size)]
        return [m.domain.moved(self.initial[i % unit], i // unit) for i in range(number, number + size)]

    def is_done(self, m):
        """Whether all blocks are what they have to be."""
        if not self.writable:
            return True
        if not is_known_distance(self.end, self.origin) or self.end - self.origin != len(self.content):
            return False
        copy = self.copy()
        try:
            copy.finish(m, "")
        except Unproved:
            return False
        return True

    def begin_again(self, initial, want=None, undoes=False, head=0, skip=None):
        """Lets blocks that are done be read once more, as `initial`. Then they become what `want` says, or nothing more is written. With
        `undoes` they only change in a call that is refused. The first `head` bytes are left out, if nothing was written: they can't be
        accessed any more. Then `skip` bytes of the first block come before the buffer, if it isn't None."""
        if head != 0 and not self.is_untouched():
            raise Unproved("leaves out bytes of a buffer that was written to")
        self.initial = initial
        self.head, self.size, self.end = self.head + head, self.size - head, self.end - head
        self.origin = 0
        self.content, self.copied = [], False
        self.turn += 1
        self.writable = want is not None
        self.undoes, self.want = undoes, want
        self.skip = self.skip if skip is None else skip

    def fault(self, domain, name, byte):
        """Gives the text of the fault that a block isn't what it has to be."""
        return "the block at %s of %s isn't what it has to be: it begins with %s" % (self.origin, name, domain.describe(byte))

    def finish(self, m, name):
        """Compares all blocks up to the end with what they have to be."""
        if not self.writable:
            return
        rest = self.end - self.origin
        if not is_int(rest) or rest < 0:
            raise Unproved("%s has %s bytes and is only done up to %s" % (name, self.size, self.origin))
        self.extend(m, rest)
        self.content = self.content[:rest]
        while self.content:
            want = self.wanted(m)
            have = self.content[:len(want)]
            if have != want[:len(have)]:
                raise Unproved(functools.partial(self.fault, m.domain, name, have[0]))
            self.origin, self.content = self.origin + len(have), self.content[len(have):]
