"""Notes how deep a call goes on the stack, and which of its bytes others may have overwritten."""
import copy

from symbols.bits import Unproved

PAGE = 4096  # the smallest page of memory


class StackUse:
    """The use of the stack by a call. `top` is the stack pointer at the call, and `lowest` the lowest place that was accessed. In a general
    state it is that of the run that accessed the lowest one, and `reached` that of the run that accessed the highest one. `stale` has the
    places whose bytes others may have overwritten. The stack pointer may not be below `end`."""

    def __init__(self, top):
        self.top = self.lowest = self.reached = top
        self.end = 0
        self.stale = set()

    def copied(self):
        other = copy.copy(self)
        other.stale = set(self.stale)
        return other

    def depth(self):
        """Gives how many bytes of the stack a call used."""
        return self.top - self.lowest

    def reach(self, offset, size, write, end):
        """Refuses an access outside of what a function may use, and notes how deep it is. The lowest place that may be used is `end`."""
        if write and offset + size > self.top:
            raise Unproved("writes above its stack frame")
        if offset < end:
            raise Unproved("accesses the stack below the red zone")
        self.refuse_gap(offset)
        self.go_down(offset)

    def refuse_gap(self, offset):
        """Refuses to use the stack at this place if a page above it wasn't accessed. It may not exist, or belong to something else."""
        if offset < self.reached - PAGE:
            raise Unproved("uses the stack %d bytes below all that was accessed" % (self.reached - offset))

    def go_down(self, offset):
        """Notes an access to this place."""
        self.lowest, self.reached = min(self.lowest, offset), min(self.reached, offset)

    def join(self, other):
        """Makes this the use of the stack by either of two runs."""
        self.stale |= other.stale
        self.lowest, self.reached = min(self.lowest, other.lowest), max(self.reached, other.reached)

    def includes(self, other):
        """Whether all that is proved after this use of the stack holds after another one too."""
        return self.top == other.top and self.lowest <= other.lowest and self.reached >= other.reached and self.stale >= other.stale

    def mark_stale(self, begin, end):
        """Notes that others may overwrite this part from now on."""
        self.stale.update(range(begin, end))

    def is_stale(self, offset, size):
        return not self.stale.isdisjoint(range(offset, offset + size))

    def mark_written(self, offset, size):
        self.stale.difference_update(range(offset, offset + size))
