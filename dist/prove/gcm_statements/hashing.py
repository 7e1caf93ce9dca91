"""Has GHASH (SP 800-38D, 6.4) for statements of GCM and of AES-GCM-SIV. When a call has made a value of it, that becomes an arbitrary
block."""
import functools
import itertools
from collections import namedtuple

from machines.operands import lanes
from statements.keyed import Keyed
from statements.standards import ZEROS, number, padded, product
from symbols.bits import DATA, KEY, PUBLIC

Sizes = namedtuple("Sizes", "additional text")  # how many bytes of both a message has
PlannedStep = namedtuple("PlannedStep", "value group after")  # a value of GHASH, a group, and the block that the next value becomes


def in_groups(blocks, many=3):
    """Gives groups of blocks. The products of a group with powers of H are added at once."""
    return [blocks[i:i + many] for i in range(0, len(blocks), many)]


def block_of_lengths(additional, text):
    """Gives the last block that GCM's GHASH reads: both lengths, in bits."""
    return number(8 * additional, 8) + number(8 * text, 8)


class Hashing:
    """Computes GHASH (6.4) from a value on, group by group. Each value that depends on the key becomes an arbitrary block. `plan` has the
    PlannedSteps. `made` counts the blocks that values become."""

    def __init__(self, keyed, value, made=0):
        self.keyed, self.value, self.made = keyed, value, made
        self.plan = []

    def add_groups(self, groups):
        """Adds these groups to the plan. A group of zeros before which there are only zeros changes nothing."""
        for group in groups if not self.keyed.program.narrow else ([block] for group in groups for block in group):
            if any(self.value) or any(map(any, group)):
                self.made += 1
                after = self.keyed.in_block(self.keyed.hash_value, self.made)
                self.plan.append(PlannedStep(self.value, group, after))
                self.value = after
        return self

    def end_as(self, block):
        """Lets the last value become this block."""
        self.plan[-1] = self.plan[-1]._replace(after=block)
        return self

    def steps(self, begin=0, end=None):
        for value, group, after in self.plan[begin:end]:
            yield "hash", functools.partial(self.sum, value, group), after

    def sum(self, value, group):
        """Computes (Y + X_1) H^m + X_2 H^(m-1) + .. + X_m H."""
        return self.keyed.with_powers([self.keyed.aes.xor(value, group[0]), *group[1:]])


class KeyedHash(Keyed):
    """Has what both libraries need besides a key: powers of H, which are arbitrary blocks, and the data that GHASH reads."""
    schedules = 1

    def __init__(self, program, key_size):
        super().__init__(program, key_size)
        d = self.domain
        self.powers = [[d.fresh("H^%d byte %d" % (n, i), KEY) for i in range(16)] for n in self.kept_powers()]
        self.nonce = [d.fresh("nonce byte %d" % i, PUBLIC) for i in range(12)]
        self.pre_counter = [d.fresh("J_0 byte %d" % i, KEY | PUBLIC) for i in range(12)]

        def block(name, depends):
            return [d.fresh("%s byte %d" % (name, i), depends, True) for i in range(16)]

        self.text, self.sealed, self.tag = (block(name, DATA) for name in ("text", "encrypted", "tag"))
        self.hashed_text = self.sealed
        self.additional_bytes, self.long_nonce = block("additional", DATA), block("long nonce", PUBLIC)
        self.hash_value, self.rest = block("hash", KEY | DATA), block("rest", KEY | DATA)

    def kept_powers(self):
        return (1,) if self.program.narrow else (1, 2, 3)

    def with_powers(self, blocks):
        """Computes X_1 H^m + .. + X_m H. Names the factors so that the same cells come with the same power."""
        factors, known = self.domain.name_factors(sum(blocks[::-1], [])), self.domain.known_products

        def product_of(i, block):
            if (i, block) not in known:
                known[i, block] = product(self.domain, block, self.powers[i])
            return known[i, block]
        return functools.reduce(self.aes.xor, itertools.starmap(product_of, enumerate(lanes(tuple(factors), 16))))

    # GHASH of every length (lengths.py).
    def any_group(self, m, before, bytes_, size, many, end, after):
        """Gives the next step of GHASH of `size` bytes. It reads `many` blocks at once as long as it can, then the rest and the blocks
        `end`. A value becomes the block with which the next group begins. The last value becomes `after`."""
        group, unit = m.steps_found, 16 * many
        left = m.known(size) - group * unit

        def value_of(group):
            return before if group == 0 else self.at_block(m, self.hash_value, group * many)

        def blocks(group):
            return [self.at_block(m, bytes_, group * many + k) for k in range(many)]

        below = m.is_below(unit - 1, left)
        if below:
            return self.group_step(value_of(group), map(self.hashed, blocks(group)), value_of(group + 1))
        if below is None or not isinstance(left, int):
            return "nothing", (), ()
        at = -(left // unit)  # groups after the whole ones
        groups = in_groups([*map(self.hashed, padded(sum(blocks(group - at), [])[:left % unit]))] + end, many)
        if at < len(groups):
            return self.group_step(value_of(group), groups[at], value_of(group + 1) if groups[at + 1:] else after)
        if not groups and at == 0:  # the last value was that of a whole group
            return "here", value_of(group), after
        return "again", (), ()

    def hashed(self, block):
        """Gives what GHASH reads instead of a block: here the block itself."""
        return block

    def group_step(self, value, blocks, after):
        """Gives the step that adds a group to a value, which then becomes `after`."""
        blocks = list(blocks)
        return "hash", functools.partial(self.with_powers, [self.aes.xor(value, blocks[0]), *blocks[1:]]), after

    def middle_value(self):
        return self.any_bytes("middle hash", KEY | DATA)

    def last_value(self):
        return self.any_bytes("last hash", KEY | DATA)

    def blocks_at_once(self, m, sizes):
        """Counts the blocks that GHASH reads at once."""
        return len(self.kept_powers())

    def any_hash(self, m, phase, sizes):
        """Gives the next step of GHASH of additional data (phase 0) and of a text, of these sizes."""
        middle, last = self.middle_value(), self.last_value()
        many = self.blocks_at_once(m, sizes)
        if phase > 1:
            return "nothing", (), ()
        if phase == 0:
            return self.any_group(m, ZEROS, self.additional_bytes, sizes.additional, many, [], middle)
        before = ZEROS if m.known(sizes.additional) == 0 else middle
        return self.any_group(m, before, self.hashed_text, sizes.text, many, [self.any_lengths(m, sizes)], last)

    def any_lengths(self, m, sizes):
        return [b for n in sizes for b in m.to_bytes(m.known(n) * 8, 8)[::-1]]

    def any_sum(self, m, sizes):
        """Gives GHASH of additional data and a text. (If both are empty, it is GHASH of a block of zeros.)"""
        return ZEROS if all(m.known(size) == 0 for size in sizes) else self.last_value()
