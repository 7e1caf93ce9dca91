"""States the calls of fotsgure_aes.h for key wrap (SP 800-38F, 6.1 to 6.3). Each statement quotes the sentence of the header that it
proves."""
from collections import namedtuple

from loops.linear import unknown
from statements.calls import Buffer, Call, Stream
from statements.keyed import DONE, INVALID_COUNT, NO_KEY, REFUSED, facts_of_range, unused_buffer, unequal
from statements.standards import ICV1, ICV2, ZEROS, number
from symbols.bits import DATA

# A and a semiblock before a step, the patterns of semiblocks before and after a turn, and A after each of the six turns.
Semiblocks = namedtuple("Semiblocks", "a before_step before_turn after_turn a_after_turns")


class KeyWrap:
    """Has the statements for calls of fotsgure_aes.h that wrap keys, with and without padding."""

    # In step t, the block is A or A ^ [t], and a semiblock R. Its bytes are named as those of block t - 1.
    def wrap_string(self, start, n, last):
        """Gives W (6.1, algorithm 1) of the semiblock `start` and n others, where `last` has the bytes of the last one. Gives its steps,
        the n semiblocks, and the result."""
        a, r = self.block_bytes[:8], self.block_bytes[8:]
        semiblocks = [x for i in range(n) for x in self.in_block(last if i == n - 1 else r, i)]

        def steps():
            for t in range(1, 6 * n + 1):
                block = self.cipher_of((start if t == 1 else a) + (last if t == n else r))
                done_a = self.aes.xor(self.in_block(a, t), number(t, 8))
                yield self.steps_appear_in, self.in_block(block, t - 1), done_a + self.in_block(r, t - 1 + n)
        return steps, semiblocks, self.in_block(a, 6 * n) + [x for i in range(n) for x in self.in_block(r, 6 * n + i)]

    def unwrap_string(self, n, start=None):
        """Gives the inverse of W (6.1, algorithm 2) of n + 1 semiblocks: its steps, the semiblocks, and the first one and the others of the
        result. With `start`, it gives semiblocks whose first one becomes `start`."""
        a, r = self.block_bytes[:8], self.block_bytes[8:]
        wrapped = self.aes.xor(self.in_block(a, 0), number(6 * n, 8)) + [x for i in range(n) for x in self.in_block(r, n - 1 - i)]
        start = start or self.in_block(a, 6 * n)

        def steps():
            for k in range(1, 6 * n + 1):  # t is 6n + 1 - k
                done_a = start if k == 6 * n else self.aes.xor(self.in_block(a, k), number(6 * n - k, 8))
                yield self.steps_appear_in, self.in_block(self.ciphers["decrypt"], k - 1), done_a + self.in_block(r, k - 1 + n)
        key = [x for i in range(n) for x in self.in_block(r, 7 * n - 1 - i)]
        return steps, wrapped, start, key

    def wrap(self, count):
        """Key wrap (KW, SP 800-38F, 6.2; RFC 3394) from one buffer to another .. Counts are in semiblocks of 8 bytes. A key has two or
        more. A wrapped key has one more. .. DONE"""
        steps, key, wrapped = self.wrap_string(ICV1, count, self.block_bytes[8:])
        output = Buffer("output", self.undefined(8 * count + 8), wrapped)
        return Call("aes_wrap", [self.schedule(), Buffer("input", key), count, output, count + 1], DONE, steps=steps, plain=key)

    def unwrap(self, count):
        """.. fotsgure_aes_unwrap also REFUSED, and the output then is all zeros; else DONE. Whether the key is right is the only thing that
        a branch tells."""
        n = count - 1
        steps, wrapped, start, key = self.unwrap_string(n)
        return Call("aes_unwrap", [self.schedule(), Buffer("input", wrapped), count, Buffer("output", self.undefined(8 * n), key), n],
                    DONE, steps=steps, reveals=self.aes.xor(start, ICV1), refused=REFUSED, refused_after={"output": [0] * 8 * n}, plain=key)

    # Key wrap of every number of semiblocks. In each turn of W, semiblock i and the A before it are bytes of one block. That has the number
    # of the block before (at_link). The first semiblock is number 0, or the last one is if W goes backwards. Each semiblock becomes other
    # bytes, which are those of block i. After a turn A becomes arbitrary bytes again.
    def semiblocks(self):
        """Gives the Semiblocks of all calls."""
        a, r = self.block_bytes[:8], self.block_bytes[8:]
        made, turns = self.any_bytes("semiblock", DATA, True, 8), [self.any_bytes("turn %d" % k, DATA, False, 8) for k in range(1, 7)]
        return Semiblocks(a, r, self.pattern(r, -1), self.pattern(made), turns)

    def any_turns(self, wraps, count, first, last, alone, start=0, undoes=True):
        """Gives the steps of W, or of its inverse, which begins with A ^ [6n]. They begin in phase `start`, when the semiblocks are in the
        output. `first` and `last` are A before and after all steps. With one semiblock there is one step, which has no number and begins
        with `alone` (6.3). After the inverse the output becomes zeros, if `undoes` only if the call is refused."""
        a, r, before, after, turns = self.semiblocks()
        way = "encrypt" if wraps else "decrypt"

        def steps(m):
            i = m.steps_found
            n = m.known(count)
            turn = m.phase - start
            final = 0 if n == 1 else 5
            number = lambda t: m.to_bytes(t if wraps else 6 * n - t, 8)[::-1]
            if turn < 0:
                return "whole", "output", (before, after)
            if turn > final or not m.is_below(i, n + 2) or m.is_below(i, n) is None:
                return "nothing", (), ()
            if i == n + (n != 1):
                return "whole", "output", (before, after) if turn < final else (after,) if wraps else (after, [0] * 8, undoes)
            if i == n:
                added = ZEROS[:8] if wraps else number(n * turn + n)
                done_a = m.known_bytes(last) if turn == final else turns[turn]
                return "kept", self.aes.xor(self.at_link(m, a, n), added), self.aes.xor(done_a, added)
            given = alone if n == 1 else first if turn == 0 else turns[turn - 1]
            block = self.cipher_of((a if i != 0 else m.known_bytes(given)) + r, way)
            done_a = m.known_bytes(last) if n == 1 else self.aes.xor(self.at_link(m, a, i + 1), number(n * turn + i + 1))
            return self.steps_appear_in, self.at_link(m, block, i), done_a + [self.domain.moved(b, i - m.first_block) for b in after]
        return steps

    def any_wrap(self):
        n, key = unknown("n"), self.semiblocks().before_turn
        return self.any_wrapping("aes_wrap", Stream("input", n * 8, key), n, n, ICV1, {n - 2, (1 << 54) - 1 - n})

    def any_wrapping(self, name, key, given, count, first, facts, start=0, **more):
        parts = self.semiblocks()
        last = parts.a_after_turns[-1]
        output = Stream("output", count * 8, self.undefined(8), **{"after": parts.after_turn, **more}, head=(self.undefined(8), last))
        return Call(name, [self.schedule(), key, given, output, count + 1], DONE, facts=facts, plain=self.in_all_blocks(key.content),
                    steps=self.any_turns(True, count, first, last, first, start))

    def any_unwrap(self):
        n, last = unknown("n"), self.semiblocks().a_after_turns[-1]
        return self.any_unwrapping("aes_unwrap", last, self.aes.xor(last, ICV1), {n - 2, (1 << 54) - 1 - n})

    def any_unwrapping(self, name, last, reveals, facts, *more, **refused):
        """States unwrapping. If `reveals` is None, it is refused."""
        n, parts = unknown("n"), self.semiblocks()
        key = parts.after_turn
        before = self.aes.xor(parts.a, self.highest_first(n * 6, 8))
        input_ = Stream("input", n * 8, parts.before_turn, head=(self.pattern(before, -1), None), backwards=True)
        output = Stream("output", n * 8, self.undefined(8), key, backwards=True)
        undoes = reveals is not None
        return Call(name, [self.schedule(), input_, n + 1, output, n, *more], DONE if undoes else REFUSED, plain=self.in_all_blocks(key),
                    facts=facts, reveals=reveals, steps=self.any_turns(False, n, parts.a, last, before, undoes=undoes), refused=REFUSED,
                    **refused)

    def any_wrap_padded(self, rest):
        """States key wrap of 16 k + `rest` bytes, since the code fills up two semiblocks at once. `rest` is from 1 to 16."""
        k, parts = unknown("k"), self.semiblocks()
        length, n = k * 16 + rest, k * 2 + (rest + 7) // 8
        key, last = parts.before_turn, self.pattern(parts.before_step[:(rest - 1) % 8 + 1], -1) + ZEROS

        def choose(m, number):
            below = m.is_below(number, m.known(n - 1))
            return [below if below is None else 1 - below] * 8
        return self.any_wrapping("aes_wrap_padded", Stream("input", length, key), length, n, ICV2 + self.highest_first(length, 4),
                                 {k, (1 << 32) - 1 - length}, 1, after=[key, last[:8]], choose=choose)

    def any_unwrap_padded(self, rest, paths=None):
        """States unwrapping of keys of 8 n - 8 + `rest` bytes, where `rest` is from 1 to 8."""
        return self.any_unwrapping_padded(unknown("n") * 8 - 8 + rest, set(), self.semiblocks().after_turn[rest:], paths)

    def any_unwrap_padded_refused(self):
        """States the unwrapping of padded keys of n semiblocks, for every n, with every length that is wrong: these are 8 n - 8 q - `rest`
        and 8 n + 8 q - `rest`, where q is 1 or more. The same instructions run whether the length is wrong or something else."""
        paths, n, q = {}, unknown("n"), unknown("q")
        yield from (self.any_unwrap_padded(rest, paths) for rest in range(1, 9))
        for rest in range(8):
            yield from (self.any_unwrapping_padded(n * 8 + more - rest, {q - 1}, None, paths) for more in (q * -8, q * 8))

    def any_unwrapping_padded(self, length, facts, padding, paths):
        """States the unwrapping of a key that has this length in it. It is refused if `padding` is None, or if some byte of it isn't 0."""
        n, none, is_wrong = unknown("n"), [0] * self.address, padding is None
        start = self.semiblocks().a_after_turns[-1][:4] + self.highest_first(length, 4)
        reveals = None if is_wrong else self.aes.xor(start[:4], ICV2) + padding
        facts = facts | {n - 1, (1 << 29) - n, length, (1 << 32) - 1 - length}
        return self.any_unwrapping("aes_unwrap_padded", start, reveals, facts, self.length_of_key(
            none if is_wrong else start[:3:-1] + [0] * 4), refused_after={"key_length": none}, paths=paths)

    def wrap_padded(self, length):
        """Key wrap with padding (KWP, SP 800-38F, 6.3; RFC 5649) .. The wrapped key has one semiblock more than the key fills:
        (input_length + 7) / 8 + 1. .. DONE"""
        n, r = -(-length // 8), self.block_bytes[8:]
        start, last = ICV2 + number(length, 4), r[:8 - 8 * n + length] + [0] * (8 * n - length)
        if n == 1:
            steps, key = None, last
            wrapped = self.cipher_of(start + last)
        else:
            steps, key, wrapped = self.wrap_string(start, n, last)
        output = Buffer("output", self.undefined(8 * n + 8), wrapped)
        return Call("aes_wrap_padded", [self.schedule(), Buffer("input", key[:length]), length, output, n + 1], DONE,
                    steps=steps, plain=key)

    def unwrap_padded(self, length, wrong_length=None, paths=None, any_byte=None):
        """Unwraps such a key: both counts are in semiblocks, and the output has one less. Afterwards *key_length is how many bytes the key
        has. They are the first ones of the output, and zeros follow them. .. REFUSED, and the output then is all zeros. .. In all cases but
        DONE *key_length is 0. One branch judges what comes before the length, and what follows the key. `wrong_length` is a wrong length
        instead of the right one: then everything is refused. With `any_byte`, that byte of the length may have any value, and the same
        branch judges it."""
        n = -(-length // 8)
        padding = -length % 8
        r = self.block_bytes[8:]
        start = self.in_block(self.block_bytes[:4], 6 * n) + number(length if wrong_length is None else wrong_length, 4)
        reveals = self.aes.xor(start[:4], ICV2)
        if any_byte is not None:
            start[4 + any_byte], = self.in_block(self.block_bytes[4 + any_byte:5 + any_byte], 6 * n)
            reveals += self.aes.xor(start[4:], number(length, 4))
        if n == 1:
            wrapped, key = self.block_bytes, self.in_block(r, 1)
            steps = lambda: iter([("memory", self.ciphers["decrypt"], start + key)])
        else:
            steps, wrapped, _, key = self.unwrap_string(n, start)
        right, none = Buffer("output", self.undefined(8 * n), key), [0] * 8 * n
        nothing = {"output": none, "key_length": [0] * self.address}
        key_length = self.length_of_key(start[:3:-1] + [0] * 4)
        more = dict(status=DONE, reveals=reveals + key[8 * n - padding:], refused=REFUSED, refused_after=nothing)
        if wrong_length is not None:
            more = {"status": REFUSED}
            right.after, key_length.after = none, [0] * self.address
        return Call("aes_unwrap_padded", [self.schedule(), Buffer("input", wrapped), n + 1, right, n, key_length], steps=steps,
                    plain=key, paths=paths, **more)

    def length_of_key(self, after):
        return Buffer("key_length", self.undefined(self.address), after[:self.address], align=self.address)

    def unwrap_padded_refused(self):
        """States the unwrapping of padded keys of one semiblock whose length is wrong. One of its three higher bytes has any value. Or the
        length is one more, one less, 2^k or 2^k - 1, where 8 divides k. The same instructions run whether the length is wrong or something
        else."""
        paths, powers = {}, [1 << k for k in range(0, 33, 8)]
        yield self.unwrap_padded(5, paths=paths)
        for any_byte in range(3):
            yield self.unwrap_padded(5, paths=paths, any_byte=any_byte)
        for wrong_length in {0, 9, *powers[:-1], *(power - 1 for power in powers)}.difference(range(1, 9)):
            yield self.unwrap_padded(5, wrong_length, paths)

    # Calls that are refused, for all their arguments.
    def wrap_refused(self, key, none, sizes):
        """States the refusals without padding. A key has two semiblocks or more, and fewer than 2^54 (SP 800-38F, 5.3.1)."""
        n, k = unknown("n"), unknown("k")

        def calls(aes, n, k):
            return (("aes_wrap", [aes, unused_buffer("input", False), n, unused_buffer("output"), k]),
                    ("aes_unwrap", [aes, unused_buffer("input", False), k, unused_buffer("output"), n]))
        for name, arguments in calls(none, n, k):
            yield Call(name, arguments, NO_KEY, facts=sizes)
        counts = [(n, k, {n - k}), (n, k, {k - n - 2}), (0, 1, set()), (1, 2, set()),
                  (n, n + 1, facts_of_range(n, 1 << 54, self.highest - 1))]
        for n, k, facts in counts if self.highest >> 54 else counts[:-1]:
            for name, arguments in calls(key, n, k):
                yield Call(name, arguments, INVALID_COUNT, facts=(sizes if facts else set()) | facts)

    def wrap_padded_refused(self, key, none, sizes):
        """States the refusals with padding. A key has at least one byte and fewer than 2^32 (SP 800-38F, 5.3.1)."""
        n, k = unknown("n"), unknown("k")

        def wrap(aes, length):
            return "aes_wrap_padded", [aes, unused_buffer("input", False), length, unused_buffer("output"), k]

        yield Call(*wrap(none, n), NO_KEY, facts=sizes)
        yield Call(*wrap(key, 0), INVALID_COUNT, facts=sizes)
        if self.highest >> 32:
            yield Call(*wrap(key, n), INVALID_COUNT, facts=sizes | facts_of_range(n, 1 << 32, self.highest))
        for rest in range(1, 9):  # bytes in the last of n + 1 semiblocks
            for facts in unequal(k, n + 2):
                yield Call(*wrap(key, n * 8 + rest), INVALID_COUNT, facts=sizes | facts_of_range(n, 0, (1 << 29) - 1) | facts)
        key_length = self.length_of_key([0] * 8)

        def unwrap(aes, n, k):
            return "aes_unwrap_padded", [aes, unused_buffer("input", False), n, unused_buffer("output"), k, key_length]

        yield Call(*unwrap(none, n, k), NO_KEY, facts=sizes)
        for n, k, facts in ((n, k, {k - n}), (n, k, {n - k - 2}), (1, 0, set()),
                            (k + 1, k, facts_of_range(k, (1 << 29) + 1, self.highest - 1))):
            yield Call(*unwrap(key, n, k), INVALID_COUNT, facts=(sizes if facts else set()) | facts)
