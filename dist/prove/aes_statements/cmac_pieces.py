"""States the calls of fotsgure_aes.h for CMAC of messages in pieces (SP 800-38B), next to the sentence of the header that each proves.

The value of the chain before a call may be any, and so may the bytes of the last block that came. The case says how many these are. The
value is that before block 1."""
from loops.linear import unknown
from statements.calls import Buffer, Call, Stream
from statements.keyed import DONE, NO_KEY, OUT_OF_TURN, PTRDIFF_MAX, REFUSED, TAG_LENGTH, facts_of_range, unused_buffer
from statements.standards import ZEROS, number
from statements.steps import NO_STEP
from symbols.bits import DATA, KEY

MESSAGE, BEGUN = 48, 1  # the size of a struct fotsgure_aes_cmac_message; what its first number is if a message has begun
CMAC_TAGS = range(4, 17)  # lengths


class CmacPieces:
    """Has the statements for CMAC in pieces of fotsgure_aes.h."""

    def tagged(self, before, after=None):
        """Gives the argument `message`."""
        return Buffer("message", before, after, secret=("inner",), align=8)

    def kept(self, filled, value, rest):
        """Gives the bytes of a message that has begun, and has so many bytes of its last block."""
        return number(BEGUN, 8)[::-1] + number(filled, 8)[::-1] + value + rest

    def last_block(self):
        """Gives any bytes of a last block. They belong to no block of the text."""
        return self.any_bytes("part of a block", KEY | DATA)

    def any_kept(self, filled):
        return self.kept(filled, self.value(1), self.last_block())

    def cmac_begin(self):
        """Begins a message. *message may be uninitialized: none of it is read, and nothing is left of a message that was there. .. DONE"""
        return Call("aes_cmac_begin", [self.schedule(), self.tagged(self.undefined(MESSAGE), self.kept(0, ZEROS, ZEROS))], DONE)

    def cmac_update(self, filled, count):
        """Takes a piece of the message. .. DONE"""
        piece = self.in_blocks(self.block_bytes, count, 16 + filled)
        whole = self.last_block()[:filled] + piece
        chained = max(len(whole) - 1, 0) // 16
        rest = whole[16 * chained:]
        before = (whole + self.last_block()[len(whole):])[:16]  # what lies in the block before the last bytes are written to it
        after = self.kept(len(rest), self.value(1 + chained), rest + before[len(rest):])

        def steps():
            for k in range(1, chained + 1):
                block = self.aes.xor(whole[16 * k - 16:16 * k], self.value(k))
                yield "block", self.aes.cipher(block, self.round_key_words), self.value(k + 1)
        return Call("aes_cmac_update", [self.schedule(), self.tagged(self.any_kept(filled), after), Buffer("bytes", piece), count], DONE,
                    steps=steps, plain=piece)

    def kept_and_tag(self, filled):
        """Gives the step of a call that ends a message, and the tag (6.2)."""
        step, tag = self.last_step(self.last_block()[:filled], 1)
        return [step].copy, tag

    def cmac_finish(self, filled):
        """Ends the message, and writes its tag (SP 800-38B, 6.2). Then *message is all zeros. .. DONE"""
        steps, tag = self.kept_and_tag(filled)
        message = self.tagged(self.any_kept(filled), [0] * MESSAGE)
        return Call("aes_cmac_finish", [self.schedule(), message, Buffer("tag", self.undefined(16), tag)], DONE, steps=steps)

    def cmac_accept(self, filled, tag_length):
        """Compares a tag with that of the message, without an early exit (6.3) .. If the tag is right, the message is over, and *message is
        all zeros. .. REFUSED; else DONE"""
        steps, right = self.kept_and_tag(filled)
        tag = self.tag[:tag_length]
        message = self.tagged(self.any_kept(filled), [0] * MESSAGE)
        return Call("aes_cmac_accept", [self.schedule(), message, Buffer("tag", tag), tag_length], DONE, steps=steps,
                    reveals=self.aes.xor(tag, right), refused=REFUSED)

    def cmac_wipe(self):
        """Overwrites a message with zeros. There is then no message."""
        return Call("aes_cmac_wipe", [self.tagged(self.undefined(MESSAGE), [0] * MESSAGE)], None)

    # A piece of 16 n + `rest` bytes for every n. Together with the `filled` bytes before it has more than a block.
    def any_cmac_update(self, filled, rest):
        blocks = unknown("n")
        so_far, part = self.any_bytes("value so far", KEY | DATA), self.last_block()
        begun, left = filled < 16, filled + rest - 16
        full = self.any_bytes("full block") if begun else part  # the block that the piece fills up, which then may be any
        size, piece = blocks * 16 + rest, self.pattern(self.block_bytes, filled // 16 - 1)

        def steps(m):
            k, count = m.steps_found - begun, m.known(blocks) + 1
            if isinstance(k, int) and k < 0:
                return "memory", self.at_link(m, part[:filled] + self.block_bytes[filled:], 0), full
            return self.any_link(m, k, so_far, full if isinstance(k, int) and k == 0 else None) if m.is_below(k, count) else NO_STEP

        def after(m):
            count = m.known(blocks) + 1
            last = m.regions["bytes"].initial_at(m, "bytes", m.known(size) - left, left)
            return self.kept(left, self.at_link(m, self.chain()[0], count), last + full[left:])
        return Call("aes_cmac_update", [self.schedule(), self.tagged(self.kept(filled, so_far, part), after),
                                        Stream("bytes", size, piece, skip=filled % 16), size], DONE,
                    steps=steps, plain=self.in_all_blocks(piece), facts={blocks, PTRDIFF_MAX - size})

    # Calls that are refused, for all their arguments.
    def cmac_pieces_refused(self):
        """NO_KEY; TAG_LENGTH if the tag has fewer than 4 bytes, or more than 16; OUT_OF_TURN if no message has begun, or it is over"""
        n, k = unknown("n"), unknown("k")
        sizes = facts_of_range(n, 0, self.highest) | facts_of_range(k, 0, self.highest)
        any_message, bytes_ = self.tagged(*2 * [self.fresh("a message", KEY | DATA, count=MESSAGE)]), unused_buffer("bytes", False)
        tag, claimed = unused_buffer("tag"), unused_buffer("tag", False)
        yield Call("aes_cmac_begin", [self.no_key(), any_message], NO_KEY)
        yield Call("aes_cmac_update", [self.no_key(), any_message, bytes_, n], NO_KEY, facts=sizes)
        yield Call("aes_cmac_finish", [self.no_key(), any_message, tag], NO_KEY)
        yield Call("aes_cmac_accept", [self.no_key(), any_message, claimed, k], NO_KEY, facts=sizes)
        for length, facts in self.lengths_but(CMAC_TAGS, "length"):
            yield Call("aes_cmac_accept", [self.schedule(), any_message, claimed, length], TAG_LENGTH, facts=sizes | facts)
        for begun in (0, 2, 1 << 32 | 1, (1 << 64) - 1):
            over = self.tagged(*2 * [number(begun, 8)[::-1] + self.fresh("a message", KEY | DATA, count=MESSAGE - 8)])
            yield Call("aes_cmac_update", [self.schedule(), over, bytes_, n], OUT_OF_TURN, facts=sizes)
            yield Call("aes_cmac_finish", [self.schedule(), over, tag], OUT_OF_TURN)
            for length in (CMAC_TAGS[0], CMAC_TAGS[-1]):
                yield Call("aes_cmac_accept", [self.schedule(), over, claimed, length], OUT_OF_TURN)
