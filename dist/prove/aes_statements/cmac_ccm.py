"""States the calls of fotsgure_aes.h for CMAC (SP 800-38B) and CCM (SP 800-38C). Each statement quotes the sentence of the header that it
proves. any_ccm.py has CCM of every length.

Both modes make a chain: each block is added to a value, and Cipher of the sum is the next value. When the code has computed a value, and it
is right, it becomes arbitrary bytes, as in CBC encryption. Value k comes before block k. A byte of block k is one of block k of the
domain."""
import itertools
from collections import namedtuple

from loops.linear import unknown
from statements.calls import Buffer, Call, Stream
from statements.keyed import DONE, NO_KEY, NONCE_LENGTH, PTRDIFF_MAX, REFUSED, TAG_LENGTH, TOO_LONG, facts_of_range, unused_buffer
from statements.standards import ZEROS, doubled, number, padded
from symbols.bits import DATA, KEY, PUBLIC

NONCES, CCM_TAGS, CMAC_TAGS = range(7, 14), range(4, 17, 2), range(4, 17)  # lengths

# A message of CCM: the arguments before the text; the text as it is in the chain, and the block of the chain at which it starts; the steps
# of the chain; and the tag.
CcmMessage = namedtuple("CcmMessage", "arguments text start steps tag")


class CmacCcm:
    """Has the statements for CMAC and CCM of fotsgure_aes.h."""

    def __init__(self, program, key_size):
        super().__init__(program, key_size)
        self.sealed, self.tag = self.fresh("encrypted", DATA, True), self.fresh("tag")
        self.nonce, self.last_sum = self.fresh("nonce", PUBLIC), self.fresh("last sum", KEY | DATA)

    # Chains.
    def filled_blocks(self, begin, count):
        """Gives the blocks of a string of `begin` and `count` more bytes, each as it would be in block 0."""
        return padded(begin + (self.block_bytes * (count // 16 + 2))[len(begin):len(begin) + count])

    def next_value(self, block, k):
        """Gives Cipher of the sum of block k and the value before it."""
        value = self.chain()[0] if k else ZEROS
        return self.in_block(self.cipher_of(self.aes.xor(block, value)), k)

    def value(self, k):
        return self.in_block(self.chain()[0], k) if k else ZEROS

    def chain_steps(self, blocks):
        for k, block in enumerate(blocks):
            yield "block", self.next_value(block, k), self.value(k + 1)

    # CMAC.
    def message_and_tag(self, length):
        """Gives a message, the steps of the call, and the tag (6.2)."""
        before = max(length - 1, 0) // 16
        last_step, tag = self.last_step(self.in_block(self.block_bytes[:length - 16 * before], before), before)

        def steps():
            yield from self.chain_steps([self.block_bytes] * before)
            yield last_step
        return self.in_blocks(self.block_bytes, length), steps, tag

    def last_step(self, rest, before):
        """Gives the step that adds a subkey to the last block, which has these bytes, and the tag."""
        first = doubled(self.domain, self.cipher_of(ZEROS))  # subkeys (6.1)
        subkey = first if len(rest) == 16 else doubled(self.domain, first)
        last = self.aes.xor((rest + [0x80] + ZEROS)[:16], subkey)
        # What is already added to the last block when the step looks for it.
        added = ZEROS if self.steps_appear_in == "vector" else self.value(before)
        tag = self.next_value(self.last_sum, before) if added == ZEROS else self.cipher_of(self.last_sum)
        return ("block", self.aes.xor(last, added), self.last_sum), tag

    def cmac(self, length):
        """CMAC (SP 800-38B, 6.2; RFC 4493): writes the tag of a message .. DONE"""
        message, steps, tag = self.message_and_tag(length)
        return Call("aes_cmac", [self.schedule(), Buffer("message", message), length, Buffer("tag", self.undefined(16), tag)], DONE,
                    steps=steps, plain=message)

    def cmac_verify(self, length, tag_length):
        """Compares a tag with that of a message, without an early exit (6.3). A tag of 4 to 15 bytes is compared with the first bytes
        of the whole tag .. REFUSED; else DONE"""
        message, steps, right = self.message_and_tag(length)
        tag = self.tag[:tag_length]
        return Call("aes_cmac_verify", [self.schedule(), Buffer("message", message), length, Buffer("tag", tag), tag_length], DONE,
                    steps=steps, reveals=self.aes.xor(tag, right), refused=REFUSED, plain=message)

    # CMAC of 16 n + `rest` bytes for every n, where the last block has from 1 to 16 bytes.
    def any_link(self, m, k, first, block=None, after=None):
        """Gives the step from block k to the next one. `first` is the value before block 0. `block` and `after` are for a last block."""
        block = block or self.block_bytes
        if isinstance(k, int) and k == 0:
            want = self.at_link(m, self.cipher_of(self.aes.xor(block, first)), k)
        elif m.implied(k - 1):
            want = self.at_link(m, self.cipher_of(self.aes.xor(block, self.chain()[0])), k)
        else:
            return "nothing", (), ()
        return "block", want, after or self.at_link(m, self.chain()[0], k + 1)

    def any_message_and_tag(self, rest):
        """Gives the arguments for a message, the other arguments of a Call of every length, and the tag."""
        blocks = unknown("n")
        apart = self.steps_appear_in == "vector"  # whether the value is added only after the step has found the last block
        first = doubled(self.domain, self.cipher_of(ZEROS))
        subkey = first if rest == 16 else doubled(self.domain, first)
        last = self.aes.xor((self.block_bytes[:rest] + [0x80] + ZEROS)[:16], subkey)
        chained, alone = self.cipher_of(self.aes.xor(self.last_sum, self.chain()[0])), self.cipher_of(self.last_sum)

        def steps(m):
            k, count = m.steps_found, m.known(blocks)
            if m.is_below(k, count):
                return self.any_link(m, k, ZEROS)
            if k != count:
                return "nothing", (), ()
            block = self.at_link(m, last, k)
            return "block", block if apart or k == 0 else self.aes.xor(block, self.at_link(m, self.chain()[0], k)), self.last_sum

        def tag(m):
            count = m.known(blocks)
            return self.at_link(m, chained, count) if apart and count != 0 else alone
        size, message = blocks * 16 + rest, self.pattern(self.block_bytes, -1)
        more = dict(steps=steps, plain=self.in_all_blocks(message), facts={blocks, PTRDIFF_MAX - size})
        return [Stream("message", size, message), size], more, tag

    def any_cmac(self, rest):
        message, more, tag = self.any_message_and_tag(rest)
        return Call("aes_cmac", [self.schedule(), *message, Buffer("tag", self.undefined(16), tag)], DONE, **more)

    def any_cmac_verify(self, rest, tag_length):
        message, more, right = self.any_message_and_tag(rest)
        tag = self.tag[:tag_length]
        return Call("aes_cmac_verify", [self.schedule(), *message, Buffer("tag", tag), tag_length], DONE,
                    reveals=lambda m: self.aes.xor(tag, right(m)), refused=REFUSED, **more)

    # CCM.
    def counter_stream(self, nonce, i):
        """Gives Cipher of counter block i (A.3)."""
        return self.cipher_of([14 - len(nonce), *nonce, *number(i, 15 - len(nonce))])

    def ccm_crypted(self, nonce, text):
        """Adds keystream to a text (6.1, steps 6 to 8). The keystream begins with counter block 1. Gives the sum and the keystream."""
        end = len(text) // 16 + 2
        for i in range(end, end + self.program.narrow // 2):  # a batch may have more blocks: so their S-boxes get names
            self.counter_stream(nonce, i)
        stream = [b for i in range(1, end) for b in self.counter_stream(nonce, i)]
        return self.aes.xor(text, stream), stream

    def formatted_blocks(self, nonce, additional_length, text_length, tag_length):
        """Gives the blocks of additional data and a text (A.2), and the number of blocks before the text."""
        flags = 64 * (additional_length > 0) + 8 * ((tag_length - 2) // 2) + 14 - len(nonce)
        first = [flags, *nonce, *number(text_length, 15 - len(nonce))]
        blocks = [first] + (self.filled_blocks(number(additional_length, 2), additional_length) if additional_length else [])
        return blocks + self.filled_blocks([], text_length), len(blocks)

    def ccm_message(self, nonce_length, additional_length, text_length, tag_length):
        nonce = self.nonce[:nonce_length]
        blocks, start = self.formatted_blocks(nonce, additional_length, text_length, tag_length)
        additional = self.in_blocks(self.block_bytes, additional_length, 18)
        text = self.in_blocks(self.block_bytes, text_length, 16 * start)
        tag = self.aes.xor(self.value(len(blocks)), self.counter_stream(nonce, 0))[:tag_length]
        arguments = [self.schedule(), Buffer("nonce", nonce), nonce_length, Buffer("additional", additional), additional_length]
        return CcmMessage(arguments, text, start, lambda: self.chain_steps(blocks), tag)

    def ccm_seal(self, nonce_length, additional_length, text_length, tag_length):
        """CCM (SP 800-38C, 6.1; RFC 3610): encrypts `text_length` bytes in place, and writes a tag .. DONE"""
        message = self.ccm_message(nonce_length, additional_length, text_length, tag_length)
        sealed, stream = self.ccm_crypted(self.nonce[:nonce_length], message.text)
        return Call("aes_ccm_seal", [*message.arguments, Buffer("text", message.text, sealed), text_length,
                                     Buffer("tag", self.undefined(tag_length), message.tag), tag_length], DONE,
                    steps=message.steps, keystream=stream, plain=message.text)

    def ccm_open(self, nonce_length, additional_length, text_length, tag_length):
        """Decrypts `text_length` bytes in place if the tag is right (6.2). The tag can be compared only once the text is decrypted. So
        a refused text is encrypted again, and is unchanged when the call returns. .. REFUSED; else DONE"""
        message = self.ccm_message(nonce_length, additional_length, text_length, tag_length)
        nonce = self.nonce[:nonce_length]
        text = message.text
        tag = self.tag[:tag_length]
        sealed = self.in_blocks(self.sealed, text_length, 16 * message.start)
        opened, stream = self.ccm_crypted(nonce, sealed)

        def steps():
            if text:
                yield "text", opened, text
            yield from message.steps()
            if text:  # with the keystream added again it is what it was
                yield "text", self.ccm_crypted(nonce, text)[0], sealed
        return Call("aes_ccm_open", [*message.arguments, Buffer("text", sealed, text), text_length, Buffer("tag", tag), tag_length], DONE,
                    steps=steps, reveals=self.aes.xor(tag, message.tag), refused=REFUSED, keystream=stream, plain=text, undone=True)

    # Calls that are refused, for all their arguments.
    def cmac_refused(self):
        """NO_KEY; TAG_LENGTH if it has fewer or more"""
        n, k = unknown("n"), unknown("k")
        tag = unused_buffer("tag", False)
        sizes = facts_of_range(n, 0, self.highest) | facts_of_range(k, 0, self.highest)
        message = [unused_buffer("message", False), n]
        yield Call("aes_cmac", [self.no_key(), *message, unused_buffer("tag")], NO_KEY, facts=sizes)
        yield Call("aes_cmac_verify", [self.no_key(), *message, tag, k], NO_KEY, facts=sizes)
        for length, facts in self.lengths_but(CMAC_TAGS, "length"):
            yield Call("aes_cmac_verify", [self.schedule(), *message, tag, length], TAG_LENGTH, facts=sizes | facts)

    def ccm_refused(self):
        """NO_KEY, TAG_LENGTH, NONCE_LENGTH or TOO_LONG, the first of them that applies"""
        n, a, t, k = (unknown(name) for name in ("nonce", "additional", "text", "tag"))
        sizes = {f for x in (n, a, t, k) for f in facts_of_range(x, 0, self.highest)}
        right_facts, right_tag = sizes | facts_of_range(k, 0, len(CCM_TAGS) - 1), CCM_TAGS[0] + 2 * k  # every tag's length
        wrong = self.lengths_but(CCM_TAGS, "length")
        if self.program.machine.relaxed:
            # RISC-V's code adds a tag's lowest bit to a comparison: of a number that isn't known this says nothing.
            others = 17, 18, 2 ** 8 + 8, 2 ** 16 + 8, 2 ** 31 + 8, 2 ** 32 + 8, self.highest - 7
            right_facts, right_tag = sizes, CCM_TAGS[-1]
            wrong = [*wrong[:-1], *((length, set()) for length in others if length <= self.highest)]
        refusals = [(self.no_key(), n, k, NO_KEY, sizes)]
        refusals += [(self.schedule(), n, length, TAG_LENGTH, sizes | facts) for length, facts in wrong]
        refusals += [(self.schedule(), length, right_tag, NONCE_LENGTH, right_facts | facts)
                     for length, facts in self.lengths_but(NONCES, "length")]
        refusals += [(self.schedule(), length, right_tag, TOO_LONG, right_facts | facts_of_range(t, 1 << 8 * (15 - length), self.highest))
                     for length in NONCES[1:] if self.highest >> 8 * (15 - length)]
        for (aes, nonce, tag, status, facts), call in itertools.product(refusals, ("seal", "open")):
            yield Call("aes_ccm_" + call, [aes, unused_buffer("nonce", False), nonce, unused_buffer("additional", False), a,
                                           unused_buffer("text"), t, unused_buffer("tag", call == "seal"), tag], status, facts=facts)
