"""States what CCM (SP 800-38C) does with messages of every length (lengths.py), and of all lengths, part by part (joints.py). cmac_ccm.py
has the sentences of the header.

The counter block becomes any block once it is in memory. A text has fewer blocks than bytes. So the number of a block always fits into its
place in the counter block (A.3), and the lower half never carries. The tag becomes arbitrary bytes too."""
from collections import namedtuple

from aes_statements.cmac_ccm import NONCES, CmacCcm
from loops.joints import Part, is_empty_or_not
from loops.linear import WORD, unknown
from machines.operands import NEVER, CounterWord
from statements.calls import Call, Stream
from statements.keyed import ANY_COUNT, BATCH, DONE, PTRDIFF_MAX, REFUSED, facts_of_range
from statements.standards import ZEROS
from statements.steps import NO_STEP, PHASE_BEGINNINGS
from symbols.bits import DATA, KEY

AGAIN = "again", (), ()
Lengths = namedtuple("Lengths", "nonce additional text tag")  # numbers, which may be unknown
# The arguments before the text; the patterns of the text and of the keystream; the phases of the chain, which are functions of the machine
# that give a step; and the tag as if it had 16 bytes.
Message = namedtuple("Message", "arguments text stream phases tag")


def longest_text(nonce):
    """Gives how many bytes a text may have with a nonce of this length."""
    return (1 << 8 * (15 - nonce)) - 1


# All lengths. The flags of the first block (A.2.1) have the number TAG in a few bits.
NONCE, ADDITIONAL, TEXT, TAG = "length of nonce, less 7", "length of additional data", "length of text", "(length of tag - 2) / 2"
ALL, BITS_OF_TAG = Lengths(unknown(NONCE) + 7, unknown(ADDITIONAL), unknown(TEXT), unknown(TAG) * 2 + 2), 3
FACTS = {fact for name, least, most in ((NONCE, 0, 6), (ADDITIONAL, 0, PTRDIFF_MAX), (TEXT, 0, PTRDIFF_MAX), (TAG, 1, 7))
         for fact in facts_of_range(unknown(name), least, most)}
# (The shortest nonce comes last. There the code asks whether the text is empty, and no state should be guessed from such a run.)
BY_NONCE = [facts_of_range(ALL.nonce, n, n) | {longest_text(n) - ALL.text} for n in (*NONCES[1:], NONCES[0])]
# The parts of the calls. COUNTING ends with the counter block. The parts of CHAINING end with the first block, with the additional data,
# with the text, and with the tag. Then the tag is copied or compared.
COUNTING, CHAINING = Part(NONCE, 7, 1), (
    Part(NONCE, 7, 1, is_empty_or_not(ALL[1:2])), Part(ADDITIONAL, 16, 3), Part(TEXT, 16, 4), Part(NONCE, 7, 5))
SEALING = *CHAINING, Part(TAG, 8, 6), COUNTING.later(6), Part(TEXT, 128)
OPENING = COUNTING, Part(TEXT, 128, 2), *(part.later(2) for part in CHAINING), Part(TAG, 8, 8), COUNTING.later(8), Part(TEXT, 128)


class AnyCcm(CmacCcm):
    """Has these statements."""

    def any_ccm_seal(self, *lengths):
        return self.seal_any(*one_of(*lengths))

    def any_ccm_open(self, *lengths):
        return self.open_any(*one_of(*lengths))

    def every_ccm_seal(self):
        return self.seal_any(*self.all_of(SEALING))

    def every_ccm_open(self):
        return self.open_any(*self.all_of(OPENING))

    def all_of(self, parts):
        """Gives all lengths, and what else a call needs that has them."""
        self.domain.sizes[unknown(TAG)] = BITS_OF_TAG
        return ALL, dict(facts=FACTS, cases=BY_NONCE, parts=parts)

    def seal_any(self, sizes, more):
        message = self.any_message(sizes)
        text = Stream("text", sizes.text, message.text, self.aes.xor(message.text, message.stream))
        tag = Stream("tag", sizes.tag, self.undefined(16), message.tag)
        phases = [*message.phases, lambda m: ("whole", "tag", (message.tag,)), self.counting(sizes)]
        return self.call_of_any("aes_ccm_seal", sizes, message, [text, sizes.text, tag, sizes.tag], phases, message.text, **more)

    def open_any(self, sizes, more):
        """States a call that decrypts. When all of the text is decrypted, it becomes arbitrary bytes. With the keystream added again it is
        what it was."""
        message, sealed, counting = self.any_message(sizes), self.pattern(self.sealed), self.counting(sizes)
        opened, undone = (self.aes.xor(bytes_, message.stream) for bytes_ in (sealed, message.text))

        def reveals(m):
            count = m.known(sizes.tag)
            return self.aes.xor(self.tag, message.tag)[:count] if isinstance(count, int) else []
        phases = [counting, lambda m: ("whole", "text", (message.text, undone, True)),
                  *message.phases, lambda m: ("refused", "", ()), counting]
        arguments = [Stream("text", sizes.text, sealed, opened), sizes.text, Stream("tag", sizes.tag, self.tag), sizes.tag]
        return self.call_of_any("aes_ccm_open", sizes, message, arguments, phases, message.text + opened, reveals=reveals,
                                refused=REFUSED, other_blocks=self.in_all_blocks(undone), undone=True, **more)

    def call_of_any(self, name, sizes, message, arguments, phases, plain, **more):
        return Call(name, [*message.arguments, *arguments], DONE, counter=CounterWord(ANY_COUNT, 1, NEVER, sizes.text + 16 * (2 + BATCH)),
                    steps=lambda m: phases[m.phase](m) if m.phase < len(phases) else NO_STEP,
                    keystream=self.in_all_blocks(message.stream), plain=self.in_all_blocks(plain), **more)

    def any_message(self, sizes):
        """Gives a message with these lengths."""
        first, middle, last, tag = (self.any_bytes(name, KEY | DATA) for name in (
            "first value", "value after additional data", "last value", "tag value"))
        cells = self.any_bytes("additional data", DATA, True)
        # The bytes of additional data are counted from the beginning of the block that has the first ones.
        after = lambda count: self.pattern(cells[count:], -1) + self.pattern(cells[:count])

        def first_block(m):
            some = m.is_below(0, m.known(sizes.additional))
            if m.steps_found or some is None:
                return AGAIN if m.steps_found else NO_STEP
            return "block", self.cipher_of(self.any_first_block(m, sizes, some)), first if some else middle

        def encoding(m):
            begin = encoded_length(m, sizes.additional)
            return NO_STEP if begin is None else ("again", "additional", (after(len(begin)),))

        def additional(m):
            begin = encoded_length(m, sizes.additional)
            step = self.any_string(m, m.known(sizes.additional) + len(begin), cells, first, middle, begin) if begin else AGAIN
            return (step[0], "additional", (after(0),)) if step[0] in PHASE_BEGINNINGS else step

        def last_block(m):
            mask = self.counter_stream(self.nonce[:m.known(sizes.nonce)], 0)
            return AGAIN if m.steps_found else ("block", self.aes.xor(last, mask), tag)
        text = lambda m: self.any_string(m, m.known(sizes.text), self.block_bytes, middle, last)
        arguments = [self.schedule(), Stream("nonce", sizes.nonce, self.nonce), sizes.nonce,
                     Stream("additional", sizes.additional, after(0)), sizes.additional]
        return Message(arguments, self.pattern(self.block_bytes, -1), self.pattern(self.counter_blocks()[1][0]),
                       [first_block, encoding, additional, text, last_block], tag)

    def any_first_block(self, m, sizes, some):
        """Gives the first block (A.2.1). `some` says whether there are additional data."""
        nonce, text, tag = map(m.known, (sizes.nonce, sizes.text, sizes.tag - 2))
        half = divmod(tag, 2)[0]
        flags = self.domain.substitute(m.to_bytes(half, 8)[0], tuple((64 * some + 8 * k + 14 - nonce) % 256 for k in range(256)), "flags")
        return [flags, *self.nonce[:nonce], *m.to_bytes(text, 8)[14 - nonce::-1]]

    def any_string(self, m, size, cells, first, last, begin=()):
        """Gives the next step of the chain of a string of this size. `begin` has its first bytes, if they aren't those cells. `first` is
        the value before the string, and `last` the one after it."""
        k, (whole, rest) = m.steps_found, divmod(size, 16)
        block = [*begin, *cells[len(begin):]] if isinstance(k, int) and k == 0 else cells
        if m.is_below(k, whole):
            return self.any_link(m, k, first, block)
        if k == whole and rest:
            return self.any_link(m, k, first, block[:rest] + ZEROS[rest:], last)
        if k == whole:
            return "here", first if k == 0 else self.at_link(m, self.chain()[0], k), last
        return ("return", (), ()) if k == whole + 1 else NO_STEP

    def counting(self, sizes):
        """Gives the phase in which the counter block becomes any block."""
        any_iv = self.any_iv(self.domain)

        def step(m):
            nonce = m.known(sizes.nonce)
            return AGAIN if m.steps_found else ("place", [14 - nonce, *self.nonce[:nonce], *[0] * (15 - nonce)], any_iv)
        return step


def one_of(nonce, additional, rest, tag, encoded=2):
    """Gives the lengths of a message, and the facts of these. It has no additional data, or 16 a + `additional` bytes for every a, whose
    length is `encoded` bytes long. The text has 256 n + `rest` bytes for every n."""
    length, size = additional and unknown("a") * 16 + additional, unknown("n") * 256 + rest
    ranges = {2: facts_of_range(length, 1, 0xfeff), 6: facts_of_range(length, 0xff00, WORD >> 32),
              10: facts_of_range(length, 1 << 32, PTRDIFF_MAX)}
    facts = {unknown("n"), PTRDIFF_MAX - size, longest_text(nonce) - size, *(ranges[encoded] if additional else ())}
    return Lengths(nonce, length, size, tag), dict(facts=facts)


def encoded_length(m, length):
    """Gives the encoded length of additional data (A.2.2), or None if it isn't known how many bytes it has."""
    length = m.known(length)
    for least, begin, size in ((1 << 32, [255, 255], 8), (0xff00, [255, 254], 4), (1, [], 2), (0, [], 0)):
        below = m.is_below(length, least)
        if not below:
            return below if below is None else begin + m.to_bytes(length, 8)[:size][::-1]
