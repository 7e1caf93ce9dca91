"""Makes J_0, the block that GCM makes of a nonce (SP 800-38D, 7.1, step 2), the blocks that are counted from it, and the keystream."""
from collections import namedtuple

from gcm_statements.byte_counts import any_came
from gcm_statements.gcm_header import MOST, MOST_NONCE
from gcm_statements.hashing import Hashing, block_of_lengths, in_groups
from loops.joints import Part
from loops.linear import unknown
from machines.operands import NEVER, CounterWord, Number, Pointer
from statements.calls import Buffer, Stream
from statements.keyed import PTRDIFF_MAX
from statements.standards import ZEROS, number, padded
from symbols.bits import KEY, PUBLIC

ANY_J_0_NONCE = (8,)  # a nonce of 8 bytes. J_0 is then any block, even that of a nonce of 12 bytes (see pre_counter_of)
OF_J_0, OF_ANY_J_0 = "counter of J_0", "counter of J_0, at any length"
ANY_J_0 = CounterWord(OF_ANY_J_0, 1, NEVER, None)
# A nonce in calls of every length: the arguments, how many phases come before the message, their steps, facts of the arguments, and the
# parts in which it is processed.
AnyNonce = namedtuple("AnyNonce", "arguments phases steps facts parts", defaults=[()])
CARRY = "carry"  # a counter of nonces whose last eight bytes are all 255
NONCE, EVERY = "length of nonce", "other nonces"
NONCES = [Part(NONCE, 48, 2, but=12)]
# In these calls: J_0, Cipher of it, and Cipher of a later block.
AnyPreCounter = namedtuple("AnyPreCounter", "block cipher stream")


class PreCounter:
    """J_0 of a nonce: its first twelve bytes, how GHASH makes it, and the arguments of a call."""

    def __init__(self, keyed, bytes_, arguments, is_any=False, after_text=False):
        """`is_any`: the last four bytes are a number of unknown value. `after_text`: any number of blocks came before."""
        self.keyed, self.bytes, self.arguments = keyed, bytes_, arguments
        self.is_any, self.after_text = is_any, after_text
        self.hashing = Hashing(keyed, ZEROS)

    def block(self, i):
        """Gives the block J_0 + i."""
        if self.is_any:
            any_streams(self.keyed)
            return self.bytes + self.keyed.highest_first(Number(OF_J_0, i), 4)
        return self.bytes + number((i + 1) % 2 ** 32, 4)

    def stream(self, i):
        """Gives Cipher of the block J_0 + i."""
        keyed = self.keyed
        if self.is_any:
            return keyed.in_block(any_streams(keyed)[self.after_text], i)
        block = self.block(i)
        return keyed.made_once(("stream", *block), lambda: keyed.aes.cipher(block, keyed.round_key_words))

    def crypted(self, text, position=0):
        """Gives GCTR (6.5) of bytes of a text from a position on: their sum with the keystream, which begins at J_0 + 1."""
        return [self.keyed.domain.xor_byte(b, self.stream(1 + i // 16)[i % 16]) for i, b in enumerate(text, position)]

    def streams(self, count, position=0):
        """Gives the blocks of keystream for `count` bytes from a position on."""
        begin, end = 1 + position // 16, 2 + (position + count) // 16
        # The code processes batches of 16 blocks from 224 bytes on, and of 8 blocks from 113 bytes on, or smaller ones if it has no byte
        # shuffle. The last batch may have more blocks, whose keystream isn't used.
        batch = 16 if count >= 224 else 8 if count > 112 else self.keyed.program.narrow // 2
        for i in range(end, -(-end // batch) * batch + 2 if batch else 0):
            self.stream(i)  # so that the inputs of their S-boxes have names
        return [b for i in range(begin, end) for b in self.stream(i)]


def pre_counter_of(keyed, length=12, after_text=False):
    """Gives J_0 of a nonce. If the nonce doesn't have 12 bytes, J_0 is any block."""
    if length == 12:
        return PreCounter(keyed, keyed.nonce, [Buffer("nonce", keyed.nonce), 12], False, after_text)
    nonce = keyed.in_blocks(keyed.long_nonce, length)
    first = PreCounter(keyed, keyed.pre_counter, [Buffer("nonce", nonce), length], True, after_text)
    first.hashing.add_groups(in_groups(padded(nonce)) + [[block_of_lengths(0, length)]])
    first.hashing.end_as(first.block(0))
    return first


def next_pre_counter(keyed, counter=None):
    """Gives J_0 of the next nonce of a counter of nonces, and what the call assumes of the counter. It may be a number. With CARRY its last
    eight bytes are all 255, and the first four are any that aren't. If it is None, the last eight are any that aren't all 255."""
    if isinstance(counter, int):
        nonce, after, bytes_, assumed = number(counter, 12), number(counter + 1, 12), number(counter, 12), None
    elif counter == CARRY:
        nonce, after = (counted(keyed, Number("nonce high", by), 0, 4) + [0 if by else 255] * 8 for by in (0, 1))
        bytes_, assumed = keyed.nonce[:4] + [255] * 8, keyed.nonce[:4]
    else:
        nonce, after = (keyed.nonce[:4] + counted(keyed, Pointer("nonce low", by), 4, 12) for by in (0, 1))
        bytes_, assumed = keyed.nonce, keyed.nonce[4:]
    first = PreCounter(keyed, bytes_, [Buffer("counter", nonce, after), Buffer("nonce", keyed.undefined(12), nonce)])
    return first, assumed and [keyed.domain.xor_byte(b, 255) for b in assumed]


def counted(keyed, word, begin, end):
    """Gives the bytes of a word of unknown value, which is made of these bytes of the nonce."""
    d = keyed.domain
    d.bits_of_word[word.base] = lambda offset, k: d.bits(keyed.nonce[end - 1 - k]) if offset == 0 else None
    return [d.opaque((word, k)) for k in range(end - begin)][::-1]


# The last four bytes of J_0 are a number of unknown value, which is one more in each block, modulo 2^32 (inc_32, 6.2).
def any_streams(keyed):
    """Gives Cipher of the block J_0 + i as that of block i, and of J_0 + n + i, where n blocks came before."""
    return keyed.made_once("any counter", lambda: count_from_any(keyed))


def count_from_any(keyed):
    """Lets the domain count blocks from any J_0 on, and gives what any_streams gives."""
    d, before = keyed.domain, divmod(any_came(keyed, "text", MOST, 0).number, 16)[0]

    def fresh(name):
        return [d.fresh("%s byte %d" % (name, k), KEY | PUBLIC, True) for k in range(4)]
    low, later = fresh("counter of J_0,"), fresh("counter after any text,")
    d.numbers.update({d.cell_of(b)[0]: (k, low) for k, b in enumerate(low)})

    def word(offset, k):
        block, bytes_ = (offset, low) if isinstance(offset, int) else (offset - before, later)
        return d.bits(d.byte_in_block(bytes_[k], block + 1)) if isinstance(block, int) else None
    d.bits_of_word[OF_J_0] = word
    return [keyed.aes.cipher(keyed.pre_counter + bytes_[::-1], keyed.round_key_words) for bytes_ in (low, later)]


# Texts of every length (lengths.py).
def any_nonce(keyed, rest, first=None):
    """Gives a nonce of 48 k + `rest` bytes for every k. It has 12 bytes if `rest` is None, and any other number if that is EVERY. When J_0
    is in memory, it becomes any block."""
    first, block = first or pre_counter_of(keyed), any_pre_counter(keyed).block
    if rest is None:
        place = "place", first.bytes + number(1, 4), block
        return AnyNonce(first.arguments, 1, lambda m: ("again", (), ()) if m.steps_found else place, set())
    length, hashed = unknown(NONCE) if rest == EVERY else unknown("k") * 48 + rest, keyed.any_bytes("hashed nonce", KEY | PUBLIC)

    def steps(m):
        if m.phase == 0:
            return keyed.any_group(m, ZEROS, keyed.long_nonce, length, keyed.blocks_at_once(m, ()), [], hashed)
        lengths = [0] * 8 + m.to_bytes(m.known(length) * 8, 8)[::-1]
        step = keyed.group_step(hashed, [lengths], block) if m.steps_found == 0 else ("again", (), ())
        return step if m.phase == 1 else ("nothing", (), ())
    (name, _), = length.terms
    facts = {unknown(name), length - (13 if rest == 12 else 1), MOST_NONCE - length, PTRDIFF_MAX - length}
    stream = Stream("nonce", length, keyed.pattern(keyed.long_nonce))
    return AnyNonce([stream, length], 2, steps, facts, NONCES if rest == EVERY else ())


def any_pre_counter(keyed):
    """Gives any J_0. It is made once."""
    return keyed.made_once("any J_0", lambda: make_any_pre_counter(keyed))


def make_any_pre_counter(keyed):
    """Makes any J_0. Its last four bytes are a number that has its own cells, and so are those of later blocks."""
    d, own = keyed.domain, [keyed.domain.fresh("J_0 byte %d" % k, KEY | PUBLIC) for k in range(15, 11, -1)]
    low = [d.fresh("counter byte %d after J_0" % k, KEY | PUBLIC, True) for k in range(4)]
    d.placed[OF_ANY_J_0] = lambda number, k: d.bits(d.byte_in_block(low[k], number))
    d.bits_of_word[OF_ANY_J_0] = lambda offset, k: d.bits(own[k]) if offset == 0 else None
    block = keyed.pre_counter + keyed.highest_first(Number(OF_ANY_J_0, 0), 4)
    return AnyPreCounter(block, keyed.aes.cipher(block, keyed.round_key_words),
                         keyed.aes.cipher(keyed.pre_counter + low[::-1], keyed.round_key_words))
