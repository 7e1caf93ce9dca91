"""States what each call of fotsgure_gcm_siv_.. does (RFC 8452), next to the sentence of the header that it proves.

A call derives two keys for a message, and these become arbitrary bytes. So does each value that is then computed: the powers of the key for
POLYVAL, the round keys of the other key, each value of POLYVAL, the block that is encrypted to the tag, and the tag."""
import functools
from collections import namedtuple

from gcm_statements.gcm_header import DONE, NO_KEY, REFUSED, TOO_LONG, UNEQUAL_LENGTHS
from gcm_statements.hashing import Hashing, KeyedHash, in_groups
from gcm_statements.whole_messages import ADDITIONAL, BATCH, BLOCK, EVERY_PAIR, GROUP, TEXT, any_sizes, counts_of
from loops.joints import Part, is_empty_or_not
from loops.linear import unknown
from machines.operands import NEVER, CounterWord, Number
from statements.calls import Buffer, Call, Stream, compare
from statements.keyed import facts_of_range, unused_buffer, unequal, unused_data
from statements.standards import ZEROS, dot, mulx_ghash, padded, product
from symbols.bits import DATA, KEY

MOST = 2 ** 36
COUNTER = CounterWord("counter of the tag, at any length", 0, NEVER, None)
FEW = 160  # the code hashes up to this number of bytes block by block, and more in groups of three blocks
Tagged = namedtuple("Tagged", "block any_block tag")  # a block, arbitrary bytes for it, and Cipher of these, which is the tag
# The parts of a call of every length. A message of few bytes is hashed otherwise.
LENGTH = sum(EVERY_PAIR)
FEW_OR_MANY = {FEW - LENGTH}, {LENGTH - FEW - 1}
BEFORE_TEXT = [few | empty for few in FEW_OR_MANY for empty in is_empty_or_not(EVERY_PAIR[:1])]
AFTER_TEXT = [few | empty for few in FEW_OR_MANY for empty in is_empty_or_not(EVERY_PAIR)]
HASHING = Part(ADDITIONAL, GROUP, 2, BEFORE_TEXT, unit=BLOCK), Part(TEXT, GROUP, 3, AFTER_TEXT, unit=BLOCK)
SEALING = *HASHING, Part(TEXT, BATCH, unit=BLOCK)
OPENING = Part(TEXT, BATCH, 1, FEW_OR_MANY, unit=BLOCK), *HASHING, Part(TEXT, BATCH, unit=BLOCK)


def little(n, size):
    """Gives a number as bytes, the lowest first."""
    return list(n.to_bytes(size, "little"))


class KeyedSiv(KeyedHash):
    """The statements for AES-GCM-SIV. keyed.py has those for wipe and for what set_key refuses."""
    library = "siv"
    prefix = "gcm_siv"
    key_sizes = 16, 32

    def size_of_struct(self):
        return self.kept_size

    def set_key(self, seed=None):
        """Prepares a key in *siv (KeyExpansion, FIPS 197, 5.2). *siv may be uninitialized: none of it is read. Nothing of what it held is
        left. DONE if key_length is 16 or 32"""
        m = super().set_key(seed)
        self.made_once("message", self.make_message)
        return m

    def make_message(self):
        """Makes the bytes that a message has: its derived keys, and what is computed from them."""
        d = self.domain
        self.derived = [self.fresh("derived block %d" % i, KEY) for i in range(self.key_size // 8 + 2)]
        keys = [b for block in self.derived for b in block[:8]]  # the first halves (4)
        self.expanded = self.aes.key_expansion(keys[16:])
        for b in sum(self.expanded, []):
            d.name(b, "message round key byte")
        self.message_w = [self.fresh("message w[%d]" % i, KEY, count=4) for i in range(len(self.round_key_words))]
        # POLYVAL(H, X_1, ..) is GHASH of blocks whose bytes are reversed (appendix A). This compares a step of both, for all H and X.
        h, x = keys[:16], self.in_block(self.text, 0)
        factor = mulx_ghash(d, h[::-1])
        compare(d, dot(d, x, h)[::-1], product(d, x[::-1], factor), "a product of appendix A")
        self.powers = [factor] + [self.fresh("power %d" % n, KEY) for n in self.kept_powers()[1:]]
        self.hashed_text = self.text
        self.counter = counter = [d.fresh("tag byte %d, as a counter" % i, DATA, True) for i in range(4)]
        d.numbers.update({d.cell_of(b)[0]: (k, counter) for k, b in enumerate(counter)})
        d.bits_of_word["counter of the tag"] = lambda offset, k: d.bits(d.byte_in_block(counter[k], offset + 1))
        self.own_tag = self.named_bytes(Number("counter of the tag", 0), 4) + self.fresh("tag")[4:]
        self.byte_15 = d.fresh("byte 15 of the first counter block", DATA)
        self.tag_input = self.fresh("tag input", KEY | DATA)
        self.own_stream = self.aes.cipher(counter + self.own_tag[4:15] + [self.byte_15], self.message_w)

    def stored(self, words):
        """Gives what set_key stores for these round keys. Each byte is a linear function of one of their bytes, plus perhaps a constant."""
        d = self.domain
        replacement = {d.cell_of(w)[0]: b for w, b in zip(sum(self.round_key_words, []), sum(words, []))}

        def image(x):
            return d.linear_image(x, lambda cell: d.bits(replacement[cell]), d)
        return [d.pack([image(x) for x in d.bits(s)]) for s in self.struct[self.length_size:][:self.word * len(words)]]

    def derivation(self, few):
        """Gives the steps of derive_keys (4). It encrypts blocks of a number of 32 bits, the lowest byte first, and the nonce."""
        inputs = [little(i, 4) + self.nonce for i in range(len(self.derived))]
        blocks = self.made_once("blocks", lambda: [self.aes.cipher(block, self.round_key_words) for block in inputs])
        yield "memory", sum(blocks, []), sum(self.derived, [])
        for power, after in () if few else zip(self.powers, self.powers[1:]):
            yield "hash", functools.partial(self.with_powers, [power]), after
        yield "memory", *self.made_once("stored", lambda: (self.stored(self.expanded), self.stored(self.message_w)))

    def polyval(self, additional, text):
        """Gives whether there are few bytes, and POLYVAL (4) of additional data and a text, each filled up with zeros, and of their lengths
        in bits."""
        few, hashing = len(additional) + len(text) <= FEW, Hashing(self, ZEROS)
        lengths = (little(8 * len(additional), 8) + little(8 * len(text), 8))[::-1]
        first, second = ([b[::-1] for b in padded(s)] for s in (additional, text))
        groups = [[b] for b in first + second + [lengths]] if few else in_groups(first) + in_groups(second + [lengths])
        return few, hashing.add_groups(groups)

    def tagged(self, value):
        """Gives, as Tagged, the block that is encrypted to the tag: the sum of this value and the nonce, with the highest bit 0."""
        block = self.aes.xor(value[::-1], self.nonce + [0] * 4)
        block[15] = self.domain.and_byte(block[15], 127)
        any_ = [b if b < 256 else t for b, t in zip(block, self.tag_input)]
        return Tagged(block, any_, self.made_once(("tag", *any_), lambda: self.aes.cipher(any_, self.message_w)))

    def first_counter(self, tag):
        """Gives the step that makes the first counter block, which is the tag with its highest bit set."""
        same, last = tag[:15], tag[15]
        return "memory", same + [self.domain.or_byte(last, 128)], same + [self.byte_15]

    def crypted_by_tag(self, text):
        """Gives AES_CTR (4) of a text. The counter in block i is the tag's first number, the lowest byte first, plus i, modulo 2^32."""
        return self.aes.xor(text, [b for i in range(len(text) // 16 + 1) for b in self.in_block(self.own_stream, i)])

    def seal(self, additional_length, text_length, way=""):
        """Encrypts `text_length` bytes in place under a nonce of the caller's choice, and writes the tag (RFC 8452, 4). .. DONE. With
        _to: The same from one buffer to another of the same length"""
        additional, text = self.in_blocks(self.additional_bytes, additional_length), self.in_blocks(self.text, text_length)
        few, hashing = self.polyval(additional, text)
        block, any_block, tag = self.tagged(hashing.value)

        def steps():
            yield from self.derivation(few)
            yield from hashing.steps()
            yield "memory", block, any_block
            yield "memory", tag, self.own_tag
            yield self.first_counter(self.own_tag)
        arguments = [self.schedule(), Buffer("nonce", self.nonce), Buffer("additional", additional), additional_length,
                     *self.data_arguments(way, "text", text, self.crypted_by_tag(text), text_length)]
        arguments.append(Buffer("tag", self.undefined(16), self.own_tag))
        return Call("gcm_siv_seal" + way, arguments, DONE, steps=steps, plain=text)

    def open(self, additional_length, text_length, way=""):
        """Decrypts `text_length` bytes in place if the tag is right (RFC 8452, 5). The tag can be compared only once the text is decrypted.
        So a refused text is encrypted again, and is unchanged when the call returns .. REFUSED; else DONE. With _to: The same from
        one buffer to another of the same length .. After REFUSED the output is all zeros"""
        additional, sealed = self.in_blocks(self.additional_bytes, additional_length), self.in_blocks(self.sealed, text_length)
        text = self.in_blocks(self.text, text_length)
        few, hashing = self.polyval(additional, text)
        block, any_block, right = self.tagged(hashing.value)
        place = "output" if way else "text"

        def steps():
            yield from self.derivation(few)
            yield self.first_counter(self.own_tag)
            if text:
                yield place, self.crypted_by_tag(sealed), text
            yield from hashing.steps()
            yield "memory", block, any_block
            yield self.first_counter(self.own_tag)
            if text:  # it became the sum of `sealed` and the keystream, and adding the keystream again gives `sealed`
                yield place, self.crypted_by_tag(text), sealed
        arguments = [self.schedule(), Buffer("nonce", self.nonce), Buffer("additional", additional), additional_length,
                     *self.data_arguments(way, "text", sealed, text, text_length), Buffer("tag", self.own_tag)]
        reveals = self.aes.xor(self.own_tag, right)
        return Call("gcm_siv_open" + way, arguments, DONE, steps=steps, reveals=reveals, refused=REFUSED,
                    refused_after={"output": [0] * text_length}, plain=text, undone=True)

    # Texts of every length (lengths.py).
    def any_own_tag(self):
        """Gives a tag that begins with a number of unknown value. The number of a block is added to it modulo 2^32."""
        d, name = self.domain, COUNTER.word
        d.placed[name] = lambda number, k: d.bits(d.byte_in_block(self.counter[k], number))
        d.bits_of_word[name] = lambda offset, k: d.bits(first[k]) if offset == 0 else None
        first = self.fresh("tag", count=4)
        return [d.opaque((Number(name, 0), k)) for k in range(4)] + self.own_tag[4:]

    def hashed(self, block):
        return block[::-1]

    def any_lengths(self, m, sizes):
        return super().any_lengths(m, sizes[::-1])

    def blocks_at_once(self, m, sizes):
        return 1 if m.is_below(m.known(sizes.additional + sizes.text), FEW + 1) else super().blocks_at_once(m, sizes)

    def any_seal(self, additional, text, way=""):
        return self.seal_any(any_sizes(additional, text), way)

    def any_open(self, additional, text, way=""):
        return self.open_any(any_sizes(additional, text), way)

    # The same for every pair of lengths, part by part (joints.py).
    def every_seal(self, way=""):
        return self.seal_any(EVERY_PAIR, way, parts=SEALING)

    def every_open(self, way=""):
        return self.open_any(EVERY_PAIR, way, parts=OPENING)

    def seal_any(self, sizes, way, **more):
        plain, sealed, tag = self.any_texts()

        def last(m):
            block, any_block, right = self.tagged(self.any_sum(m, sizes))
            return [("memory", block, any_block), ("memory", right, tag), self.first_counter(tag)]
        return self.any_message("seal", way, sizes, plain, sealed, [("again", (), ())], last, Buffer("tag", self.undefined(16), tag), plain,
                                **more)

    def open_any(self, sizes, way, **more):
        """The decrypted text becomes arbitrary bytes. Adding the keystream again gives the encrypted text."""
        plain, undone, tag = self.any_texts()
        sealed = self.pattern(self.sealed)
        place = "output" if way else "text"
        right = lambda m: self.tagged(self.any_sum(m, sizes))
        tag_step = lambda m: ("memory", right(m).block, right(m).any_block)
        opened, zeros = self.aes.xor(sealed, self.pattern(self.own_stream)), [("whole", place, (sealed, ZEROS, True))] * bool(way)
        return self.any_message(
            "open", way, sizes, sealed, opened, [self.first_counter(tag), ("whole", place, (plain, undone, True))],
            lambda m: [tag_step(m), self.first_counter(tag), *zeros], Buffer("tag", tag), plain + opened,
            reveals=lambda m: self.aes.xor(tag, right(m).tag), refused=REFUSED, undone=True, other_blocks=self.in_all_blocks(undone),
            **more)

    def any_texts(self):
        """Gives the patterns of a plain text and of the encrypted text, and the tag."""
        plain = self.pattern(self.text)
        return plain, self.aes.xor(plain, self.pattern(self.own_stream)), self.made_once("any own tag", self.any_own_tag)

    def any_message(self, name, way, sizes, content, want, first, last, tag, plain, **more):
        """Gives a call. Its steps derive the keys, then come those of `first`, those of GHASH, and those of `last`."""
        def steps(m):
            if m.phase in (1, 2):
                return self.any_hash(m, m.phase - 1, sizes)
            phase = [*self.derivation(self.blocks_at_once(m, sizes) == 1), *first] if m.phase == 0 else last(m) if m.phase == 3 else []
            return phase[m.steps_found] if m.steps_found < len(phase) else ("nothing", (), ())
        additional = Stream("additional", sizes.additional, self.pattern(self.additional_bytes))
        arguments = [self.schedule(), Buffer("nonce", self.nonce), additional, sizes.additional,
                     *self.streams_of(way, "text", sizes.text, sizes.text, content, want), tag]
        return Call("gcm_siv_" + name + way, arguments, DONE, steps=steps, counter=COUNTER, plain=self.in_all_blocks(plain),
                    facts={*counts_of(sizes), *(MOST - size for size in sizes)}, **more)

    def refused(self):
        """TOO_LONG or NO_KEY: .. A call that doesn't return DONE has changed nothing. With _to: UNEQUAL_LENGTHS, TOO_LONG or NO_KEY"""
        a, t, k = unknown("additional"), unknown("text"), unknown("output")
        none = self.no_key()
        key = self.schedule()
        most = min(MOST, self.highest)
        fits, long = facts_of_range(a, 0, most) | facts_of_range(t, 0, most), []
        if self.highest > MOST:  # (else no buffer is too long)
            long = [facts_of_range(a, MOST + 1, self.highest) | facts_of_range(t, 0, self.highest),
                    facts_of_range(a, 0, MOST) | facts_of_range(t, MOST + 1, self.highest)]
        late = [(none, NO_KEY, fits, t), *((siv, TOO_LONG, facts, t) for siv in (key, none) for facts in long)]
        sizes = {f for x in (a, t, k) for f in facts_of_range(x, 0, self.highest)}
        first = [(siv, UNEQUAL_LENGTHS, sizes | facts, k) for siv in (key, none) for facts in unequal(t, k)]
        for way, (siv, status, facts, output) in [("", one) for one in late] + [("_to", one) for one in first + late]:
            arguments = [siv, unused_buffer("nonce", False), unused_buffer("additional", False), a, *unused_data(way, t, output)]
            yield Call("gcm_siv_seal" + way, [*arguments, unused_buffer("tag")], status, facts=facts)
            yield Call("gcm_siv_open" + way, [*arguments, unused_buffer("tag", False)], status, facts=facts)
