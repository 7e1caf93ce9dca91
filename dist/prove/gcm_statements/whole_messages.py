"""States what calls of fotsgure_gcm.h do for whole messages, next to the sentence of the header that each proves."""
from gcm_statements.gcm_header import DONE, MOST, MOST_ADDITIONAL, REFUSED
from gcm_statements.hashing import Hashing, Sizes, block_of_lengths, in_groups
from gcm_statements.pre_counter import ANY_J_0, any_nonce, any_pre_counter, next_pre_counter, pre_counter_of
from loops.joints import Part, is_empty_or_not
from loops.linear import terms, unknown
from statements.calls import Buffer, Call, Stream
from statements.keyed import PTRDIFF_MAX
from statements.standards import ZEROS, padded

ADDITIONAL, TEXT = "length of additional data", "length of text"
EVERY_PAIR = Sizes(unknown(ADDITIONAL), unknown(TEXT))
# The bytes of a text that are encrypted at once (by some builds; half of them by others), those that GHASH reads at once, and a block's.
BATCH, GROUP, BLOCK = 256, 48, 16
# The parts of these calls, with the phases after those of the nonce. (No value of GHASH is an arbitrary block before all that it read was
# empty.)
EMPTY_OR_NOT = is_empty_or_not(EVERY_PAIR[:1])
SEALING = Part(TEXT, BATCH, 1, unit=BLOCK), Part(ADDITIONAL, GROUP, 2, EMPTY_OR_NOT, unit=BLOCK), Part(TEXT, GROUP, unit=BLOCK)
OPENING = (Part(ADDITIONAL, GROUP, 1, EMPTY_OR_NOT, unit=BLOCK), Part(TEXT, GROUP, 2, is_empty_or_not(EVERY_PAIR), unit=BLOCK),
           Part(TEXT, BATCH, unit=BLOCK))


class WholeMessages:
    """Calls of fotsgure_gcm.h that encrypt or decrypt a whole message."""

    def message_of(self, first, additional_length, text_length):
        """Gives the additional data, the encrypted text, and GHASH of both."""
        additional, sealed = self.in_blocks(self.additional_bytes, additional_length), self.in_blocks(self.sealed, text_length)
        hashing = Hashing(self, ZEROS, first.hashing.made)
        hashing.add_groups(in_groups(padded(additional)) + in_groups(padded(sealed) + [block_of_lengths(additional_length, text_length)]))
        return Buffer("additional", additional), sealed, hashing

    def seal(self, additional_length, text_length, nonce=(), way="", name="gcm_seal", first=None, **more):
        """Encrypts `text_length` bytes in place and writes the tag (7.1). .. A nonce may have any length from one byte on. DONE. With _to:
        The same from one buffer to another of the same length"""
        first = first or pre_counter_of(self, *nonce)
        additional, sealed, hashing = self.message_of(first, additional_length, text_length)
        text = self.in_blocks(self.text, text_length)

        def steps():
            yield from first.hashing.steps()
            if text:
                yield "output" if way else "text", first.crypted(text), sealed
            yield from hashing.steps()
        tag = self.aes.xor(hashing.value, first.stream(0))
        texts = self.data_arguments(way, "text", text, sealed, text_length)
        return Call(name + way, [self.schedule(), *first.arguments, additional, additional_length, *texts,
                                 Buffer("tag", self.undefined(16), tag)], DONE, steps=steps, keystream=first.streams(text_length),
                    plain=text, **more)

    def seal_next(self, additional_length, text_length, counter=None):
        """The same under the counter's next nonce, which it writes to `nonce`; the counter then moves on by one. .. DONE"""
        first, assumes = next_pre_counter(self, counter)
        return self.seal(additional_length, text_length, name="gcm_seal_next", first=first, assumes=assumes)

    def open(self, additional_length, text_length, nonce=(), way=""):
        """Decrypts `text_length` bytes in place if the tag is right (7.2). A refused text is unchanged when the call returns ..
        REFUSED; else DONE. With _to: The same from one buffer to another of the same length .. After REFUSED the output is all zeros"""
        first = pre_counter_of(self, *nonce)
        additional, sealed, hashing = self.message_of(first, additional_length, text_length)
        tag, right = self.in_block(self.tag, 0), self.aes.xor(hashing.value, first.stream(0))

        def steps():
            yield from first.hashing.steps()
            yield from hashing.steps()
        text = first.crypted(sealed)
        texts = self.data_arguments(way, "text", sealed, text, text_length)
        return Call("gcm_open" + way, [self.schedule(), *first.arguments, additional, additional_length, *texts, Buffer("tag", tag), 16],
                    DONE, steps=steps, reveals=self.aes.xor(tag, right), refused=REFUSED, refused_after={"output": [0] * text_length},
                    keystream=first.streams(text_length), plain=text)

    # Messages of every length (lengths.py).
    def any_seal(self, additional, text, way="", nonce=None):
        return self.seal_any(any_sizes(additional, text), any_nonce(self, nonce), "gcm_seal", way)

    def any_seal_next(self, additional, text, counter=None):
        return self.seal_any_next(any_sizes(additional, text), counter)

    def any_open(self, additional, text, way="", nonce=None):
        return self.open_any(any_sizes(additional, text), any_nonce(self, nonce), way)

    # The same for every pair of lengths, part by part (joints.py). A nonce has 12 bytes. If `nonce` is EVERY, it has any other number.
    def every_seal(self, way="", nonce=None):
        return self.seal_any(EVERY_PAIR, any_nonce(self, nonce), "gcm_seal", way, SEALING)

    def every_seal_next(self, counter=None):
        return self.seal_any_next(EVERY_PAIR, counter, SEALING)

    def every_open(self, way="", nonce=None):
        return self.open_any(EVERY_PAIR, any_nonce(self, nonce), way, OPENING)

    def seal_any_next(self, sizes, counter, parts=()):
        first, assumes = next_pre_counter(self, counter)
        return self.seal_any(sizes, any_nonce(self, None, first), "gcm_seal_next", "", parts, assumes=assumes)

    def seal_any(self, sizes, nonce, name, way, parts=(), **more):
        text, stream, sealed = self.any_whole()

        def steps(m, phase):
            return ("whole", "output" if way else "text", (sealed,)) if phase == 0 else self.any_hash(m, phase - 1, sizes)
        texts = self.streams_of(way, "text", sizes.text, sizes.text, text, [self.aes.xor(text, stream), sealed], lambda m, number: [0] * 16)
        tag = Buffer("tag", self.undefined(16), lambda m: self.any_tag(m, sizes))
        return self.call_of_any_message(name + way, sizes, nonce, stream, [*texts, tag], steps, text, parts, **more)

    def open_any(self, sizes, nonce, way, parts=()):
        _, stream, sealed = self.any_whole()
        text = self.aes.xor(sealed, stream)
        tag = self.any_bytes("tag")
        texts = [*self.streams_of(way, "text", sizes.text, sizes.text, sealed, text), Buffer("tag", tag), 16]

        def steps(m, phase):
            return ("refused", "output", (self.undefined(16), ZEROS, True)) if way and phase == 2 else self.any_hash(m, phase, sizes)
        return self.call_of_any_message("gcm_open" + way, sizes, nonce, stream, texts, steps, text, parts,
                                        reveals=lambda m: self.aes.xor(tag, self.any_tag(m, sizes)), refused=REFUSED)

    def any_whole(self):
        """Gives the patterns of a text, of the keystream and of the encrypted text."""
        return [self.pattern(b) for b in (self.text, any_pre_counter(self).stream, self.sealed)]

    def any_tag(self, m, sizes):
        """Gives the right tag."""
        return self.aes.xor(self.any_sum(m, sizes), any_pre_counter(self).cipher)

    def any_facts(self, sizes):
        """Gives the facts of both sizes. They may be as large as a buffer, and as the standard allows."""
        return {*counts_of(sizes), PTRDIFF_MAX - sizes.additional, MOST_ADDITIONAL - sizes.additional, MOST - sizes.text}

    def call_of_any_message(self, name, sizes, nonce, stream, texts, steps, plain, parts, **more):
        """Gives a call on a whole message of every length. `steps` and `parts` are those after its nonce."""
        additional = Stream("additional", sizes.additional, self.pattern(self.additional_bytes))
        return Call(name, [self.schedule(), *nonce.arguments, additional, sizes.additional, *texts], DONE, counter=ANY_J_0,
                    steps=lambda m: nonce.steps(m) if m.phase < nonce.phases else steps(m, m.phase - nonce.phases),
                    keystream=self.in_all_blocks(stream), plain=self.in_all_blocks(plain), facts=self.any_facts(sizes) | nonce.facts,
                    parts=[*nonce.parts, *(part.later(nonce.phases) for part in parts)], **more)


def counts_of(sizes):
    """Gives the unknown numbers of which sizes are made."""
    return {unknown(name) for size in sizes for name in terms(size)}


def any_sizes(additional, text):
    """Gives both sizes, for every number of whole groups of bytes that the code processes at once."""
    return Sizes(unknown("a") * 48 + additional, unknown("n") * 768 + text)
