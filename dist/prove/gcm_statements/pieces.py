"""States what calls of fotsgure_gcm.h do for messages in pieces, next to the sentence of the header that each proves.

The value of GHASH before a call may be any, and so may the bytes of a block that came before. The case says how many these are."""
from gcm_statements.byte_counts import Came, Counts, bytes_of_counts, with_more
from gcm_statements.gcm_header import ADDITIONAL, DECRYPTING, DONE, ENCRYPTING, MESSAGE, VERIFYING
from gcm_statements.hashing import Hashing, in_groups
from gcm_statements.pre_counter import ANY_J_0_NONCE, any_nonce, any_pre_counter, next_pre_counter, pre_counter_of
from statements.calls import Buffer, Call
from statements.standards import ZEROS, padded


ENDS = "finish", "finish_unverified", "accept", "accept_short"  # calls that set all numbers of a message
COUNT_AT = {"text": 8, "decrypted": 16}  # where a message has numbers that some calls don't look at
NOT_READ = {"additional": ["text", "decrypted"], "decrypt": []}  # these numbers, where it isn't only `decrypted`


def with_bytes(content, at, bytes_):
    """Gives what a message holds, perhaps as a function of the machine, with other bytes at a place."""
    put = lambda some: some[:at] + bytes_ + some[at + len(bytes_):]
    return (lambda m: put(content(m))) if callable(content) else put(content)


class Pieces:
    """Calls of fotsgure_gcm.h that begin a message, or that process a piece. The case says the length of the piece."""

    def state(self, phase, additional, text, decrypted=0, value=ZEROS, rest=ZEROS, first=None):
        """Gives the bytes of a struct fotsgure_gcm_message. A byte None may be anything."""
        first = first or pre_counter_of(self)
        return bytes_of_counts(self, Counts(additional, text, decrypted, phase)) + first.block(0) + value + rest

    def any_state(self, phase, additional, text, first, decrypted=0):
        """Gives a message with any value of GHASH and any part of a block, and its Hashing. These numbers of bytes have come."""
        hashing = Hashing(self, self.in_block(self.hash_value, 0))
        return self.state(phase, additional, text, decrypted, hashing.value, self.in_block(self.rest, 0), first), hashing

    def message(self, before, after=None):
        """Gives the argument `message`."""
        return Buffer("message", before, after, secret=("inner",), align=8)

    def call_on_message(self, name, before, after, arguments, **more):
        """Gives a call on a message in pieces. `before` and `after` are what the message holds then. A struct may hold anything, so it may
        have any number where a call doesn't look at it."""
        facts = {*more.pop("facts", ())}
        for word in NOT_READ.get(name, ["decrypted"]):
            number, range_ = self.number_of_words("any " + word)
            bytes_, facts = self.unknown_number(number), facts | range_
            before = with_bytes(before, COUNT_AT[word], bytes_)
            after = after if name in ENDS else with_bytes(after, COUNT_AT[word], bytes_)
        return Call("gcm_" + name, [self.schedule(), self.message(before, after), *arguments], DONE, facts=facts, **more)

    def begin(self, nonce=(), name="gcm_begin", first=None, **more):
        """Begins a message under a nonce, which has any length. *message may be uninitialized .. and nothing of what it held is left. ..
        DONE"""
        first = first or pre_counter_of(self, *nonce)
        message = self.message(self.undefined(MESSAGE), self.state(ADDITIONAL, 0, 0, first=first))
        return Call(name, [self.schedule(), message, *first.arguments], DONE, steps=first.hashing.steps, **more)

    def begin_next(self, counter=None):
        """The same under the counter's next nonce, which it writes to `nonce`; the counter then moves on by one. .. DONE"""
        first, assumes = next_pre_counter(self, counter)
        return self.begin((), "gcm_begin_next", first, assumes=assumes)

    def any_begin(self, rest):
        nonce, state = any_nonce(self, rest), self.state(ADDITIONAL, 0, 0)[:32]
        message = self.message(self.undefined(MESSAGE), state + any_pre_counter(self).block + 2 * ZEROS)
        return Call("gcm_begin", [self.schedule(), message, *nonce.arguments], DONE, steps=nonce.steps, facts=nonce.facts)

    def absorb(self, hashing, filled, piece):
        """Adds a piece to what is hashed. Its first bytes fill up a block. Gives the part of a block that is then left."""
        rest = self.in_block(self.rest, 0)[:filled] + piece
        if len(rest) >= 16:
            whole = (len(rest) - 16) // 16 * 16 + 16
            hashing.add_groups([[rest[:16]]] + in_groups(padded(rest[16:whole])))
            rest = rest[whole:]
        return rest + [None] * (16 - len(rest))

    def end_additional(self, hashing, phase, additional):
        """Hashes the last block of the additional data, filled up with zeros, as the first piece of text does."""
        if phase == ADDITIONAL and additional % 16:
            hashing.add_groups([padded(self.in_block(self.rest, 0)[:additional % 16])])

    def additional(self, before, count):
        """Takes a piece of the additional data .. DONE"""
        first = pre_counter_of(self, *ANY_J_0_NONCE)
        state, hashing = self.any_state(ADDITIONAL, before, 0, first)
        piece = self.in_blocks(self.additional_bytes, count)
        rest = self.absorb(hashing, before % 16, piece)
        after = lambda m: self.state(ADDITIONAL, with_more(self, m, before, count), 0, 0, hashing.value, rest, first)
        return self.call_on_message("additional", state, after, [Buffer("additional", piece), count], steps=hashing.steps)

    def piece(self, call, phase, additional, before, count, nonce=ANY_J_0_NONCE):
        """Encrypts a piece of the text in place. .. Takes a piece of an encrypted text, and writes nothing to it. .. Takes a piece as
        fotsgure_gcm_verify does, and decrypts it in place at once. .. DONE"""
        first = pre_counter_of(self, *nonce, after_text=isinstance(before, Came))
        state, hashing = self.any_state(phase, additional, before, first)
        filled = before % 16
        text, sealed = (self.in_blocks(b, count, filled) for b in (self.text, self.sealed))
        self.end_additional(hashing, phase, additional)
        ended, at = len(hashing.plan), filled if first.after_text else before
        rest = self.absorb(hashing, filled, sealed)

        def steps():
            yield from hashing.steps(0, ended)
            if call == "encrypt" and text:
                yield "text", first.crypted(text, at), sealed
            yield from hashing.steps(ended)
        after_phase = ENCRYPTING if call == "encrypt" else VERIFYING
        after = lambda m: self.state(after_phase, additional, with_more(self, m, before, count), 0, hashing.value, rest, first)
        texts = {"encrypt": (text, sealed), "verify": (sealed, None), "decrypt_unverified": (sealed, first.crypted(sealed, at))}
        return self.call_on_message(call, state, after, [Buffer("text", *texts[call]), count], steps=steps,
                                    keystream=first.streams(count, at) if call != "verify" else (),
                                    plain=first.crypted(sealed, at) if call == "decrypt_unverified" else text)

    def decrypt(self, text, before, count, nonce=ANY_J_0_NONCE, additional=3):
        """Decrypts in place a piece of the encrypted text whose tag was right. .. DONE"""
        first = pre_counter_of(self, *nonce, after_text=isinstance(before, Came))
        sealed, at = self.in_blocks(self.sealed, count, before % 16), before % 16 if first.after_text else before
        plain, state = first.crypted(sealed, at), lambda n: self.any_state(DECRYPTING, additional, text, first, n)[0]
        return self.call_on_message("decrypt", state(before), lambda m: state(with_more(self, m, before, count)),
                                    [Buffer("text", sealed, plain), count], keystream=first.streams(count, at), plain=plain)
