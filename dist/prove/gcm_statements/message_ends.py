"""States what calls of fotsgure_gcm.h do for short pieces and for the end of a message, after any number of bytes.

Before such a call 16 k + `additional` bytes of additional data and 16 m + `text` bytes of text came, for every k and m. In the first phase
no text came."""
from gcm_statements.byte_counts import ADDITIONAL_DATA, TEXT, Came, Counts, came_in, length_in_bits
from gcm_statements.gcm_header import ADDITIONAL, DECRYPTING, ENCRYPTING, MESSAGE, MOST, MOST_ADDITIONAL, REFUSED, VERIFYING
from gcm_statements.pre_counter import any_pre_counter
from statements.calls import Buffer
from statements.standards import ZEROS


class MessageEnds:
    """Calls of fotsgure_gcm.h that process a short piece, or that end a message."""

    def any_then_additional(self, filled, count):
        a, _ = came_in(self, ADDITIONAL, filled, 0)
        return after_any(self.additional(a, count), MOST_ADDITIONAL - count - a.number, a)

    def any_then_piece(self, call, phase, additional, text, count):
        a, t = came_in(self, phase, additional, text)
        return after_any(self.piece(call, phase, a, t, count), MOST - count - (t.number if t else 0), a, t)

    def any_then_decrypt(self, additional, filled, count):
        a, before = came_in(self, DECRYPTING, additional, filled)
        whole, facts = self.number_of_words("whole text")
        text = Came(self.parts(whole), whole, None, facts | {MOST - count - before.number})
        return after_any(self.decrypt(text, before, count, additional=a), whole - count - before.number, a, before, text)

    def any_end(self, phase, additional, text, too_long):
        """Gives the message before the call, the message whose text may be decrypted after it, the tag, and other arguments of Call."""
        a, t = came_in(self, phase, additional, text, too_long)
        (so_far, part), filled = self.before_piece(), additional if phase == ADDITIONAL else text
        values = [so_far, *[self.middle_value()] * bool(filled), self.last_value()]

        def steps(m):
            lengths = length_in_bits(self, m, a) + length_in_bits(self, m, t)
            blocks = [part[:filled] + ZEROS[filled:]] * bool(filled) + [lengths]
            k = m.steps_found
            return self.group_step(values[k], [blocks[k]], values[k + 1]) if k < len(blocks) else ("nothing", (), ())
        tag = self.aes.xor(self.last_value(), any_pre_counter(self).cipher)
        before, after = (self.any_before(Counts(a, t, 0, p)) for p in (phase, DECRYPTING))
        return before, after, tag, dict(facts=a.facts | (t.facts if t else set()), steps=steps, any_length=True)

    def any_finish(self, phase, additional, text, too_long=(), call="finish", secret=()):
        """Ends a message that was encrypted: writes its tag, and overwrites *message with zeros. .. DONE"""
        before, _, tag, more = self.any_end(phase, additional, text, too_long)
        return self.call_on_message(call, before, [0] * MESSAGE, [Buffer("tag", self.undefined(16), tag, secret)], **more)

    def any_finish_unverified(self, *came):
        """Ends a message whose tag was to be compared: writes its right tag, and overwrites *message with zeros. .. DONE"""
        return self.any_finish(*came, call="finish_unverified", secret=("inner",))  # (so nothing of that tag may be left elsewhere)

    def any_accept(self, phase, additional, text, length=None, too_long=()):
        """Compares the tag of what has come, without an early exit. If it is right, the encrypted text may come once more, to be decrypted.
        .. REFUSED; else DONE. With a length: Compares a tag of 4, 8 or 12 to 15 bytes (5.2.1.2)."""
        before, after, right, more = self.any_end(phase, additional, text, too_long)
        tag = self.in_block(self.tag, 0)[:length or 16]
        arguments = [length] * bool(length) + [Buffer("tag", tag), len(tag)]
        return self.call_on_message("accept" + "_short" * bool(length), before, after, arguments, reveals=self.aes.xor(tag, right),
                                    refused=REFUSED, **more)

    # The same after every pair of numbers. If a text came, no remainder of additional data is known. A struct that no calls made may have
    # numbers that the standard doesn't allow.
    def every_finish(self):
        return [self.any_finish(*came, too_long) for too_long in SOME_TOO_LONG for came in every_end(ENCRYPTING, too_long)]

    def every_finish_unverified(self):
        return [self.any_finish_unverified(*came, too_long) for too_long in SOME_TOO_LONG for came in every_end(VERIFYING, too_long)]

    def every_accept(self, length=None):
        return [self.any_accept(*came, length, too_long) for too_long in SOME_TOO_LONG for came in every_end(VERIFYING, too_long)]


SOME_TOO_LONG = (), (TEXT,), (ADDITIONAL_DATA,), (ADDITIONAL_DATA, TEXT)


def every_end(phase, too_long):
    """Gives the arguments of any_end for every pair of numbers that may come before the end in this phase, or in the first one."""
    return [(phase, None, rest) for rest in range(16)] + [(ADDITIONAL, rest, 0) for rest in range(16 * (TEXT not in too_long))]


def after_any(call, fact, *came):
    """Gives a call with one more fact, and with the facts of what came before it. Its steps are made before it runs."""
    call.steps, call.any_length = call.steps and list(call.steps()), True
    call.facts = call.facts.union({fact}, *(n.facts for n in came if n))
    return call
