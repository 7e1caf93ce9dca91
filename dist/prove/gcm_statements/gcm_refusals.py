"""States the calls of GCM that are refused, for all their arguments. Only the status changes. Buffers aren't read, so they have no bytes
here."""
import itertools

from gcm_statements.gcm_header import (MOST, MOST_ADDITIONAL, MOST_NONCE, NO_KEY, NONCE_LENGTH, NONCES_END, OUT_OF_TURN, SHORT_TAGS,
                                       TAG_LENGTH, TOO_LONG, TURNS, UNEQUAL_LENGTHS)
from gcm_statements.pre_counter import CARRY, next_pre_counter
from loops.linear import WORD, unknown
from statements.calls import Buffer, Call
from statements.keyed import facts_of_range, unused_buffer, unequal, unused_data
from statements.standards import number


class Refusals:
    """Makes the refusals of a KeyedGcm, with its key and without."""

    def __init__(self, keyed):
        self.keyed, self.highest = keyed, keyed.highest
        self.key, self.no_key = keyed.schedule(), keyed.no_key()

    def calls(self):
        """.. the call returns the first in the order that it names them."""
        yield from self.of_whole_messages()
        yield from self.of_tag_lengths()
        yield from self.of_unequal_lengths()
        yield from self.of_begin()
        yield from self.of_next()
        yield from self.of_pieces()
        yield from self.of_tag_lengths_of_pieces()
        yield from self.of_short_tags()

    # Facts of arguments. A refusal is (gcm, the status, facts).
    def fits(self, length, most):
        """Gives the facts that say that the standard allows a length."""
        return facts_of_range(length, 0, min(most, self.highest))

    def passes(self, length, most):
        """Gives the ways in which a length is too long, as facts. (With 32 bits there are none.)"""
        return [facts_of_range(length, most + 1, self.highest)] if self.highest > most else []

    def any_sizes(self):
        return facts_of_range(unknown("additional"), 0, self.highest) | facts_of_range(unknown("text"), 0, self.highest)

    def with_any_key(self, status, ways):
        """Gives the refusals for these ways, with a key and without."""
        return [(gcm, status, self.any_sizes() | facts) for gcm in (self.key, self.no_key) for facts in ways]

    def nonce_refusals(self):
        """Gives the facts that say that the standard allows the length of a nonce, and the refusals of other lengths."""
        n = unknown("nonce")
        return self.fits(n, MOST_NONCE) | {n - 1}, self.with_any_key(NONCE_LENGTH, [facts_of_range(n, 0, 0), *self.passes(n, MOST_NONCE)])

    def text_refusals(self):
        """Gives the refusals with a right nonce: TOO_LONG, and else NO_KEY."""
        a, t = unknown("additional"), unknown("text")
        fits = self.fits(a, MOST_ADDITIONAL)
        long = self.passes(a, MOST_ADDITIONAL) + [fits | facts for facts in self.passes(t, MOST)]
        return self.with_any_key(TOO_LONG, long) + [(self.no_key, NO_KEY, self.any_sizes() | fits | self.fits(t, MOST))]

    # Whole messages, and the beginning of those in pieces.
    def whole_arguments(self, gcm, way):
        """Gives the arguments before the tag. Nothing of them is read."""
        a, t = unknown("additional"), unknown("text")
        return [gcm, unused_buffer("nonce", False), unknown("nonce"), unused_buffer("additional", False), a, *unused_data(way, t, t)]

    def of_whole_messages(self):
        """NONCE_LENGTH, TOO_LONG or NO_KEY"""
        nonces, wrong = self.nonce_refusals()
        refusals = wrong + [(gcm, status, facts | nonces) for gcm, status, facts in self.text_refusals()]
        for (gcm, status, facts), way in itertools.product(refusals, ("", "_to")):
            before = self.whole_arguments(gcm, way)
            yield Call("gcm_seal" + way, [*before, unused_buffer("tag")], status, facts=facts)
            yield Call("gcm_open" + way, [*before, unused_buffer("tag", False), 16], status, facts=facts)

    def of_tag_lengths(self):
        """TAG_LENGTH comes before these."""
        any_nonce = facts_of_range(unknown("nonce"), 0, self.highest)
        for (gcm, status, facts), (length, also), way in itertools.product(
                self.with_any_key(TAG_LENGTH, [any_nonce]), self.keyed.lengths_but((16,), "tag"), ("", "_to")):
            arguments = [*self.whole_arguments(gcm, way), unused_buffer("tag", False), length]
            yield Call("gcm_open" + way, arguments, status, facts=facts | also)

    def of_unequal_lengths(self):
        """UNEQUAL_LENGTHS comes before all others."""
        a, t, k, n, tag = (unknown(name) for name in ("additional", "text", "output", "nonce", "tag"))
        sizes = {f for x in (a, t, k, n, tag) for f in facts_of_range(x, 0, self.highest)}
        for gcm, facts in itertools.product((self.key, self.no_key), unequal(t, k)):
            arguments = [gcm, unused_buffer("nonce", False), n, unused_buffer("additional", False), a, *unused_data("_to", t, k)]
            yield Call("gcm_seal_to", [*arguments, unused_buffer("tag")], UNEQUAL_LENGTHS, facts=sizes | facts)
            yield Call("gcm_open_to", [*arguments, unused_buffer("tag", False), tag], UNEQUAL_LENGTHS, facts=sizes | facts)

    def of_begin(self):
        nonces, wrong = self.nonce_refusals()
        for gcm, status, facts in [*wrong, (self.no_key, NO_KEY, nonces)]:
            yield Call("gcm_begin", [gcm, unused_buffer("message"), unused_buffer("nonce", False), unknown("nonce")], status, facts=facts)

    def of_next(self):
        """NONCES_END comes before the others."""
        text = [unused_buffer("additional", False), unknown("additional"), unused_buffer("text"), unknown("text")]
        last, others = ([255] * 12, None), map(self.counter_to_refuse, (None if self.highest == WORD else 2 ** 96 - 2, CARRY))
        refusals = [(last, NONCES_END, *self.with_any_key(NONCES_END, [set()]))]
        refusals += [(other, NO_KEY, *self.text_refusals()) for other in others]
        for (content, assumes), status_of_begin, *refused in refusals:
            counter = self.keyed.stays("counter", content)
            for gcm, status, facts in refused:
                arguments = [gcm, counter, unused_buffer("nonce"), *text, unused_buffer("tag")]
                yield Call("gcm_seal_next", arguments, status, facts=facts, assumes=assumes)
            for gcm in {gcm: None for gcm, status, _ in refused if status == status_of_begin}:
                yield Call("gcm_begin_next", [gcm, unused_buffer("message"), counter, unused_buffer("nonce")], status_of_begin,
                           assumes=assumes)

    def counter_to_refuse(self, counter):
        """Gives the bytes of a counter of nonces that isn't the last one, as next_pre_counter names it, and what the call assumes of it."""
        first, assumes = next_pre_counter(self.keyed, counter)
        return first.arguments[0].content, assumes

    # Messages in pieces.
    def any_message(self, phase):
        """Makes a message with any numbers but this phase, and with any bytes; and gives the facts of its numbers."""
        keyed = self.keyed
        numbers, facts = zip(*map(keyed.number_of_words, ("hashed", "text", "decrypted")))
        content = [b for n in numbers for b in keyed.unknown_number(n)]
        content += number(phase, 8)[::-1] if isinstance(phase, int) else keyed.unknown_number(phase)
        content += [b for block in range(3) for b in keyed.in_block(keyed.hash_value, block)]
        return keyed.message(content, content), set().union(*facts)

    def all_phases(self):
        """Gives (a phase, the facts of it) of each phase, and of all higher numbers."""
        phase, facts = self.keyed.number_of_words("phase")
        return [(p, set()) for p in range(6)] + [(phase, facts | {phase - 6})]

    def of_pieces(self):
        """A call that comes out of turn is refused and changes nothing, and so is one that would make the message longer than the standard
        allows."""
        n = unknown("n")
        last = {"finish": [unused_buffer("tag")], "finish_unverified": [unused_buffer("tag")],
                "accept": [Buffer("tag", self.keyed.in_block(self.keyed.tag, 0)), 16],
                "accept_short": [12, unused_buffer("tag", False), 12]}
        read = {"additional": unused_buffer("additional", False), "verify": unused_buffer("text", False)}
        for call, phases in TURNS.items():
            arguments = last.get(call, [read.get(call, unused_buffer("text")), n])
            sizes = set() if call in last else facts_of_range(n, 0, self.highest)
            refusals = self.turn_refusals(phases)
            refusals += [(self.key, p, TOO_LONG, facts) for p in phases if call not in last for facts in self.too_long(call, n)]
            for gcm, phase, status, facts in refusals:
                message, message_facts = self.any_message(phase)
                yield Call("gcm_" + call, [gcm, message, *arguments], status, facts=sizes | message_facts | facts)

    def turn_refusals(self, phases):
        """Gives the refusals NO_KEY in each phase, and OUT_OF_TURN in each but these: (gcm, the phase, the status, facts)."""
        return [(self.no_key, p, NO_KEY, facts) for p, facts in self.all_phases()] + [
            (self.key, p, OUT_OF_TURN, facts) for p, facts in self.all_phases() if p not in phases]

    def too_long(self, call, n):
        """Gives the ways, as facts, in which n more bytes are too many. The message would be too long, or more would be decrypted than
        came."""
        hashed, text, decrypted = (self.keyed.number_of_words(name)[0] for name in ("hashed", "text", "decrypted"))
        ways = {"additional": [{hashed + n - MOST_ADDITIONAL - 1}], "decrypt": [{decrypted + n - text - 1}, {decrypted + n - MOST - 1}]}
        return ways.get(call, [{text + n - MOST - 1}])

    def of_tag_lengths_of_pieces(self):
        """TAG_LENGTH comes before the others."""
        n, (phase, phase_facts) = unknown("n"), self.keyed.number_of_words("phase")
        message, message_facts = self.any_message(phase)
        message_facts |= phase_facts
        for gcm in self.key, self.no_key:
            for length, facts in self.keyed.lengths_but((16,), "tag"):
                yield Call("gcm_accept", [gcm, message, unused_buffer("tag", False), length], TAG_LENGTH, facts=message_facts | facts)
            for fixed, facts in self.keyed.lengths_but(SHORT_TAGS, "fixed"):
                arguments = [gcm, message, fixed, unused_buffer("tag", False), n]
                yield Call("gcm_accept_short", arguments, TAG_LENGTH, facts=message_facts | facts | facts_of_range(n, 0, self.highest))
            for fixed, facts in itertools.product(SHORT_TAGS, unequal(n, 0)):
                yield Call("gcm_accept_short", [gcm, message, fixed, unused_buffer("tag", False), n + fixed], TAG_LENGTH,
                           facts=message_facts | facts_of_range(n + fixed, 0, self.highest) | facts)

    def of_short_tags(self):
        """NO_KEY and OUT_OF_TURN with tags of other lengths than 12."""
        for fixed, (p, facts) in itertools.product([n for n in SHORT_TAGS if n != 12], self.all_phases()):
            message, message_facts = self.any_message(p)
            refusals = [(self.no_key, NO_KEY)]
            if p not in TURNS["accept_short"]:
                refusals.append((self.key, OUT_OF_TURN))
            for gcm, status in refusals:
                yield Call("gcm_accept_short", [gcm, message, fixed, unused_buffer("tag", False), fixed], status,
                           facts=message_facts | facts)
