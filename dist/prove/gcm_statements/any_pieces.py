"""States the calls of fotsgure_gcm.h for pieces of messages, at every length. A piece has 48 n + `rest` bytes for every n, or 768 n +
`rest` where the text changes. Before it came 16 u + `filled` bytes, for every u. Statements that begin with `every` have every length,
part by part (joints.py)."""
from itertools import pairwise

from gcm_statements.byte_counts import Counts, any_came, bytes_of_counts
from gcm_statements.gcm_header import ADDITIONAL, DECRYPTING, ENCRYPTING, MOST, MOST_ADDITIONAL, REST, VERIFYING
from gcm_statements.pre_counter import ANY_J_0, any_pre_counter
from gcm_statements.whole_messages import GROUP, counts_of
from loops.joints import Part
from loops.linear import WORD, unknown
from machines.operands import Content
from statements.calls import Stream
from statements.keyed import PTRDIFF_MAX, facts_of_range
from statements.standards import padded
from statements.steps import NO_STEP
from symbols.bits import DATA, KEY, Unproved

OF_ADDITIONAL, FILLED, LEFT = "bytes of the last block of additional data", "bytes of a block before a piece", "bytes after that block"
# The parts in which GHASH reads a piece: the bytes that fill up a block, and those that are left then. The first piece of a text ends the
# additional data before.
HASHING = Part(FILLED, 16, 1), Part(LEFT, GROUP)
ENDING = Part(OF_ADDITIONAL, 16, 1)
# The same where a text is encrypted before, or decrypted afterwards: 128 bytes at once. Then it begins with a block.
ENCRYPTING_FIRST = Part(LEFT, 128, 1), Part(LEFT, GROUP)
DECRYPTING_LAST = Part(LEFT, GROUP, 3), Part(LEFT, 128)
# The same for later pieces. If bytes of the first block came before, this block changes in a part of its own. How the code goes on depends
# on the number of bytes after it: whether there are none, how many of the first four blocks there are, and whether there are fewer than
# eight blocks, or eight of which the last one isn't whole.
IS_BEGUN, BORDERS = {unknown(FILLED) - 1}, (0, 1, 17, 33, 48, 97, 112)
AFTER_FIRST_BLOCK = [{-unknown(FILLED)}, *(IS_BEGUN | facts_of_range(unknown(LEFT), low, high - 1) for low, high in pairwise(BORDERS)),
                     IS_BEGUN | {unknown(LEFT) - BORDERS[-1]}]
FIRST_BLOCK = Part(FILLED, 16, 1, AFTER_FIRST_BLOCK, scouted=(0, 1, 4, 13))
ENCRYPTING_LATER = FIRST_BLOCK, Part(LEFT, 128, 2), *(part.later(2) for part in HASHING)
DECRYPTING_LATER = FIRST_BLOCK, Part(LEFT, 128)
DECRYPTING_UNVERIFIED = HASHING[0], HASHING[1]._replace(phase=3), *(part.later(3) for part in DECRYPTING_LATER)
SHORT = [(filled, count) for filled in range(16) for count in range(16 - filled)]  # pieces that don't fill up a block


class AnyPiece:
    """Describes a piece of every length, and how GHASH reads it. Its first bytes fill up a block. Then three blocks are hashed at once, and
    fewer than 48 bytes are left. GHASH reads blocks of `bytes_`."""

    def __init__(self, keyed, bytes_, filled, left, is_first=False):
        """`filled` bytes of a block came before, and `left` bytes come after this block. The first piece of a text ends the additional
        data, of whose last block any number of bytes came."""
        self.keyed, self.bytes, self.filled, self.left, self.is_first = keyed, bytes_, filled, left, is_first
        self.before, self.size = 0 if is_first else unknown("u") * 16 + filled, left + 16 - filled
        self.facts = {*counts_of([self.before, left]), 15 - filled, PTRDIFF_MAX - self.size}
        self.begun = [self.first_block] * (not isinstance(filled, int))  # a phase in which the first block of a text changes

    def counts(self, phase):
        """Gives the Counts before a piece of text, where `phase` is that of later pieces. Adds what is known of the additional data."""
        if not self.is_first:
            came = any_came(self.keyed, "additional data", MOST_ADDITIONAL, None)
            self.facts |= came.facts
            return Counts(came.number, self.before, 0, phase)
        rest = unknown(OF_ADDITIONAL)
        came = unknown("k") * 16 + rest
        self.facts |= {unknown("k"), rest, 15 - rest, MOST_ADDITIONAL - came}
        return Counts(came, 0, 0, ADDITIONAL)

    def any_step(self, m, *phases):
        """Gives the next step of a call. Where the first piece of a text ends the additional data, this is a phase of its own. `phases` has
        functions that give the next step of the phases after it."""
        phase = m.phase - self.is_first
        return self.end_of_additional(m) if phase < 0 else phases[phase](m) if phase < len(phases) else NO_STEP

    def end_of_additional(self, m):
        """Gives the next step of GHASH of the last block of additional data."""
        (so_far, part), count, value = self.keyed.before_piece(), m.known(unknown(OF_ADDITIONAL)), self.value_before()
        if m.steps_found:
            return "again", (), ()
        return self.keyed.group_step(so_far, padded(part[:count]), value) if count else ("here", so_far, value)

    def value_before(self):
        """Gives the value of GHASH before the piece."""
        keyed = self.keyed
        return keyed.any_bytes("value of additional data", KEY | DATA) if self.is_first else keyed.before_piece()[0]

    # Three phases of GHASH.
    def fill_up(self, m):
        """Looks for the first block, which the piece fills up. Then the piece begins after this block."""
        keyed, filled = self.keyed, m.known(self.filled)
        if m.steps_found:
            return "again", "text", (keyed.pattern(self.bytes), None, False, 16 - filled, 0)
        return "memory", keyed.before_piece()[1][:filled] + keyed.at_block(m, self.bytes, 0)[filled:], keyed.full_block()

    def hash_first(self, m):
        return ("again", (), ()) if m.steps_found else self.keyed.group_step(
            self.value_before(), [self.keyed.full_block()], self.keyed.middle_value())

    def hash_rest(self, m):
        """Gives the next step of GHASH of whole blocks after the first one. Then blocks are numbered again."""
        keyed, left, many = self.keyed, m.known(self.left), len(self.keyed.kept_powers())
        return keyed.any_group(m, keyed.middle_value(), self.bytes, left - left_of_block(left), many, [], keyed.last_value())

    def hash_last(self, m):
        """Does the same for calls that end then."""
        step = self.hash_rest(m)
        return NO_STEP if step[0] == "again" else step

    def first_block(self, m):
        """Gives the end of the phase in which the first block of a text changes. If no byte of it came before, this phase has nothing."""
        return "now" if m.known(self.filled) == 0 else "begun", "text", ()

    def stream(self, *what):
        """Gives the argument for the piece. What came of its first block lies before it."""
        return Stream("text", self.size, *what, skip=self.filled)

    def last_bytes(self, m):
        """Gives the bytes that the piece leaves of a block, in two forms. The first form is for code that doesn't know their block, and the
        second for code that does."""
        text, left = m.regions["text"], m.known(self.left)
        count = left_of_block(left)
        names = [self.keyed.domain.opaque((Content("text", left - count + k, "content %d" % text.turn), 0)) for k in range(count)]
        return names, text.initial_at(m, "text", left - count, count)

    def first_bytes(self, m, counts):
        """Gives the first bytes of a message with these Counts: the numbers and J_0."""
        return sum((m.to_bytes(m.known(n), 8) for n in counts), []) + any_pre_counter(self.keyed).block

    def message_after(self, m, counts):
        """Gives a message with these Counts after GHASH has read the piece."""
        rest, known = self.last_bytes(m)
        if rest != m.regions["message"].content[REST:REST + len(rest)]:
            rest = known
        return self.first_bytes(m, counts) + self.keyed.last_value() + rest + [None] * (16 - len(rest))


def left_of_block(left):
    """Counts the bytes that a number of bytes leaves of a block."""
    return divmod(left, 16)[1]


def any_left(filled, rest, step):
    """Gives how many bytes of a piece come after those that fill up a block, where the piece has `step` n + `rest` bytes for every n."""
    return unknown("n") * step + rest + filled - 16


class AnyPieces:
    """Has the statements for calls of fotsgure_gcm.h that process a piece of every length."""

    def full_block(self):
        return self.any_bytes("full block")

    def before_piece(self):
        """Gives any value of GHASH, and any part of a block. These bytes belong to no block, so they stay when blocks are numbered
        again."""
        return self.any_bytes("value so far", KEY | DATA), self.any_bytes("part of a block", KEY | DATA)

    def any_before(self, counts):
        """Gives a message before a call: these Counts, any J_0, any value of GHASH, and any part of a block."""
        return bytes_of_counts(self, counts) + any_pre_counter(self).block + sum(self.before_piece(), [])

    # Pieces that GHASH reads whole, where nothing is written to the text.
    def any_additional(self, filled, rest):
        return self.additional_of(filled, any_left(filled, rest, GROUP))

    def every_additional(self):
        short = [self.any_then_additional(filled, count) for filled, count in SHORT]
        return [*short, self.additional_of(unknown(FILLED), unknown(LEFT), HASHING)]

    def additional_of(self, filled, left, parts=()):
        piece = AnyPiece(self, self.additional_bytes, filled, left)
        before = Counts(piece.before, 0, 0, ADDITIONAL)
        after = before._replace(additional=piece.before + piece.size)
        return self.any_absorbed("additional", piece, before, after, MOST_ADDITIONAL - after.additional, parts)

    def any_verify(self, filled, rest):
        return self.verify_of(filled, any_left(filled, rest, GROUP))

    def every_verify(self):
        short = [self.any_then_piece("verify", VERIFYING, None, filled, count) for filled, count in SHORT]
        return [*self.first_pieces("verify", self.verify_of, HASHING[1:]), *short,
                self.verify_of(unknown(FILLED), unknown(LEFT), HASHING)]

    def verify_of(self, filled, left, parts=(), is_first=False):
        piece = AnyPiece(self, self.sealed, filled, left, is_first)
        before = piece.counts(VERIFYING)
        after = before._replace(text=piece.before + piece.size, phase=VERIFYING)
        return self.any_absorbed("verify", piece, before, after, MOST - after.text, parts)

    def any_absorbed(self, name, piece, before, after, fits, parts):
        """States a call on a message with the Counts `before`. It has the Counts `after` then. `fits` is the fact that they aren't too
        many."""
        return self.call_on_message(name, self.any_before(before), lambda m: piece.message_after(m, after),
                                    [piece.stream(self.pattern(piece.bytes)), piece.size], facts=piece.facts | {fits},
                                    steps=lambda m: piece.any_step(m, piece.fill_up, piece.hash_first, piece.hash_last), parts=parts)

    def first_pieces(self, call, state, parts):
        """Gives calls for the first piece of a text of every length, which `state` states. `parts` come after the end of the additional
        data."""
        short = [self.any_then_piece(call, ADDITIONAL, rest, 0, count) for rest in range(16) for count in range(16)]
        return [*short, state(0, unknown(LEFT), [ENDING, *(part.later(1) for part in parts)], True)]

    # Pieces of a text that changes.
    def crypted(self, piece):
        """Gives the pattern of the keystream of a piece that changes, and the arguments of Call that concern the counter."""
        stream = self.pattern(any_pre_counter(self).stream)
        first = 1 if piece.is_first else unknown("u") + 1
        return stream, dict(counter=ANY_J_0._replace(first=first), keystream=self.in_all_blocks(stream), divides=bool(piece.begun),
                            facts=piece.facts | {MOST - piece.before - piece.size})

    def later_pieces(self, call, phase, state, parts):
        """Gives calls for all later pieces of a text that changes, which `state` states."""
        short = [self.any_then_piece(call, phase, None, filled, count) for filled, count in SHORT]
        return [*short, state(unknown(FILLED), unknown(LEFT), parts)]

    def any_encrypt(self, filled, rest):
        return self.encrypt_of(filled, any_left(filled, rest, 768))

    def every_first_encrypt(self):
        return self.first_pieces("encrypt", self.encrypt_of, ENCRYPTING_FIRST)

    def every_later_encrypt(self):
        return self.later_pieces("encrypt", ENCRYPTING, self.encrypt_of, ENCRYPTING_LATER)

    def encrypt_of(self, filled, left, parts=(), is_first=False):
        """States a call that encrypts first. Then the encrypted text becomes arbitrary bytes, and GHASH reads these."""
        piece = AnyPiece(self, self.sealed, filled, left, is_first)
        before = piece.counts(ENCRYPTING)
        after = before._replace(text=piece.before + piece.size, phase=ENCRYPTING)
        stream, more = self.crypted(piece)
        text, sealed = self.pattern(self.text), self.pattern(self.sealed)
        texts = piece.stream(text, [self.aes.xor(text, stream), sealed], lambda m, number: [0] * 16)
        phases = [*piece.begun, lambda m: ("whole", "text", (sealed,)), piece.fill_up, piece.hash_first, piece.hash_last]
        return self.call_on_message("encrypt", self.any_before(before), lambda m: piece.message_after(m, after), [texts, piece.size],
                                    steps=lambda m: piece.any_step(m, *phases), plain=self.in_all_blocks(text), parts=parts, **more)

    def any_decrypt(self, filled, rest):
        return self.decrypt_of(filled, any_left(filled, rest, 768))

    def every_decrypt(self):
        short = [self.any_then_decrypt(None, filled, count) for filled, count in SHORT]
        return [*short, self.decrypt_of(unknown(FILLED), unknown(LEFT), DECRYPTING_LATER)]

    def decrypt_of(self, filled, left, parts=()):
        """States a call that decrypts a piece of a text whose tag was right, and doesn't hash it. `more` bytes of that text follow the
        piece."""
        piece = AnyPiece(self, self.sealed, filled, left)
        before = piece.counts(DECRYPTING)._replace(text=piece.before + piece.size + unknown("more"), decrypted=piece.before)
        after = before._replace(decrypted=piece.before + piece.size)
        stream, more = self.crypted(piece)
        sealed = self.pattern(self.sealed)
        plain, state = self.aes.xor(sealed, stream), sum(self.before_piece(), [])
        more["facts"] |= {unknown("more"), MOST - after.decrypted, WORD - before.text}
        return self.call_on_message("decrypt", self.any_before(before), lambda m: piece.first_bytes(m, after) + state,
                                    [piece.stream(sealed, plain), piece.size], plain=self.in_all_blocks(plain), parts=parts,
                                    steps=lambda m: piece.any_step(m, *piece.begun), **more)

    def any_decrypt_unverified(self, filled, rest):
        return self.decrypt_unverified_of(filled, any_left(filled, rest, 768))

    def every_first_decrypt_unverified(self):
        return self.first_pieces("decrypt_unverified", self.decrypt_unverified_of, DECRYPTING_LAST)

    def every_later_decrypt_unverified(self):
        return self.later_pieces("decrypt_unverified", VERIFYING, self.decrypt_unverified_of, DECRYPTING_UNVERIFIED)

    def decrypt_unverified_of(self, filled, left, parts=(), is_first=False):
        """States a call where GHASH comes first. What the piece leaves of a block becomes arbitrary bytes before blocks are numbered
        again."""
        piece = AnyPiece(self, self.sealed, filled, left, is_first)
        before = piece.counts(VERIFYING)
        after = before._replace(text=piece.before + piece.size, phase=VERIFYING)
        stream, more = self.crypted(piece)
        sealed, block = self.pattern(self.sealed), self.any_bytes("rest of a piece")
        plain = self.aes.xor(sealed, stream)
        own = {c for b in (*block, *sealed, *self.full_block(), *self.before_piece()[1]) for c in self.domain.cells(b)}

        def rest(m):
            step, count = piece.hash_rest(m), left_of_block(m.known(left))
            kept = m.regions["message"].content[REST:]
            if step[0] == "again" and kept != block:
                if not all(own.issuperset(m.domain.cells(b)) for b in kept[count:]):
                    raise Unproved("something else than a part of a block is where one was")
                return "here", [*sum(piece.last_bytes(m), []), *kept[count:]], 2 * block[:count] + block[count:]
            return ("again", "text", (sealed, plain, False, filled - 16, filled)) if step[0] == "again" else step

        def message(m):
            count = left_of_block(m.known(left))
            return piece.first_bytes(m, after) + self.last_value() + block[:count] + [None] * (16 - count)
        return self.call_on_message("decrypt_unverified", self.any_before(before), message,
                                    [piece.stream(sealed, plain), piece.size], plain=self.in_all_blocks(plain), parts=parts,
                                    steps=lambda m: piece.any_step(m, piece.fill_up, piece.hash_first, rest, *piece.begun), **more)
