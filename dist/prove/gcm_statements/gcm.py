"""States the calls of fotsgure_gcm.h (SP 800-38D). Each statement quotes the sentence of the header that it proves. Those on a struct are
here. Those on messages are in whole_messages.py, pieces.py, any_pieces.py and message_ends.py, and refusals are in gcm_refusals.py.

H and its powers become arbitrary blocks when set_key has made them, and so does each value of GHASH when a call has made it."""
import functools

from gcm_statements.any_pieces import AnyPieces
from gcm_statements.gcm_header import DONE, MESSAGE, MULTIPLES, NO_KEY
from gcm_statements.gcm_refusals import Refusals
from gcm_statements.hashing import KeyedHash
from gcm_statements.message_ends import MessageEnds
from gcm_statements.pieces import Pieces
from gcm_statements.whole_messages import WholeMessages
from statements.calls import ANY, Buffer, Call
from statements.keyed import STRUCT as AES_STRUCT
from statements.left_behind import MAY_NOT_COME
from statements.standards import ZEROS, product
from symbols.bits import KEY


class KeyedGcm(WholeMessages, Pieces, AnyPieces, MessageEnds, KeyedHash):
    """Has the statements for all calls of fotsgure_gcm.h but those for AES-GCM-SIV. keyed.py states key_length, wipe and what set_key
    refuses, since these sentences are alike in both headers."""
    library = prefix = "gcm"

    def __init__(self, program, key_size):
        super().__init__(program, key_size)
        # (Without vectors, H is in registers before its copies are in other slots of the planes. So it is looked for in memory.)
        self.subkey_in = "hash" if program.machine.vector_count else "memory"

    # The struct. Builds neither read nor write the parts of it that they don't use.
    def size_of_struct(self):
        return self.kept_size + (16 if self.program.narrow else MULTIPLES)

    def set_key(self, seed=None):
        """Prepares a key in *gcm (KeyExpansion, FIPS 197, 5.2; H, SP 800-38D, 7.1). *gcm may be uninitialized: none of it is read. Nothing
        of what it held is left. DONE if key_length is 16, 24 or 32"""
        d, e = self.key_domain, self.domain
        h = self.key_aes.cipher(ZEROS, self.key_words)
        p = [[d.fresh("H^%d byte %d" % (n, i), KEY) for i in range(16)] for n in self.kept_powers()]

        def steps():
            yield self.subkey_in, h, p[0]
            for power, after in zip(p, p[1:]):
                yield "hash", functools.partial(product, d, power, p[0]), after
        m = self.keep_struct(self.prove_statement(self.expansion(ANY, steps=steps), seed))
        meaning = {d.cell_of(b)[0]: e.bits(c) for x, y in zip(p, self.powers) for b, c in zip(x, y)}
        products = m.regions["gcm"].content[self.kept_size:]
        self.struct += [e.pack([e.linear_image(x, meaning.__getitem__, d) for x in d.bits(b)]) for b in products]
        return m

    def key_of_blocks(self):
        """Gives struct fotsgure_aes as fotsgure_aes_set_key makes it. It begins as struct fotsgure_gcm does. (prove.py compares what both
        libraries store.) The rest of it isn't read."""
        kept = self.struct[:self.kept_size]
        return Buffer("aes", kept + self.undefined(AES_STRUCT - self.kept_size), align=self.length_size)

    def set_key_of(self):
        """The same with the key of *aes, a struct of fotsgure_aes.h .. DONE if *aes holds a key"""
        def steps():
            yield self.subkey_in, self.aes.cipher(ZEROS, self.round_key_words), self.powers[0]
            for power, after in zip(self.powers, self.powers[1:]):
                yield "hash", functools.partial(self.with_powers, [power]), after
        gcm = self.struct_of(self.undefined(self.struct_size), self.struct, secret=MAY_NOT_COME)
        return Call("gcm_set_key_of", [gcm, self.key_of_blocks()], DONE, steps=steps)

    def set_key_of_none(self):
        """.. else NO_KEY, and *gcm then is all zeros and holds no key."""
        gcm = self.struct_of(self.undefined(self.struct_size), [0] * self.struct_size)
        return Call("gcm_set_key_of", [gcm, Buffer("aes", [0] * max(AES_STRUCT, self.kept_size), align=self.length_size)], NO_KEY)

    def wipe_message(self):
        """Overwrites *message with zeros: there is no message then. It may be uninitialized."""
        return Call("gcm_wipe_message", [Buffer("message", self.undefined(MESSAGE), [0] * MESSAGE, align=8)], None)

    def refused(self):
        return Refusals(self).calls()
