"""States what the single rounds of fotsgure_aes.h do, next to the sentence of the header that each proves. A block and a round key are any
bytes, and no struct holds them. Both are secret, and so are the values that are computed from the block, until the call returns."""
from statements.calls import Buffer, Call
from symbols.bits import KEY


class SingleRounds:
    """Calls of fotsgure_aes.h that need no key."""

    def a_round(self, direction, way=""):
        """A round of Cipher in place: SubBytes, ShiftRows, MixColumns, AddRoundKey (FIPS 197, 5.1). A round of EqInvCipher in place:
        InvSubBytes, InvShiftRows, InvMixColumns, AddRoundKey (5.3.5). With _par: The same of each of eight blocks, with the round key at
        the same place."""
        count = 8 if way == "_par" else 1
        key = self.any_bytes("round key", KEY, True)
        one = self.made_once(direction, lambda: getattr(self.aes, direction)(self.block_bytes, key))
        blocks, keys, want = ([x for b in range(count) for x in self.in_block(bytes_, b)] for bytes_ in (self.block_bytes, key, one))
        return Call("aes_" + direction + way, [Buffer("blocks", blocks, want), Buffer("round keys", keys)], None, plain=blocks + want)

    def columns(self, step):
        """MixColumns (5.1.3) and InvMixColumns (5.3.3) in place."""
        want = getattr(self.aes, step)(self.block_bytes)
        return Call("aes_" + step, [Buffer("blocks", self.block_bytes, want)], None, plain=self.block_bytes + want)
