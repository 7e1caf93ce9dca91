"""Lists the lengths of the statements `at_ends`, `at_carries` and `every_remainder`, and of other statements in cases.py.

The code processes several bytes at once. `at_ends` has each remainder that a length may leave by that number of bytes. It also has each
number of bytes of a block that came before. So one of its lengths refuses a fault that shows at a single remainder. Some calls have each
pair of remainders by 16: those with two buffers, or with the struct of a message, of which `every` shows less."""
import itertools

from aes_statements.cmac_ccm import CMAC_TAGS
from gcm_statements.gcm_header import ADDITIONAL, ENCRYPTING, PHASES, SHORT_TAGS, VERIFYING
from machines.operands import NEVER as NO_CARRY

DIRECTIONS, WAYS, BLOCK = ("encrypt", "decrypt"), ("", "_to", "_with"), range(16)
PARTS = range(1, 16)  # of a block
# Pairs of remainders, of what came before and what comes; and each pair of each two of three remainders.
BY_16 = list(itertools.product(BLOCK, BLOCK))
PAIRS_OF_THREE = [((j + k) % 16, j, k) for j, k in BY_16]
CAME = [(ADDITIONAL, n, 0) for n in BLOCK]  # additional data alone

# (additional data, text) in GCM. Each leaves each remainder by 48. A third of the texts has fewer than eight blocks, a third is written to
# another buffer, and for a third the nonce leaves a remainder too. The last entries have no whole block.
GCM_LENGTHS = [((5 * r + 7) % 48, r + 48 * (1 if r < 16 else 2 + r % (2 + r // 16)), *([()], [(), "_to"], [(16 + r,)])[r // 16])
         for r in range(48)] + [(15 - n, n) for n in PARTS]
# The same in AES-GCM-SIV, which hashes a message of up to 160 bytes block by block.
SIV_LENGTHS = [((5 * r + 7) % 48, r + 192, "_to" * (r // 16 == 1)) for r in range(48)] + [(5 * n % 16 + 16, 16 + n) for n in BLOCK]
# (nonce, additional data, text, tag)
CCM_LENGTHS = [(7 + r % 7, (5 * r + 7) % 16 + 16, (3 * r + 2) % 16 + 16, 4 + 3 * r % 7 * 2) for r in BLOCK]

LENGTHS = {
    "aes": {
        "blocks": [(direction, n, way) for direction in DIRECTIONS for way in ("_to", "_with") for n in range(2, 18)],
        "add_keystream": [*((at, count + 2 * at, NO_CARRY, way)
                            for count, way in ((17, ""), (128, ""), (17, "_to"), (17, "_with")) for at in BLOCK),
                          *((*pair, NO_CARRY, "_to") for pair in BY_16)],
        "cbc_decrypt": [(n,) for n in range(2, 64)],
        "wrap_padded": [(n,) for n in range(1, 18)],
        "unwrap_padded": [(n,) for n in range(1, 18)],
        "cmac": [(n,) for n in range(17, 33)],
        "cmac_verify": [(n, tag) for n in range(18, 32) for tag in CMAC_TAGS],
        "ccm_seal": CCM_LENGTHS, "ccm_open": CCM_LENGTHS},
    "gcm": {
        "seal": GCM_LENGTHS, "open": GCM_LENGTHS,
        "any_then_additional": [(n, 17 + 2 * n) for n in PARTS] + BY_16,
        "any_then_piece": [(call, *state) for call, phase in PHASES.items() for n in PARTS
                           for state in ((phase, 5, n, 17 + 2 * n), (ADDITIONAL, n, 0, 16 + n))]
                          + [(call, phase, *three) for call, phase in PHASES.items() for three in PAIRS_OF_THREE],
        "any_then_decrypt": [(3, n, 17 + 2 * n) for n in PARTS] + PAIRS_OF_THREE,
        "any_finish": [(ENCRYPTING, *pair) for pair in BY_16] + CAME,
        "any_finish_unverified": [(VERIFYING, *pair) for pair in BY_16] + CAME,
        "any_accept": [(VERIFYING, 5, n, tag) for n in PARTS for tag in SHORT_TAGS]
                      + [(ADDITIONAL, n, 0, tag) for n in BLOCK for tag in SHORT_TAGS]
                      + [(VERIFYING, *pair) for pair in BY_16] + CAME},
    "siv": {"seal": SIV_LENGTHS, "open": SIV_LENGTHS}}

# Where the low half of the counter carries. Each pair of remainders of what came before and what comes has two such places: before the
# first block that is needed, and before the next one. Each number of blocks up to more than a batch has every place.
FIRST_PLACES = [(*lengths, 1, way) for way, pairs in (("", BY_16), ("_to", BY_16[::15]), ("_with", BY_16[::15]))
                for at, n in pairs for lengths in ((16 + at, n), (at, 16 + n))]
EVERY_PLACE = [(*lengths, block, way) for way, most in (("", 17), ("_to", 9), ("_with", 9)) for n in range(1, most + 1)
               for block in range(1, n + 1) for lengths in ((16, 16 * n - 3), (21, 16 * n - 8))]
CARRIES = {"aes": {"add_keystream": EVERY_PLACE + FIRST_PLACES}}


# Lengths of CCM that include the longest text for a nonce.
LONGEST_CCM = [(7, 13, 255, 14), *((8 + k, 12 - k, 255, 4 + 2 * k) for k in range(5))]

# For builds that have few lengths: each remainder by 16, and each length of a tag.
FEW_GCM = [((5 * k + 7) % 16, k + 1) for k in BLOCK]
FEW = {
    "add_keystream": [(k, 16 + (2 * k + k // 8) % 16) for k in BLOCK],
    "cmac_verify": [(n, CMAC_TAGS[(n + 11) % len(CMAC_TAGS)]) for n in range(1, 17)],
    "seal": FEW_GCM[::2], "open": FEW_GCM[1::2]}


# Calls with one length: each remainder that it may leave by the bytes or blocks that a statement of every length has in a group.
EVERY_REMAINDER = {
    "aes": {
        "any_blocks": [(direction, rest, way) for direction in DIRECTIONS for way in WAYS for rest in BLOCK],
        "any_cbc_decrypt": [(rest,) for rest in range(64)],
        "any_wrap_padded": [(rest,) for rest in range(1, 17)],
        "any_unwrap_padded": [(rest,) for rest in range(1, 9)],
        "any_cmac": [(rest,) for rest in range(1, 17)],
        "any_cmac_verify": [(rest, tag) for rest in range(1, 17) for tag in CMAC_TAGS]},
    "gcm": {"any_begin": [(rest,) for rest in range(48)]}}
TABLES = {"at_ends": LENGTHS, "at_carries": CARRIES, "every_remainder": EVERY_REMAINDER}


class AtLengths:
    """The calls of a statement at the lengths of one of these tables. Each call is made when it is proved."""

    def __init__(self, keyed, table, name):
        self.make, self.lengths = getattr(keyed, name), TABLES[table][keyed.library][name]

    def __iter__(self):
        return (self.make(*values) for values in self.lengths)
