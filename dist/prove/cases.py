"""Lists the cases: a table of statements, their arguments, and the builds and keys that have them. `prove.py --list` prints it."""
import collections
import itertools

from aes_statements import aes, cmac_ccm
from gcm_statements import gcm, siv
from gcm_statements.gcm_header import ADDITIONAL, ENCRYPTING, MOST, MOST_ADDITIONAL, MOST_NONCE, PHASES, SHORT_TAGS, VERIFYING
from gcm_statements.pre_counter import ANY_J_0_NONCE, CARRY, EVERY as EVERY_NONCE
from linked.builds import BUILDS, takes_few
from machines.riscv import Riscv
from remainders import CARRIES, DIRECTIONS, EVERY_REMAINDER, FEW, LENGTHS, LONGEST_CCM, TABLES, WAYS, AtLengths
from statements.headers import version

# A statement (a method of KeyedAes, KeyedGcm or KeyedSiv, or one of TABLES), a description of its arguments, and six lists of these.
# With keys of 16 bytes:
#     each             all builds
#     most             all builds; without PROVE=all not those that takes_few (builds.py) names, which have the same sources as others
#     more             with PROVE=all, the builds that have `most` without it too, and _v3
#     without_every    the same builds, if they don't have `every`
# With PROVE=all and keys of each size:
#     every            the builds of HAVE_EVERY
# With keys of 24 and 32 bytes:
#     keys_24_32       each call once, and the code that loops over round keys: the builds of `more`; with PROVE=all all builds. The builds
#                      of `more` then have `each` and `most` too
# left_out(word, values) says whether builds for RISC-V, with words of so many bytes, leave these arguments out.
Row = collections.namedtuple("Row", "name what each most more every without_every keys_24_32 left_out",
                             defaults=[()] * 6 + [lambda word, values: False])
LISTS = Row._fields[2:-1]
ON_RISCV, ON_RISCV_32 = lambda word, values: True, lambda word, values: word == 4
ANY_COUNTER_ON_RISCV_32 = lambda word, values: word == 4 and None in values
ONCE = [()]  # no arguments
HAVE_EVERY = "x86_64/aes", "x86_64/siv", "x86_64/gcm"

SINGLE_ROUNDS = [(name, way) for name in ("cipher_round", "equiv_inv_cipher_round") for way in ("", "_par")]
COLUMNS = ["mix_columns", "inv_mix_columns"]
NO_CARRY, BLOCK_AFTER_TEXT = aes.NEVER, 9  # no carry anywhere; a carry before a block that a batch has after the text
ROUNDS = [Row("a_round", "a round, or eight (`_par`); they need no key", each=SINGLE_ROUNDS), Row("columns", "of a block", each=COLUMNS)]

SAYS_CCM = ("16 a + b bytes of additional data, none if b is 0, and 256 n + r of text for every a and n: the lengths of nonce, b, r, tag; "
            "the encoded length of additional data has 2 bytes, or 6 or 10 if the case names that")
AES_ROWS = [
    Row("any_blocks", "16 n + r blocks for every n: the direction, r, into the same buffer or another (`_to`), or under a key (`_with`)",
        each=[(way, *rest) for way in DIRECTIONS for rest in ((15,), (7, "_to"), (1, "_with"))],
        most=[(way, rest) for way in DIRECTIONS for rest in range(15)]
             + [(way, *more) for way in DIRECTIONS for more in ((1, "_to"), (7, "_with"))],
        more=[(way, rest, "_to") for way in DIRECTIONS for rest in (0, 2, 14)],
        left_out=lambda word, values: word == 4 and "_to" in values),
    Row("blocks", "the direction and the number of blocks", each=[("encrypt", 2), ("encrypt", 1, "_with")],
        most=[("encrypt", n) for n in (0, 16, 17)],
        more=[(way, n, to) for way in DIRECTIONS for to in ("_to", "_with") for n in (6, 7, 8, 14, 15)],
        keys_24_32=[(way, n, to) for way in DIRECTIONS for n, to in ((2, ""), (32, ""), (1, "_to"), (1, "_with"))]),
    Row("any_low_keystream", "at 16 k + s for every k, 128 n + r bytes for every n: s, r; for every initial counter block whose low half "
        "doesn't carry", each=[(5, 122)], more=[(0, 0, "_with"), (5, 122, "_to")], left_out=ON_RISCV_32),
    Row("every_short_keystream", "the same for every s, and fewer than 128 - s bytes", every=WAYS),
    Row("every_long_keystream", "the same for every s, and all other numbers of bytes", every=WAYS),
    Row("any_keystream", "the same where the low half carries anywhere or nowhere", most=[(0, 0)], more=[(5, 122), (3, 45, "_to")],
        every=[(5, 122, "_with")], left_out=ON_RISCV_32),
    Row("add_keystream", "the position, the number of bytes, and before which block the low half of the counter carries, if anywhere",
        each=[(0, 33), (0, 5), (0, 15), (2 ** 64 - 21, 20), (5, 40, 2), (21, 40, 1), (21, 40, 2), (16, 64, 1), (0, 16, BLOCK_AFTER_TEXT),
             (3, 33, NO_CARRY, "_to"), (3, 33, NO_CARRY, "_with"), *FEW["add_keystream"]],
        most=[(0, 1), (0, 16), (0, 64), (0, 130), (21, 3), (21, 8), (3, 130, NO_CARRY, "_with"), (3, 0, NO_CARRY, "_to"),
              (3, 130, NO_CARRY, "_to"), (5, 40, BLOCK_AFTER_TEXT), (21, 11), (21, 11, 1), (21, 11, 1, "_to"), (21, 11, 1, "_with"),
              *((16, 64, block) for block in range(2, 6)),
              # Positions, and numbers of blocks, that don't fit into 32 bits; and one that would be below 0 if it had a sign.
              (2 ** 32 - 20, 40), *((2 ** 63 + 2 ** 36, 64, NO_CARRY, way) for way in ("", "_with"))],
        more=[*((2 ** 64 - 21, 20, NO_CARRY, way) for way in ("_to", "_with")),
              *((0, n, NO_CARRY, "_to") for n in (*range(1, 9), 31, 32, 33)), *((0, n) for n in range(1, 131)),
              *((5, n) for n in (*range(1, 41), 59, 60, *range(120, 141), *range(200, 206)))],
        keys_24_32=[(0, 33), (3, 33, NO_CARRY, "_to"), (3, 33, NO_CARRY, "_with")],
        left_out=lambda word, values: word == 4 and values[0] >= 2 ** 36),
    Row("any_cbc_encrypt", "every number of blocks", each=ONCE),
    Row("any_cbc_decrypt", "64 n + r blocks for every n: r", most=[9], without_every=[0]),
    Row("cbc_encrypt", "the number of blocks", most=[1, 2], keys_24_32=[1]),
    Row("cbc_decrypt", "the number of blocks", each=[9], most=[0, 1, 3, 4, 8, 17, 47], more=[7, 63, 64, 65, 71, 72], keys_24_32=[1]),
    Row("any_wrap", "a key of every number of semiblocks", most=ONCE, left_out=ON_RISCV_32),
    Row("any_unwrap", "a key of every number of semiblocks, also of what is refused", most=ONCE,
        left_out=ON_RISCV_32),
    Row("any_wrap_padded", "a key of 16 n + r bytes for every n: r", most=[3], more=[7, 9, 15, 16], left_out=ON_RISCV_32),
    Row("any_unwrap_padded", "a key of 8 n + r bytes for every n, also of what is refused: r", most=[3],
        more=[1, 2, *range(4, 9)], left_out=ON_RISCV_32),
    Row("any_unwrap_padded_refused", "a key of every number of semiblocks, with every wrong length", most=ONCE,
        left_out=ON_RISCV_32),
    Row("wrap", "the number of semiblocks", each=[2], keys_24_32=[2]),
    Row("unwrap", "the number of semiblocks, also of what is refused", each=[3], keys_24_32=[3]),
    Row("wrap_padded", "the number of bytes", each=[7, 8, 9, 15], keys_24_32=[1]),
    Row("unwrap_padded", "the number of bytes, also of what is refused", each=[9], keys_24_32=[1]),
    Row("any_cmac", "16 n + r bytes for every n: r", each=[1, 16], more=range(2, 16), left_out=ON_RISCV_32),
    Row("any_cmac_verify", "the same, also of what is refused: r and the tag's length", each=[(1, 16)],
        more=[*((1, tag) for tag in cmac_ccm.CMAC_TAGS[:-1]), *((rest, 16) for rest in range(2, 17))],
        left_out=ON_RISCV_32),
    Row("cmac", "the number of bytes", most=[0, 1, 16, 23], keys_24_32=[1]),
    Row("cmac_verify", "the number of bytes and the tag's length, also of what is refused", each=FEW["cmac_verify"],
        most=[(n, tag) for n in (0, 17) for tag in cmac_ccm.CMAC_TAGS], keys_24_32=[(0, 4)]),
    Row("cmac_begin", "a message in pieces", each=ONCE, keys_24_32=ONCE), Row("cmac_wipe", "the same", each=ONCE),
    Row("any_cmac_update", "f bytes of a block, then 16 n + r for every n: f, r", each=[(0, 17), (5, 14)], most=[(16, 16)],
        more=[(filled, 32 - (filled * 7 + 3) % 16 - filled) for filled in range(1, 17) if filled != 5],
        left_out=ON_RISCV_32),
    Row("cmac_update", "how many bytes of a block came before, and how many come", each=[(0, 0), (3, 20)],
        most=[(0, 16), (16, 1), (5, 11), (16, 0), (7, 42)], keys_24_32=[(3, 20)]),
    Row("cmac_finish", "how many bytes of the last block came", each=[0, 16], most=[1, 15], more=range(2, 15), keys_24_32=[5]),
    Row("cmac_accept", "the same, and the tag's length; also of what is refused", each=[(16, 16), (3, 8)],
        most=[(0, 4), (15, 5)], more=[(filled, 4 + (5 * filled + 2) % 13) for filled in range(17)], keys_24_32=[(7, 12)]),
    *(Row(call, what, most=[*most, (13, 15, 255, 8), (8, 15, 33, 8, 6), (8, 16, 33, 8, 10)],
          more=[*first, *LONGEST_CCM],
          without_every=[(13, 0, 16, 16), (9, 15, 255, 4, 6), (11, 9, 0, 6, 10)], left_out=ON_RISCV_32)
      for call, what, most, first in (("any_ccm_seal", SAYS_CCM, (), [(8, 15, 33, 8), (8, 16, 33, 8, 6)]),
                                      ("any_ccm_open", "the same", [(12, 15, 33, 8)], ()))),
    *(Row("every_" + call, "every length of nonce, additional data, text and tag" + also, every=ONCE)
      for call, also in (("ccm_seal", ""), ("ccm_open", "; also of what is refused"))),
    *(Row(call, "the lengths of nonce, additional data, text and tag", each=[(13, 8, 33, 8)],
          most=[(7, 0, 1, 4), (12, 14, 16, 16), (8, 15, 17, 6), (10, 33, 0, 14), (9, 0, 0, 10), (11, 0, 0, 12)],
          without_every=[(nonce, 20, 40, tag) for nonce, tag in zip(cmac_ccm.NONCES, cmac_ccm.CCM_TAGS)],
          keys_24_32=[(7, 0, 1, 4)])
      for call in ("ccm_seal", "ccm_open")),
    *ROUNDS]

SIV_ON_RISCV = [Row(call, "as above", most=[(13, 161)]) for call in ("seal", "open")]

NONCES = (8,), (1,), (60,), (16,), (32,)  # lengths other than 12, so that J_0 is any block
COUNTERS, LAST_COUNTERS = [None, CARRY], [2 ** 96 - 2]  # of nonces (next_pre_counter)
MANY = 2 ** 35  # bytes, so that counts and positions don't fit into 32 bits
SAYS_LENGTHS = "the lengths of additional data and text, also on both sides of borders of comparisons"
# Lengths on both sides of the borders of comparisons; those of texts are of words, blocks and batches.
AROUND = 15, 16, 17, 31, 32, 33
BORDERING = [*range(1, 6), *(n + by for n in (16, 32, 48, 64, 80, 112, 128, 144, 208, 256) for by in (-1, 0, 1))]
# The lengths of additional data and text of AES-GCM-SIV; up to 160 bytes both are in one buffer.
SHORT = [(*lengths, *way) for way in ((), ("_to",)) for lengths in ((0, 160), (0, 161), (160, 0), (161, 0), (1, 3), (1, 4))]
ENDS = range(1, 16)  # how many bytes a message may have after whole blocks
SAYS_WHOLE = "48 a + r bytes of additional data and 768 n + s of text for every a and n: r, s"
SAYS_EVERY = "every pair of both lengths"
SAYS_EVERY_PIECE = "every length, after every number of bytes"
SAYS_NONCE = "; then the way, and r of a nonce of 48 k + r bytes for every k, instead of one of 12 bytes"
OTHER_NONCES = (0, 129, "", 33), (13, 33, "_to", 0)
LONGEST = MOST_ADDITIONAL % 48, MOST % 768  # so that the longest allowed lengths are among them
LONGEST_TOO = (*LONGEST, "_to"), *((*LONGEST, way, MOST_NONCE % 48) for way in ("", "_to"))
SAYS_STATE = "the phase, and how many bytes of additional data and of text came before"
SAYS_CAME = "the phase; after 16 k + s bytes of additional data and 16 m + t of text for every k and m, and any J_0: s, t"

GCM_ROWS = [
    Row("wipe_message", "", each=ONCE), Row("set_key_of", "", each=ONCE, keys_24_32=ONCE),
    Row("set_key_of_none", "", each=ONCE),
    Row("any_seal", SAYS_WHOLE + SAYS_NONCE, each=[(13, 33)], most=[(0, 129), LONGEST], more=[(13, 33, "", 8), *LONGEST_TOO],
        without_every=[(0, 0), (47, 767), (13, 33, "_to"), *OTHER_NONCES], left_out=ON_RISCV_32),
    Row("any_open", SAYS_WHOLE + SAYS_NONCE + "; also of what is refused", most=[(13, 33), LONGEST], more=[(13, 33, "_to"), *LONGEST_TOO],
        without_every=[(0, 0), (47, 767), (13, 33, "", 8), *OTHER_NONCES], left_out=ON_RISCV_32),
    *(Row("every_" + call, SAYS_EVERY + "; every nonce but those of 12 bytes (`other nonces`)" + also,
          every=[(way, *nonce) for nonce in ((), (EVERY_NONCE,)) for way in ("", "_to")])
      for call, also in (("seal", ""), ("open", "; also of what is refused"))),
    Row("any_seal_next", SAYS_WHOLE + "; then the counter, as in `seal_next`",
        more=[(13, 33), LONGEST, (13, 33, CARRY)], without_every=[(0, 129)], left_out=ON_RISCV_32),
    Row("every_seal_next", SAYS_EVERY + "; then the counter, as in `seal_next`", every=[(), CARRY]),
    Row("any_begin", "a nonce of 48 k + r bytes for every k: r", most=[8, LONGEST[0]], without_every=[0, 12, 33, 47],
        left_out=ON_RISCV_32),
    *(Row("any_" + call, what, more=[(3, 46)], without_every=[(15, 48)], left_out=ON_RISCV)
      for call, what in (("additional", "48 n + r bytes for every n after 16 k + s for every k, and any J_0: s, r"),
                         ("verify", "the same, after any additional data"),
                         *((call, "the same, of 768 n + r bytes") for call in ("encrypt", "decrypt", "decrypt_unverified")))),
    Row("seal", SAYS_LENGTHS + ", and a nonce of another length", each=[(13, 33), (13, 33, (), "_to"), *FEW["seal"]],
        most=[(0, 0), (0, 5), (1, 1), (13, 0), (16, 16), (20, 64), (32, 32), (49, 1), (0, 449, ANY_J_0_NONCE), (0, 0, (), "_to"),
              *((5, 20, nonce) for nonce in NONCES)],
        more=[*((n, 0) for n in (*AROUND, 47, 48, 49)), *((13, n, (), "_to") for n in (3, 4, 31, 32)),
              *((13, n, ANY_J_0_NONCE) for n in (*BORDERING, 131))],
        without_every=[*((5, 40, nonce) for nonce in NONCES), *((5, n, (60,)) for n in (0, 129, 300))],
        keys_24_32=[(13, 481, ANY_J_0_NONCE), (0, 0, (), "_to")]),
    Row("open", "the same, also of what is refused", each=[(13, 33), (13, 33, (), "_to"), *FEW["open"]],
        most=[(0, 0), (13, 0), (20, 64), (0, 0, (), "_to"), (3, 20, ANY_J_0_NONCE)],
        more=[(13, n, (), "_to") for n in (3, 4, 31, 32)], without_every=[(3, 20, nonce) for nonce in NONCES[1:]],
        keys_24_32=[(13, 33), (0, 0, (), "_to")]),
    Row("begin", "the nonce", each=[(), *((nonce,) for nonce in NONCES)], keys_24_32=[()]),
    Row("seal_next", "the lengths of additional data and text, and the counter: `carry` is any whose last eight bytes are all 255, `None` "
        "any other one, and 2^96 - 2 the last one but one",
        each=[(3, 1, counter) for counter in COUNTERS], most=[(3, 1, counter) for counter in LAST_COUNTERS],
        keys_24_32=[(3, 1, counter) for counter in COUNTERS], left_out=ANY_COUNTER_ON_RISCV_32),
    Row("begin_next", "the counter, as above", each=COUNTERS, most=LAST_COUNTERS, keys_24_32=COUNTERS,
        left_out=ANY_COUNTER_ON_RISCV_32),
    Row("additional", "how many bytes came before, and how many come: it also runs beside a processor", each=[(3, 13)],
        keys_24_32=[(3, 13)]),
    Row("any_then_additional", "after 16 k + s bytes for every k, and any J_0: s, and how many bytes come", each=[(3, 13)],
        most=[(3, 5), (3, 12), (3, 100), (0, 0), (0, 5), (0, 48), (13, 13), (0, 7)],
        more=[*((s, 1) for s in range(16)), (12, 13), *((3, n) for n in range(2, 50) if n != 12)],
        without_every=[(s, n) for s in range(16) for n in (0, 16, 32)], left_out=ON_RISCV_32),
    Row("any_then_piece", "the call; " + SAYS_CAME + ", and how many bytes come",
        each=[*((call, ADDITIONAL, 5, 0, 3) for call in PHASES), *(("encrypt", ENCRYPTING, 5, 0, n) for n in (64, 500))],
        most=[*((call, ADDITIONAL, *numbers) for call in PHASES for numbers in ((0, 0, 16), (0, 0, 3), (5, 0, 0))),
              *((call, phase, 5, *numbers) for call, phase in PHASES.items() for numbers in (
                  (4, 50), (7, 9), (4, 3), (4, 300), (11, 20))),
              *((call, phase, 0, 0, 0) for call, phase in PHASES.items()),
              ("encrypt", ENCRYPTING, 5, 5, 4), ("verify", VERIFYING, 0, 0, 9)],
        more=[*(("encrypt", ENCRYPTING, 5, 7, n) for n in (*range(1, 28), 57, 121)),
              *((call, phase, 5, t, 1) for call, phase in PHASES.items() for t in range(16))],
        without_every=[*((call, ADDITIONAL, s, 0, 1) for call in PHASES for s in range(16)),
                       *((call, phase, 5, t, n) for call, phase in PHASES.items() for t in range(16) for n in (0, 16, 32))],
        keys_24_32=[(call, ADDITIONAL, 5, 0, 3) for call in PHASES],
        left_out=lambda word, values: word == 4 and values[1] != ADDITIONAL),
    Row("any_then_decrypt", "after 16 k + s bytes of additional data and 16 m + t of a text of any length for every k and m, and any J_0: "
        "s, t, and how many bytes come",
        each=[(3, 7, 20)], most=[(3, *numbers) for numbers in ((7, 0), (7, 9), (5, 4), (0, 68), (11, 20))],
        more=[(3, t, 1) for t in range(16)], without_every=[(3, t, n) for t in range(16) for n in (0, 16, 32)], keys_24_32=[(3, 7, 20)],
        left_out=ON_RISCV_32),
    *(Row("any_" + call, what,
          each=[(phase, 0, 7), *each], most=[*((ADDITIONAL, n, 0) for n in (0, 5)), (phase, 5, 0), *most],
          keys_24_32=[(phase, 0, 7), *each, *((phase, 5, n) for n in ENDS)],
          more=[*((ADDITIONAL, n, 0) for n in ENDS if n != 5), *((phase, 5, n) for n in ENDS)])
      for call, phase, what, each, most in (
          ("finish", ENCRYPTING, SAYS_CAME, (), ()), ("finish_unverified", VERIFYING, "the same", (), ()),
          ("accept", VERIFYING, "the same; also of what is refused, and of a shorter tag",
           [(VERIFYING, 0, 7, 12), *((ADDITIONAL, 5, 0, n) for n in SHORT_TAGS)],
           [(VERIFYING, 0, 7, n) for n in SHORT_TAGS if n != 12]))),
    *(Row("every_" + call, SAYS_EVERY_PIECE, every=ONCE) for call in ("additional", "verify")),
    *(Row("every_%s_%s" % (which, call), "every %s piece" % which, every=ONCE)
      for call in ("encrypt", "decrypt_unverified") for which in ("first", "later")),
    Row("every_decrypt", SAYS_EVERY_PIECE, every=ONCE),
    Row("every_finish", "after every number of bytes of additional data and of text, also more than the standard allows", every=ONCE),
    Row("every_finish_unverified", "the same", every=ONCE),
    Row("every_accept", "the same; also of what is refused, and of a shorter tag", every=[(), *SHORT_TAGS])]

# Where calls of every length aren't proved (Row.left_out). Some have one longer length.
LONG = 2048  # bytes
OF_SHORT_WORDS = {
    "aes": [
        Row("blocks", "as above", each=[(way, n, "_to") for way in DIRECTIONS for n in (1, 2)], most=[("encrypt", LONG // 16, "_to")]),
        Row("unwrap_padded_refused", "a wrong length of a key of one semiblock: one of the three higher bytes has any value; or one more, "
            "one less, 2^k and 2^k - 1 for every eighth k", most=ONCE),
        Row("ccm_seal", "as above", most=[(13, 8, LONG, 8)]), Row("cmac", "as above", each=[16, 17, LONG]),
        Row("cmac_verify", "as above", each=[(17, 16)]),
        Row("add_keystream", "as above, and how many words of 32 bits above the lowest one carry too", each=[(5, LONG), (5, 40, 2, "", 1)],
            most=[(5, 40, 2, "", 2)])],
    "gcm": [
        Row("seal", "as above", most=[(13, LONG)]),
        Row("additional", "as above", most=[(3, 5), (3, 100), (0, 0), (0, 5), (32, 48), (2 ** 32 - 3, 13), (MANY, 7)]),
        Row("piece", "the call; " + SAYS_STATE + "; the number of bytes; and a nonce of another length; also across 2^32 bytes, and up "
            "to the longest text", each=[("encrypt", ENCRYPTING, 5, MANY, n, (12,)) for n in (64, 500)],
            most=[*((call, phase, 5, *numbers) for call, phase in PHASES.items() for numbers in (
                      (20, 50), (7, 9), (4, 3), (20, 300), (2 ** 32 - 5, 20, (12,)), (MOST - 9, 9, (12,)))),
                  *((call, phase, 0, 0, 0) for call, phase in PHASES.items()),
                  ("encrypt", ENCRYPTING, 5, 5, 4), ("verify", VERIFYING, MANY, MANY, 9, (12,))]),
        Row("decrypt", "the length of the text, how many bytes of it came before, and how many come", each=[(100, 7, 20)],
            most=[(100, 7, 0), (100, 5, 4), (100, 32, 68), (2 * MANY, MANY - 5, 20, (12,))], keys_24_32=[(100, 7, 20)])]}

SIV_ROWS = [
    Row("any_seal", SAYS_WHOLE + "; both may have 2^36 bytes", most=[(33, 77), (16, 256)],
        more=[(13, 33, "_to"), (16, 256, "_to")],
        without_every=[(0, 0), (47, 767)], left_out=ON_RISCV),
    Row("any_open", SAYS_WHOLE + "; also of what is refused", most=[(13, 33, "_to"), (13, 225)],
        more=[(16, 256), (16, 256, "_to")],
        without_every=[(33, 48), (0, 0, "_to")], left_out=ON_RISCV),
    *(Row("every_" + call, SAYS_EVERY + also, every=["", "_to"]) for call, also in (("seal", ""), ("open", "; also of what is refused"))),
    Row("seal", SAYS_LENGTHS, each=[(13, 33), (13, 33, "_to")],
        most=[(13, 0), (1, 1), (13, 7), (0, 16), *SHORT],
        more=[*((a, n) for n in (0, 161) for a in (1, *AROUND, 47, 48, 49)),
              *((a, n) for a in (13, 161) for n in (*BORDERING, 67, 68, 131, 132))],
        keys_24_32=[(13, 33), (13, 33, "_to")]),
    Row("open", "the same, also of what is refused", each=[(1, 1), (13, 33, "_to")], most=[(13, 0), (13, 7), (0, 16), *SHORT],
        keys_24_32=[(1, 1), (13, 33, "_to")])]


def at_ends(library):
    return [Row("at_ends", "a call, at each remainder that its lengths may leave (remainders.py)", more=LENGTHS[library]),
            *(Row("at_carries", "the same, where the low half of the counter carries, and each place of the carry in a few blocks",
                  more=names, every=names)
              for names in [CARRIES.get(library)] if names),
            *(Row("every_remainder", "a call of every length, at each remainder", every=names) for names in [EVERY_REMAINDER.get(library)]
              if names)]


def common_rows(library, version):
    """Gives the rows that libraries share. Those that AES-GCM-SIV has too come first."""
    rows = [Row("wipe", "", each=ONCE), Row("set_key_refused", "every length of a key that is refused", each=ONCE)]
    return rows if library == "siv" else [
        *rows, Row("key_length", "", each=ONCE, keys_24_32=ONCE), Row("key_length_of_none", "", each=ONCE),
        Row("version", "the number", each=[version])]


LIBRARIES = {library: (keyed, [*rows, *at_ends(library)]) for library, keyed, rows in (
    ("aes", aes.KeyedAes, AES_ROWS), ("gcm", gcm.KeyedGcm, GCM_ROWS), ("siv", siv.KeyedSiv, SIV_ROWS))}


def rows_of(library, machine):
    """Gives the rows of a library. On RISC-V they lack what `left_out` says."""
    rows = LIBRARIES[library][1]
    if not issubclass(machine, Riscv):
        return rows

    def kept(row):
        return row._replace(**{name: [entry for entry in getattr(row, name) if not row.left_out(machine.word, as_tuple(entry))]
                               for name in LISTS})
    more = SIV_ON_RISCV if library == "siv" else OF_SHORT_WORDS[library] if machine.word == 4 else []
    return [*map(kept, rows), *more]


def as_tuple(entry):
    return entry if isinstance(entry, tuple) else (entry,)


def has_keys(build, key_size, is_all):
    """Whether a build is proved with keys of this size. AES-GCM-SIV has no keys of 24 bytes."""
    return (key_size != 24 or "/siv" not in build) and (key_size == 16 or is_all or not takes_few(build))


def arguments_taken(row, build, key_size, is_all):
    """Gives the arguments that a build has for a statement. `is_all`: with PROVE=all."""
    has_more, has_most = not takes_few(build), is_all or not takes_few(build, is_all)
    taken = [*(row.keys_24_32 if key_size != 16 else ())]
    if key_size == 16 or is_all and has_more:
        taken += [*row.each, *(row.most if has_most else ())]
    if is_all and build in HAVE_EVERY:
        taken += row.every
    if is_all and has_more and key_size == 16:
        taken += [*row.more, *(row.without_every if build not in HAVE_EVERY else ())]
    return dict.fromkeys(taken)


def name_of(row, values):
    return " ".join([row.name] + [str(v) for v in values if v not in ("", (), NO_CARRY)])


def list_cases(options):
    """Prints the cases of the chosen builds, statement by statement. All builds also have set_key, and all refusals."""
    is_all = options.level == "all"
    for build, key_size in ((build, size) for build in options.builds for size in options.keys if has_keys(build, size, is_all)):
        print("\n%s.s, keys of %d bytes" % (build, key_size))
        library = build.split("/")[1][:3]
        for row in [*common_rows(library, "as in the header"), *rows_of(library, BUILDS[build])]:
            taken = arguments_taken(row, build, key_size, is_all)
            names = [name_of(row, as_tuple(values))[len(row.name) + 1:] or "once" for values in taken]
            if names and options.only in row.name:
                print("    %s: %s\n        %s" % (row.name, row.what or "no arguments", "; ".join(names)))


def statements(keyed, options, part, parts):
    """Gives the cases of one part as (what, Call). set_key was proved before."""
    program = keyed.program
    number = itertools.count()
    refusals = collections.Counter()
    for row in [*common_rows(keyed.library, version(options.dist, keyed.library)), *rows_of(keyed.library, program.machine)]:
        for values in arguments_taken(row, program.build, keyed.key_size, options.level == "all"):
            values = as_tuple(values)
            what = name_of(row, values)
            if options.only in what and next(number) % parts == part:
                yield what, AtLengths(keyed, row.name, *values) if row.name in TABLES else getattr(keyed, row.name)(*values)
    for call in keyed.refused():
        refusals[call.name] += 1
        if options.only in call.name + " refused" and next(number) % parts == part:
            yield "%s refused %d" % (call.name, refusals[call.name]), call
