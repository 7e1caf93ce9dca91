"""Makes calls.h: a C function that makes each call once, on secret keys, round keys, blocks and data (README.md). A slice has 0 to 17
blocks: two batches of eight and a tail, and every length below."""
import itertools

from evidence.exports.expand import TABLES, rows

SIZES, DIRECTIONS = TABLES["SIZE"], TABLES["DIRECTION"]
CRATES, MODES, WRAPS, ANSWERS = ([row[it] for row in TABLES[it]] for it in ("CRATE", "MODE", "WRAP", "ANSWER"))
NUMBERS = {"u32": "uint32_t", "u64": "uint64_t"}
SLICES = range(18)
TEXTS = (0, 1, 16, 33, 130, 1000)
WAYS = ["block", "block b2b", "slice", "slice b2b", "backend"]
CONVERSIONS = ["dec of lent", "dec of given", "both of lent", "both of given", "clone of enc", "clone of both", "clone of dec", "zeroized"]
STEPS = ["cipher_round", "equiv_inv_cipher_round", "mix_columns", "inv_mix_columns"]
ROUNDS = ["AesEnc", "Aes enc", "as_encdec enc", "AesDec", "Aes dec", "as_dec", "as_encdec dec"]
# Up to four blocks, by eights, 64 and 512 at a time, and calls that cross a block.
CUTS = [(0, 0), (1, 0), (5, 11), (16, 0), (16, 5), (64, 0), (65, 3), (200, 0), (129, 1000), (1024, 0), (1025, 0), (8192, 37), (8209, 0)]
FROM, PIECES = ["new_at", "seek", "add_keystream"], ((0, 16), (5, 7), (1000, 1025), (2**64 - 2000, 1999))
# What the calls are given after which the stack is searched.
GIVEN = {"Block": ("b", 16), "[Block]": ("b", 144, 9), "[u8]": ("b", 16, 16)}


def blocks(kind, n):
    return (kind, 16 * n, n)


def bytes_of(kind, n):
    return (kind, n, n)


def wanted_of(n):
    return "clean" if n else "empty"


def types(direction):
    """The types of a direction: number, name, bytes of a key."""
    return [(it["OF"], f"Aes{it['SIZE']}{it['TYPE_END']}", it["KEY"]) for it in rows("TYPE", direction)]


class Calls:
    """The declarations of the exports, and the calls, one group after the other."""

    def __init__(self):
        self.declared, self.body = {}, []
        groups = (self.schedules, self.types, self.conversions, self.single_rounds, self.rounds, self.counter_mode, self.modes, self.slices,
                  self.wipes, self.searched)
        for group in groups:
            group()

    def call(self, name, *args, label="", returns=None, wanted="clean"):
        """A call of an export. An argument is a kind and a number of bytes, as ('s', 16); a third number makes it a slice with that number
        of elements. ('u32', n) is a number. harness.c says what the kinds mean."""
        kinds, passed, lines = [], [], []
        for i, (kind, size, *count) in enumerate(args):
            if kind in NUMBERS:
                kinds.append(NUMBERS[kind])
                passed.append(str(size))
                continue
            lines.append(f"void *x{i} = buffer('{kind}', {size});")
            kinds += ["void *", *("size_t" for _ in count)]
            passed += [f"x{i}", *map(str, count)]
        result = "void" if returns is None else "uint32_t"
        line = f"{result} {name}({', '.join(kinds)});"
        assert self.declared.setdefault(name, line) == line, name
        title = f"{name} {label}".strip()
        keep = "" if result == "void" else "answer = "
        lines += ["uint64_t answer = 0;", f'begin("{title}");', f"{keep}{name}({', '.join(passed)});"]
        lines += [f'end("{title}", "{wanted}", answer, {returns or 0});']
        self.body.append("    { " + " ".join(lines) + " }")

    def schedules(self):
        """Schedules and ciphers of the full layout on every word, and widened round keys."""
        for size, word in itertools.product(SIZES, TABLES["WORD"]):
            given = ("u32", word["NUMBER"]), ("s", size["KEY"]), *(blocks(kind, word["BLOCKS"]) for kind in "soo")
            for of in ("full", *(["widened"] if word in TABLES["WIDE"] else [])):
                self.call(f"ev_{of}_{size['SIZE']}", *given, label=word["WORD"])

    def types(self):
        """The nine types of each crate."""
        for crate, direction in itertools.product(CRATES, DIRECTIONS):
            for of, type_, key in types(direction):
                name = f"ev_{crate}_{direction['VERB']}_{of}"
                for way, what in enumerate(WAYS):
                    for n in SLICES if way >= 2 else (1, 3):
                        self.call(name, bytes_of("s", key), ("u32", way), blocks("s", n), blocks("o", n),
                                  label=f"{type_} {what} {n}", returns=1, wanted=wanted_of(n))
                # A wrong length is refused before a secret is looked at.
                self.call(name, bytes_of("s", key + 1), ("u32", 2), blocks("s", 9), blocks("p", 9), label=f"{type_} refused key",
                          returns=0, wanted="empty")

    def conversions(self):
        """Conversions between the types, clones and `zeroize`."""
        for crate, size, (way, what) in itertools.product(CRATES, SIZES, enumerate(CONVERSIONS)):
            given = bytes_of("s", size["KEY"]), ("u32", way), blocks("s", 9), blocks("o", 9)
            self.call(f"ev_{crate}_converted_{size['SIZE']}", *given, label=what, returns=1)

    def single_rounds(self):
        """Single rounds on one block and on eight."""
        for par, n, count in (("", 16, 4), ("_par", 128, 2)):
            for way, of in enumerate(STEPS[:count]):
                self.call(f"ev_hazmat{par}", ("u32", way), ("b", n), ("s", n), label=of)

    def rounds(self):
        """The schedule of planes with no value around it, key expansion, the calls that count S-box layers, the ciphers round by round."""
        for size, key, words, count in map(dict.values, SIZES):
            self.call(f"ev_planes_{size}", ("s", key), ("o", 2 * words))
            self.call(f"ev_expand_{size}", ("s", key), ("o", 16 * count))
            for n in (1, 9):
                self.call(f"ev_counted_{size}", ("s", key), blocks("b", n), label=str(n))
            for (way, of), (par, by) in itertools.product(enumerate(ROUNDS), enumerate(("blocks", "par"))):
                self.call(f"ev_rounds_{size}", ("s", 16 * count), ("u32", way), ("u32", par), ("b", 128), label=f"{of} {by}")

    def counter_mode(self):
        """Counter mode in two pieces, and from a position."""
        for crate in CRATES:
            for (of, type_, key), (first, rest) in itertools.product(types(DIRECTIONS[0]), CUTS):
                self.call(f"ev_{crate}_ctr_{of}", bytes_of("s", key), ("s", 16), bytes_of("b", first), bytes_of("b", rest),
                          label=f"{type_} {first}+{rest}", returns=1, wanted=wanted_of(first + rest))
            for (way, what), (position, n) in itertools.product(enumerate(FROM), PIECES):
                self.call(f"ev_{crate}_ctr_from", bytes_of("s", 16), ("u32", way), ("s", 16), ("u64", f"{position}u"), bytes_of("b", n),
                          label=f"{what} {n} at {position}", returns=1)

    def modes(self):
        """The other modes. A comparison of tags gives one answer: whether the tag was right."""
        name = "ev_left_modes_128"
        for direction, n in itertools.product(DIRECTIONS, SLICES):
            self.call(f"{name}_slice_cbc_{direction['DONE']}", ("s", 16), blocks("b", n), label=str(n), wanted=wanted_of(n))
        for mode, n in itertools.product(MODES, TEXTS):
            # CMAC makes only a tag, and leaves the text as it is.
            kind, wanted = ("s", "empty") if mode == "cmac" else ("b", wanted_of(n))
            self.call(f"{name}_stream_{mode}_sealed", ("s", 16), bytes_of(kind, n), label=str(n), returns=1, wanted=wanted)
            for answer in ANSWERS:
                self.call(f"{name}_stream_{mode}_{answer}", ("s", 16), bytes_of("s", n), label=str(n), returns=1, wanted="answered")
        for wrap, answer in itertools.product(WRAPS, ANSWERS):
            # Without padding a key has at least two semiblocks.
            for n in (3, 5, 7, 17)[wrap == "wrap" :]:
                self.call(f"{name}_slice_{wrap}_{answer}", ("s", 16), ("s", 8 * n, n), label=str(n), returns=1, wanted="answered")
        for n in TEXTS:
            self.call("ev_left_modes_256_stream_ctr_drbg", ("s", 32), bytes_of("o", n), label=str(n), returns=1, wanted=wanted_of(n))

    def slices(self):
        """Bytes that are blocks."""
        for crate, direction in itertools.product(CRATES, DIRECTIONS):
            name = f"ev_{crate}_{direction['VERB']}_bytes"
            for n in (*SLICES, 64, 65, 66):
                self.call(name, ("s", 16), bytes_of("b", 16 * n), label=f"{n} blocks", returns=1, wanted=wanted_of(n))
            # Bytes that end inside a block are refused, and nothing is written.
            self.call(name, ("s", 16), bytes_of("p", 33), label="33 bytes", returns=0, wanted="empty")

    def wipes(self):
        for word, n in itertools.product(TABLES["WIPED"], (0, 1, 88, 120)):
            self.call(f"ev_wipe_words_{word['WORD']}", ("z", 2 * word["BLOCKS"] * n, n), label=str(n), wanted=wanted_of(n))

    def searched(self):
        """The calls after which the stack is searched."""
        for size in SIZES:
            for of in ("not_wiped", "words_wiped"):
                self.call(f"ev_left_words_{size['SIZE']}_{of}", ("s", size["KEY"]), ("b", 16))
            for crate, left in itertools.product(CRATES, TABLES["LEFT"]):
                self.call(f"ev_left_{crate}_{size['SIZE']}_{left['WHAT']}", ("s", size["KEY"]), GIVEN[left["BLOCKS"]])

    def content(self):
        return "\n".join([*self.declared.values(), "static void calls(void) {", *self.body, "}\n"])
