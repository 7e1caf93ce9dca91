"""Has what the statements for all calls share: one build and one size of key, the struct that holds the key, and arguments.
Docstrings of statements quote the header; `..` is what is left out.

The calls are proved in two steps, since they share the struct. `set_key` runs on a key of symbolic bytes. Each bit that it stores is found
to be a sum of bits of one byte of a round key, or of its InvMixColumns. The other calls start from a struct of these sums, where round keys
are arbitrary bytes. So they are proved for any round keys, and thus for those of any key."""
from loops.linear import WORD, unknown
from machines.operands import LAST, LEAD
from statements.calls import ANY, Buffer, Call, Stream, prove_call, refuse_other_parameters
from statements.standards import Aes, number
from symbols.bits import BLOCK, DATA, KEY, ONES, Unproved, linear_bits
from symbols.domain import Domain

# fotsgure_aes.h's enum, structs and sizes. headers.py lets the compiler compare them.
(DONE, KEY_LENGTH, NO_KEY, UNEQUAL_COUNTS, KEYSTREAM_END, INVALID_COUNT, REFUSED, TAG_LENGTH, NONCE_LENGTH, TOO_LONG,
 OUT_OF_TURN) = range(11)
STATUSES = ("DONE KEY_LENGTH NO_KEY UNEQUAL_COUNTS KEYSTREAM_END INVALID_COUNT REFUSED TAG_LENGTH NONCE_LENGTH TOO_LONG "
            "OUT_OF_TURN").split()
STRUCT = 484
# How builds keep round keys: the bytes of a schedule, and of a word of the key in it. Narrow builds keep bits in planes of words. With
# words of 4 bytes they keep each bit twice, for two blocks at once, and with words of 8 bytes four times, for four. Their schedule serves
# both directions.
SCHEDULE = 240, 4

BATCH = 16  # a batch may have more blocks than the text
ANY_COUNT = "counter low, any count"  # the lower half of any counter block (KeyedAes.any_iv)
PTRDIFF_MAX = (1 << 63) - 1


class Keyed:
    """Keeps one build and one key size. `domain` is that of arbitrary round keys, and `key_domain` that of an arbitrary key."""
    library = "aes"
    prefix = "aes"
    schedules = 2
    key_sizes = 16, 24, 32

    def __init__(self, program, key_size):
        self.program, self.key_size = program, key_size
        self.highest = program.machine.highest
        self.address = program.machine.word
        narrow = program.narrow
        self.room, self.word = (120 * narrow, 2 * narrow) if narrow else SCHEDULE
        self.length_size = narrow or 4
        self.steps_appear_in = "vector" if program.machine.vector_count else "block"  # where the result of a step is looked for
        self.kept_size = self.length_size + self.room  # the key's length, and the round keys for encryption
        self.struct_size = self.size_of_struct()
        self.key_domain, self.domain = Domain(), Domain()
        self.key_aes, self.aes = Aes(self.key_domain), Aes(self.domain)
        self.key = [self.key_domain.fresh("key[%d]" % i, KEY) for i in range(key_size)]
        self.key_words = self.key_aes.key_expansion(self.key)
        self.round_key_words = [[self.domain.fresh("w[%d][%d]" % (i, k), KEY) for k in range(4)] for i in range(len(self.key_words))]
        self.name_round_keys()
        self.block_bytes = [self.domain.fresh("byte %d" % i, DATA, True) for i in range(16)]
        self.ciphers = {"encrypt": self.aes.cipher(self.block_bytes, self.round_key_words),
                        "decrypt": self.aes.inv_cipher(self.block_bytes, self.round_key_words)}
        self.cache = {}  # see made_once
        self.calls = set()  # the names of calls that were proved

    def name_round_keys(self):
        """Names all bytes of round keys and of their InvMixColumns in the key's domain, and keeps what each is for any round keys."""
        self.meaning = {}
        for r in range(len(self.round_key_words) // 4):
            a, b = self.key_aes.round_key(self.key_words, r), self.aes.round_key(self.round_key_words, r)
            mixed = zip(self.key_aes.inv_mix_columns(a), self.aes.inv_mix_columns(b))
            for x, y in list(zip(a, b)) + list(mixed):
                self.meaning[self.key_domain.name(x, "round key byte")] = self.domain.bits(y)

    def bit_for_any(self, x):
        """Gives a stored bit of a key expansion as what it is for any round keys: a sum of bits of one byte of a round key, or of its
        InvMixColumns."""
        if x < 2:
            return x
        ways = [] if x & BLOCK else [(c, t) for c, t in self.key_domain.single(x >> 9).items() if c in self.meaning]
        if not ways:  # (in the key's domain only a sum of products has BLOCK's bits)
            raise Unproved("a stored bit is not a sum of bits of one byte of a round key or of its InvMixColumns")
        cell, table = ways[0]
        out = (table ^ x) & 1
        for j in linear_bits(table ^ ONES * (table & 1)):
            out = self.domain.xor(out, self.meaning[cell][j])
        return out

    def byte_for_any(self, b):
        """Does the same with a byte."""
        return self.domain.pack([self.bit_for_any(x) for x in self.key_domain.bits(b)])

    def prove_statement(self, calls, seed=None, parameters=None):
        """Proves a statement, which may be several calls. Gives the machine after the last one. `parameters`: what a header declares."""
        for call in [calls] if isinstance(calls, Call) else calls:
            if parameters:
                refuse_other_parameters(parameters, call)
            given_the_key = any(b.content is self.key for b in call.buffers)
            m = prove_call(self.key_domain if given_the_key else self.domain, self.program, call, seed)
            self.calls.add(call.name)
        return m

    def made_once(self, what, make):
        """Gives what several statements need. It is made when it is first asked for."""
        if what not in self.cache:
            self.cache[what] = make()
        return self.cache[what]

    def fresh(self, name, depends=DATA, of_block=False, count=16):
        """Makes bytes that may have any value."""
        return [self.domain.fresh("%s byte %d" % (name, i), depends, of_block) for i in range(count)]

    def any_bytes(self, name, *more):
        """Gives bytes that may have any value: for a name the same ones each time."""
        return self.made_once(name, lambda: self.fresh(name, *more))

    def undefined(self, count):
        return [self.domain.undefined] * count

    def in_block(self, bytes_, block):
        """Gives functions of block 0's bytes as functions of this block's bytes."""
        return [self.domain.byte_in_block(x, block + 1) for x in bytes_]

    def in_blocks(self, bytes_, count, start=0):
        """Gives `count` bytes in blocks, from the place `start` on."""
        return [self.domain.byte_in_block(bytes_[i % 16], i // 16 + 1) for i in range(start, start + count)]

    # The struct.
    def size_of_struct(self):
        return self.length_size + (self.room if self.program.narrow else self.schedules * self.room)

    def set_key(self, seed=None):
        """Expands a key into *aes (KeyExpansion, FIPS 197, 5.2). *aes may be uninitialized: none of it is read. .. every byte that neither
        a round key of the new key nor its length takes is 0. DONE if key_length is 16, 24 or 32"""
        return self.keep_struct(self.prove_statement(self.expansion(ANY), seed))

    def keep_struct(self, m):
        """Keeps what set_key has stored, as it is for any round keys: the key's length, and schedules of up to 60 words each."""
        start, end = self.length_size, self.length_size + self.room * (1 if self.program.narrow else self.schedules)
        self.struct = [self.byte_for_any(b) for b in m.regions[self.library].content[:end]]
        if self.struct[:start] != number(self.key_size, start)[::-1]:
            raise Unproved("the struct has another length")
        for at in range(start, end, self.room):
            if any(self.struct[at + self.word * len(self.round_key_words):at + self.room]):
                raise Unproved("the struct holds more than round keys and zeros")
        return m

    def kept_key(self):
        """Gives, for each bit that a struct keeps of a key, the bits of round keys whose sum it is. So structs of two libraries can be
        compared."""
        d = self.domain
        return [(tuple(sorted(d.linear_part(x))) if x > 1 else (), x & 1) for b in self.struct[:self.kept_size] for x in d.bits(b)]

    def expansion(self, after, **more):
        """States a call of set_key. `after` is what the struct has to be after it."""
        struct = self.struct_of([self.key_domain.undefined] * self.struct_size, after)
        return Call(self.prefix + "_set_key", [struct, Buffer("key", self.key), self.key_size], DONE, **more)

    def set_key_refused(self):
        """.. else KEY_LENGTH, and *aes then is all zeros and holds no key."""
        struct = self.struct_of(self.undefined(self.struct_size), [0] * self.struct_size)
        for length, facts in self.lengths_but(self.key_sizes, "length"):
            yield Call(self.prefix + "_set_key", [struct, unused_buffer("key", False), length], KEY_LENGTH, facts=facts)

    def key_length(self):
        """Returns how many bytes the key has: 16, 24 or 32"""
        return Call(self.prefix + "_key_length", [self.schedule()], self.key_size, size=self.address)

    def key_length_of_none(self):
        """.. or 0 if *aes holds no key."""
        return Call(self.prefix + "_key_length", [self.no_key()], 0, size=self.address)

    def version(self, number):
        """Returns the version of the library"""
        return Call(self.prefix + "_version", [], number)

    def wipe(self):
        """Overwrites *aes with zeros: it then holds no key. It may be uninitialized"""
        return Call(self.prefix + "_wipe", [self.struct_of(self.undefined(self.struct_size), [0] * self.struct_size)], None)

    def schedule(self):
        return self.struct_of(self.struct)

    def no_key(self):
        return self.struct_of([0] * self.struct_size)

    def struct_of(self, content, after=None, **more):
        return Buffer(self.library, content, after, align=self.length_size, **more)

    # Calls of every length (lengths.py). A pattern has the bytes of the block with number LEAD, and perhaps of the block before or after
    # it.
    def pattern(self, bytes_, by=0):
        """Gives functions of the bytes of block 1 as those of the block with number LEAD + `by`."""
        return [self.domain.moved(b, LEAD - 1 + by) for b in bytes_]

    def at_block(self, m, bytes_, number):
        """Gives functions of the bytes of block 1 as those of the block with this number."""
        return [self.domain.moved(b, number - m.first_block) for b in self.pattern(bytes_)]

    def in_all_blocks(self, pattern):
        """Gives the bytes of a pattern in all blocks that may occur."""
        numbers = {n for b in pattern for n in self.domain.blocks(b)}
        return [self.domain.moved(b, k) for b in pattern for k in range(1 - min(numbers), LAST - max(numbers))]

    def streams_of(self, way, name, size, count, content, want, choose=None, skip=0):
        """Does what `data_arguments` does, for a call of every length."""
        if way == "_to":
            return [Stream("input", size, content, skip=skip), count,
                    Stream("output", size, self.undefined(16), want, choose, skip=skip), count]
        return [Stream(name, size, content, want, choose, skip=skip), count]

    def data_arguments(self, way, name, data, results, count):
        """Gives the arguments for data and for what a call makes of them: one buffer and its length, or two of each with _to."""
        if way == "_to":
            return [Buffer("input", data), count, Buffer("output", self.undefined(len(data)), results), count]
        return [Buffer(name, data, results), count]

    def stays(self, name, content):
        """Makes a buffer that may be written to, but has to be as it was."""
        return Buffer(name, content, content)

    def highest_first(self, number, size):
        return self.named_bytes(number, size)[::-1]

    def named_bytes(self, value, size):
        """Gives the bytes of a value by names. Code may put them together by shifts: then the value is found again."""
        bytes_ = [self.domain.opaque((value, k)) for k in range(size)]
        if self.program.machine.relaxed:
            self.domain.prefer(bytes_)
        return bytes_

    def number_of_words(self, name):
        """Gives an unknown number of 64 bits, in one word or in two, and the facts of it."""
        if self.highest == WORD:
            return unknown(name), facts_of_range(unknown(name), 0, WORD)
        low, high = unknown(name + ", low"), unknown(name + ", high")
        return low + high * (self.highest + 1), facts_of_range(low, 0, self.highest) | facts_of_range(high, 0, self.highest)

    def unknown_number(self, number):
        """Gives the bytes of a number of 64 bits that isn't known."""
        return self.words(self.parts(number))

    def parts(self, number):
        """Gives the words of such a number, as numbers."""
        return [number] if self.highest == WORD else [unknown(name) for name in sorted({name for name, _ in number.terms}, reverse=True)]

    def words(self, numbers):
        """Gives the bytes of numbers that have a word each."""
        return [b for n in numbers for b in (number(n, self.address)[::-1] if isinstance(n, int) else [
            self.domain.opaque((n, k)) for k in range(self.address)])]

    def lengths_but(self, right, name):
        return lengths_but(right, name, self.highest)


def unused_buffer(name, writable=True):
    """Makes a buffer of which no byte is read or written."""
    return Buffer(name, [], [] if writable else None)


def unused_data(way, n, k):
    """Gives the arguments for data that a call neither reads nor writes: n bytes, and with _to also k bytes of output."""
    return [unused_buffer("input", False), n, unused_buffer("output"), k] if way == "_to" else [unused_buffer("text"), n]


def facts_of_range(n, low, high):
    """Gives the facts that say that a number is from `low` to `high`."""
    return {n - low, high - n}


def unequal(a, b):
    """Gives the two ways in which numbers differ, as facts."""
    return {a - b - 1}, {b - a - 1}


def lengths_but(right, name, most=WORD):
    """Gives all lengths but the right ones: (a length, the facts of it). The last of the right ones is the highest."""
    length = unknown(name)
    return [(n, set()) for n in range(right[-1]) if n not in right] + [(length, facts_of_range(length, right[-1] + 1, most))]
