"""States the calls of fotsgure_aes.h for blocks, counter mode and CBC. Each statement quotes the sentence of the header that it proves
(keyed.py says how). The statements for the other calls are in key_wrap.py, cmac_ccm.py, cmac_pieces.py, any_ccm.py and
single_rounds.py."""
import itertools

from aes_statements.any_ccm import AnyCcm
from aes_statements.cmac_pieces import CmacPieces
from aes_statements.key_wrap import KeyWrap
from aes_statements.single_rounds import SingleRounds
from loops.joints import Part
from loops.lengths import move_on
from loops.linear import WORD, Linear, unknown
from machines.operands import NEVER, CounterWord, Pointer, Verdict, is_int
from machines.regions import Window
from statements.calls import Buffer, Call
from statements.keyed import (ANY_COUNT, BATCH, DONE, KEY_LENGTH, KEYSTREAM_END, NO_KEY, UNEQUAL_COUNTS, Keyed, facts_of_range, unequal,
                              unused_buffer)
from statements.standards import number
from statements.steps import NO_STEP
from symbols.bits import DATA, LOST, PUBLIC, UNDEFINED, Unproved

LEFT_OF_CBC = {"data": 2 * 16 * BATCH}  # bytes of encrypted blocks, of two batches, that may stay after CBC decryption
LEFT_OF_COUNTER_MODE = {"keystream": 8 * 16}  # bytes of eight blocks, which are processed at once


class KeyedAes(SingleRounds, AnyCcm, CmacPieces, KeyWrap, Keyed):
    """Has the statements for all calls of fotsgure_aes.h. Those for blocks, counter mode and CBC are here."""

    # Blocks.
    def data_blocks(self, count):
        return [x for b in range(count) for x in self.in_block(self.block_bytes, b)]

    def result_blocks(self, direction, count):
        return [x for b in range(count) for x in self.in_block(self.ciphers[direction], b)]

    def blocks(self, direction, count, way=""):
        """Encrypts (Cipher, FIPS 197, 5.1) or decrypts (InvCipher, 5.3) each of `count` blocks in place under the key of *aes. DONE. With
        _to: The same from one buffer to another; counts are in blocks. With _with: In one call, under a key"""
        content, results = self.data_blocks(count), self.result_blocks(direction, count)
        return self.call_in_each_way("aes_%s_blocks" % direction, way, [], "blocks", content, results, count,
                                     plain=content if direction == "encrypt" else results)

    # Calls of every length (lengths.py): step * n + `rest` blocks or bytes. The facts say that the buffer isn't larger than PTRDIFF_MAX.
    def in_last_block(self, pattern, count):
        """Gives a function of the machine: the bytes of a pattern in the last block."""
        return lambda m: [self.domain.moved(b, m.known(count) - 1 - m.first_block) for b in pattern]

    def call_of_any_count(self, name, state, content, want, count, size, plain, way="", choose=None, facts=(), skip=0, **more):
        """States a call on data of every length. `content` is the pattern of the data before the call, and `want` the one after it."""
        facts, key = {unknown("n"), self.highest // 2 - size, *facts}, [self.schedule()]
        if way == "_with":
            key, more["later"] = [Buffer("key", self.key), self.key_size], lambda m: self.go_on(m, {})
        return Call(name + way, [*key, *state, *self.streams_of(way, "blocks", size, count, content, want, choose, skip)], DONE,
                    plain=self.in_all_blocks(plain), facts=facts, **more)

    def any_blocks(self, direction, rest, way="", step=16):
        count = unknown("n") * step + rest
        content = self.pattern(self.block_bytes)
        want = self.pattern(self.ciphers[direction])
        return self.call_of_any_count("aes_%s_blocks" % direction, [], content, want, count, count * 16,
                                      content if direction == "encrypt" else want, way)

    def any_low_keystream(self, skip, rest, way=""):
        """States counter mode of every length where the low half doesn't carry. Then there are far fewer ways through the code."""
        return self.any_keystream(skip, rest, way, NEVER)

    def any_keystream(self, skip, rest, way="", wrap=unknown("wrap")):
        """States counter mode at every position 16 k + `skip`, for any initial counter block. The low half carries at any place, or
        nowhere."""
        return self.keystream_of_any(skip, unknown("n") * 128 + rest, way, wrap)

    # The same for every position and every length, where the low half doesn't carry. `end` counts the bytes from the beginning of the first
    # block of keystream on.
    def every_short_keystream(self, way=""):
        return [self.short_keystream(skip, way) for skip in range(16)]

    def every_long_keystream(self, way=""):
        return [self.long_keystream(rest, way) for rest in range(16)]

    def short_keystream(self, skip, way):
        """States counter mode at every position 16 k + `skip`, for every `end` below 128."""
        end = unknown("end")
        return self.keystream_of_any(skip, end - skip, way, NEVER, {end - skip, 127 - end}, parts=[Part("end", 128)])

    def long_keystream(self, rest, way):
        """States counter mode at every position, for every `end` of 128 n + 16 k + `rest`, where n isn't 0."""
        n, skip, blocks = unknown("n"), unknown("skip"), unknown("blocks")
        end, buffer = n * 128 + blocks * 16 + rest, "output" if way == "_to" else "blocks"

        def steps(m):
            if m.phase == 0:
                return "begun", buffer, ()
            return ("now", buffer, ()) if m.phase == 1 and self.only_rest_is_left(m, m.regions[buffer], end) else NO_STEP
        cases = {-skip}, {skip - 1, 1 - n}, {skip - 1, n - 2}
        return self.keystream_of_any(skip, end - skip, way, NEVER, {n - 1, *facts_of_range(skip, 0, 15), *facts_of_range(blocks, 0, 7)},
                                     steps=steps, parts=[Part("skip", 16, 1, ({-skip}, {skip - 1}), scouted=(0, 1, 4, 13)),
                                                         Part("n", 1, 2, cases), Part("blocks", 8)])

    def only_rest_is_left(self, m, window, end):
        """Whether all 128 n bytes of `end` are done. Then n says how often a loop ran, and the last batch begins with the first block."""
        window.settle(m)
        whole = m.known(unknown("n")) * 128
        left = whole - window.origin - window.skip
        if not m.is_below(m.known(end) - whole + left, 128) or not (m.implied(left) and m.implied(-left)):
            return False
        if not is_int(left):
            m.assume(left)
        by = m.known(unknown("n")) * 8 - 8 - m.first_block
        if by != 0:
            move_on(m, by)
        return True

    def keystream_of_any(self, skip, count, way, wrap, facts=(), **more):
        """States counter mode for `count` bytes, which are after `skip` bytes of a block."""
        before = unknown("before")
        d = self.domain
        end = before * 16 + skip + count
        _, streams, data = self.counter_blocks()
        given = self.key_domain if way == "_with" else d
        before_iv, iv = map(self.any_iv, (given, d))

        def choose(m, number):
            below = m.is_below(m.counter.first + number, m.counter.wrap)
            return [below if below is None else 1 - below] * 16
        content, wants = self.pattern(data), [self.pattern(self.aes.xor(data, stream)) for stream in streams]
        ctr = Buffer("ctr", before_iv + [given.opaque((before * 16 + skip, k)) for k in range(8)],
                     lambda m: iv + m.to_bytes(m.known(end), 8), align=8)
        return self.call_of_any_count("aes_add_keystream", [ctr], content, wants, count, count, content + sum(wants, []), way, choose,
                                      {before, WORD - end, wrap - 1, WORD + 1 - wrap, *facts}, skip,
                                      counter=CounterWord(ANY_COUNT, before, wrap, end + 16 * BATCH),
                                      keystream=self.in_all_blocks(self.pattern(sum(streams, []))),
                                      may_stay=LEFT_OF_COUNTER_MODE, **more)

    def any_iv(self, domain):
        """Gives an initial counter block of unknown value, for calls of every length."""
        d, low = self.domain, self.counter_blocks()[0]
        d.placed[ANY_COUNT] = lambda number, k: d.bits(d.byte_in_block(low[7 - k], number))
        self.key_domain.placed[ANY_COUNT] = lambda number, k: None
        return [b for base in ("counter high", ANY_COUNT) for b in [domain.opaque((Pointer(base, 0), k)) for k in range(8)][::-1]]

    def any_cbc_decrypt(self, rest, step=64):
        content = self.pattern(self.block_bytes)
        previous = self.pattern(self.block_bytes, -1)
        count = unknown("n") * step + rest
        between = self.pattern(self.ciphers["decrypt"])
        want = self.aes.xor(between, previous)
        cbc = Buffer("cbc", previous, self.in_last_block(content, count))
        return self.call_of_any_count("aes_cbc_decrypt", [cbc], content, want, count, count * 16, want + between,
                                      may_stay=LEFT_OF_CBC)

    def any_cbc_encrypt(self):
        """States CBC encryption of every length. A plain block has the number of the encrypted block before it."""
        chain, chained = self.chain()
        count = unknown("n")
        d = self.domain
        content, want = self.pattern(self.block_bytes, -1), self.pattern(chain)

        def steps(m):
            k = m.steps_found - m.first_block
            return self.steps_appear_in, [d.moved(b, k) for b in chained], [d.moved(b, k) for b in want]
        cbc = Buffer("cbc", chain, self.in_last_block(want, count))
        return self.call_of_any_count("aes_cbc_encrypt", [cbc], content, want, count, count * 16, content, steps=steps,
                                      may_stay={"plain": 16} if self.program.machine.relaxed else None)

    def call_in_each_way(self, name, way, state, data_name, data, results, count, **more):
        """States a call that changes data under the key of *aes. With _with the call gets a key instead. With _to it writes to another
        buffer. `state` has the arguments between the key and the data."""
        if way == "_with":
            arguments = [Buffer("key", self.key), self.key_size, *state,
                         Buffer(data_name, self.not_yet(data_name, len(data)), results), count]
            more["later"] = lambda m: self.go_on(m, {data_name: data})
        else:
            arguments = [self.schedule(), *state, *self.data_arguments(way, data_name, data, results, count)]
        return Call(name + way, arguments, DONE, **more)

    # A call that expands a key begins in the key's domain. The data aren't in that domain: of their bytes only the names are known. When
    # the call first computes with such a byte, each byte that was made from the key becomes what it is for any round keys.
    def not_yet(self, name, count):
        return [self.key_domain.opaque((name, k)) for k in range(count)]

    def go_on(self, m, contents):
        """Moves a machine from the key's domain to that of any round keys. `contents` has the bytes of buffers by the names of these. A
        byte that isn't a sum of bits of a round key is lost."""
        d, e = self.key_domain, self.domain
        if m.domain is not d:
            raise Unproved("computes with bytes that it isn't given")

        def convert(b):
            name = d.name_of_opaque.get(b)
            if b < 256 or name and isinstance(name[0], Linear):
                return b if b < 256 else e.opaque(name)
            # (Names that say something of other bytes mean others in the new domain.)
            is_kept = name in (UNDEFINED, LOST) or isinstance(name, tuple) and not isinstance(name[0], Verdict)
            if not d.symbolic(b) and is_kept:
                return contents[name[0]][name[1]] if name[0] in contents else e.opaque(name)
            try:
                return self.byte_for_any(b)
            except Unproved:
                lost = e.opaque(LOST)
                m.secret.lost.add(lost)
                return lost
        pairs = [pair for x, y in zip(self.key_words, self.round_key_words) for pair in zip(x, y)]
        pairs += [(d.opaque((name, k)), b) for name, content in contents.items() for k, b in enumerate(content)]
        m.replace_bytes(convert, e, pairs)
        for window in (r for r in m.regions.values() if isinstance(r, Window)):
            window.waits = False

    # Counter mode (SP 800-38A, 6.5). The caller chooses the counter, a number of 128 bits. Its parts are words of unknown value. The lowest
    # word wraps around from block `wrap` on, or not within the call. When it wraps, the `full` words above it have all bits set and become
    # 0. The next word above these, "counter high", becomes another unknown word.
    def counter_blocks(self, full=0):
        """Gives the bytes of the lowest word, Cipher of a counter block before and after that word wraps around, and the bytes of a data
        block. Also tells the domain which of these bytes belong to which word of unknown value."""
        d, size = self.domain, self.address

        def word(at, *of_block):
            return [d.fresh("counter byte %d" % i, PUBLIC, *of_block) for i in range(at, at + size)]

        def make():
            places = range(0, 16 - size * (full + 2), size)
            low = word(16 - size, True)
            fixed = [word(at) for at in places]
            next_ = [word(len(places) * size) for _ in range(2)]
            names = self.higher_words(full)
            parts = [(Pointer(names[-1], carry), bytes_) for carry, bytes_ in enumerate(next_)]
            parts += [(Pointer(base, 0), bytes_) for base, bytes_ in zip(names, fixed)] + [(None, low)]
            d.word_of_cell.update((d.cell_of(b)[0], (name, size - 1 - i)) for name, bytes_ in parts for i, b in enumerate(bytes_))
            d.bits_of_word[names[-1]] = lambda offset, k: d.bits(next_[offset][size - 1 - k]) if offset in (0, 1) else None
            for base, bytes_ in zip(names, fixed):
                d.bits_of_word[base] = lambda offset, k, bytes_=bytes_: None if offset else d.bits(bytes_[size - 1 - k])
            high = [sum(fixed, []) + next_[carry] + [0 if carry else 255] * size * full for carry in range(2)]
            streams = [self.aes.cipher(h + low, self.round_key_words) for h in high]
            return low, streams, [d.fresh("data byte %d" % i, DATA, True) for i in range(16)]
        return self.made_once(("counter", full), make)

    def higher_words(self, full=0):
        """Names the words above the full ones, the highest first."""
        places = range(0, 16 - self.address * (full + 2), self.address)
        return [name + ", %d full" % full * bool(full) for name in (*("counter from byte %d" % at for at in places), "counter high")]

    def counter_words(self, domain, first, full=0):
        """Gives the bytes of an `iv` of unknown value, the highest first, and the name of its lowest word."""
        d = self.domain
        size = self.address
        low = self.counter_blocks(full)[0]
        name = "counter low, from %d" % first + ", %d full" % full * bool(full)
        d.bits_of_word[name] = lambda offset, k: d.bits(d.byte_in_block(low[size - 1 - k], offset - first + 1))
        words = [[domain.opaque((Pointer(base, 0), k)) for k in range(size)][::-1] for base in (*self.higher_words(full), name)]
        return sum(words[:-1], []) + [255] * size * full + words[-1], name

    def keystream(self, position, count, wrap, full):
        """Gives the data before and after the call, and the keystream. Byte i of that is byte i % 16 of Cipher of the block (iv + i /
        16)."""
        first = position // 16
        _, streams, data_bytes = self.counter_blocks(full)
        places = range(position, position + count)
        blocks = range(first, first + (position % 16 + count) // 16 + 1)
        stream = [b for block in blocks for b in self.in_block(streams[block >= wrap], block - first)]
        data = [self.domain.byte_in_block(data_bytes[t % 16], t // 16 - first + 1) for t in places]
        return data, self.aes.xor(data, stream[position % 16:]), stream

    def add_keystream(self, position, count, wrap=NEVER, way="", full=0):
        """adds (XOR) to each of `count` bytes the keystream's byte at its place, the first at ctr->position, and moves the position on by
        `count`. .. (iv + i / 16) modulo 2^128. .. DONE. With _to: The same from one buffer to another; counts are in bytes. With _with: In
        one call, under a key"""
        data, want, stream = self.keystream(position, count, wrap, full)
        before, name = self.counter_words(self.key_domain if way == "_with" else self.domain, position // 16, full)
        after, _ = self.counter_words(self.domain, position // 16, full)
        ctr = Buffer("ctr", before + number(position, 8)[::-1], after + number(position + count, 8)[::-1], align=8)
        counter = CounterWord(name, position // 16, wrap, position + count + 16 * BATCH)
        return self.call_in_each_way("aes_add_keystream", way, [ctr], "bytes", data, want, count, counter=counter,
                                     keystream=stream, plain=data + want, may_stay=LEFT_OF_COUNTER_MODE)

    # CBC (SP 800-38A, 6.2).
    def cbc_decrypt(self, count):
        """Cipher block chaining in place (SP 800-38A, 6.2) .. decrypts the next `count` blocks of a chain, and moves *cbc on to the last
        encrypted one. DONE"""
        previous = self.any_bytes("previous")
        content = self.data_blocks(count)
        chain = previous + content
        between = self.result_blocks("decrypt", count)
        want = self.aes.xor(between, chain)
        return Call("aes_cbc_decrypt", [self.schedule(), Buffer("cbc", previous, chain[-16:]), Buffer("blocks", content, want), count],
                    DONE, plain=want + between, may_stay=LEFT_OF_CBC)  # (what the cipher gives reveals the text)

    def chain(self):
        """Gives any value before a block of a chain, and Cipher of the sum of the value and the block."""
        value = self.any_bytes("chain", DATA, True)
        return value, self.cipher_of(self.aes.xor(self.block_bytes, value))

    def cbc_encrypt(self, count):
        """.. encrypts .. the next `count` blocks of a chain. After each block the encrypted block, which is what it should be, becomes an
        arbitrary one."""
        chain, chained = self.chain()

        def steps():
            for b in range(count):
                yield self.steps_appear_in, self.in_block(chained, b), self.in_block(chain, b + 1)
        blocks, content = [self.in_block(chain, b) for b in range(count + 1)], self.data_blocks(count)
        want = [x for b in blocks[1:] for x in b]
        arguments = [self.schedule(), Buffer("cbc", blocks[0], blocks[-1]), Buffer("blocks", content, want), count]
        return Call("aes_cbc_encrypt", arguments, DONE, steps=steps, plain=content,
                    may_stay={"plain": 16} if self.program.machine.relaxed else None)

    def cipher_of(self, block, direction="encrypt"):
        """Gives Cipher or InvCipher of a block of constants and of bytes of block 0."""
        if block == self.block_bytes:
            return self.ciphers[direction]
        cipher = self.aes.cipher if direction == "encrypt" else self.aes.inv_cipher
        return self.made_once((direction, *block), lambda: cipher(block, self.round_key_words))

    def at_link(self, m, bytes_, k):
        """Moves bytes to link k of a chain. Block k and the value before it have number k - 1, so no pass keeps bytes that it doesn't
        need."""
        return self.at_block(m, bytes_, k - 1)

    # Calls that are refused, for all their arguments. Only the status changes. Buffers aren't read, so they have no bytes here.
    def refused(self):
        """NO_KEY .. UNEQUAL_COUNTS if they differ .. KEYSTREAM_END if the position would pass 2^64 - 1 .. INVALID_COUNT if keys of so many
        semiblocks are not wrapped, or the output isn't one longer or one shorter"""
        n, k = unknown("n"), unknown("k")
        key, none = self.schedule(), self.no_key()
        blocks, input_, output = unused_buffer("blocks"), unused_buffer("input", False), unused_buffer("output")
        cbc = self.stays("cbc", self.any_bytes("previous"))
        sizes = facts_of_range(n, 0, self.highest) | facts_of_range(k, 0, self.highest)
        for direction in ("encrypt", "decrypt"):
            name = "aes_%s_blocks" % direction
            yield Call(name, [none, blocks, n], NO_KEY, facts=sizes)
            yield Call(name + "_to", [none, input_, n, output, n], NO_KEY, facts=sizes)
            for aes, facts in itertools.product((none, key), unequal(n, k)):
                yield Call(name + "_to", [aes, input_, n, output, k], UNEQUAL_COUNTS, facts=sizes | facts)
            yield Call("aes_cbc_" + direction, [none, cbc, blocks, n], NO_KEY, facts=sizes)
        yield from self.keystream_refused(key, none, sizes)
        yield from self.wrap_refused(key, none, sizes)
        yield from self.wrap_padded_refused(key, none, sizes)
        for length, facts in self.lengths_but((16, 24, 32), "length"):
            arguments, facts = [unused_buffer("key", False), length], sizes | facts
            for direction in ("encrypt", "decrypt"):
                yield Call("aes_%s_blocks_with" % direction, [*arguments, blocks, n], KEY_LENGTH, facts=facts)
            yield Call("aes_add_keystream_with", [*arguments, self.ctr(k), unused_buffer("bytes"), n], KEY_LENGTH, facts=facts)
        yield from self.cmac_refused()
        yield from self.cmac_pieces_refused()
        yield from self.ccm_refused()

    def ctr(self, position):
        """Makes a counter at a position that isn't known."""
        return Buffer("ctr", *2 * [self.data_blocks(1) + self.unknown_number(position)], align=8)

    def keystream_refused(self, key, none, sizes):
        n, k = unknown("n"), unknown("k")
        position, position_facts = self.number_of_words("position")
        ctr = self.ctr(position)
        sizes = sizes | position_facts
        bytes_ = unused_buffer("bytes")
        to = lambda aes, n, k: [aes, ctr, unused_buffer("input", False), n, unused_buffer("output"), k]
        passes, stays = {position + n - WORD - 1}, {WORD - position - n}
        for aes, facts, status in ((none, stays, NO_KEY), (none, passes, KEYSTREAM_END), (key, passes, KEYSTREAM_END)):
            yield Call("aes_add_keystream", [aes, ctr, bytes_, n], status, facts=sizes | facts)
            yield Call("aes_add_keystream_to", to(aes, n, n), status, facts=sizes | facts)
        for aes, facts in itertools.product((none, key), unequal(n, k)):
            yield Call("aes_add_keystream_to", to(aes, n, k), UNEQUAL_COUNTS, facts=sizes | facts)
        for length in (16, 24, 32):
            yield Call("aes_add_keystream_with", [Buffer("key", self.data_blocks(2)[:length]), length, ctr, bytes_, n], KEYSTREAM_END,
                       facts=sizes | passes)
