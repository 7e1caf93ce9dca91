"""Runs a processor beside the machine (processors.py), to check that instructions mean what x86_64.py, aarch64.py and riscv.py say.

A call runs on both, with random keys and data, one instruction at a time. After each instruction the general registers, the defined flags
and the vector registers that changed are compared. At the end all registers and all memory are compared. Each form of an instruction also
runs by itself, with random values. So each form that a proof used is compared."""
import random

from loops.linear import names_in
from machines.kinds import Kinds
from machines.operands import FARTHEST, RETURN_ADDRESS, Memory, Pointer, Register, concatenated, is_int
from machines.processors import PROCESSORS
from machines.regions import Region
from statements.cell_values import Values
from symbols.bits import DATA, PUBLIC, Unproved
from symbols.domain import Domain


class Native:
    """A machine with a processor that does the same."""

    def __init__(self, machine, seed=None, counter=None, values=None, processor=None):
        """A call has its own processor, and its own values, drawn by a seed. Instructions that run by themselves share both."""
        self.m = machine
        machine.ask = self.ask  # instead of raising a Question
        self.values = values or Values(machine.domain, random.Random(seed), counter, machine.highest)
        self.processor = processor or PROCESSORS[type(machine)](machine.program.path)
        self.seen = [None] * len(machine.vectors)  # the vector registers as they were when they were last compared
        self.place_regions()
        self.impose()

    def place_regions(self):
        """Places each buffer on its own pages, as its alignment requires. Undefined bytes are random."""
        values, at = self.values, self.m.program.symbols["area"]
        for name, region in self.m.regions.items():
            skew = region.past if region.align > 1 else values.random.randrange(1, 64)
            values.base[name] = at + skew
            at += len(region.content) + 4096 + skew & ~4095
            self.processor.write(values.base[name], values.random.randbytes(len(region.content)))

    def impose(self):
        """Sets the processor's registers and memory to those of the machine. Bytes whose value isn't known stay. This is done before the
        first instruction. It is done again if a statement replaces a result by constants, as the processor has computed others."""
        for name, region in self.m.regions.items():
            self.processor.write(self.values.base[name], self.known_or(region.content, lambda: self.memory(name)))
        vectors = enumerate(self.m.vectors)
        self.processor.put_vectors({n: self.known_or(v, lambda: self.processor.vectors([n])[n]) for n, v in vectors})
        self.processor.put_registers({**self.registers(), **self.parts_of_registers(self.processor.registers())})

    def registers(self):
        """Gives the machine's general registers and flags, as far as they are known, and the address of the next instruction."""
        words = {r: self.values.word(self.m.general[r]) for r in self.m.registers}
        flags = {f: self.values.flag(x) for f, x in self.m.flags.items()}
        known = {name: x for name, x in (*words.items(), *flags.items()) if x is not None}
        return {"next": self.values.word(self.m.next_address), **known}

    def parts_of_registers(self, have):
        """Gives the registers of which only some bytes are known, with the processor's other bytes."""
        word, others = self.m.word, [r for r in self.m.registers if self.values.word(self.m.general[r]) is None]
        known = {r: self.known_or(self.m.to_bytes(self.m.general[r], word), lambda: have[r].to_bytes(word, "little")) for r in others}
        return {r: int.from_bytes(b, "little") for r, b in known.items()}

    def memory(self, name):
        """Gives the processor's bytes of a buffer."""
        return self.processor.read(self.values.base[name], len(self.m.regions[name].content))

    def known_or(self, content, read):
        """Gives the values of bytes. Bytes without a known value have those that `read` gives."""
        known = self.values.bytes_of(content)
        return bytes([x if b is None else b for b, x in zip(known, read())] if None in known else known)

    def ask(self, flag):
        """Answers what the machine can't. In this one run it is known how far apart buffers are, and whether a key or a tag is right."""
        answer = all(self.values.full_byte(b) == 0 for b in flag[1:]) if flag[0] == "zero" else self.values.flag(flag)
        return self.m.answers.setdefault(flag, int(answer))

    def watch(self, m):
        """Runs the machine's last instruction on the processor, and compares both."""
        want = self.registers()
        if self.processor.step(m.program.instruction_at(m.last).name, want["next"], m.after_external):
            have = self.processor.registers()
            want.update(self.parts_of_registers(have))
            wrong = ["%s is %x and not %x" % (r, have[r], x) for r, x in want.items() if x != have[r]]
            self.refuse(wrong + self.wrong_vectors([n for n, v in enumerate(m.vectors) if v is not self.seen[n]]))

    def wrong_vectors(self, numbers):
        """Gives the differences in vector registers, at least in those with these numbers."""
        self.seen = list(self.m.vectors)
        return concatenated(self.differences("vector register %d" % n, self.m.vectors[n], have)
                            for n, have in self.processor.vectors(numbers).items())

    def wrong_memory(self):
        """Gives the differences in all buffers."""
        return concatenated(self.differences(name, region.content, self.memory(name)) for name, region in self.m.regions.items())

    def differences(self, what, content, have):
        """Gives the differences between the machine's bytes and the processor's."""
        known = self.values.bytes_of(content)
        if known == [*have]:
            return []
        return ["byte %d of %s is %02x and not %02x" % (k, what, x, b) for k, (b, x) in enumerate(zip(known, have)) if b not in (None, x)]

    def finish(self):
        """Compares all vector registers and all memory at the end of a call."""
        self.refuse(self.wrong_vectors(range(len(self.m.vectors))) + self.wrong_memory())

    def refuse(self, wrong):
        if wrong:
            raise Unproved("the processor differs: " + ", ".join(wrong))


# An instruction by itself. Its operands in memory lie in the middle of a buffer or of the stack. If it can't run with the values that were
# drawn, it is tried with others.
SIZE, MIDDLE = 128, 64
TRIES, WITH_FLAGS = 8, 48  # An instruction that sets flags has more tries, because few numbers set some of them.
OF_KINDS = 24  # tries with values of other kinds (kinds.py), and fewer if all operands are vectors
ENDS = 0, -1, 0x80, 0x7f, 0xff, 0x0f, 0x10, 0x8f, 31, 32, 33, 63, 64, 65, 127, 128  # bytes, counts and indices where something changes
NEVER_ALONE = "ldaxr", "stlxr"  # They only work together, so they are compared in whole calls.


class Alone:
    """A processor, and the values that registers and memory may have before an instruction. They have 8 bytes each and are drawn once, so
    they are evaluated once. Symbolic bytes are functions of one cell, so every function of them can be computed."""

    def __init__(self, program):
        self.program = program
        self.random = random.Random(0)
        self.domain = Domain()
        tables = [[self.random.getrandbits(256) for _ in range(8)] for _ in range(256)]
        secret, public = ([self.domain.byte_of_cell(self.domain.cell(name, False, kind), 0, t) for t in tables]
                          for name, kind in (("a byte", DATA), ("a public byte", PUBLIC)))
        self.constants = [b"".join(self.number(size) for _ in range(0, 8, size)) for size in (1, 8) for _ in range(256)]
        self.symbolic = [[self.random.choices(symbols, k=8) for _ in range(512)] for symbols in (secret, public)]
        self.values = Values(self.domain, self.random, highest=program.machine.highest)
        self.processor = PROCESSORS[program.machine](program.path)
        self.of_kinds = Kinds(self.random, self.values)

    def number(self, size):
        """Draws a number. Some are small, as counts and indices are, and some are near to a power of two."""
        r, power = self.random, 1 << self.random.randrange(8 * size)
        drawn = [r.getrandbits(8 * size), r.getrandbits(8 * size), r.getrandbits(5), -1 - r.getrandbits(5), power, power - 1, -power]
        drawn.append(r.choice(ENDS))
        return (r.choice(drawn) & (1 << 8 * size) - 1).to_bytes(size, "little")

    def words_of(self, instruction, k):
        """Gives the only words that try k uses, or none if it may use any. Some tries have bytes where something changes. Others have a
        number, its negative, and similar ones, so that operands are equal or their sum is 0. It may be the instruction's number."""
        if k % 4 == 2:
            return [bytes(b & 255 for b in self.random.choices(ENDS, k=8)) for _ in range(64)]
        if k % 4 != 3:
            return ()
        sizes = [o.size for o in instruction.operands if isinstance(o, (Register, Memory)) and 0 < o.size <= 8]
        size = sizes[0] if sizes else self.random.choice((1, 2, 4, 8))
        own = [o for o in instruction.operands if is_int(o)] * 3
        n = self.random.choice([int.from_bytes(self.random.choice(self.constants)[:size], "little"), *own])
        return [(m & (1 << 8 * size) - 1).to_bytes(size, "little") * (8 // size) for m in (n, n, n, -n, ~n, n ^ 1 << 8 * size - 1, 0, -1)]

    def bytes(self, count):
        """Draws bytes: constants, or mostly symbolic bytes in a try that isn't `constant`."""
        constant = self.constant or self.random.random() < 0.3
        return concatenated(self.random.choices(self.words or (self.constants if constant else self.symbolic[self.public]), k=count // 8))

    def before(self, instruction, address):
        """Gives a machine just before the instruction."""
        regions = {name: Region(self.bytes(SIZE), align=32) for name in ("buffer", "stack")}
        m = self.program.machine(self.domain, self.program, regions, address, [])
        m.is_alone = True
        m.vectors = [self.bytes(m.vector_size) for _ in m.vectors]
        m.general.update({r: m.from_bytes(self.bytes(8)[:m.word]) for r in m.registers})
        m.general[m.stack_pointer], m.stack.top, m.stack.end = Pointer("stack", MIDDLE), SIZE, -FARTHEST
        if "x30" in m.general:
            m.general["x30"] = RETURN_ADDRESS
        elif "zero" in m.general:
            m.general["zero"] = 0
        elif not instruction.operands:
            m.store(m.general[m.stack_pointer], m.to_bytes(RETURN_ADDRESS, 8))
        m.flags = {f: self.random.getrandbits(1) for f in m.flags}
        if self.kinds:
            self.of_kinds.give(m)
        m.prepare(instruction, MIDDLE)
        return m

    def compare(self, address):
        """Gives how often the processor agreed with a form of an instruction. Raises if it differs once."""
        instruction = self.program.instruction_at(address)
        agreed = 0
        tries = TRIES
        k = 0
        of_kinds = OF_KINDS if any(isinstance(o, (Register, Memory)) for o in instruction.operands) else OF_KINDS // 4
        while k < tries + of_kinds:
            self.random.seed("%s %d" % (instruction.form, k))  # so that a form always has the same values
            self.constant, self.public, self.kinds = k % 2, k // 4 % 2, k >= tries
            self.words = self.words_of(instruction, k)
            k += 1
            m = self.before(instruction, address)
            flags = m.flags
            beside = Native(m, values=self.values, processor=self.processor)
            try:
                m.step()
            except Unproved:
                continue
            if names_in(m.facts) - self.values.base.keys():
                continue  # an unknown number without a value
            tries = TRIES if m.flags is flags else WITH_FLAGS
            beside.watch(m)
            beside.refuse(beside.wrong_memory())
            agreed += not self.kinds
        return agreed


def compare_all(program, used):
    """Compares the forms that were used, each at one address, and gives those that were compared."""
    if PROCESSORS[program.machine].missing():
        return set()
    alone, out = Alone(program), set()
    try:
        for form, address in sorted(used.items()):
            try:
                if program.instruction_at(address).name not in NEVER_ALONE and alone.compare(address):
                    out.add(form)
            except Unproved as e:
                raise Unproved("%s [alone: %s]" % (e, program.lines[address])) from None
    finally:
        alone.processor.close()
    return out
