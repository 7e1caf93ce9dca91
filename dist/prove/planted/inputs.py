"""Runs a call on many inputs at once, with and without a change of an instruction, to see whether the change breaks a promise.

The number of an input is the only cell. So each byte of a key or of data is a table of the values that it has in 256 inputs, and what the
machine computes with such bytes is exact. Lengths, nonces and the like have one value in 256 inputs, and another one in the next. If a
branch or an address isn't the same in all 256 inputs, the run fails."""
import itertools
import random

from loops.linear import Linear, names_in
from machines.machine import Allowed
from machines.operands import Pointer
from machines.regions import Region
from statements.calls import STACK, Buffer, Stream
from statements.cell_values import Values
from symbols.bits import DATA, ONES, Unproved
from symbols.domain import Domain

TIMES = 4  # 256 inputs each
FEW = 0, 1, 2, 3, 7, 15, 16, 17, 31, 32, 33  # numbers that unknowns get
APART = 1 << 20  # bytes from one buffer to the next


class Inputs:
    """256 inputs of a call, and what it makes of them."""

    def __init__(self, keyed, call, number):
        self.program, self.key, self.call, self.number = keyed.program, keyed.key, call, number
        self.random = random.Random("%s %d" % (call.name, number))
        self.source, self.domain, self.tables = keyed.domain, Domain(), {}
        self.cell = self.domain.cell("the number of the input", False, DATA)
        self.values = [Values(self.source, self.random, call.counter, keyed.highest) for _ in range(256)]
        self.public = self.values[0]
        self.public.base.update(self.numbers(), **{b.name: APART * (k + 1) for k, b in enumerate(call.buffers)})
        self.right = self.after_run()

    def numbers(self):
        """Gives the unknown numbers of the call values that its facts allow."""
        names = sorted(names_in(self.call.facts))
        for numbers in itertools.product(*[self.random.sample(FEW, len(FEW)) for _ in names[:3]]):
            known = dict.fromkeys(names, 0) | dict(zip(names, numbers))
            if all(x.constant + sum(k * known[name] for name, k in x.terms) >= 0 for x in self.call.facts if isinstance(x, Linear)):
                return known
        raise Unproved("no numbers meet the facts")

    def of_all(self, values):
        """Gives a byte with these values in the 256 inputs."""
        return self.domain.byte_of_cell(self.cell, 0, [sum((v >> j & 1) << k for k, v in enumerate(values)) for j in range(8)])

    def any_byte(self):
        return self.of_all(self.random.choices(range(256), k=256))

    def byte(self, b, is_struct):
        """Gives a byte of the statement in the 256 inputs. Bytes of a struct belong together."""
        if b not in self.tables:
            if b in self.source.name_of_opaque and not self.source.symbolic(b) or self.source.is_public(b):
                value = self.public.full_byte(b)
                self.tables[b] = self.random.randrange(256) if value is None else value
            else:
                self.tables[b] = self.of_all([values.full_byte(b) for values in self.values]) if is_struct else self.any_byte()
        return self.tables[b]

    def content(self, buffer):
        """Gives the bytes of a buffer before the call."""
        if buffer.content is self.key:
            return [self.any_byte() for _ in self.key]
        written = self.source.undefined not in buffer.content
        if isinstance(buffer, Stream):
            head = self.content(buffer.head) if buffer.head else []
            size = self.public.integer(buffer.size)
            return head + [self.any_byte() if written else self.domain.undefined for _ in range(size)]
        return [b if b < 256 else self.byte(b, buffer.align > 1) if b != self.source.undefined else self.domain.undefined
                for b in buffer.content]

    def machine(self):
        """Makes a machine at the first instruction of the call."""
        call, machine = self.call, self.program.machine
        self.random.seed("%s %d" % (call.name, self.number))
        regions = {a.name: Region(self.content(a), a.after is not None, a.align if machine.strict else 1)
                   for a in call.arguments if isinstance(a, Buffer)}
        regions["stack"] = Region([self.domain.undefined] * (STACK - machine.word * len(machine.pushed)), align=16)
        arguments = [Pointer(a.name, 0) if isinstance(a, Buffer) else self.public.word(a) for a in call.arguments]
        m = machine(self.domain, self.program, regions, self.program.exports["fotsgure_" + call.name], arguments)
        by_machine = m.entry
        m.entry = lambda table, index: (by_machine if max(table) < 256 or max(index) < 2 else self.entry)(table, index)
        m.allowed, m.ask, m.asked = Allowed(call.reveals is not None), lambda flag: self.answer(m, flag), []
        return m

    def truths(self, bits):
        """Gives the values of bits in all inputs, in an int each."""
        return [ONES * x if x < 2 else self.domain.forms[x >> 9][0][1] ^ ONES * (x & 1) for x in bits]

    def entry(self, table, index):
        """Gives the byte of a table at an index, or 0 past its end, where both depend on the input."""
        def number(truths, k):
            return sum((t >> k & 1) << j for j, t in enumerate(truths))
        index, rows = self.truths(index), [self.truths(self.domain.bits(b)) for b in table]
        places = [number(index, k) for k in range(256)]
        return self.of_all([number(rows[at], k) if at < len(rows) else 0 for k, at in enumerate(places)])

    def answer(self, m, flag):
        """Answers how far apart buffers are, and whether a tag is right: that is so in each second 256 inputs."""
        if flag[0] != "zero":
            return self.public.flag(flag)
        m.asked.append(flag)
        return self.number % 2

    def after_run(self):
        """Gives what the caller gets, what else is left, the flags, and where instructions ran."""
        m, trace = self.machine(), []
        m.run([lambda m: trace.append(m.last)])
        buffers = [(name, region.content) for name, region in m.regions.items() if name != "stack"]
        stack, top = m.regions["stack"].content, m.stack.top
        left = [b for v in (*m.general.values(), *m.vectors) for b in m.to_bytes(v, len(v) if type(v) is list else m.word)]
        returned = m.returned(self.call.size) if self.call.status is not None else None
        return [returned, m.asked, buffers, stack[top:]], left + stack[:top], m.flags, trace

    def judge(self):
        """Says whether the program as it is now leaves nothing otherwise. Raises if it breaks a promise: if the caller gets something else,
        or if something is left otherwise that depends on a secret."""
        right, now = self.right, self.after_run()
        if now[0] != right[0]:
            raise Unproved("gives something else")
        secret = [b for a, b in zip(right[1], now[1]) if a != b and self.domain.symbolic(b)]
        if secret or any(now[2][f] not in (0, 1, None, flag) for f, flag in right[2].items()):
            raise Unproved("leaves %d other secret bytes, or another flag" % len(secret))
        return now == right
