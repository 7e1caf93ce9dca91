"""Defines the instructions of x86-64 on symbolic bytes. These are the instructions on the paths of the libraries, as in the processor's
manual (Intel 64 and IA-32 Architectures Software Developer's Manual, volume 2). What all machines share is in machine.py."""
import re

from machines.machine import Machine
from machines.operands import (RETURN_ADDRESS, SECRET, WORD, Instruction, Memory, Register, Scaled, Table, Vector, concatenated, constant,
                               contrary, form, interleaved, is_int, lanes)
from symbols.bits import Unproved

R64 = "rax rcx rdx rbx rsp rbp rsi rdi r8 r9 r10 r11 r12 r13 r14 r15".split()
REGS = {c + "h": Register("r%sx" % c, 1, 1) for c in "abcd"}
for _r in R64:
    _parts = [_r + "d", _r + "w", _r + "b"] if _r[1].isdigit() else ["e" + _r[1:], _r[1:], _r[1:].removesuffix("x") + "l"]
    REGS.update({name: Register(_r, size) for name, size in zip([_r, *_parts], (8, 4, 2, 1))})
SIZES = {"BYTE": 1, "WORD": 2, "DWORD": 4, "QWORD": 8, "XMMWORD": 16, "YMMWORD": 32}
CONDITIONS = {"e": "z", "ne": "!z", "b": "c", "ae": "!c", "be": "c|z", "a": "!(c|z)", "s": "s", "ns": "!s"}
# Prefixes that may be ignored: those that fill up a nop or a call that the linker shortened, and those of a jump by a table. Elsewhere a
# prefix may have an effect. On some processors a jump with data16 has an address of 16 bits.
WITHOUT_EFFECT = r"^(?:(?:(?:cs|data16) +)+(?=nop)|addr32 +(?=call)|(?:(?:notrack|rex\.\w+) +)+(?=jmp))"
ALIGNED, UNALIGNED = ("movdqa", "movaps", "vmovdqa", "vmovaps"), ("movdqu", "movups")


class X86_64(Machine):
    """x86-64 with the System V ABI. The stack is aligned to 16 bytes before the return address is pushed."""
    tools = ""
    compiler = ("gcc",)
    linker = ("ld",)
    objdump = "-M", "intel"
    from_v2_and_v3 = "ptest|pshufb|palignr|pblendw|pinsr[bd]|pextr[bq]", "v.*|andn|bzhi|mulx|movbe|shrx"
    registers, stack_pointer = R64, "rsp"
    vector_count, vector_size = 16, 32
    arguments = "rdi rsi rdx rcx r8 r9".split()
    result = "rax"
    pushed = (RETURN_ADDRESS,)
    restored_registers = "rbx rsp rbp r12 r13 r14 r15".split()
    scratch = "rcx rdx rsi rdi r8 r9 r10 r11".split()
    red_zone, landing_mark, usual_addend = 128, "endbr64", -4
    jumps = r"j\w+"
    conditional = "j(?!mp)"
    padding, trap = r"(data16 |cs )*nop|xchg +ax,ax|int3", "BYTE(0xcc) "
    jump_by_table = r"movsxd (\w+),DWORD PTR \[\w+\+\w+\*4\]; add \1,\w+; (notrack )?jmp \1"
    # Jumps and calls that have to arrive at a mark; and the first byte of instructions of AVX-512, of which some are named as in AVX2.
    jumps_to_mark, avx512 = r"(rex\.\w+ +)*(jmp|call)\b(?! +[0-9a-f]+ <)", b"\x62"

    def leave(self):
        go_back(self)

    @staticmethod
    def decode(text, following):
        """Gives a line of objdump as an Instruction."""
        name, _, rest = re.sub(WITHOUT_EFFECT, "", text.split("#")[0].strip()).partition(" ")
        run = TABLE.get(name) or name[0] == "v" and TABLE.get(name[1:])
        if not run:
            raise Unproved("instruction not covered: " + text)
        operands = [operand(o.strip(), name, following) for o in rest.split(",")] if rest and name != "nop" else []
        if name in VECTORS:
            operands.insert(1, operands[0])  # the first source, which only VEX-coded instructions name
        return Instruction(run, name, operands, following, form(name, operands, name[0] == "j" or name == "call"))

    def condition(self, code):
        flags = [self.flags[f] for f in CONDITIONS[code] if f in "czso"]
        holds = (self.decide if len(flags) == 1 else self.at_most)(*flags)
        return int(holds != CONDITIONS[code].startswith("!"))


class Windows(X86_64):
    """x86-64 with the calling convention of Windows. Files of its linker are turned into ELF files (linking.py)."""
    tools = "x86_64-w64-mingw32-"
    compiler, linker = (tools + "gcc",), (tools + "ld",)
    arguments, shadow = "rcx rdx r8 r9".split(), 32
    restored_registers, restored_vectors = "rbx rsp rbp rsi rdi r12 r13 r14 r15".split(), dict.fromkeys(range(6, 16), 16)
    scratch = "rcx rdx r8 r9 r10 r11".split()
    red_zone = 0
    landing_mark = ""
    jumps_to_mark = "(?!)"
    also_called = ("___chkstk_ms",)


def operand(text, name, following):
    """Gives the operand that a text means. VEX-coded instructions, whose names begin with v, clear the rest of a vector register. Most of
    them don't need aligned memory."""
    vex = name[0] == "v"
    if text in REGS:
        return REGS[text]
    if text[1:3] == "mm":
        return Vector(int(text[3:]), 32 if text[0] == "y" else 16, 1, 0, vex)
    if text.startswith("0x") or text.isdigit():
        return int(text, 0)
    if (name[0] == "j" or name == "call") and re.match(r"^[0-9a-f]+ <", text):
        return int(text.split()[0], 16)
    memory = re.fullmatch(r"(?:(\w+) PTR )?\[(r\w+(?!\*))?\+?(?:(r\w+)\*(\d))?([+-]?0x[0-9a-f]+)?\]", text)
    if not memory or not memory[1] and name != "lea":
        raise Unproved("operand not covered: " + text)
    size, base, index, scale, offset = memory.groups()
    size, offset = SIZES[size] if size else 8, int(offset or "0", 16)
    if base == "rip":
        base, offset = None, offset + following & WORD
    aligned = size > 8 and (name in ALIGNED or not vex and name not in UNALIGNED)
    return Memory(size, base, index, int(scale or 1), offset, size if aligned else 1)


# The meanings of instructions by their names. The arguments of a meaning are the machine, the instruction's name, and its operands.
def push(m, value):
    m.move("rsp", -8)
    m.store(m.general["rsp"], m.to_bytes(value, 8))


def pop(m):
    value = m.from_bytes(m.load(m.general["rsp"], 8))
    m.move("rsp", 8)
    return value


def of_a_word(operand, with_memory=True):
    """Gives an operand of `push` or `pop`, which has to have eight bytes. (An access after rsp has moved couldn't be repeated.)"""
    if not is_int(operand) and operand.size != 8 or isinstance(operand, Memory) and not with_memory:
        raise Unproved("moves fewer bytes than a word to the stack, or from it, or pops into memory")
    return operand


def signed(value, size):
    return constant("what is extended by its sign", value) - (value >> 8 * size - 1 << 8 * size)


TABLE = Table({
    **dict.fromkeys(("nop", "endbr64"), lambda m, name: None),
    **dict.fromkeys(("mov", "movabs"), lambda m, name, to, source: m.put(to, m.get(source))),
    **dict.fromkeys(("movdqa", "movaps", "movdqu", "movups"), lambda m, name, to, source: m.write(to, m.read(source))),
    "movzx": lambda m, name, to, source: m.write(to, m.read(source) + [0] * (to.size - source.size)),
    "movsxd": lambda m, name, to, source: m.put(to, signed(m.get(source), source.size) & WORD),
    "movbe": lambda m, name, to, source: m.write(to, m.read(source)[::-1]),
    "bswap": lambda m, name, to: m.write(to, m.read(to)[::-1]),
    "not": lambda m, name, to: m.write(to, [m.domain.xor_byte(b, 255) for b in m.read(to)]),
    "push": lambda m, name, source: push(m, m.get(of_a_word(source))),
    "pop": lambda m, name, to: m.put(of_a_word(to, with_memory=False), pop(m)),
    "ret": lambda m, name: go_back(m),
    "jmp": lambda m, name, to: m.go_to(constant("where a jump leads", m.code_target(m.target(to)))),
})
for _code in CONDITIONS:
    TABLE["j" + _code] = lambda m, name, to, code=_code: m.go_to(to if m.condition(code) else m.next_address)
    TABLE["set" + _code] = lambda m, name, to, code=_code: m.put(to, m.condition(code))
    TABLE["cmov" + _code] = lambda m, name, to, source, code=_code: m.put(to, (m.get(to), m.get(source))[m.condition(code)])


@TABLE.of("lea")
def lea(m, name, to, source):
    """Gives an address, or a sum of bytes that depend on a secret. One of these may be shifted."""
    registers = [(name, scale) for name, scale in ((source.base, 1), (source.index, source.scale)) if name]
    if tuple not in (type(m.general[name]) for name, _ in registers):
        return m.put(to, m.address(source))
    total, *more = [m.shift("lsl", m.get(Register(name, to.size)), scale.bit_length() - 1, to.size) for name, scale in registers]
    for v in (*more, *[source.offset] * (source.offset != 0)):
        total, _ = m.plus(v, total, 0, to.size)
    m.put(to, total)


def go_back(m):
    """Returns. A processor may keep return addresses in a shadow stack too, and refuses to return to another one."""
    to, (*m.shadow_stack, expected) = pop(m), m.shadow_stack or [RETURN_ADDRESS]
    if to != expected:
        raise Unproved("returns to something else than the address that a call pushed")
    m.go_to(to)


@TABLE.of("call")
def call(m, name, to):
    to, back = m.target(to), m.program.address(m.next_address)
    m.shadow_stack = [*m.shadow_stack, back]
    push(m, back)
    m.go_to(to)


@TABLE.of("xchg")
def xchg(m, name, a, b):
    x, y = m.get(a), m.get(b)
    m.put(a, y)
    m.put(b, x)


# Numbers and bits.
@TABLE.of("add", "sub", "adc", "sbb", "cmp", "inc", "dec", "neg")
def arithmetic(m, name, a, b=1):
    """Computes a sum, or a difference, whose flag c is the borrow. `inc` and `dec` keep that flag, and `cmp` only sets flags."""
    x, y = (0, m.get(a)) if name == "neg" else (m.get(a), m.get(b))
    old = m.flags["c"]
    size = a.size
    carry = m.carried(old) if name in ("adc", "sbb") else 0
    if carry not in (0, 1):
        raise Unproved("adds a carry that depends on the key or on data, or that is undefined")
    if name in ("add", "adc", "inc"):
        r, flags = m.plus(x, y, carry, size)
    else:
        r, flags = (None, m.flags_of_difference(x, y, size)) if name == "cmp" else m.minus(x, y, size, 1 - carry)
        flags["c"] = contrary(flags.get("c"))
    if name in ("inc", "dec"):
        flags["c"] = old
    m.set_flags((x, y), **flags)
    if name != "cmp":
        m.put(a, r)


@TABLE.of("and", "or", "xor", "test", "andn")
def logic(m, name, to, a, b=None):
    """Computes bit by bit. `xor` of a register with itself is 0 even if nobody wrote the register."""
    x, y = (m.get(to), m.get(a)) if b is None else (m.get(b), m.get(a))  # andn: b and not a
    if name == "xor" and to == a:
        x = y = 0
    r = m.logic({"test": "and", "andn": "and not"}.get(name, name), x, y, to.size)
    m.set_flags((r,), c=0, o=0, **m.zero_and_sign(r, to.size))
    if name != "test":
        m.put(to, r)


@TABLE.of("shl", "shr", "sar")
def shift(m, name, to, count=1):
    """Shifts by a constant. The flag c is the bit that is shifted out last. A shift by 0 keeps all flags."""
    n = constant("the count of a shift", m.get(count)) & (63 if to.size == 8 else 31)
    size = 8 * to.size
    old = v = m.get(to)
    if n:
        last = size - n if name == "shl" else n - 1  # the bit that is shifted out last
        out = m.bits(v, to.size)[last] if 0 <= last < size and not isinstance(v, Scaled) else None
        v = m.shift({"shl": "lsl", "shr": "lsr", "sar": "asr"}[name], v, n, to.size)
        m.set_flags((old,), c=out if out in (None, 0, 1) else SECRET, **m.zero_and_sign(v, to.size))
    m.put(to, v)


@TABLE.of("rol", "ror")
def rotate(m, name, to, count=1):
    """Rotates by a constant. The flags z and s stay as they are."""
    n = constant("the count of a rotation", m.get(count)) & (63 if to.size == 8 else 31)
    if n:
        v, size = m.get(to), 8 * to.size
        b = m.bits(v, to.size)
        up = (n if name == "rol" else -n) % size
        b = b[size - up:] + b[:size - up]
        last = b[0 if name == "rol" else -1]
        m.set_flags((v,), c=last if last < 2 else SECRET, z=m.flags["z"], s=m.flags["s"])
        m.put(to, m.unbits(b))


@TABLE.of("shld", "shrd")
def shift_double(m, name, to, source, count):
    """The code never uses the flags, but they may depend on a secret."""
    n, size = constant("the count of a shift", m.get(count)) & (63 if to.size == 8 else 31), 8 * to.size
    own, other = m.bits(m.get(to), to.size), m.bits(m.get(source), to.size)
    m.set_flags(c=SECRET if max(own + other) > 1 else None)
    m.put(to, m.unbits((other + own)[size - n:][:size] if name == "shld" else (own + other)[n:][:size]))


@TABLE.of("shrx")
def shrx(m, name, to, a, count):
    m.put(to, m.shift("lsr", m.get(a), constant("the count of a shift", m.get(count)) & 8 * to.size - 1, to.size))


@TABLE.of("bt")
def bt(m, name, a, b):
    if not isinstance(a, Register):
        raise Unproved("bt of memory")
    out = m.bits(m.get(a), a.size)[constant("the number of a bit", m.get(b)) % (8 * a.size)]
    m.set_flags((m.get(a),), z=m.flags["z"], c=out if out < 2 else SECRET)


@TABLE.of("bzhi")
def bzhi(m, name, to, a, n):
    n = constant("a number of bits", m.from_bytes(m.read(n)[:1]))
    r = m.unbits([x if i < n else 0 for i, x in enumerate(m.bits(m.get(a), to.size))])
    m.set_flags(o=0, c=int(n >= 8 * to.size), **m.zero_and_sign(r, to.size))
    m.put(to, r)


@TABLE.of("mul")
def mul(m, name, a):
    """Multiplies rax, with the result in rdx and rax. The flags c and o say whether the higher half isn't 0."""
    mulx(m, name, REGS["rdx"], REGS["rax"], a, REGS["rax"])
    high = m.general["rdx"]
    m.set_flags(**dict.fromkeys("co", int(high != 0) if is_int(high) else SECRET))


@TABLE.of("mulx")
def mulx(m, name, high, low, a, b=REGS["rdx"]):
    """Multiplies two words of 64 bits. The lower half of an unknown product counts as undefined."""
    x, y = m.get(a), m.get(b)
    if a.size != 8:
        raise Unproved("instruction not covered")
    if not is_int(x):
        x, y = y, x
    m.put(low, x * y & WORD if is_int(x, y) else (m.domain.undefined,) * 8)
    m.put(high, m.high_product(y, x))


# Vectors. A VEX-coded instruction (with v before the name) names its first source. For others this is the destination (see decode).
def whole(f):
    """Gives a meaning that makes the result from the bytes of the sources and from numbers."""
    return lambda m, name, to, *sources: m.write(to, f(m, *[o if is_int(o) else m.read(o) for o in sources]))


def in_halves(f):
    """Gives a meaning that does so for each 16 bytes."""
    def run(m, name, to, *sources):
        sources = [o if is_int(o) else m.read(o) for o in sources]
        m.write(to, concatenated(f(m, *[x if is_int(x) else x[i:i + 16] for x in sources]) for i in range(0, to.size, 16)))
    return run


def xor(m, name, to, a, b):
    m.write(to, [0] * to.size if a == b else m.bytewise("xor", m.read(a), m.read(b)))


def ones(m, name, to, a, b):
    if a != b:
        raise Unproved("%s of different operands" % name)
    m.write(to, [255] * to.size)


def greater(m, x, y):
    """Gives 255 if x is greater than y, as numbers with signs, else 0."""
    if x == 0:
        return m.signs(y)
    return 255 if constant("a byte", m.from_bytes([x])) ^ 128 > constant("a byte", m.from_bytes([y])) ^ 128 else 0


def shuffled_by(bits):
    return bits[:4] + bits[7:]


def blended(width):
    return lambda m, a, b, n: [(b if n >> k // width & 1 else a)[k] for k in range(len(a))]


def inserted(size):
    def run(m, name, to, a, b, n):
        old, at = m.read(a), n * size & 15
        m.write(to, old[:at] + m.read(b)[:size] + old[at + size:])
    return run


def packed(m, a, b):
    """Gives the nearest byte for each word, which is a number with a sign."""
    def nearest(n):
        return 0 if n >> 15 else min(n, 255)
    return [low if high == 0 else nearest(constant("a word", m.from_bytes([low, high]))) for low, high in lanes(a + b, 2)]


VECTORS = {
    "pxor": xor,
    "xorps": xor,
    **dict.fromkeys(("pand", "andps"), whole(lambda m, a, b: m.bytewise("and", a, b))),
    "packuswb": in_halves(packed),
    "shufps": in_halves(lambda m, a, b, n: permuted(a, 4, n)[:8] + permuted(b, 4, n)[8:]),
    "pandn": whole(lambda m, a, b: m.bytewise("and not", b, a)),
    "por": whole(lambda m, a, b: list(map(m.or_byte, a, b))),
    "paddb": whole(lambda m, a, b: list(map(m.add_byte, a, b))),
    "psubb": whole(lambda m, a, b: [m.add_byte(x, m.domain.xor_byte(y, 255), 1) for x, y in zip(a, b)]),
    "pcmpeqb": whole(lambda m, a, b: [m.equality(m.domain.xor_byte(x, y), 255, 0) for x, y in zip(a, b)]),
    "pcmpeqd": ones,
    "pcmpgtb": whole(lambda m, a, b: [greater(m, x, y) for x, y in zip(a, b)]),
    # (0 if bit 7 of an index is set, else the entry at its lowest four bits.)
    "pshufb": in_halves(lambda m, table, indices: m.look_up(tuple(table), indices, shuffled_by)),
    "palignr": in_halves(lambda m, a, b, n: (b + a + [0] * 255)[n:n + 16]),
    "pslldq": in_halves(lambda m, a, n: ([0] * n + a)[:16]),
    "psrldq": in_halves(lambda m, a, n: (a + [0] * n)[n:n + 16]),
    "pblendw": in_halves(blended(2)),
    "pinsrb": inserted(1),
    "pinsrd": inserted(4),
}
for _width, _letter in (1, "bw"), (2, "wd"), (4, "dq"), (8, "qdq"):
    VECTORS["punpckl" + _letter] = in_halves(lambda m, a, b, width=_width: interleaved(a[:8], b[:8], width))
    VECTORS["punpckh" + _letter] = in_halves(lambda m, a, b, width=_width: interleaved(a[8:], b[8:], width))
for _width, _letter in (2, "w"), (4, "d"), (8, "q"):
    VECTORS["psll" + _letter] = whole(lambda m, a, n, width=_width: m.shift_lanes("lsl", a, width, n))
    VECTORS["psrl" + _letter] = whole(lambda m, a, n, width=_width: m.shift_lanes("lsr", a, width, n))
TABLE.update(VECTORS)


# Others, with the operands that are there.
def permuted(a, width, order):
    return concatenated(a[width * (order >> 2 * k & 3):][:width] for k in range(4))


def variable_shift(how):
    """Gives a shift of each 8 bytes by a count of their own."""
    def shifted(m, a, counts):
        numbers = [constant("the count of a shift", m.from_bytes(n)) for n in lanes(counts, 8)]
        return concatenated(m.shift_lanes(how, x, 8, min(64, n)) for x, n in zip(lanes(a, 8), numbers))
    return shifted


def first(size):
    """Gives a meaning that copies the first bytes of the source, and clears the others."""
    return lambda m, name, to, source: m.write(to, m.read(source)[:size] + [0] * (to.size - size))


def broadcast(size):
    return lambda m, name, to, source: m.write(to, m.read(source)[:size] * (to.size // size))


TABLE.update({
    "movq": first(8),
    "movd": first(4),
    "pextrb": lambda m, name, to, a, n: m.write(to, m.read(a)[n & 15:][:1] + [0] * (to.size - 1)),
    "pextrq": lambda m, name, to, a, n: m.write(to, m.read(a)[8 * (n & 1):][:8]),
    "pshufd": in_halves(lambda m, a, n: permuted(a, 4, n)),
    "pshuflw": in_halves(lambda m, a, n: permuted(a[:8], 2, n) + a[8:]),
    "pshufhw": in_halves(lambda m, a, n: a[:8] + permuted(a[8:], 2, n)),
    "vpermq": whole(lambda m, a, n: permuted(a, 8, n)),
    "vpermd": whole(lambda m, order, a: concatenated(a[4 * (constant("an index", m.from_bytes(n)) & 7):][:4] for n in lanes(order, 4))),
    "vpblendd": whole(blended(4)),
    "vpblendvb": whole(lambda m, a, b, mask: [y if constant("a mask", m.from_bytes([n])) >> 7 else x for x, y, n in zip(a, b, mask)]),
    "vpmovzxbq": lambda m, name, to, a: m.write(to, concatenated([x] + [0] * 7 for x in m.read(a)[:to.size // 8])),
    "vpsllvq": whole(variable_shift("lsl")),
    "vpsrlvq": whole(variable_shift("lsr")),
    "vbroadcasti128": broadcast(16),
    "vpbroadcastb": broadcast(1),
    "vpbroadcastd": broadcast(4),
    "vpbroadcastq": broadcast(8),
    "vinserti128": whole(lambda m, a, b, n: a[:16] + b if n & 1 else b + a[16:]),
    "vextracti128": lambda m, name, to, a, n: m.write(to, m.read(a)[16 * (n & 1):][:16]),
    "vperm2i128": whole(lambda m, a, b, n: concatenated([0] * 16 if k & 8 else (a + b)[16 * (k & 3):][:16] for k in (n, n >> 4))),
})


@TABLE.of("movss", "movsd")
def movss(m, name, to, source):
    """Clears the rest of the register if it loads. A move between registers keeps the rest."""
    size = 4 if name[-1] == "s" else 8
    if isinstance(to, Vector) and isinstance(source, Vector):
        m.write(to, m.read(source)[:size] + m.read(to)[size:])
    else:
        first(size)(m, name, to, source)


@TABLE.of("ptest")
def ptest(m, name, a, b):
    """Asks whether a register is zero. Both operands have to be the same."""
    if a != b:
        raise Unproved("ptest of different operands")
    m.set_flags(c=1, s=0, o=0, z=m.zero_flag(m.read(a)))


@TABLE.of("pmovmskb")
def pmovmskb(m, name, to, source):
    b = m.read(source)
    if max(b) < 256:
        return m.put(to, sum((x >> 7) << k for k, x in enumerate(b)))
    known = [m.secret.equalities.get(x) for x in b if x != 255]  # (255 says that two bytes are equal)
    if len(b) != 16 or any(k is None or k[1:] != (255, 0) for k in known):
        raise Unproved("instruction not covered")
    m.put(to, m.verdict(0xffff, [k[0] for k in known], 2))


@TABLE.of("vzeroupper")
def vzeroupper(m, name):
    m.vectors = [v[:16] + [0] * 16 for v in m.vectors]
