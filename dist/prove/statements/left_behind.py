"""Finds the secrets that a call leaves in the dead stack, in registers, in flags, and in what it wrote to buffers."""
from machines.operands import LAST, LEAD, PAGE, Content, Number, Placed, Pointer, Verdict
from symbols.bits import DATA, KEY, Unproved

KINDS = "key", "inner", "difference", "plain", "step", "keystream", "result", "data"  # of what is left; see `kind_of_secret`
# How many bytes of a kind any call may leave on the stack. They are copies of blocks of the result and of tags.
MAY_STAY = {"result": 32, "data": 16}
# How many bytes of text a copy between buffers that overlap may leave on the stack. Where the first buffer is written to meanwhile, these
# may be any bytes of what was computed there.
REGISTER_OF_A_COPY, OF_A_COPY = 8, ("plain", "step")
IN_BUFFERS, IN_A_MESSAGE = "the caller's buffers, perhaps for a while", "a message"
MAY_NOT_COME = "key", "inner"  # to buffers
MAY_NOT_BE = {IN_BUFFERS: MAY_NOT_COME, IN_A_MESSAGE: (*MAY_NOT_COME, "difference", "plain")}


def nothing_secret(m, call):
    """Refuses secrets that may not be left. Flags and registers may have none but what the status says. Other places may have those that
    the call allows."""
    flags = [name for name, flag in m.flags.items() if m.is_secret(flag)]
    if flags:
        raise Unproved("leaves flags that depend on the key or on data: " + ", ".join(flags))
    for (place, k), where in m.left.items():
        if place == "registers":
            raise Unproved("leaves %d bytes in registers (%s), in %s" % (len(where), k, ", ".join(sorted(set(where)))))
        if len(where) > may_stay_on_stack(m, call, k) if place == "stack" else k in MAY_NOT_BE[place]:
            raise Unproved("leaves %d bytes in %s (%s), from %s to %s" % (len(where), place, k, where[0], where[-1]))


def may_stay_on_stack(m, call, kind):
    """Gives how many bytes of a kind a call may leave on the stack."""
    of_a_copy = REGISTER_OF_A_COPY if kind in OF_A_COPY and m.says_buffers_overlap() else 0
    return max(MAY_STAY.get(kind, 0), call.may_stay.get(kind, 0), of_a_copy)


def no_secret_in_buffers(m, call):
    """Refuses secrets in buffers to which a run wrote before it ended at a known state. That state doesn't have what was written. A buffer
    may have earlier what it has at the end."""
    known, plain = named_bits(m, call)
    ends = [b for a in call.buffers if not a.secret and isinstance(a.after, list) for b in a.after if isinstance(b, int)]
    known = {**known, "result": known["result"] | bits_of(m, ends)}
    for a, b in call.written(m):
        if (kind := kind_of_secret(m, b, known, plain)) in MAY_NOT_COME and kind not in a.secret:
            raise Unproved("writes something secret to %s in a loop" % a.name)


def depends(m, *bytes_):
    """Gives what bytes depend on. A byte that replaced a result depends on what the result depended on."""
    return depends_by_cells(m, m.domain.cells_in(bytes_))


def depends_by_cells(m, cells):
    out = 0
    for place in cells:
        out |= m.origins[place] if place in m.origins else m.domain.depends[place[0]]
    return out


def kind_of_secret(m, byte, known, plain, reveals=()):
    """Gives the kind of secret on which a byte that is left depends, or None:

        "key"           the key alone
        "inner"         values of the key and of others, from which the key may be computed
        "difference"    the bytes in which a tag differs from the right one, put together by `or`
        "plain"         plain text, and what is computed from it without the key
        "step"          a block that the cipher gave in the middle of a mode
        "keystream", "result"    the keystream, and the call's result
        "data"          other data alone"""
    if byte in m.secret.lost:
        name = m.domain.name_of_opaque.get(byte, [0])[0]
        if isinstance(name, Verdict) and name.wrong is not None and m.zero_flag(name.differences) in m.answers:
            return None  # a branch asked which of two numbers it is, so the status says it
        return "difference" if reveals and is_or(m, byte, reveals) else "key"
    value = m.domain.name_of_opaque.get(byte, [0])[0]
    if isinstance(value, Content):
        return "plain" if known["plain"] else "data"
    if isinstance(value, Pointer) and value.base.startswith(PAGE):
        return "key"  # (a linker may leave out the instruction that makes the upper part of an address: then the register has what it had)
    if is_of_secret_word(m, byte):
        return "inner"
    if not m.domain.symbolic(byte):
        return None
    kinds = set()
    for x in m.domain.bits(byte):
        cells = m.domain.cells_of_bit(x)
        on = depends_by_cells(m, cells)
        name = next((kind for kind, bits in known.items() if x & ~1 in bits), None)  # the first of several
        if not on & (KEY | DATA):
            continue
        if not name and on & KEY and (on == KEY or m.domain.depends_on(x) & KEY):
            name = "key" if on == KEY else "inner"
        kinds.add(name or ("plain" if not plain.isdisjoint(cells) else "step" if on & KEY else "data"))
    return next((k for k in KINDS if k in kinds), None)


def is_of_secret_word(m, byte):
    """Whether a byte is one of a word of J_0 that depends on the key, or of a counter that begins there."""
    value = m.domain.name_of_opaque.get(byte, [0])[0]
    value = value.value if isinstance(value, Placed) else value
    word = isinstance(value, Number) and m.domain.bits_of_word.get(value.base)
    return bool(word and any(m.domain.depends_on(x) & KEY for x in word(0, 0) or ()))


def is_or(m, byte, all_):
    """Whether a byte is made from all these bytes by `or`, or is a byte of a number that depends on that alone."""
    name = m.domain.name_of_opaque.get(byte, [0])[0]
    some = [b for b in name.differences if b] if isinstance(name, Verdict) else [byte]
    return all({*m.secret.any_of.get(b, ())} == {*all_} for b in some)


def bits_of(m, bytes_):
    """Gives the bits of these bytes, without their complements."""
    return {x & ~1 for b in bytes_ if m.domain.symbolic(b) for x in m.domain.bits(b)}


def named_bits(m, call):
    """Gives the bits that a statement names, by the kind of secret, and the cells of plain text. They are made once for each call, and for
    calls that name the same bytes."""
    if m.domain not in call.named:
        streams = [m.domain.moved(b, k) for a in call.streams for pattern in a.patterns for b in pattern for k in range(LAST - LEAD)]
        bytes_ = tuple(map(tuple, (call.keystream, call.plain, streams, call.other_blocks)))
        if bytes_ not in m.domain.named_bits:
            known = dict(zip(("keystream", "plain", "result", "step"), (bits_of(m, some) for some in bytes_)))
            of_text = (x for x in known["plain"] if not m.domain.depends_on(x) & KEY)
            cells = {cell for x in of_text for cell in m.domain.cells_of_bit(x)}
            m.domain.named_bits[bytes_] = known, cells
        call.named[m.domain] = m.domain.named_bits[bytes_]
    return call.named[m.domain]


def what_is_left(m, call):
    """Gives the bytes that are left of a call: {(place, kind): [where]}. The places are these:

        "stack"         the dead stack, by the offset from the stack pointer at the call
        IN_A_MESSAGE    bytes of a message that may be anything
        "registers"     all registers
        IN_BUFFERS      what was written to buffers, even if it was overwritten later"""
    known, plain = named_bits(m, call)
    known = {**known, "result": known["result"] | bits_of(m, m.results)}
    places = [("stack", k - m.stack.top, m.regions["stack"].content[k]) for k in range(m.stack.lowest, m.stack.top)]
    places += [(IN_A_MESSAGE, k, b) for k, b in enumerate(m.unsaid)]
    places += [(IN_BUFFERS, a, b) for a, b in call.written(m)]
    places += [("registers", r, b) for r, v in m.general.items() for b in m.to_bytes(v, 8)]
    places += [("registers", "vector %d" % n, b) for n, v in enumerate(m.vectors) for b in v]
    reveals = call.reveals(m) if callable(call.reveals) else call.reveals
    out, kinds = {}, {b: kind_of_secret(m, b, known, plain, reveals) for b in {b for _, _, b in places if b > 255}}
    places = [one for one in places if kinds.get(one[2])]
    if call.any_length and any(max(m.domain.blocks(b), default=0) >= LAST for b in kinds):
        raise Unproved("leaves a block with a number that isn't known")
    for place, where, b in places:
        if not (place == IN_BUFFERS and kinds[b] in where.secret):
            out.setdefault((place, kinds[b]), []).append(where.name if place == IN_BUFFERS else where)
    return out
