"""Proves calls in which each step depends on the last one. A step is a triple: where a result is expected, what it has to be (or a function
that makes that), and arbitrary bytes. When the result is there, these bytes replace it everywhere. So all that is proved after it holds for
any result. A result is expected in:

    "vector"    a vector register
    "memory"    what was written last
    "place"     the same, but the bytes are replaced only there, so even constants become arbitrary
    "hash"      a vector register, or general registers as words in either order of bytes. Products of bits are then forgotten. Bytes that
                still depend on them are lost, and may not be left
    "block"     all of these but "place"
    "kept"      memory outside of Streams
    a name      the region of this name

In a call of any length the steps may be a function of the machine. It returns a step, which may also begin with one of these:

    "here"      the result is there
    "again"     another phase begins, in which blocks have new numbers
    "return"    the same, when a function returns. Until then it may compute unused values in other slots of a batch
    "whole"     the same, as soon as all of a buffer is done
    "refused"   the same, once it is known that the call refuses
    "begun"     another phase begins, in which blocks keep their numbers, as soon as the first block of a buffer is done
    "now"       the same, at once
    "nothing"   no result is expected yet"""
import functools
import re

from machines.operands import lanes
from machines.regions import Window
from statements.left_behind import depends
from symbols.bits import DATA, KEY, LOST, Unproved


NO_STEP = "nothing", (), ()
KEEPING_NUMBERS = "begun", "now"
PHASE_BEGINNINGS = "again", "return", "whole", "refused", *KEEPING_NUMBERS


def begins_phase(m, where, want):
    """Whether another phase begins."""
    if where == "return":
        return bool(re.match(m.returns, m.program.lines[m.last]))
    if where in KEEPING_NUMBERS:
        return where == "now" or m.regions[want].has_begun(m)
    return where == "again" or (m.regions[want].is_done(m) if where == "whole" else m.was_refused())


def step_by_step(steps):
    """Gives a function that looks for the result of the next step. It is called after each instruction."""
    steps = steps if callable(steps) else list(steps)

    def watch(m):
        """Replaces the result of the next step if it is there, or begins another phase."""
        if m.expected_step is None:
            if not callable(steps) and m.steps_found == len(steps):
                return
            where, want, new = steps(m) if callable(steps) else steps[m.steps_found]
            # (It is made before the code computes it, so that the code's products have the factors that it names: with_powers.)
            m.expected_step = where, want() if callable(want) else want, new
        where, want, new = m.expected_step
        if where == "nothing":
            return
        if where in PHASE_BEGINNINGS:
            if begins_phase(m, where, want):
                m.next_phase() if where in KEEPING_NUMBERS else m.begin_again(*((want, *new) if want else ()))
                m.expected_step = None
            return
        if where == "place":
            content, at = was_written(m, want, m.domain.is_same) or ((), 0)
            if content:
                content[at:at + len(want)] = new
                m.steps_found += 1
                m.expected_step = None
            return
        if where == "here" or is_found(m, where, want):
            replace_result(m, where, want, new)
            m.steps_found += 1
            m.expected_step = None
            m.domain.forget_factors()
    return watch


def replace_result(m, where, want, new):
    """Replaces a result by other bytes everywhere. They depend on what the result depended on."""
    replaced = {}
    lost = None
    on = depends(m, *want) if where == "hash" else 0
    for x, y in zip(want, new):
        if x > 255:
            if x == m.domain.undefined or x in m.secret.lost:
                raise Unproved("a result has a byte of which nothing is known")
            if replaced.setdefault(x, y) != y:
                raise Unproved("a byte of a result comes twice")
            if not m.is_public([y]):
                cell, block = m.domain.cell_of(y)
                m.origins[cell, block] = ((on or depends(m, x)) | m.domain.depends[cell]) & (KEY | DATA)
    if where == "hash":
        lost = m.domain.opaque(LOST)
        m.secret.lost.add(lost)
    with_products = m.domain.with_products
    m.replace_bytes(lambda b: replaced.get(b, lost or b if b in with_products else b), m.domain, replaced.items())


def is_found(m, where, want):
    """Whether a result is where it is expected."""
    if where in m.regions:
        content = m.regions[where].content
        return content[-1] == want[-1] and content == want
    if where == "kept":
        return any(contains(r.content, want) for r in m.regions.values() if not isinstance(r, Window))
    if where in ("memory", "block") and was_written(m, want):
        return True
    vectors, general = m.searched[1:] if m.searched[0] is want else (None, None)
    if where != "memory" and m.vectors != vectors:
        first, vectors = want[0], [*m.vectors]
        if [v for v in vectors if v[0] == first and v[:16] == want]:
            return True
    # (In registers of 4 bytes a block of the cipher is there too early, while the planes have copies of it in other slots.)
    if (where == "hash" or where == "block" and m.word == 8) and m.general != general:
        general = dict(m.general)
        if in_words(m, want):
            return True
    m.searched = want, vectors, general
    return False


def contains(content, want):
    """Whether a list contains bytes in this order, one after the other."""
    at = -1
    for _ in range(content.count(want[0])):
        at = content.index(want[0], at + 1)
        if content[at:at + len(want)] == want:
            return True
    return False


def was_written(m, want, same=int.__eq__):
    """Gives where bytes are, if they include what was written last: (a region's bytes, the place in them). Else it gives None."""
    (content, at), m.last_written = m.last_written, ((), 0)  # so that each access is looked at once
    return next(((content, k) for k in range(max(0, at - len(want)), min(at + 16, len(content) - len(want) + 1))
                 if same(content[k], want[0]) and all(map(same, content[k:], want))), None)


def in_words(m, want):
    """Whether general registers have the words of a block, in either order of bytes."""
    ends, *orders = words_of(tuple(want), m.word)
    words = {v for v in m.general.values() if type(v) is tuple and v[0] in ends}
    return words and any(parts <= words for parts in orders)


@functools.lru_cache(16)
def words_of(block, size):
    """Gives the first and last bytes of the words of a block, these words, and the words with their bytes reversed."""
    parts = lanes(block, size)
    return {b for part in parts for b in (part[0], part[-1])}, set(parts), {part[::-1] for part in parts}
