"""Proves calls of every length. The length is an unknown number (linear.py). A comparison of such numbers follows from the facts about
them, or is a question.

A run may come back to the head of a loop for the second time because of such comparisons. Then the program guesses the general state: the
state at the head after one pass and any number of further passes, `passes`. Its numbers and addresses are those after the first pass plus a
multiple of `passes`. Its blocks are counted from those of the last pass on. A byte that doesn't fit becomes a byte of which nothing is
known.

A pass from the general state is then run. It has to leave the loop, or lead to the same state with `passes` + 1. So it doesn't matter how
the general state is guessed: a wrong guess can only fail."""
import itertools
from collections import namedtuple

from loops.linear import WithValue, is_number, replaced, terms, unknown, wrapped
from loops.unknowns import WRAPPED
from machines.operands import FARTHEST, SECRET, Number, Pointer, is_int, is_pointer, lanes
from machines.regions import Window
from symbols.bits import DATA, KEY, LOST, Unproved

FLAG = "a flag"  # a difference of two states
PASS_NUMBERS = itertools.count()  # so that each unknown number of passes has a name of its own

# The last visit to the head of a loop:
#     mark       how many comparisons were decided before it
#     first      the state after the first pass
#     facts      what was decided in that pass
#     general    the general state (see General)
Visit = namedtuple("Visit", "mark first facts general", defaults=[None, None, None])
# A general state:
#     name       the unknown number of passes
#     state      the machine
#     guesses    the facts of the state that are guessed
#     blocks     by how many blocks a pass moves on
#     made_of    the loop, and the two Visits from which it was guessed
#     wrong      earlier guesses that were wrong: facts, registers that were equal after the first passes, and FLAG
General = namedtuple("General", "name state guesses blocks made_of wrong")


class Leads(Exception):
    """Ends a run, which leads to these machines. There are none if it came back to a general state. If it leads to a new one, the state
    after the first pass is given too. That is an instance of the new one, so other runs from it needn't go on (run_to_all_ends)."""


class Wrong(Exception):
    """Says that a guess of this general state was wrong. What was proved from it doesn't count, and another state replaces it."""


class GeneralStates:
    """Keeps the general states of a call. A run that comes to one of them from elsewhere ends there."""

    def __init__(self):
        self.at, self.after, self.left_out = {}, {}, []

    def add(self, key, general):
        self.at.setdefault(key, []).append(general)
        self.note_need(general, general.state.generals[:-1])

    def note_need(self, general, names):
        """Notes that the proof of these general states needs the proof of another one."""
        for name in names:
            self.after.setdefault(name, set()).add(general.name)

    def needed_states(self, name):
        """Gives all general states whose proof the proof of this one needs. No state may need itself, as in a loop that doesn't end."""
        out, waiting = set(), [name]
        while waiting:
            new = self.after.get(waiting.pop(), set()) - out
            out |= new
            waiting += new
        return out

    def leave_out(self, m, key):
        """Whether this machine is in a general state that is proved anyway, so that its run can end."""
        for general in self.at.get(key, ()):
            passes = passes_to(m, general)
            if passes is None or not {general.name, *self.needed_states(general.name)}.isdisjoint(m.generals):
                continue
            try:
                check_instance(renumbered(m, general, passes), general, passes)
            except Unproved:
                continue
            self.note_need(general, m.generals)
            self.left_out.append((general, m.copied()))
            return True
        return False

    def forget(self, is_dropped):
        """Forgets the general states of which is_dropped(state) says that their runs don't go on. Gives the machines of other runs that
        ended at these. They have to go on."""
        back = [m for general, m in self.left_out if is_dropped(general.state) and not is_dropped(m)]
        self.left_out = [(general, m) for general, m in self.left_out if not is_dropped(general.state) and not is_dropped(m)]
        self.at = {key: [general for general in some if not is_dropped(general.state)] for key, some in self.at.items()}
        return back


def renumbered(m, general, passes):
    """Gives a machine whose blocks are counted as in a general state after `passes` passes."""
    by = replaced(general.state.first_block, general.name, passes) - m.first_block
    if not is_int(by):
        raise Unproved("blocks whose numbers aren't known")
    return moved_on(m, by) if by else m.copied()


def passes_to(m, general):
    """Gives the number of passes after which a general state may be this machine's. A register, or how far a buffer is done, says it."""
    state = general.state
    pairs = [(w.origin, m.regions[name].origin) for name, w in state.regions.items() if isinstance(w, Window)]
    pairs += [(v, m.general[r]) for r, v in state.general.items()]
    for a, b in pairs:
        if is_pointer(a, b) and a.base == b.base:
            a, b = a.offset, b.offset
        by = terms(a).get(general.name)
        if by and is_number(b):
            rest = b - replaced(a, general.name, 0)
            if all(c % by == 0 for c in terms(rest).values()) and (rest if is_int(rest) else rest.constant) % by == 0:
                return divmod(rest, by)[0]
    return None


def watch(known, m):
    """Looks after each instruction whether the machine is at the head of a loop, or enters a function."""
    if m.next_address in m.program.heads:
        arrive(known, m, m.last in m.program.heads[m.next_address])
    elif m.next_address in m.program.function_of:
        m.loops = {key: visit for key, visit in m.loops.items() if key[0] not in m.program.function_of[m.next_address]}


def arrive(known, m, back):
    """Guesses or compares states at the head of a loop. `back`: whether a jump backwards led there."""
    key = m.next_address, m.general[m.stack_pointer].offset
    visit = m.loops.get(key)
    if key in known.at and not (back and visit and visit.general):
        m.settle()
        if known.leave_out(m, key):
            raise Leads([], None)
    if visit is None or not back:
        m.loops[key] = Visit(len(m.decided))
    elif visit.general:
        check_pass(m, visit.general)
    elif any(m.next_address <= at <= m.last for at, _ in m.decided[visit.mark:]):  # the length of the loop isn't known
        m.settle()
        now = Visit(len(m.decided), m.copied(), [fact for _, fact in m.decided[visit.mark:]])
        if visit.first:
            raise Leads([general_state(known, key, visit, now)], visit.first)
        m.loops[key], m.first_passes = now, (*m.first_passes, now.first)


def moved_on(m, blocks):
    """Gives a machine whose first block is `blocks` blocks later."""
    m = m.copied()
    move_on(m, blocks)
    return m


def move_on(m, blocks):
    """Lets the first block of a machine be `blocks` blocks later."""
    d = m.domain

    def moved(b):
        try:
            return d.moved(b, -blocks)
        except Unproved:
            return m.any_byte()
    m.forget_questions()
    m.each_byte(moved)
    m.first_block += blocks
    m.origins = {(c, block and block - blocks): on for (c, block), on in m.origins.items() if not block or block > blocks}


def blocks_in_a_pass(first, second):
    """Gives how many blocks a pass processes. If no address says it, this is how many steps were found."""
    ends = [(w.origin, second.regions[name].origin, w.unit) for name, w in first.regions.items() if isinstance(w, Window) and w.writable]
    places = [(v.offset, second.general[r].offset, first.regions[v.base].unit) for r, v in first.general.items()
              if is_pointer(v, second.general[r]) and v.base == second.general[r].base and isinstance(first.regions.get(v.base), Window)]
    for some in ends, places:
        moved = [(wrapped(b - a, first.highest), unit) for a, b, unit in some]
        steps = [by // unit for by, unit in moved if is_int(by) and by > 0 and by % unit == 0]
        if steps:
            return max(steps)
    by = second.steps_found - first.steps_found
    return by if is_int(by) else 0


def generalized(a, b, passes, highest):
    """Gives the value after any number of passes that is a after the first and b after the second. It is None if there is no such value. A
    number that moves farther than FARTHEST is none that counts. `highest` is the highest word."""
    if a == b:
        return a
    if is_number(a, b):
        by = wrapped(b - a, highest)
        return wrapped(a + passes * by, highest) if is_int(by) and abs(by) <= FARTHEST else None
    if type(a) is type(b) and isinstance(a, (Pointer, Number)) and a.base == b.base:
        offset = generalized(a.offset, b.offset, passes, highest)
        return None if offset is None else a._replace(offset=offset)
    return None


def general_bytes(m, a, b, passes, numbers=()):
    """Gives bytes of a general state, word by word. `numbers` are those of registers after both passes. (Two words that differ may have
    equal bytes by chance. So their bytes of blocks or of unknown numbers don't count as equal.)"""
    d, out = m.domain, []
    for x, y in zip(lanes(a, m.word), lanes(b, m.word)):
        v = None
        if x != y and len(x) == m.word:
            v = generalized(m.from_bytes(x), m.from_bytes(y), passes, m.highest)
            v = with_number(m, x, y, passes, numbers) if v is None else v
        if x == y:
            out += x
        elif isinstance(v, (Pointer, Number)):
            out += m.names(v) + x[m.size_of(v):]
        elif v is not None:
            out += m.to_bytes(v, m.word)
        else:
            out += [p if p == q and not d.unknown_cells(p) and not d.blocks(p) else m.any_byte() for p, q in zip(x, y)]
    return out


def with_number(m, x, y, passes, numbers):
    """Gives a word of a general state with which a number was combined by `xor`, its highest byte first. It is None for other words."""
    def added(word, number):
        return m.bytewise("xor", word, m.to_bytes(number, m.word)[::-1])
    for a, b in numbers if all(map(m.domain.symbolic, x + y)) else ():
        rest = added(x, a)
        if rest == added(y, b) and not any(map(m.domain.unknown_cells, rest)):
            return tuple(added(rest, generalized(a, b, passes, m.highest)))
    return None


def guesses_of(facts, later, wrong):
    """Gives the numbers that were compared in both of two passes, the last one first, and by how much each moves. If a number was a wrong
    guess, the number of the pass before is given."""
    for a, b in zip(reversed(facts), reversed(later)):
        starts = [start for start in (a, a - (b - a)) if start not in wrong]
        if is_int(b - a) and b != a and starts and WRAPPED not in terms(a):
            yield starts[0], b - a


def general_state(known, key, visit, now, wrong=frozenset()):
    """Guesses the state at a loop's head after any number of passes, from the states after the first pass (`visit`) and the second (`now`).
    The state has none of the guesses in `wrong`. The state after the first pass has to be an instance of it."""
    name = "passes %04d" % next(PASS_NUMBERS)
    passes, first = unknown(name), visit.first
    blocks = blocks_in_a_pass(first, now.first)
    second, g = moved_on(now.first, blocks), first.copied()
    g.first_block = first.first_block + passes * blocks
    g.origins = {(c, b): on for (c, block), on in (*second.origins.items(), *first.origins.items())  # also of blocks of earlier passes
                 for b in (range(block, 0, -blocks) if block and blocks else [block])}
    g.forget_questions()
    g.steps_found = generalized(first.steps_found, second.steps_found, passes, g.highest)
    general_registers(g, first, second, passes, wrong)
    general_regions(g, first, second, passes)
    g.stack.join(second.stack)
    g.note_buffers(second)
    g.flags = general_flags(g, first, second, wrong)
    guesses = frozenset(start + passes * by for start, by in guesses_of(visit.facts, now.facts, wrong) if first.implied(start))
    g.facts = first.facts | guesses | {passes}
    g.forget_wrap()
    if not g.implied((1 << 63) - passes):
        raise Unproved("it doesn't follow that a loop ends")
    g.decided, g.generals = [], (*first.generals, name)
    general = General(name, g.copied(), guesses, blocks, (key, visit, now), wrong)
    check_instance(first, general, 0)
    known.add(key, general)
    g.loops[key] = Visit(0, general=general)
    return g


def general_registers(g, first, second, passes, wrong):
    """Sets the registers of a general state. Nothing is known of those in `wrong`."""
    for r, v in first.general.items():
        general = None if r in wrong else generalized(v, second.general[r], passes, g.highest)
        g.general[r] = tuple(g.any_byte() for _ in range(g.word)) if general is None else general
    g.vectors = [general_bytes(g, v, w, passes) for v, w in zip(first.vectors, second.vectors)]


def general_flags(g, first, second, wrong):
    """Gives the flags of a general state: all are undefined, or all are secret if one was after either pass."""
    secret = FLAG in wrong or any(state.is_secret(flag) for state in (first, second) for flag in state.flags.values())
    return dict.fromkeys(g.flag_names, SECRET if secret else None)


def general_regions(g, first, second, passes):
    """Sets the buffers of a general state, and how far each is done."""
    changed = [(v, w) for r, v in first.general.items() if is_number(v, w := second.general[r]) and is_int(w - v) and v != w]
    for name, region in g.regions.items():
        other = second.regions[name]
        if len(region.content) != len(other.content):
            raise Unproved("two passes of a loop don't access the same of %s" % name)
        begin = min(first.accessed_from(name), second.accessed_from(name))
        region.content[begin:] = general_bytes(g, region.content[begin:], other.content[begin:], passes, changed)
        if isinstance(region, Window):
            region.origin = generalized(region.origin, other.origin, passes, g.highest)
            if region.origin is None:
                raise Unproved("two passes of a loop don't come as far in %s" % name)


def check_pass(m, general):
    """Ends a run after a pass from a general state. The machine has to be in the same state with one more pass."""
    m.settle()
    m, one_more = moved_on(m, general.blocks), unknown(general.name) + 1
    wrong = {replaced(guess, general.name, 0) for guess in general.guesses if not m.implied(replaced(guess, general.name, one_more))}
    wrong = wrong or {what for what in differences(m, general, one_more) if what in (*m.general, FLAG)}
    if wrong:
        raise Wrong(general, wrong)
    check_instance(m, general, one_more)
    raise Leads([], None)


def check_instance(m, general, passes):
    """Fails if a machine isn't in the general state with this number of passes. If it is, all that is proved from there holds for it."""
    wrong = differences(m, general, passes)
    if wrong:
        raise Unproved("a pass of a loop doesn't lead to the same state: " + ", ".join(wrong))


def differences(m, general, passes):
    """Gives the names of all in which a machine differs from that state."""
    want = general.state.copied()
    want.replace_unknown(general.name, passes)
    return differences_from(m, want)


def differences_from(m, want):
    """Gives the names of all in which a machine differs from a state. A byte of which the state says nothing may be any byte."""
    any_ = m.domain.opaque(LOST)

    def same(a, b):
        return len(a) == len(b) and (a == b or all(x == y or x == any_ for x, y in zip(a, b)))

    def differs(name, a, b):
        begin = want.accessed_from(name)
        return not same(a.content[begin:], b.content[begin:]) or described(a) != described(b)
    wrong = [r for r, v in want.general.items() if not same(want.to_bytes(v, m.word), m.to_bytes(m.general[r], m.word))]
    wrong += ["vector register %d" % n for n, (v, w) in enumerate(zip(want.vectors, m.vectors)) if not same(v, w)]
    wrong += [name for name, r in want.regions.items() if differs(name, r, m.regions[name])]
    equal = "first_block", "domain", "registers_at_entry", "steps_found", "phase", "next_address", "counter", "shadow_stack"
    wrong += [what for what in equal if getattr(want, what) != getattr(m, what)]
    agrees = {
        "a fact": all(m.implied(f) for f in want.facts),
        FLAG: all(flag == SECRET or flag is None and not m.is_secret(m.flags[f]) for f, flag in want.flags.items()),
        "the use of the stack": want.stack.includes(m.stack),
        "the buffers that it wrote to": m.ever_written.keys() <= want.ever_written.keys(),
        # (What depends on the key alone may be left nowhere, and what depends on the key and on data in fewer places than data.)
        "origins": all(want.origins.get(place) in (on, KEY if on & KEY else KEY | DATA) for place, on in m.origins.items()),
        "answers": want.answers.items() <= m.answers.items() and want.stale_answers >= m.stale_answers,
        "what was asked of secrets": m.asked_of_secrets() == want.asked_of_secrets()}
    return wrong + [what for what, right in agrees.items() if not right]


def described(region):
    """Gives what two regions of a name have to have in common besides their bytes."""
    return [getattr(region, x) for x in (*region.numbers, "initial", "writable", "copied")] if isinstance(region, Window) else []


def facts_at_end(m, names):
    """Gives the facts of a machine, also those that say what the unknown numbers with these names are."""
    return m.facts | {x for old, by in ((unknown(name), m.known(unknown(name))) for name in names) for x in (old - by, by - old)}


def check_ends(ends, facts, names):
    """Checks that runs came to an end with numbers of all sizes that these facts allow, for each unknown number with one of these names.
    Else a proof might say nothing about them. `ends` has the facts at each end (facts_at_end)."""
    for name in names:
        allowed, runs = WithValue(facts, name), [WithValue(some, name) for some in ends]
        for value in (*range(40), *(2 ** k + d for k in range(6, 60) for d in (-1, 0, 1))):
            if not allowed.refuted(value):
                one = next((run for run in runs if not run.refuted(value)), None)
                if one is None:
                    raise Unproved("no run returned with the length that belongs to %s = %d" % (name, value))
                runs.sort(key=lambda run: run is not one)  # so that this one is asked first the next time
