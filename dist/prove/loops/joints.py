"""Proves a call of several lengths part by part. Each part is proved for the remainders of one length.

A part ends with a phase of the statement, at a *joint*. That is a place in the code through which all its runs go. They come there with
each remainder of one length. A *state at the joint* is guessed from them. In it the lengths are unknown numbers without remainders. It has
nothing that the runs don't have in common, and of the stack below the stack pointer only where secrets may be. Each run has to be an
instance of this state. So all that is proved from there holds for each run. The next part begins in this state, with each remainder of its
own length.

Remainders may share a loop (Part.unit). Then a run learns the remainder where the loop ends.

It doesn't matter how a place or a state is guessed: a wrong guess can only fail. A state only becomes weaker while runs come (`weaken`). So
a run that was an instance of it stays one."""
from collections import namedtuple

from loops.lengths import differences_from, facts_at_end, general_regions, general_registers, generalized
from loops.linear import Linear, implied, is_number, may_be_zero, names_in, refuted, rewritten, step_of, terms, unknown
from machines.operands import SECRET, is_int
from machines.regions import Window
from symbols.bits import DATA, KEY, Unproved

SCOUTED = 0, 1, 16, 17  # the remainders with which the place of a joint is looked for
LONGEST_TRAIL = 4000  # how many places are looked at there


class Part(namedtuple("Part", "length step phase cases but scouted unit", defaults=[None, (frozenset(),), None, SCOUTED, None])):
    """A part of a call.

        length    the name of the unknown length whose remainders it has
        step      the number of bytes by which they are taken
        phase     the phase of the statement that begins when the part ends; None for the last part, which ends with the call
        cases     sets of facts, of which one holds for each run that comes to its end. Each has a state of its own there
        but       a length that isn't meant. It is less than `step`
        scouted   the remainders with which the place of its end is looked for
        unit      a divisor of `step`, or None. With it, runs begin with a remainder by `unit`. A run learns the remainder by `step` when
                  the code has asked whether no more than `step` bytes are left (by_what_is_left). So all remainders share what runs
                  before that, such as a loop over the length"""
    __slots__ = ()

    def begun(self):
        """Gives the part by whose remainders its runs begin."""
        return self._replace(step=self.unit or self.step)

    def later(self, phases):
        """Gives the part if other phases come before its own."""
        return self._replace(phase=self.phase and self.phase + phases)


Place = namedtuple("Place", "address stack_pointer")  # where a part ends


def is_empty_or_not(sizes):
    """Gives the cases that all of these sizes are 0, and that one isn't."""
    return {-sum(sizes)}, {sum(sizes) - 1}


class Arrived(Exception):
    """Ends a run, which came to the joint."""


def with_remainder(start, part, rest):
    """Gives a machine in which the length of a part leaves this remainder. If the length is known there, it stays as it is."""
    m = start.copied()
    if isinstance(m.known(unknown(part.length)), Linear):
        groups = unknown("groups of %d, %s before phase %s" % (part.step, part.length, part.phase))  # (a name that no other part has)
        m.replace_unknown(part.length, groups * part.step + rest)
        m.assume(groups - (rest == part.but))
    return m


def names_of_lengths(m, part, rest):
    """Gives the names of unknown numbers whose sizes are looked at where runs with this remainder end: those of its length. With the first
    remainder, and if its length is known, they are those of all lengths."""
    own = terms(m.known(unknown(part.length)))
    return own if rest and own else names_in(m.facts)


def begins_of(start, part, rests=None):
    """Gives (a remainder, the machine in which the length of a part leaves it) for each remainder that it may leave, or for some."""
    for rest in range(part.step) if isinstance(start.known(unknown(part.length)), Linear) else range(1):
        m = with_remainder(start, part, rest) if rests is None or rest in rests else None
        if m and not refuted(m.facts):
            yield rest, m


def by_what_is_left(m, flag, part):
    """Gives the machines with which a run of a part goes on, once a flag has a value there. If the flag says that no more than `step` bytes
    of the length are left, there is one for each number of bytes. Together they have all numbers that the facts allow."""
    if not part.unit or not is_number(*flag[:2]):
        return [m]
    m.tighten()
    left = what_is_left(m, flag, part)
    if left is None:
        return [m]
    numbers = range(left.constant % step_of(left), part.step + 1, step_of(left))
    return [m.with_number(left, n) for n in numbers if not refuted(m.facts | {left - n, n - left})]


def what_is_left(m, flag, part):
    """Gives the number of bytes that are left of the length of a part, if a flag says that they are no more than `step`. Else gives None.
    Its remainder by `unit` has to be known."""
    own = terms(m.known(unknown(part.length))).keys()
    both = (m.known(number) for number in (flag[1] - flag[0], flag[0] - flag[1]))
    return next((left for left in both if own & terms(left).keys() and step_of(left) % part.unit == 0
                 and m.implied(left) and m.implied(part.step - left)), None)


def end_of(m, part, names):
    """Gives the length of a part at the end of a run, and the facts there about the lengths with these names."""
    return m.known(unknown(part.length)), facts_at_end(m, names)


def facts_of_ends(ends, part, begin):
    """Gives the facts at the ends of runs of a part, as end_of does, with those that say that the length is that of `begin`. Leaves out ends
    at which it leaves another remainder."""
    own, length = unknown(part.length), begin.known(unknown(part.length))
    return [facts | {own - length, length - own} for end, facts in ends if may_be_zero(end - length)]


def case_of(m, part):
    """Gives the number of the case to which a run belongs at the end of a part, or None if that isn't known."""
    return next((k for k, facts in enumerate(part.cases) if all(m.implied(m.known(fact)) for fact in facts)), None)


def place_of(m):
    """Gives the place to which a run has come."""
    return Place(m.next_address, m.general[m.stack_pointer].offset)


def stopping_at(part, places):
    """Gives a function that ends a run at a joint. It is called after each instruction. `places` are those of the cases."""
    addresses = {place.address for place in places.values()}

    def watch(m):
        if m.next_address in addresses and m.phase == part.phase and place_of(m) == places.get(case_of(m, part)):
            raise Arrived
    return watch


def stopping_in(phase):
    """Gives a function that ends a run when a phase begins."""
    def watch(m):
        if m.phase == phase:
            raise Arrived
    return watch


class Trail:
    """Notes through which places a run goes after the end of a part."""

    def __init__(self):
        self.places = {}

    def watch(self, m):
        if is_int(m.next_address):
            self.places[place_of(m)] = None
        if len(self.places) > LONGEST_TRAIL:
            raise Arrived


def common_place(trails):
    """Gives the first place through which all these runs go."""
    first, *others = trails
    place = next((place for place in first.places if all(place in trail.places for trail in others)), None)
    if not place:
        raise Unproved("runs have no place in common after a part")
    return place


class Joint:
    """Keeps the states at a joint, one for each case."""

    def __init__(self, call, part, is_secret):
        """`part` is the one that ends there. is_secret(m, byte) says whether a byte may depend on a secret."""
        self.facts, self.part, self.is_secret = call.facts, part, is_secret
        self.lengths = dict.fromkeys(part.length for part in call.parts)
        self.others = [name for name in names_in(call.facts) if name not in self.lengths]
        self.known_states, self.waiting = {}, {}  # by the numbers of their cases: states, and runs to which no state belongs so far

    def add_all(self, runs):
        """Adds runs that came to the joint. Those of any length come first, because a state is best made from one of them."""
        def known_numbers(m):
            return sum(is_int(m.known(unknown(name))) for name in self.lengths) + len(self.others_known(m))
        for m in sorted(runs, key=known_numbers):
            self.add(without_dead_stack(m, self.is_secret))

    def add(self, m):
        """Adds a run. It has to be an instance of the state of its case, and so have all that waited for this state."""
        case = case_of(m, self.part)
        if case is None:
            raise Unproved("it isn't known which case a run belongs to at the end of a part")
        runs = [*self.waiting.pop(case, ()), m]
        state = self.known_states.get(case) or self.state_of(runs, self.part.cases[case])
        if not state:
            self.waiting[case] = runs
            return
        self.known_states[case] = state
        for run in runs:
            if self.differences(state, run):
                weaken(state, run, self.instance(state, run))
                wrong = self.differences(state, run)
                if wrong:
                    raise Unproved("a part doesn't end in the same state: " + ", ".join(wrong))

    def differences(self, state, m):
        """Gives the names of all in which a machine isn't an instance of a state."""
        return differences_from(m, self.instance(state, m)) + differences_of_windows(m, state)

    def machines(self):
        """Gives all machines that it keeps."""
        return [*self.known_states.values(), *(m for runs in self.waiting.values() for m in runs)]

    def states(self):
        """Gives all states, when all runs have come."""
        if self.waiting:
            raise Unproved("no state at a joint is known for some runs")
        return list(self.known_states.values())

    def state_of(self, runs, case):
        """Guesses the state of a case from the last run. If a length is known there that may be any in this case, it is guessed from this
        run and an earlier one, with the same numbers but for this length. The length has to differ by 1, or there is no state so far."""
        *earlier, m = runs
        numbers = {name: m.known(unknown(name)) for name in self.lengths}
        fixed = [name for name, number in numbers.items() if is_int(number) and not implied_by(self.facts | case, name, number)]
        others = {unknown(name) for name in (*self.lengths, *self.others) if name not in fixed}
        alike = (run for run in earlier if all(run.known(n) == m.known(n) for n in others))
        state = next(filter(None, (state_between((run, m), fixed) for run in alike)), None) if fixed else m.copied()
        return state and self.forgetful(state, case, {name: number for name, number in numbers.items() if not is_int(number)})

    def forgetful(self, state, case, numbers):
        """Gives this state with nothing but what a joint keeps. The lengths with these numbers become unknown."""
        for name, number in numbers.items():
            if number != unknown(name):
                rewrite(state, number, name)
        state.facts, state.replaced, state.decided, state.generals, state.loops = self.facts, [], [], (), {}
        state.first_passes = ()
        state.flags = dict.fromkeys(state.flag_names, SECRET)
        state.ever_written = {name: set() for name in state.ever_written}
        return state.with_facts(case)

    def others_known(self, m):
        """Gives the names of other unknown numbers of the statement that a machine knows."""
        return [name for name in self.others if m.known(unknown(name)) != unknown(name)]

    def instance(self, state, m):
        """Gives the state with the lengths that a machine has."""
        want, names = state.copied(), [*self.lengths, *self.others_known(m)]
        for name in names:  # by other names first, because the machine's numbers may have the names of these lengths
            want.replace_unknown(name, unknown(name + " at the joint"))
        for name in names:
            want.replace_unknown(name + " at the joint", m.known(unknown(name)))
        return want


def implied_by(facts, name, number):
    """Whether it follows from facts that the unknown with this name is a number."""
    return implied(facts, unknown(name) - number) and implied(facts, number - unknown(name))


def state_between(runs, names):
    """Guesses the state that two runs have in common, in which one length differs by 1. Gives None for other runs."""
    (first, second), (name, *others) = runs, names
    length = first.known(unknown(name))
    if others or second.known(unknown(name)) != length + 1:
        return None
    state, more = first.copied(), unknown(name) - length
    general_registers(state, first, second, more, ())
    for r, v in first.general.items():
        if type(v) is type(w := second.general[r]) is tuple:
            state.general[r] = tuple(byte_between(state, *both, more) for both in zip(v, w))
    general_regions(state, first, second, more)
    own, *others = (x.regions["stack"].content for x in (state, first, second))
    own[:] = [byte_between(state, x, y, more) if x != y and b == state.any_byte() else b for b, x, y in zip(own, *others)]
    for region, other in zip(state.regions.values(), second.regions.values()):
        if isinstance(region, Window):
            for what in "size", "end", "head", "skip":
                setattr(region, what, generalized(getattr(region, what), getattr(other, what), more, state.highest))
    return state


def byte_between(state, a, b, more):
    """Gives the byte that is `a` in the first run and `b` in the second. If it is another constant in each, it is the lowest byte of a
    number."""
    if a == b or max(a, b) > 255:
        return a if a == b else state.any_byte()
    return state.to_bytes(more * (b - a) + a, state.word)[0]


def without_dead_stack(m, is_secret):
    """Gives a machine that knows of the stack below the stack pointer only whether its bytes are secret. The code can't read them."""
    m = m.copied()
    content, end = m.regions["stack"].content, m.general[m.stack_pointer].offset
    dead, undefined = range(m.stack.lowest, end), m.domain.undefined
    is_public = {b: not is_secret(m, b) for b in {content[k] for k in dead}}
    for k in dead:
        content[k] = undefined if is_public[content[k]] else m.any_byte()
    m.stack.mark_stale(m.stack.lowest, end)
    return m


def rewrite(state, number, name):
    """Lets an unknown replace this number everywhere. Bytes of numbers that can't be written with it become any bytes."""
    if len(number.terms) > 1:
        raise Unproved("a length that depends on several unknown numbers at a joint")

    def is_written(x):
        try:
            rewritten(x, number, name)
        except Unproved:
            return False
        return True

    def kept(b):
        name = state.domain.name_of_opaque.get(b)
        numbers = name[:1] if isinstance(name, tuple) else [state.domain.number_of_cell[c][0] for c in state.domain.unknown_cells(b)]
        return b if all(map(is_written, numbers)) else state.any_byte()
    state.each_byte(kept)
    state.general = {r: v if type(v) is tuple or is_written(v) else (state.any_byte(),) * state.word for r, v in state.general.items()}
    state.flags = dict.fromkeys(state.flag_names)
    state.facts = frozenset()
    state.replace_numbers(lambda x: rewritten(x, number, name))


def weaken(state, m, want):
    """Forgets what a state has and a machine hasn't. `want` is the state with the machine's lengths."""
    any_ = state.any_byte()

    def common(kept, a, b):
        return [x if y == z else any_ for x, y, z in zip(kept, a, b)]
    for r, v in want.general.items():
        if want.to_bytes(v, m.word) != m.to_bytes(m.general[r], m.word) and r != m.stack_pointer:
            state.general[r] = (any_,) * m.word
    state.vectors = [common(*some) for some in zip(state.vectors, want.vectors, m.vectors)]
    state.stack.join(m.stack)
    own, *others = (x.regions["stack"].content for x in (state, want, m))
    own[:] = common(own, *others)
    for place, on in m.origins.items():
        if (kept := state.origins.setdefault(place, on)) != on and (on & kept & KEY or KEY not in (on, kept)):
            state.origins[place] = KEY if on & kept & KEY else KEY | DATA
    secret = state.asked_of_secrets()
    state.answers = {flag: answer for flag, answer in state.answers.items() if flag in secret or m.answers.get(flag) == answer}
    state.stale_answers |= m.stale_answers
    state.note_buffers(m)


def differences_of_windows(m, state):
    """Gives the names of buffers of any length that a machine and a state don't treat alike."""
    what = "turn", "unit", "backwards", "undoes", "waits", "want"
    return [name for name, w in state.regions.items() if isinstance(w, Window) and any(
        getattr(w, x) != getattr(m.regions[name], x) for x in what)]
