"""Runs the controls of the proof, as `make prove-controls` in dist. Each of the following has to be refused: one planted fault for each
promise and machine (faults.py); changes of instructions that ran (mutants.py); wrong guesses of states at joints (wrong_states.py); faults
in other files (wrong_files.py); and wrong meanings of instructions. The functions of rules/*.s have to be answered as they say (rules.py).

A planted fault is refused if the case that it names is not proved any more. That is a case of PROVE=all. A fault for which a build has no
place counts as missed. Any other failure ends the controls: one of gcc or ld, a case that isn't there, or a planted instruction that the
program doesn't know, unless that is the fault."""
import argparse
import functools
import re
import shutil
import sys

from cases import LIBRARIES, statements
from kept import KEPT, sum_of_program
from linked.builds import BUILDS, source
from linked.directives import refuse_lines
from linked.linking import assemble
from loops import joints
from machines.native import NEVER_ALONE, compare_all
from machines.processors import MEANINGS, PROCESSORS
from planted.faults import FAULTS
from planted.mutants import Mutants
from planted.rules import OF_BUILDS, try_rules
from planted.wrong_files import WRONG_FILES
from planted.wrong_states import BUILD, CASE, WRONG_STATES
from prove import cases_of_files, last_line, options_of
from statements.calls import Call
from statements.headers import parameters_of
from symbols.bits import Unproved
from tasks import pool_of

BREAKS_NOTHING = "(?:%s)?[^:]+: (?:no change|otherwise): " % KEPT  # how the words on a change begin that isn't refused
SAMPLE = 24  # of so many statements of a build, or fewer, one has instructions changed


def verdict(what, attempt, reason=""):
    """Says whether an attempt to prove a fault is refused, for a reason with this word; and gives what to print."""
    try:
        attempt()
    except Unproved as e:
        if reason not in str(e) or "not covered" in str(e) and "not covered" not in what:
            raise SystemExit("controls: %s: %s" % (what, e)) from None
        return True, "refused: %s: %s" % (what, str(e)[:160])
    return False, "MISSED: " + what


def kept_verdict(kept, name, attempt):
    """Gives the verdict of this name that an earlier run kept, or that of an attempt. Keeps it if that is refused."""
    words = kept.of(name)
    if words:
        return True, KEPT + words
    refused, words = attempt()
    if refused:
        kept.keep(name, words)
    return refused, words


def edited_assembly(assembly, fault):
    """Gives the assembly with a fault in it, and the line of it. If there is no place for it, gives None."""
    at = re.search(r"(?m)^" + fault.label, assembly)
    end = at and re.compile(r"\t?\.(?:size|seh_endproc)|\Z").search(assembly, at.end())
    found = at and re.compile(fault.found).search(assembly, at.end(), end.start())
    if not found:
        return None, 0
    put = fault.becomes(found) if callable(fault.becomes) else found.expand(fault.becomes)
    return assembly[:found.start()] + put + assembly[found.end():], assembly.count("\n", 0, found.start()) + 1


class Planted:
    """Keeps the assembly of a build, in which faults are planted, and the cases that the build has with keys of 16 bytes. What runs at
    the same time has another `task`, and files of its own."""

    def __init__(self, options, build, task):
        self.build, self.out = build, "%s/%s_%s" % (options.out, task, build.replace("/", "_"))
        self.dist, self.library = options.dist, build.split("/")[1][:3]
        self.assembly = open(source(options.dist, build)).read()
        self.keyed = LIBRARIES[self.library][0](assemble(build, source(options.dist, build), self.out), 16)
        self.unchanged = sum_of_program(self.keyed.program)
        self.parameters = parameters_of(options.dist, self.library)

    @functools.cached_property
    def cases(self):
        """Gives the cases, for the keys that set_key stores. `find` needs them before there is a fault to be refused."""
        self.keyed.set_key()
        return {**self.cases_of("all"), "set_key": None}

    def cases_of(self, level):
        return dict(statements(self.keyed, argparse.Namespace(dist=self.dist, level=level, only=""), 0, 1))

    def find(self, case):
        """Ends the controls if the build lacks a case."""
        if case not in self.cases:
            raise SystemExit("controls: %s: no such case: %s" % (self.build, case))

    def prove_case(self, assembly, case):
        """Proves a case of the build with this assembly."""
        keyed = self.keyed
        with open(self.out + ".s", "w") as file:
            file.write(assembly)
        keyed.program = assemble(self.build, self.out + ".s", self.out)
        if self.cases[case]:
            keyed.prove_statement(self.cases[case], parameters=self.parameters)
        else:
            type(keyed)(keyed.program, keyed.key_size).set_key()
        refuse_lines(self.out + ".s", BUILDS[self.build])

    def try_fault(self, fault, kept):
        """Gives the verdict on a fault. Its case has to refuse it."""
        changed, line = edited_assembly(self.assembly, fault)
        what = "%s (%s.s:%d, %s)" % (fault.what, self.build, line, fault.case)
        if changed in (None, self.assembly):
            return False, "MISSED: %s: there is no such place, or nothing changes" % what

        def attempt():
            self.find(fault.case)
            return verdict(what, lambda: self.prove_case(changed, fault.case))
        return kept_verdict(kept, kept.name("fault", self.build, self.unchanged, changed, fault.what, fault.case), attempt)


def try_faults(options, build):
    """Tries the faults of one build."""
    planted = Planted(options, build, "faults")
    return [planted.try_fault(fault, options.kept) for fault in FAULTS[build] if options.only in fault.what]


def try_mutants(options, build):
    """Changes instructions that ran in some cases of a build of `aes`, or with PROVE=all in one case of each statement of each build."""
    planted, verdicts = Planted(options, build, "mutants"), []
    planted.keyed.set_key()
    by_statement = {}
    for what, call in planted.cases_of("").items():
        if isinstance(call, Call) and "refused" not in what:
            by_statement.setdefault(what.split()[0], (what, call))
    cases = list(by_statement.values())
    first = list(BUILDS).index(build) % min(SAMPLE, len(cases))  # so that builds have different statements
    for what, call in cases if options.level == "all" else cases[first::SAMPLE]:
        name = options.kept.name("mutants", build, planted.unchanged, what)
        known = options.kept.of(name)
        found = known or list(Mutants(planted.keyed, what, call, planted.parameters).verdicts())
        if not known and all(good for good, _ in found):
            options.kept.keep(name, found)
        verdicts += [(good, KEPT * bool(known) + "%s: %s" % (build, words)) for good, words in found]
    return verdicts


def try_wrong_states(options, build):
    """Tries wrong guesses of the states at joints, with the unchanged assembly of a build."""
    planted, right, verdicts = Planted(options, build, "states"), joints.Joint.forgetful, []

    def guessed(wrongly):
        def guess(*arguments):
            state = right(*arguments)
            wrongly(state)
            return state
        return guess

    def attempt():
        planted.find(CASE)
        return verdict("a state with " + what, lambda: planted.prove_case(planted.assembly, CASE))
    for what, wrongly in WRONG_STATES:
        joints.Joint.forgetful = guessed(wrongly)
        name = options.kept.name("state", planted.unchanged, what, CASE)
        verdicts.append(kept_verdict(options.kept, name, attempt))
    joints.Joint.forgetful = right
    return verdicts


def try_wrong_files(options, wrong):
    """Tries a fault in a file of a copy of dist, other than assembly."""
    dist, out = ("%s/wrong_files/%d/%s" % (options.out, WRONG_FILES.index(wrong), folder) for folder in ("dist", "out"))
    shutil.copytree(options.dist, dist, dirs_exist_ok=True, ignore=shutil.ignore_patterns("prove", "out*"))
    with open(dist + "/" + wrong.file, "r+") as file:
        text = file.read()
        changed = re.sub(wrong.found, wrong.becomes, text)
        file.seek(0)
        file.truncate()
        file.write(changed)

    def attempt():
        these = argparse.Namespace(dist=dist, out=out, builds=[wrong.build], built=("", ""))
        faults = ["%s: %s" % case for case in cases_of_files(these) if case[1]]
        if faults:
            raise Unproved(", ".join(faults))
        if wrong.case:
            planted = Planted(these, wrong.build, "headers")
            planted.find(wrong.case)
            planted.prove_case(planted.assembly, wrong.case)
    what = "%s (%s, %s)" % (wrong.what, wrong.file, wrong.build)
    return [verdict(what, attempt) if changed != text else (False, "MISSED: %s: there is no such place" % what)]


# Wrong meanings: the processor has to disagree.
WITHOUT_EFFECT = "nop", "endbr64", "hint", "fence", "xchg"  # xchg is padding too


def wrong_meaning(right):
    """Makes another meaning for an instruction: the first thing that it changes is off by one. If it changes nothing, the next address is.
    What it changes may be undefined. Then the next try has other values. The stack pointer is off by a word, as it has to be aligned."""
    def meaning(m, name, *operands):
        general = dict(m.general)
        vectors = list(m.vectors)
        flags = m.flags
        written = m.last_written
        right(m, name, *operands)
        is_known = lambda v: type(v) is not tuple or m.domain.name_of_opaque.keys().isdisjoint(v)
        registers = [r for r, v in m.general.items() if v is not general[r] and is_known(v)]
        numbers = [n for n, v in enumerate(m.vectors) if v is not vectors[n]]
        try:
            if m.last_written is not written:
                content, at = m.last_written
                content[at] = m.domain.xor_byte(content[at] if content[at] not in m.domain.name_of_opaque else 0, 1)
            elif numbers:
                first, *rest = m.vectors[numbers[0]]
                m.vectors[numbers[0]] = [m.domain.xor_byte(first, 1), *rest]
            elif registers:
                by = m.word if registers[0] == m.stack_pointer else 1
                m.general[registers[0]], _ = m.plus(m.general[registers[0]], by, 0, m.word)
            elif m.flags is not flags:
                m.flags[next(f for f in m.flags if m.flags[f] in (0, 1))] ^= 1
            else:
                m.next_address = m.offset(m.next_address, 1)
        except (Unproved, StopIteration):
            pass
    return meaning


def try_wrong_meanings(options, machine):
    """Gives each instruction of a machine's builds another meaning, by its name, and compares it with the processor."""
    tried, verdicts = {*WITHOUT_EFFECT, *NEVER_ALONE}, []
    for build in (b for b in options.builds if BUILDS[b] is machine):
        program, forms = assemble(build, source(options.dist, build), "%s/wrong_%s" % (options.out, build.replace("/", "_"))), {}
        unchanged = sum_of_program(program)
        for address in program.lines:
            try:
                instruction = program.instruction_at(address)
            except Unproved:
                continue  # on no path
            if instruction.name not in tried:
                forms.setdefault(instruction.name, {})[instruction.form] = address
                program.cache[address] = instruction._replace(run=wrong_meaning(instruction.run))
        for name in sorted(forms):
            what = "%s of %s with another meaning" % (name, build)
            of_kept = options.kept.name("meaning", unchanged, build, forms[name])
            verdicts.append(kept_verdict(options.kept, of_kept, lambda: verdict(
                what, lambda: compare_all(program, forms[name]), "differs")))
        tried.update(forms)
    return verdicts


def main():
    options = options_of(__doc__, all_builds=True)
    refused, missed, unbroken, kept = 0, 0, 0, 0
    tries = [(try_faults, build) for build in FAULTS if build in options.builds]
    if not options.only:
        tries += [(try_mutants, build) for build in options.builds if options.level == "all" or "/aes" in build]
        tries += [(try_rules, name) for name, build in OF_BUILDS.items() if build in options.builds]
        tries += [(try_wrong_states, BUILD)] * (BUILD in options.builds)
        tries += [(try_wrong_files, wrong) for wrong in WRONG_FILES if wrong.build in options.builds]
        tries += [(try_wrong_meanings, machine) for machine in set(MEANINGS.values()) if not PROCESSORS[machine].missing()]
    with pool_of(options.jobs, max_tasks_per_child=1) as pool:  # (one build needs some 4 GB)
        for tried in [pool.submit(function, options, of) for function, of in tries]:
            for good, message in tried.result():
                print(message, flush=True)
                breaks_nothing = good and bool(re.match(BREAKS_NOTHING, message))
                refused, missed, unbroken = refused + (good and not breaks_nothing), missed + (not good), unbroken + breaks_nothing
                kept += message.startswith(KEPT)
    print(last_line("%d refused, %d missed; %d changes break no promise" % (refused, missed, unbroken), kept, options.left_out))
    return missed != 0


if __name__ == "__main__":
    sys.exit(main())
