"""Changes instructions that ran in a call: one is dropped, its condition is turned, its constant is changed, or two of its operands are
exchanged. A change is of the line that objdump prints. The proof of the call has to refuse it, or it breaks no promise (inputs.py)."""
import bisect
import functools
import itertools
import random
import re

from machines.machine import MOST_STEPS
from planted.inputs import TIMES, Inputs
from symbols.bits import Unproved

# Conditions of jumps and of choices, each with its contrary.
CONTRARY = {a: b for pair in (
    "e ne", "b ae", "be a", "s ns", "eq ne", "cs cc", "hs lo", "hi ls", "mi pl", "lt ge", "gt le", "beq bne", "blt bge", "bltu bgeu",
    "c.beqz c.bnez", "cbz cbnz", "tbz tbnz") for a, b in (pair.split(), pair.split()[::-1])}
BY_NAME = re.compile(r"(j|set|cmov|b\.)(\w+)$")  # a condition is the end of a name
MOST = 20  # instructions of a call that are changed
NOPS = "nop", "hint\t#0", "c.nop"  # of x86-64, ARM and RISC-V
WITHOUT_EFFECT = re.compile(r"nop|data16|cs nop|endbr64|hint|bti|fence|xchg|c\.nop|addi\tzero,zero,0")
NUMBER = re.compile(r"(?<![\w.])(#?-?)(0x[0-9a-f]+|\d+)(?![\w.])")


def parted(line):
    """Gives the name of an instruction, what stands between, and its operands."""
    name, gap, rest = re.fullmatch(r"(\S+)(\s*)(.*)", re.sub(r"\s*(?:#(?=\s)|//|<).*", "", line)).groups()
    return name, gap, re.findall(r"\{[^}]*\}(?:\[\d+\])?|(?:[^,\[]|\[[^\]]*\])+", rest)


def turned(name, operands):
    """Turns a condition, in the name or as the last operand."""
    ending = BY_NAME.fullmatch(name)
    if ending and ending[2] in CONTRARY:
        return ending[1] + CONTRARY[ending[2]], operands
    if not ending and name in CONTRARY:
        return CONTRARY[name], operands
    if operands and operands[-1].strip() in CONTRARY:
        return name, [*operands[:-1], " " + CONTRARY[operands[-1].strip()]]
    return None


def changed(name, operands, is_jump):
    """Changes the last number: a small one by 1, and a place in memory by a word."""
    for k in reversed(range(len(operands))):
        found = list(NUMBER.finditer(operands[k]))
        if found and not (is_jump and k == len(operands) - 1):
            at = found[-1]
            number = int(at[1].lstrip("#") + at[2], 16 if at[2][:2] == "0x" else 10)
            number += 16 if "[" in operands[k] or "(" in operands[k] else 1
            text = at[1].replace("-", "") + ("-" if number < 0 else "") + (hex if at[2][:2] == "0x" else str)(abs(number))
            return name, [*operands[:k], operands[k][:at.start()] + text + operands[k][at.end():], *operands[k + 1:]]
    return None


def exchanged(name, operands):
    """Exchanges the first two operands that aren't numbers. Only a move may have its operands in memory exchanged."""
    if not re.match(r"v?mov(?![sz]x|abs)|ldp|stp", name) and re.search(r"[\[(]", "".join(operands)):
        return None
    places = [k for k, text in enumerate(operands) if not NUMBER.fullmatch(text.strip()) and text.strip() not in CONTRARY][:2]
    if len(places) < 2:
        return None
    a, b = places
    out = [text.strip() for text in operands]
    out[a], out[b] = out[b], out[a]
    return name, out


def mutants(program, address):
    """Gives (what is changed, the changed line) of an instruction, as far as that can be decoded."""
    line = program.lines[address]
    if WITHOUT_EFFECT.match(line):
        return
    right, (name, gap, operands) = program.decoded(address), parted(line)
    is_jump = bool(re.match(program.machine.jumps + r"|call|bl\b|jal", line))
    yield "dropped", next(text for text in NOPS if is_known(program, text))
    for what, made in (("a turned condition", turned(name, operands)), ("another constant", changed(name, operands, is_jump)),
                       ("exchanged operands", exchanged(name, operands))):
        if made:
            text = made[0] + gap + ("," if "," in line and ", " not in line else ", ").join(x.strip() for x in made[1])
            if is_known(program, text) and program.machine.decode(text, program.next.get(address, 0))[1:3] != right[1:3]:
                yield what, text


def is_known(program, text):
    """Whether the program knows the instruction of a line."""
    try:
        program.machine.decode(text, 0)
    except (Unproved, LookupError, ValueError):
        return False
    return True


def has_effect(right, used):
    """Gives the meaning of an instruction that also notes where it changes something. It doesn't count if a register is emptied that holds
    no secret."""
    def meaning(m, name, *operands):
        before, flags, written, following = [*m.general.values(), *m.vectors], m.flags, m.last_written, m.next_address
        right(m, name, *operands)
        for old, new in zip(before, [*m.general.values(), *m.vectors]):
            if old is not new:
                pairs = zip(*(m.to_bytes(v, m.word if type(v) is not list else len(v)) for v in (old, new)))
                if any(x != y and (y or m.domain.symbolic(x)) for x, y in pairs):
                    used.add(m.last)
        if m.last_written is not written or m.next_address != following or m.flags is not flags and name[:1] in "ctb":
            used.add(m.last)
    return meaning


class Mutants:
    """The changes of one case of a build."""

    def __init__(self, keyed, what, call, parameters):
        self.keyed, self.program, self.what, self.call, self.parameters = keyed, keyed.program, what, call, parameters

    def prove(self, address=None, line=None):
        """Proves the case, with another line at an address. Gives the last machine."""
        right = self.program.lines.get(address)
        try:
            self.change(address, line)
            return self.keyed.prove_statement(self.call, parameters=self.parameters)
        finally:
            self.change(address, right)

    def change(self, address, line):
        """Puts a line at an address. All that was read of lines before is forgotten."""
        if line:
            self.program.lines[address] = line
        for known in (self.program.cache, self.program.ran):
            known.clear()
        vars(self.program).pop("heads", None)

    def chosen(self):
        """Gives the addresses of some instructions that ran and had an effect, by turns of each function that ran."""
        used, decoded = set(), self.program.decoded

        def noting(address):
            instruction = decoded(address)
            return instruction._replace(run=has_effect(instruction.run, used))
        self.program.decoded, self.program.machine.most_steps = noting, MOST_STEPS
        try:
            steps = self.prove().steps
        finally:
            del self.program.decoded
            self.change(None, None)
        self.program.machine.most_steps = 10 * steps + 50000  # (a loop may not end any more)
        starts, by_function = sorted(self.program.function_of), {}
        for address in sorted(filter(self.program.is_own, used)):
            by_function.setdefault(bisect.bisect(starts, address), []).append(address)
        for addresses in by_function.values():
            random.Random(self.what).shuffle(addresses)
        turns = (a for turn in itertools.zip_longest(*by_function.values()) for a in turn if a and any(mutants(self.program, a)))
        return list(itertools.islice(turns, MOST))

    def verdicts(self):
        """Gives (whether it is refused, or else breaks no promise; what to print) of each change."""
        for address in self.chosen():
            line = self.program.lines[address]
            for kind, text in [*mutants(self.program, address)]:
                what = "%s, at %x: %s: %s" % (self.what, address, kind, " -> ".join(re.sub(r"\s+", " ", x) for x in (line, text)))
                try:
                    self.prove(address, text)
                except Exception as e:  # (a fault of the program, by which a case isn't proved)
                    yield True, "refused: %s: %s" % (what, str(e)[:100])
                    continue
                yield self.compared(what, address, text)

    @functools.cached_property
    def inputs(self):
        return [Inputs(self.keyed, self.call, k) for k in range(TIMES)]

    def compared(self, what, address, text):
        """Gives the verdict on a change that the proof doesn't refuse."""
        right = self.program.lines[address]
        try:
            inputs = self.inputs
            self.change(address, text)
            same = all([one.judge() for one in inputs])
        except Unproved as e:
            return False, "MISSED: %s: %s" % (what, e)
        finally:
            self.change(address, right)
        return True, ("no change: " if same else "otherwise: ") + what
