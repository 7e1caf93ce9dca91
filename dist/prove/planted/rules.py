"""Runs the functions of rules/*.s. Each tests a rule of the program, and nothing in it is from a compiler. A file has what its functions
share, and then the functions. Before each stands a line: what it does, and how the program has to answer: `proved`, or a part of what the
program says when it refuses the function. Each function is to return the first word of a struct that holds a key, which is 16."""
import os
import re

from kept import KEPT
from linked.builds import BUILDS
from linked.directives import refuse_lines
from linked.linking import PROVE_FOLDER, program_of
from linked.tools import run
from statements.calls import Buffer, Call, prove_call
from symbols.bits import KEY, Unproved
from symbols.domain import Domain

FOLDER = os.path.join(PROVE_FOLDER, "rules")
# The build with whose rules the functions of a file are judged.
OF_BUILDS = {"x86_64": "x86_64/aes", "x86_64_v3": "x86_64/aes_v3", "windows_x86_64": "windows_x86_64/aes", "aarch64": "aarch64/aes",
             "riscv64": "riscv64/aes_narrow", "riscv32": "riscv32/aes"}
PROVED = "proved"


def functions_of(name):
    """Gives (what it does, the answer, what functions share, the function itself) of each function of a file."""
    with open("%s/%s.s" % (FOLDER, name), newline="") as file:
        shared, *parts = re.split(r"(?m)^(?:#|//) RULE ", file.read())
    for part in parts:
        line, text = part.split("\n", 1)
        what, answer = line.split(" | ")
        yield what, answer, shared, text


def answer_to(build, shared, text, out):
    """Gives how the program answers to a function."""
    machine, domain = BUILDS[build], Domain()
    one_by_one = re.sub(r"(?m)^\t([\w.$]+:)$", r"\1", re.sub(r"(?m)^\t([\w.]+) ", r"\t\1\t", text.replace("; ", "\n\t")))
    for ending, content in ((".s", shared + text), (".own.s", one_by_one)):
        with open(out + ending, "w", newline="") as file:
            file.write(content)
    key = [domain.fresh("key[%d]" % k, KEY) for k in range(64)]
    first = 4 if machine.vector_count else machine.word
    struct = Buffer("aes", [16, *[0] * (first - 1), *key], align=first)
    try:
        run(*machine.compiler, "-c", out + ".s", "-o", out + ".o", warns=False)
        program = program_of(build, out + ".o", out)
        prove_call(domain, program, Call("aes_key_length", [struct], 16, size=4))
        refuse_lines(out + ".own.s", machine)
    except Unproved as e:
        return str(e)
    return PROVED


def try_rules(options, name):
    """Tries the functions of a file. Gives (whether the answer is the right one, what to print)."""
    build, kept, verdicts = OF_BUILDS[name], options.kept, []
    for what, answer, shared, text in functions_of(name):
        of_kept = kept.name("rule", build, answer, shared, text)
        known = kept.of(of_kept)
        have = known or answer_to(build, shared, text, "%s/rule_%s" % (options.out, name))
        right = have == answer if PROVED in (have, answer) else answer in have
        if right and not known:
            kept.keep(of_kept, have)
        words = "refused" if have != PROVED else PROVED
        verdicts.append((right, KEPT * bool(known) + "%s: %s (rules/%s.s): %s" % (words if right else "MISSED", what, name, have[:160])))
    return verdicts
