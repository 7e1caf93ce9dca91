"""Checks how a static library with three builds chooses one of them. It runs the machine up to the function that each export leads to."""
import re

from linked.linking import link
from machines.operands import Pointer
from machines.regions import Region
from statements.headers import parameters_of
from symbols.domain import Domain

FUNCTIONS_IN_C = {"fotsgure_gcm_siv_seal_random"}  # functions of the headers that the assembly doesn't have


def choice_cases(built, dist, out):
    """Checks the exports of a static library that holds three builds. Each jumps to the function of the build for the processor."""
    for library in filter(built.has, ("aes", "gcm")) if built.machine.from_v2_and_v3 else ():
        objects = [path for name, path in built.archive(library).items() if name != "seal_random.o"]
        program, wrong = link("%s/choose_%s_%s" % (out, built.folder, library), built.machine, objects), []
        parameters = parameters_of(dist, library)
        names = sorted({*parameters} - FUNCTIONS_IN_C)
        chosen = {name for name in program.exports if not re.search(r"_v\d$|\.cold$", name)}
        wrong += {*names} ^ chosen
        for name in {*names} & chosen:
            wrong += [name + suffix for found, suffix in ((1, "_v1"), (2, "_v2"), (3, "_v3"))
                      if not leads_to(program, name, len(parameters[name]), found, suffix)]
        yield "choose_%s.o of %s: %d exports, each to the three builds" % (library, built.folder, len(names)), ", ".join(wrong)


def leads_to(program, name, count, found, suffix):
    """Whether an export jumps to the function with this suffix, and keeps its caller's arguments and registers. `found` is what the library
    knows of the processor. Some arguments are on the stack."""
    domain, arguments = Domain(), [Pointer("argument %d" % k, 0) for k in range(12)]
    program.constants.append((program.symbols["known"], [found, 0, 0, 0]))
    m = program.machine(domain, program, {"stack": Region([domain.undefined] * 504, align=16)}, program.symbols[name], arguments)
    top = m.stack.top
    before, stack = dict(m.general), m.regions["stack"].content[top:]
    m.stack.top += len(stack)  # a function may write to the arguments that it is given
    while m.next_address not in [program.symbols[name + build] for build in ("_v1", "_v2", "_v3")]:
        m.step()
    program.constants.pop()
    same = all(m.general[r] == before[r] for r in (*m.restored_registers, *m.arguments[:count]))
    return m.next_address == program.symbols[name + suffix] and same and m.regions["stack"].content[top:] == stack
