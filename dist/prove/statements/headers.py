"""Lets each machine's compiler compare what the headers say with what the statements have."""
import re
import subprocess

from aes_statements import cmac_pieces
from gcm_statements import gcm_header, siv
from linked.builds import BUILDS, library_of
from linked.refusals import fault_of
from machines.riscv import Riscv, Riscv32
from statements import keyed
from statements.calls import STACK
from symbols.bits import Unproved

STATUSES = {"aes": keyed.STATUSES, "gcm": gcm_header.STATUSES}
# All numbers that the headers define, but for the version and the places of a struct.
NUMBERS = {"aes": {"STACK": STACK, "BLOCK": 16, "EIGHT_BLOCKS": 128},
           "gcm": {"STACK": STACK, "NONCE": 12, "TAG": 16, "MOST": gcm_header.MOST, "MOST_ADDITIONAL": gcm_header.MOST_ADDITIONAL,
                   "SIV_NONCE": 12, "SIV_MOST": siv.MOST}}


def structs_of(library, machine, round_keys, multiples):
    """Gives {a struct: (its size, its alignment, {a field: where it is})} for a machine."""
    word = machine.word if issubclass(machine, Riscv) else 4  # of a key schedule
    key = {"key_length": 0, "round_keys": word}
    return {
        "aes": {"fotsgure_aes": (121 * word, word, key), "fotsgure_aes_ctr": (24, 8, {"iv": 0, "position": 16}),
                "fotsgure_aes_cbc": (16, 1, {"previous": 0}),
                "fotsgure_aes_cmac_message": (cmac_pieces.MESSAGE, 8, {"begun": 0, "rest_length": 8, "value": 16, "rest": 32})},
        "gcm": {"fotsgure_gcm": (word + round_keys + multiples, word, {**key, "multiples": word + round_keys}),
                "fotsgure_gcm_siv": (121 * word, word, key), "fotsgure_gcm_counter": (12, 1, {"next": 0}),
                "fotsgure_gcm_message": (gcm_header.MESSAGE, 8, {
                    "additional": 0, "text": 8, "decrypted": 16, "phase": 24, "first": 32, "value": 48, "rest": gcm_header.REST})},
    }[library]


def header_cases(dist, builds):
    """Gives for each header and machine what was compared, and what the compiler said."""
    for machine, library in {(BUILDS[build], library_of(build)): None for build in builds}:
        prefix = "FOTSGURE_%s_" % library.upper()
        places = {"ROUND_KEYS": 480, "MULTIPLES": 16} if machine is Riscv32 else {"ROUND_KEYS": 240, "MULTIPLES": gcm_header.MULTIPLES}
        numbers = {**NUMBERS[library], "VERSION": version(dist, library), **(places if library == "gcm" else {})}
        numbers = {prefix + name: n for name, n in numbers.items()}
        facts = {**numbers, **{prefix + name: n for n, name in enumerate(STATUSES[library])}, "sizeof(size_t)": machine.word}
        for struct, (size, align, fields) in structs_of(library, machine, *places.values()).items():
            facts.update({"sizeof(struct %s)" % struct: size, "_Alignof(struct %s)" % struct: align})
            facts.update({"offsetof(struct %s, %s)" % (struct, field): at for field, at in fields.items()})
        what = "fotsgure_%s.h for %s: %d facts of numbers, sizes, places and statuses" % (library, machine.__name__, len(facts))
        yield what, fault_of(refuse_other_facts, machine, dist + "/include", "#include <fotsgure_%s.h>" % library, facts, {*numbers})


def refuse_other_facts(machine, folder, header, facts, numbers):
    """Compiles facts. The header defines no other numbers than these."""
    def compiled(*options):
        return subprocess.run([*machine.compiler, "-ffreestanding", *options, "-I", folder, "-x", "c", "-"], capture_output=True, text=True,
                              input="\n".join([header, "#include <stddef.h>", *lines]))
    lines = ["_Static_assert(%s == %dull, \"\");" % fact for fact in facts.items()]
    error = compiled("-fsyntax-only").stderr.strip()
    defined = re.findall(r"(?m)^#define (FOTSGURE_\w+) \S", compiled("-E", "-dM").stdout)
    others = {name for name in defined if not name.endswith("_TEXT")} ^ numbers
    if error or others:
        raise Unproved(error or "defines other numbers: " + ", ".join(sorted(others)))


def text_of(dist, library):
    with open("%s/include/fotsgure_%s.h" % (dist, "aes" if library == "aes" else "gcm")) as file:
        return file.read()


def version(dist, library):
    """Reads the version of a library in its header."""
    return int(re.search(r"#define FOTSGURE_\w+_VERSION (\d+)", text_of(dist, library))[1])


def parameters_of(dist, library):
    """Gives {name: its parameters, as the header has them} of the functions of a library."""
    found = re.findall(r"(fotsgure_\w+)\(([^()]*)\) FOTSGURE_\w+_NOEXCEPT;", text_of(dist, library))
    return {name: [] if declared == "void" else declared.split(",") for name, declared in found}
