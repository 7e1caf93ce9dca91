"""The assembly of dist/ as the measurements need it: without what empties registers, and, for WebAssembly, with calls that report each
branch and each address."""
import re

from evidence import shared
from tools.dist_parts.registers import Registers

# Loads and stores of WebAssembly. The groups have the type of the value above the address, if there is one.
LOADS = re.compile(r"\t\w+\.load(?!\w*_lane)")
STORES = re.compile(r"\t(?:(v128)\.load\w*_lane|(\w+)\.store)")
# A branch on a condition, and one by a number.
REPORTS = {"br_if": "report_branch", "if": "report_branch", "br_table": "report_table"}
IN_BULK = {"memory.copy": "memmove", "memory.fill": "memset"}
DECLARED = "".join(f"\t.functype\t{it} (i32) -> (i32)\n" for it in ("report_branch", "report_table", "report_place")) + "".join(
    f"\t.functype\treport_{it} (i32, i32, i32) -> (i32)\n" for it in ("memcpy", "memmove", "memset"))


def planted(machine, text):
    """Assembly whose exports leave in registers what its compiler left there, under other names."""
    registers = Registers(machine.folder, has_vectors=machine.suffix != "_narrow")
    as_compiled = registers.as_compiled(text)
    if as_compiled == text:
        shared.stop(f"the assembly for {machine.folder} doesn't empty registers as tools/dist_parts/registers.py says")
    return re.sub(r"\bfotsgure_", "planted_fotsgure_", as_compiled)


def function_reporting(lines):
    """The lines of a function for WebAssembly, from its type on, with the reports."""
    of_type = re.match(r"\t\.functype\t\S+ \((.*?)\)", lines[0])[1]
    has_locals = len(lines) > 1 and lines[1].startswith("\t.local")
    kept = re.findall(r"\w+", lines[1].partition(".local")[2]) if has_locals else []
    first, added, out = len(re.findall(r"\w+", of_type)) + len(kept), [], []
    for line in lines[2 if has_locals else 1:]:
        word = (line.split() or [""])[0]
        if found := STORES.match(line):
            of_value = found[1] or found[2]
            if of_value not in added:
                added.append(of_value)
            at = first + added.index(of_value)
            out += [f"\tlocal.set\t{at}", "\tcall\treport_place", f"\tlocal.get\t{at}"]
        elif LOADS.match(line):
            out.append("\tcall\treport_place")
        elif word in REPORTS:
            out.append(f"\tcall\t{REPORTS[word]}")
        if word in IN_BULK:
            out += [f"\tcall\treport_{IN_BULK[word]}", "\tdrop"]
        else:
            out.append(re.sub(r"^(\tcall\t)(mem(?:cpy|move|set))\b", r"\1report_\2", line))
    every = [*kept, *added]
    return [lines[0], *(["\t.local\t" + ", ".join(every)] if every else []), *out]


def reporting(text):
    """Assembly for WebAssembly that reports each branch and each address that it reads or writes."""
    out, inside = [], None
    for line in text.split("\n"):
        if inside is None and re.match(r"\t\.functype\t", line) and out and out[-1].partition("#")[0].rstrip().endswith(":"):
            inside = [line]
        elif inside is None:
            out.append(line)
        elif line.startswith("\tend_function"):
            out += [*function_reporting(inside), line]
            inside = None
        else:
            inside.append(line)
    # The assembler wants the type of a function before its first call.
    declared = dict.fromkeys(it.partition("#")[0].rstrip() for it in re.findall(r"^\t\.functype\t.*$", text, re.M))
    return DECLARED + "\n".join([*declared, *out])
