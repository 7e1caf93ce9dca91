"""Makes exports empty the registers that a call may change, except that of their result.

A compiler has an option for this ("zero-call-used-regs"). But it either leaves out the registers of the functions that a function calls, or
also empties the numbers of x87. For RISC-V it does nothing. So the assembly of a library is changed: before each return of an export it
zeros each vector register that the ABI doesn't keep for the caller, and the general registers, except the result and those that belong to
the system. Functions that exports jump to do the same, since they return to the caller. On Cortex-M these lines come after the function,
and its returns become jumps to them. A jump has no more bytes than a return, so every branch of the function still reaches.
"""
import dataclasses
import re

GENERAL = {
    "x86_64": "ecx edx esi edi r8d r9d r10d r11d".split(),
    "windows_x86_64": "ecx edx r8d r9d r10d r11d".split(),
    "aarch64": [f"x{n}" for n in range(1, 18)],
    "riscv64": [*(f"a{n}" for n in range(1, 8)), *(f"t{n}" for n in range(7))],
    "arm": ["r1", "r2", "r3", "r12"],
}
GENERAL |= {"thumb": GENERAL["arm"], "riscv32": GENERAL["riscv64"]}
# How a general register is emptied.
EACH = {"x86_64": "\txorl\t%{0}, %{0}", "windows_x86_64": "\txorl\t%{0}, %{0}", "aarch64": "\tmov\t{0}, xzr", "riscv64": "\tli\t{0}, 0",
        "riscv32": "\tli\t{0}, 0", "arm": "\tmov\t{0}, #0", "thumb": "\tmovs\t{0}, #0"}
LABEL = re.compile(r'("[^"]*"|\w+):')
EXPORT = re.compile(r"(fotsgure_\w+):")
# A jump to another function of the library, at the end of one.
LEAP = re.compile(r'\t(?:jmp|b|tail)\t("[^"]*")')
# (On 32-bit ARM also by an instruction that takes the address from the stack, with registers that are the caller's.)
RETURN = re.compile(r"\t(?:retq|ret|bx\tlr|pop(?:\.w)?\t\{.*\bpc\}|ldm.*\bpc\})$")
# A jump to libc, which would leave registers as it does.
LEFT_TO_LIBC = re.compile(r"\t(?:jmpq\t\*\w|jr\tt1|br\tx16|(?:b|tail)\tmem)")
# What Windows recognizes as the end of a function, which may have nothing else in it.
ENDING = re.compile(r"\t(?:popq\t%|addq\t\$\d+, %rsp)")


def functions(lines):
    """Each line with the label of the function that it is in, or None."""
    inside = None
    for line in lines:
        label = LABEL.match(line)
        inside = label[1] if label else None if line.startswith(".Lfunc_end") else inside
        yield inside, line


def endings(lines):
    """The functions that return to the caller of an export: the exports, and those that they jump to."""
    leaps = {}
    for inside, line in functions(lines):
        if leap := LEAP.match(line):
            leaps.setdefault(inside, set()).add(leap[1])
    ending = more = {it[1] for it in map(EXPORT.match, lines) if it}
    while more:
        more = {to for name in more for to in leaps.get(name, ())} - ending
        ending = ending | more
    return ending


@dataclasses.dataclass(frozen=True)
class Registers:
    """The registers of the machine that an assembly file's folder names; whether its code has instructions of AVX, and whether it was
    compiled for vectors."""

    folder: str
    is_wide: bool = False
    has_vectors: bool = True

    def vectors(self):
        """The lines that empty vector registers. One of 128 bits that is written by an instruction of AVX is zero above; the low halves of
        v8 to v15 of ARM are the caller's."""
        if self.folder.endswith("x86_64"):
            count = 6 if self.folder == "windows_x86_64" else 16
            each = "\tvpxor\t%xmm{0}, %xmm{0}, %xmm{0}" if self.is_wide else "\tpxor\t%xmm{0}, %xmm{0}"
            return [each.format(n) for n in range(count)]
        if self.folder == "aarch64":
            whole = [f"\tmovi\tv{n}.2d, #0000000000000000" for n in (*range(8), *range(16, 32))]
            return whole + [f"\tfmov\td{n}, d{n}" for n in range(8, 16)]
        if self.folder == "riscv64":
            return ["\tvsetvli\tt0, zero, e8, m8, ta, ma"] + [f"\tvmv.v.i\tv{n}, 0" for n in range(0, 32, 8)]
        return []

    def emptying(self):
        """The lines that empty registers. Cortex-M0 moves no number into r12."""
        general = [EACH[self.folder].format(it) for it in GENERAL[self.folder]]
        if self.folder == "thumb":
            general[-1] = "\tmov\tr12, r1"
        return [*(self.vectors() if self.has_vectors else []), *general]

    def at_return(self, line):
        """The lines before a return. On 32-bit ARM a return that takes the address from the stack leaves a computed value in lr."""
        return [*self.emptying(), *(["\tmov\tlr, r1"] if re.search(r"\bpc\}", line) else [])]

    def emptied(self, text):
        """The assembly of a library whose exports empty registers."""
        lines = text.split("\n")
        ending, returning, out, after = endings(lines), set(), [], {}
        for inside, line in functions(lines):
            at = len(out)
            if inside in ending and LEFT_TO_LIBC.match(line):
                raise SystemExit(f"dist: {inside} ends in a jump to libc")
            if inside in ending and (RETURN.match(line) or LEAP.match(line)):
                returning.add(inside)
            if self.folder == "thumb" and line.startswith(".Lfunc_end"):
                for end, label in after.items():
                    out += [f"{label}:", *self.at_return(end), end]
                after = {}
            elif inside in ending and RETURN.match(line):
                if self.folder == "thumb":
                    line = "\tb\t" + after.setdefault(line, f".Lreturn_{at}")
                else:
                    while self.folder == "windows_x86_64" and ENDING.match(out[at - 1]):
                        at -= 1
                    out[at:at] = self.at_return(line)
            out.append(line)
        if ending - returning:
            raise SystemExit(f"dist: no return is seen in {', '.join(sorted(ending - returning))}")
        return "\n".join(out)

    def as_compiled(self, text):
        """The assembly as it was."""
        return text.replace("\n".join(self.emptying()) + "\n", "")
