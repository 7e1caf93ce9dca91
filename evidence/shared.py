"""What the measurements share: packages that must be there, verdicts and statuses (README.md)."""
import argparse
import functools
import os
import pathlib
import platform
import re
import shutil
import subprocess
import sys
import time

from tools import crates
from tools.crates import CACHE, TOP

RIGHT, WRONG, BLIND, STOPPED, PARTIAL = range(5)
MEASUREMENTS = TOP / "docs" / "MEASUREMENTS.md"
# Outside the repository: the gate refuses sources there that it does not read.
ROOM = pathlib.Path(os.environ.get("FOTSGURE_EVIDENCE") or CACHE / "evidence")
# Valgrind merges two branches to one place (guest-chase), and then reports at both what the first one tests.
MEMCHECK = """valgrind --tool=memcheck --vex-guest-chase=no --error-limit=no --leak-check=no --expensive-definedness-checks=yes
    --num-callers=8"""


class Found:
    """What a run found: what is wrong, planted faults that it missed, and parts that it left out."""

    def __init__(self):
        self.wrong, self.blind, self.missing = [], [], []

    def is_whole(self, options):
        """Whether a run left nothing out and found nothing, so that its results may be recorded."""
        return not (self.wrong or self.blind or self.missing or options.without)


def say(*words):
    print(*words, flush=True)


def stop(why):
    say(f"could not run: {why}")
    say("VERDICT: nothing was measured")
    sys.exit(STOPPED)


def need(command, package):
    """Stops if a program isn't there."""
    if not shutil.which(command):
        stop(f"there is no {command}: apt-get install {package}" if package else f"there is no {command} on the PATH")


# Runs a command that has to succeed, and returns what it wrote to its standard output.
run = functools.partial(crates.run, fail=stop, stderr=subprocess.PIPE)


def exported(archive):
    """The names that an archive exports."""
    lines = run(["nm", archive], "nm").splitlines()
    return {it.split()[2] for it in lines if re.search(" T (ev|fotsgure)_", it)}


def git(*words):
    return subprocess.run(["git", "-C", TOP, *words], capture_output=True, text=True).stdout.strip()


def conditions():
    """Where and when a run was made, to be copied with its numbers."""
    cpu = re.search(r"^model name\s*: (.*)", pathlib.Path("/proc/cpuinfo").read_text(), re.M)
    kit = run(["rt", "version"], "rt version").strip().split(", ")[0] if shutil.which("rt") else "no rt here"
    changes = " with changes" if git("status", "--porcelain", "crates", "crates.txt") else ""
    return (
        f"{time.strftime('%Y-%m-%d %H:%M')}, {cpu[1] if cpu else platform.machine()}, {os.cpu_count()} processors, "
        f"load {os.getloadavg()[0]:.1f}, {kit}, commit {git('rev-parse', '--short', 'HEAD')}{changes}"
    )


def table(heads, *rows):
    """The lines of a table, whose first head is empty if its first column says what a row is about."""
    lines = [f"| {' | '.join(it)} |".replace("|  |", "| |") for it in (heads, *rows)]
    return [lines[0], "|---" * len(heads) + "|", *lines[1:]]


def compile_program(source, name, archive, *flags):
    """A program of one C file and an archive."""
    program = ROOM / f"{source.parent.name}-{source.stem}-{name}"
    run(["cc", "-std=gnu11", "-O2", "-Wall", "-Wextra", "-Wl,-z,now", *flags, "-o", program, source, archive], source.name)
    return program


def under_memcheck(program):
    """The lines of a program under valgrind's memcheck, whose last one is `end`, and what memcheck says."""
    log = program.with_suffix(".log")
    words = [*MEMCHECK.split(), f"--log-file={log}", str(program)]
    done = subprocess.run(words, capture_output=True, text=True)
    lines = [it.split("\t") for it in done.stdout.splitlines()]
    if done.returncode or lines[-1:] != [["end"]]:
        # valgrind wants the symbols of the C library.
        stop(
            f"the run ended with status {done.returncode}; see {log} (if it asks for debug information: "
            f"apt-get install libc6-dbg)\n{done.stdout[-500:]}"
        )
    return lines[:-1], log.read_text(errors="replace")


def parser(description, *parts, flags=()):
    """A parser of the arguments of a command: the parts that it leaves out, and flags that some commands have."""
    ROOM.mkdir(parents=True, exist_ok=True)
    parser = argparse.ArgumentParser(sys.argv[0], description=description, formatter_class=argparse.RawDescriptionHelpFormatter)
    # (Its own status for a wrong word has another meaning here.)
    parser.error = lambda why: stop(f"{why}; --help lists the arguments")
    parser.set_defaults(without=[])
    if parts:
        parser.add_argument("--without", nargs="+", choices=parts)
    for flag in flags:
        parser.add_argument(f"--{flag}", action="store_true")
    return parser


def begin(parser, needed, *versions):
    """Reads a command's arguments, stops if a program that it needs is missing (each with its package), and says the conditions, with the
    versions of some programs. Returns the options, and what is found, which is nothing yet."""
    options = parser.parse_args()
    for command, package in needed.items():
        need(command, package)
    say(", ".join([conditions(), *(run([it, "--version"], it).splitlines()[0] for it in versions)]))
    return options, Found()


def finish(found, options, summary):
    """Says what was found and left out, and ends with the status that this makes."""
    for fault in found.wrong[:40]:
        say(f"FOUND: {fault}")
    left_out = [*found.missing, *(f"{it}, as asked" for it in options.without)]
    for part in left_out:
        say(f"left out: {part}")
    if found.blind:
        status, verdict = BLIND, f"a planted fault was NOT found, so this shows nothing: {'; '.join(found.blind[:9])}"
    elif found.wrong:
        status, verdict = WRONG, f"NOT as it should be: {len(found.wrong)} findings"
    else:
        status, with_parts = (PARTIAL, ", with parts left out") if left_out else (RIGHT, "")
        verdict = f"as it should be{with_parts}: {summary}"
    say(f"VERDICT: {verdict}")
    sys.exit(status)
