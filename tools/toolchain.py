"""All that the scripts use of the toolchain's own module, which may change with each kit: copies of the crates, and proofs and builds over
the libraries that the gate proved on this machine.

    python3 -B -m tools.toolchain --check                fails, and names what is missing, if that module lacks something of it
    python3 -B -m tools.toolchain --jobs                 how many checks run side by side
    python3 -B -m tools.toolchain --serve FILE           lets later commands use the libraries that `rt ci` left here; FILE is older than
                                                         its run
    python3 -B -m tools.toolchain --prove TREE CRATE ..  proves crates of a tree for ./release
"""
import os
import pathlib
import runpy
import shutil
import subprocess
import sys
import tempfile
import types

from tools.crates import TOP, read_arguments

# The toolchain's command, which is in the folder bin of the kit.
COMMAND = os.path.realpath(shutil.which("rt") or "/no/rt")
KIT = pathlib.Path(COMMAND).parent.parent


def module():
    """The command as a module, or None where there is none."""
    return types.SimpleNamespace(**runpy.run_path(COMMAND, run_name="rt")) if os.path.exists(COMMAND) else None


rt = module()
# Whether the kit's gate keeps what it proved, as that of 13f does, and that of 13b doesn't.
KEEPS = hasattr(rt, "Kept")
# What is used of the module, of its library and of that library's class of crates.
USED = {
    "": ["Crate", "checked", "crates_of", "free", "handles_of", "processors", "rtlib", *(["Kept", "work_for"] if KEEPS else [])],
    "rtlib": ["Crate", "RATTLE", "crates_below", "files_of", "guarded"],
    "rtlib.Crate": ["below", "build_rlib", "cuts_libraries", "is_built", "stamp", "words"],
}


def check():
    """Ends with status 1 if the kit's module lacks something that is used here."""
    of = {"": rt, "rtlib": rt.rtlib, "rtlib.Crate": rt.rtlib.Crate}
    missing = [f"{place}.{name}".strip(".") for place, names in USED.items() for name in names if not hasattr(of[place], name)]
    sys.exit(f"toolchain: this kit's rt lacks {', '.join(missing)}: adapt tools/toolchain.py" if missing else 0)


def enter(top):
    """Changes to the folder `top`, which has the crates, and prepares the module."""
    if not rt:
        sys.exit("There is no rt, the command of the Rattle toolchain, on the PATH: it proves and compiles the crates")
    os.chdir(top)
    # (its first call sets a signal's handler, which only the main thread may)
    rt.rtlib.guarded()
    rt.rtlib.Crate.cuts_libraries = True


def workspace(room, add=lambda tree: None):
    """The crates of a copy of the repository, lowest first, to which `add` may add some."""
    enter(TOP)
    copy = f"{room}/copy"
    shutil.copytree("crates", f"{copy}/crates", ignore=shutil.ignore_patterns("out"))
    for name in ("crates.txt", "HANDLES"):
        shutil.copy(name, copy)
    add(pathlib.Path(copy))
    # (which makes it the top of a repository)
    os.mkdir(f"{copy}/.git")
    os.chdir(copy)
    rt.Crate.allowed = rt.handles_of(copy)
    return rt.crates_of(copy, *([] if KEEPS else [room]))


def give_libraries(crates, wanted):
    """Gives the wanted crates of a copy the libraries below them: all that the gate keeps, or all as `rt lib` makes them in this
    repository. Returns a function that gives the sum of all that a crate's proof reads."""
    gate = rt.Kept(crates) if KEEPS else None
    below = [it for it in crates if any(it in crate.below() for crate in wanted)]
    # (The key of a library is of those below it, as they are built.)
    if gate and all(gate.give(it, False, gate.key(it)) and not gate.is_built(it) for it in below):
        return gate.key
    for library in below:
        here = TOP / "crates" / library.name
        ran = subprocess.run(["rt", "lib", "--jobs", "1"], cwd=here, stdout=subprocess.PIPE, text=True)
        if ran.returncode:
            sys.exit(f"{ran.stdout[-3000:]}\n{library.name} is not proved, so nothing can be tried over it")
        shutil.rmtree(f"{library.folder}/out", ignore_errors=True)
        shutil.copytree(here / "out/rlib", f"{library.folder}/out/rlib")
        if not library.is_built():
            sys.exit(f"{library.name} changed meanwhile: run this again")
        if gate:
            gate.is_built(library)
    return gate.key if gate else rt.Crate.stamp


def check_crate(crate, kept, texts=None, flags=()):
    """Checks a crate, with these texts in place of its own, over what a folder keeps of earlier checks."""
    return rt.checked(crate, texts or {}, ["--jobs", "1", *flags], kept)


def copy_kept_work(crate, kept):
    """Makes a folder of what checks of a crate kept here, or in another copy of the repository."""
    earlier = rt.work_for(crate) if KEEPS else f"{TOP}/crates/{crate.name}/out/incremental"
    shutil.copytree(earlier, kept) if earlier and os.path.isdir(earlier) else kept.mkdir()


def build_words(crate, *flags):
    """The words of a command that proves and builds a crate."""
    return [rt.rtlib.RATTLE, "build", *crate.words(["--jobs", "1", *flags], keeps=False)]


def jobs():
    """How many checks run side by side: as RT_JOBS says, or as processors and 3 GB of memory for each allow."""
    return int(os.environ.get("RT_JOBS") or 0) or max(1, min(rt.processors(), int(rt.free() / 3e9)))


def stamp(crate):
    """Notes the sources of the library in out/rlib, so that `rt` serves it to other commands."""
    pathlib.Path(crate.folder, "out/rlib/stamp").write_text(crate.stamp(), encoding="utf-8")


def prove(tree, *names):
    """Proves crates of a tree and those below them from nothing, and leaves in out/rlib of each what crates above it cite: its statements
    and code without its proofs, as `rt verdict` makes them for its own run. `rt` writes no stamp there, since statements fit nothing but
    the rlibs that they were built over. The tree gets all of them at once. Prints each crate's verdict."""
    enter(tree)
    crates, wanted = {crate.name: crate for crate in rt.rtlib.crates_below(f"{os.getcwd()}/crates")}, {}
    for name in names:
        crate = crates.get(name) or sys.exit(f"crates.txt names no {name}")
        wanted |= dict.fromkeys([*crate.below(), crate])
    for crate in wanted:
        with tempfile.TemporaryFile("w+", errors="replace") as crate.out:
            status = crate.build_rlib(["--jobs", os.environ.get("RT_JOBS", "1")], anew=True)
            crate.out.seek(0)
            output = crate.out.read()
        verdicts = [line for line in output.splitlines() if line.startswith("logic=proved ")]
        if status or not verdicts:
            sys.exit(f"{output[-3000:]}\n{crate.name} was not proved")
        stamp(crate)
        print(f"{crate.name}: {verdicts[-1]}", flush=True)


def serve(since):
    """Stamps the libraries that the gate left in this repository, as `prove` does, if the kit's gate keeps nothing; none if a source is
    newer than the file `since`."""
    enter(TOP)
    for crate in () if KEEPS else rt.rtlib.crates_below(f"{TOP}/crates"):
        if any(os.path.getmtime(it) > os.path.getmtime(since) for it in rt.rtlib.files_of(crate.folder)):
            sys.exit(f"{crate.name} changed while the gate ran: run it again")
        if os.path.isdir(crate.rlib) and not os.path.exists(f"{crate.folder}/out/rlib/stamp"):
            stamp(crate)


def is_right(words):
    return words in (["--check"], ["--jobs"]) or words[:1] == ["--serve"] and len(words) == 2 or words[:1] == ["--prove"] and len(words) > 2


if __name__ == "__main__":
    option, *more = read_arguments(__doc__, is_right)
    {"--check": check, "--jobs": lambda: print(jobs()), "--serve": serve, "--prove": prove}[option](*more)
