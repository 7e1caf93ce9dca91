"""What scripts share that needs no toolchain: the crates of this repository as crates.txt lists them, sums of their sources, how a script
reads its arguments, runs a command, and ends."""
import hashlib
import os
import pathlib
import re
import subprocess
import sys

TOP = pathlib.Path(__file__).resolve().parent.parent
# Where scripts keep what later runs use.
CACHE = pathlib.Path(os.environ.get("XDG_CACHE_HOME") or "~/.cache").expanduser() / "fotsgure"
# Each crate with its sentence and the words after its name.
LINES = re.findall(r"^# (.*)\n(\w+)(?: staticlib)?:(.*)$", (TOP / "crates.txt").read_text(encoding="utf-8"), re.M)
SENTENCES = {name: sentence for sentence, name, _ in LINES}
# Each crate with those that it depends on itself. (One may be of the toolchain's own library, and isn't here.)
DEPENDENCIES = {name: [it for it in words.split() if it in SENTENCES] for _, name, words in LINES}


def below(crate):
    """The crates that a crate depends on, each after those that it depends on itself."""
    return list(dict.fromkeys(it for name in DEPENDENCIES[crate] for it in [*below(name), name]))


def sum_of(content):
    return hashlib.sha256(content).hexdigest()


def listed_sums(files):
    """Files with their sums, a line for each, as sha256sum prints them."""
    return "".join(f"{sum_of(it.read_bytes())}  {it.relative_to(TOP)}\n" for it in files)


def sum_of_sources(crate):
    """One sum of all that a crate consists of: that of its files' sums."""
    files = (it for part in ("src", "specs", "proofs") for it in (TOP / "crates" / crate / part).rglob("*") if it.is_file())
    return sum_of(listed_sums(sorted(files)).encode())


def run(words, what, fail=sys.exit, stderr=subprocess.STDOUT, **options):
    """Runs a command that has to succeed, and returns what it wrote. If it doesn't, `fail` is given the reason."""
    words, streams = [str(it) for it in words], {"stdin": subprocess.DEVNULL, "stdout": subprocess.PIPE, "stderr": stderr}
    try:
        done = subprocess.run(words, text=True, errors="replace", **streams, **options)
    except FileNotFoundError as error:
        fail(f"{what}: there is no {error.filename}")
    if done.returncode:
        fail(f"{what} failed:\n{(done.stdout + (done.stderr or ''))[-3000:]}")
    return done.stdout


def read_arguments(description, is_right):
    """The words that a script is called with. If they ask for help, it ends with its description; if they aren't right, with status 2 and
    the lines of the description which say how it is called."""
    words = sys.argv[1:]
    if words in (["-h"], ["--help"]):
        print(description.strip())
        sys.exit()
    if not is_right(words):
        usage = "\n".join(re.findall(r"^    .*", description, re.M))
        wrong = f"it can't be called with '{' '.join(words)}'" if words else "it needs an argument"
        print(f"{sys.argv[0]}: {wrong}. Usage:\n{usage}", file=sys.stderr)
        sys.exit(2)
    return words


def end(passed, faults):
    """Prints the faults, each in a line, and after them 'N passed, M failed'. Ends with status 0 if there is no fault, and else 1."""
    print("\n".join([*faults, f"{passed} passed, {len(faults)} failed"]))
    sys.exit(len(faults) > 0)
