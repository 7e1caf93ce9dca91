"""Builds the worker, a program that times engines, and asks it."""
import contextlib
import os
import pathlib
import subprocess

from evidence import shared
from evidence.speed import tables

HERE = pathlib.Path(__file__).resolve().parent
# What the builds are called, by the suffix of their files.
BUILDS = {"": tables.BASE, "_v3": tables.AVX2}
# What the peers may use, and how OpenSSL is told, which asks when it is loaded.
RUNS = [
    (tables.WITH_INSTRUCTIONS, {}),
    (tables.CONSTANT_TIME, {"OPENSSL_ia32cap": "~0x200000200000000"}),
]
COMPILE = ["cc", "-std=c11", "-D_GNU_SOURCE", "-O2", "-Wall", "-Wextra"]


def parser(description, rounds, *parts, flags=()):
    """A parser of the arguments of the commands that time engines."""
    parser = shared.parser(description, *parts, flags=flags)
    parser.add_argument("--rounds", type=int, default=rounds)
    parser.add_argument("--core", type=int, default=max(os.sched_getaffinity(0)))
    return parser


def suffixes(options, found):
    """The suffixes of the assembly files that are measured: for every processor, and for AVX2 if that isn't left out or missing."""
    if " avx2 " in pathlib.Path("/proc/cpuinfo").read_text():
        return [""] if "avx2" in options.without else ["", "_v3"]
    found.missing.append("avx2: this processor can't run it")
    return [""]


def engines_of(room, suffixes, dist=shared.TOP / "dist", at=""):
    """The objects of each build of a folder dist/, by its engine's name, without the choice between builds. The exports of all but the
    first build of this tree get a prefix, so that several fit into one program. `at` tells the engines of a folder from others."""
    shared.need("cc", "gcc")
    shared.need("taskset", "util-linux")
    objects = {}
    for suffix in suffixes:
        name, parts = f"library{at}{suffix}", room / f"made{at}{suffix}"
        defines = [f'-DHOW="{f"{at} {BUILDS[suffix]}".strip()}"', f"-DADD=add_{name}"] if at or suffix else []
        sources = [HERE / "library.c", *(dist / f"x86_64/{it}{suffix}.s" for it in ("aes", "gcm"))]
        parts.mkdir(parents=True, exist_ok=True)
        shared.run([*COMPILE, *defines, f"-I{dist}/include", "-c", *sources], "library.c and assembly", cwd=parts)
        objects[name] = [parts / f"{it.stem}.o" for it in sources]
        if defines:
            exports = [export for file in objects[name][1:] for export in sorted(shared.exported(file))]
            (parts / "names").write_text("".join(f"{it} {name}_{it}\n" for it in exports))
            for file in objects[name]:
                shared.run(["objcopy", f"--redefine-syms={parts / 'names'}", file], "objcopy")
    return objects


def build(room, engines, links=(), flags=(), source="worker.c"):
    """The worker over engines, each a name and its objects; or another program over them."""
    names = "-DENGINES=" + " ".join(f"X({it})" for it in engines)
    shared.run([*COMPILE, names, *flags, "-c", "-o", room / "worker.o", HERE / source], source)
    parts = [file for objects in engines.values() for file in objects]
    link = "g++" if "botan" in engines else "cc"
    shared.run([link, "-o", room / "worker", room / "worker.o", *parts, *links], "the linking of the worker")
    return room / "worker"


def start(worker, core, run, more=()):
    """A process of the worker for one run, which waits for lines."""
    words, environment = ["taskset", "-c", str(core), worker, str(run)], {**os.environ, **dict(more)}
    return subprocess.Popen(words, env=environment, stdin=subprocess.PIPE, stdout=subprocess.PIPE, text=True)


def ask(process, word):
    """Writes a line with a word to the process, and returns the line that it answers."""
    with contextlib.suppress(BrokenPipeError):
        process.stdin.write(word + "\n")
        process.stdin.flush()
    line = process.stdout.readline()
    if not line:
        shared.stop(f"the worker ended by itself, status {process.wait()}")
    return line


def results(process, run):
    """What a process has measured so far: its rows, and the engines that it refused."""
    rate, rows, refused = float(ask(process, "p").split()[1]), [], []
    for line in iter(process.stdout.readline, "end\n"):
        words = line.rstrip("\n").split("\t")
        if words[0] == "refused":
            refused.append((words[1], words[2], run))
            continue
        _, peer, how, kind, key, call, amount, ticks = words
        values = [peer, how, kind, run, int(key), call, int(amount), float(ticks), float(ticks) / rate]
        rows.append(dict(zip(tables.HEAD, values)))
    return rows, refused


def rows_of_runs(program, options):
    """The rows of all runs, and the engines that were refused."""
    processes = [start(program, options.core, number, more) for number, (_, more) in enumerate(RUNS)]
    for _ in range(options.rounds):
        for process in processes:
            ask(process, "r")
    rows, refused = [], []
    for (name, _), process in zip(RUNS, processes):
        measured, others = results(process, name)
        rows, refused = rows + measured, refused + others
        process.stdin.close()
        process.wait()
    return rows, refused
