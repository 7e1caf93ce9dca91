"""Builds and links what is proved: the objects that the Makefile of dist builds. They are compared with the shared libraries that it builds
from the same assembly, and linked so that their calls can be run."""
import functools
import glob
import os

from linked.builds import BUILDS, MACHINES, is_windows, library_of, narrow_word, source, suffix_of
from linked.elf import SYMBOLS, Comparison, Elf, exports_of
from linked.layout import MOVED_BY, OF_HOST, WINDOWS_SCRIPT, compare_links, parted_constants, reversed_script
from linked.program import Program
from linked.refusals import fault_of, refuse_instructions, refuse_names, refuse_names_of_windows, refuse_plain, refuse_sections
from linked.tools import run, write
from machines.x86_64 import Windows
from symbols.bits import Unproved

MEMBERS_IN_C = {"aes": set(), "gcm": {"seal_random.o"}}  # members of static libraries that aren't proved
PROVE_FOLDER = os.path.dirname(os.path.dirname(os.path.abspath(__file__)))  # dist/prove


# What the Makefile builds.
class Built:
    """The libraries for one machine, which the user has built, or which the Makefile builds here. `folder` has the assembly."""

    def __init__(self, dist, out, folder, by_user=None):
        self.folder = folder
        self.machine = MACHINES[folder]
        self.out = by_user or "%s/built/%s" % (out, folder)
        self.members = "%s/members/%s" % (out, folder)
        if not by_user:  # (without the user's CFLAGS, which may be for another compiler)
            what = ["static"] if self.machine is Windows else ["static", "shared"]
            run("make", "-s", "-f", dist + "/Makefile", "OUT=" + self.out, "CC=" + " ".join(self.machine.compiler), *what,
                env={"PATH": os.environ["PATH"]})

    @functools.lru_cache(None)
    def archive(self, library):
        """Gives {name: path} of the members of a static library."""
        archive, folder = os.path.abspath("%s/libfotsgure_%s.a" % (self.out, library)), "%s/%s" % (self.members, library)
        os.makedirs(folder, exist_ok=True)
        names = run(self.machine.tools + "ar", "t", archive).split()
        if len(set(names)) != len(names):
            raise Unproved("%s has two members of one name" % archive)
        run(self.machine.tools + "ar", "x", archive, cwd=folder)
        return {name: os.path.join(folder, name) for name in names}

    def object_of(self, build):
        """Gives the member of a static library that is made from a build's assembly file."""
        library, suffix = library_of(build), suffix_of(build)
        return self.archive(library)[library + suffix.replace("_v2", "") + "_chosen" * bool(suffix) + ".o"]

    def refuse_others(self, library):
        """Refuses other members of a static library than the Makefile names, and other shared libraries that a loader might prefer."""
        builds = ["_v1_chosen", "_chosen", "_v3_chosen"] if self.machine.from_v2_and_v3 else [""]
        known = {library + it + ".o" for it in builds} | {"choose_%s.o" % library for _ in builds[1:]}
        preferred = glob.glob("%s/glibc-hwcaps/*/libfotsgure_%s.so*" % (self.out, library))
        others = [*{*self.archive(library)} - known - MEMBERS_IN_C[library]]
        others += [path for path in preferred if "/x86-64-v3/" not in path or not builds[1:]]
        if others:
            raise Unproved("the libraries have more than what is proved: " + ", ".join(others))

    def has(self, library):
        return os.path.exists("%s/libfotsgure_%s.a" % (self.out, library))

    def shared(self, library):
        """Gives the shared libraries, and the objects that each should have: [(path, {name of an export: its name there}, objects)]."""
        whole, wide = (glob.glob("%s/%slibfotsgure_%s.so.*" % (self.out, folder, library)) for folder in ("", "glibc-hwcaps/x86-64-v3/"))
        if not self.machine.from_v2_and_v3:
            one = self.object_of("%s/%s" % (self.folder, library))
            return [(path, exports_of(one, ""), [one]) for path in whole]
        members = self.archive(library)
        chooses, v3 = members["choose_%s.o" % library], self.object_of("%s/%s_v3" % (self.folder, library))
        all_builds = [chooses, *(members["%s%s_chosen.o" % (library, it)] for it in ("_v1", "", "_v3"))]
        return [*((path, exports_of(chooses, ""), all_builds) for path in whole), *((path, exports_of(v3, "_v3"), [v3]) for path in wide)]


def compare_with_objects(library, exports, objects):
    """Compares a shared library with objects, from its exports on. Refuses one in which the loader runs code of them."""
    comparison = Comparison(Elf(library), [Elf(path) for path in objects])
    comparison.compare_exports(exports)
    comparison.refuse_what_a_loader_runs()


def rust_cases(dist, out, objects):
    """Checks that assembly files become the same code in a Rust crate, which assembles them with `in_rust`. objects: {build: its member}"""
    for build, member in objects.items():
        if "siv" not in build and is_for_rust(source(dist, build)) and not (is_windows(build) or BUILDS[build].relaxed):
            fault = fault_of(compare_in_rust, build, source(dist, build), member, "%s/%s" % (out, build.replace("/", "_")))
            yield "%s.s in a Rust crate, against the static library" % build, fault


def is_for_rust(path):
    with open(path) as file:
        return "in_rust" in file.read()


def compare_in_rust(build, path, member, out):
    """Assembles a file as a Rust crate does, and compares it with a member. In a crate the label of an export is its name, and only the
    crate sees it."""
    machine, suffix = BUILDS[build], suffix_of(build)
    run(*machine.compiler, "-Wa,-defsym,in_rust=1", "-c", path, "-o", out + ".rust.o")
    run(*machine.linker, "-shared", "-z", "noexecstack", out + ".rust.o", "-o", out + ".rust.so")
    refuse_sections(out + ".rust.o", True)
    exports = {name: name.rpartition(".")[2] + suffix for name in Elf(out + ".rust.o").exports}
    if sorted(exports.values()) != sorted(Elf(member).exports):
        raise Unproved("%s has other exports in a Rust crate" % path)
    Comparison(Elf(out + ".rust.so"), [Elf(member)]).compare_exports(exports, SYMBOLS)


def built_cases(built):
    """Checks that the libraries have what is proved and no more, and that each shared library has the code of the static one."""
    for library in filter(built.has, ("aes", "gcm")):
        yield "libraries %s of %s: what they have" % (library, built.folder), fault_of(built.refuse_others, library)
        for path, exports, objects in built.shared(library) if not built.machine.relaxed else ():
            fault = fault_of(compare_with_objects, path, exports, objects)
            if "glibc-hwcaps" in path:  # it has an object of its own
                fault = fault or fault_of(refuse_plain, "%s/%s_v3.o" % (built.out, library), objects[0], "_v3")
            yield "%s: its %d exports, and what they lead to, against the static library" % (path, len(exports)), fault


# What the proof runs.
def program_of(build, path, out):
    """Links an object of a build by itself, and gives its Program."""
    (refuse_names_of_windows if is_windows(build) else refuse_names)(path, suffix_of(build))
    if not is_windows(build):
        refuse_sections(path)
    program = link(out, BUILDS[build], [path], suffix_of(build))
    compare_links(program, link(out + ".moved", BUILDS[build], [path], suffix_of(build), MOVED_BY), path)
    program.narrow, program.build = narrow_word(build), build
    refuse_instructions(program, suffix_of(build))
    return program


def assemble(build, path, out):
    """Assembles a file in each way of the Makefile, and gives its Program. Only names may differ between these ways."""
    machine, suffix = BUILDS[build], suffix_of(build)
    run(*machine.compiler, *["-Wa,-defsym,chosen=1"] * bool(suffix), "-c", path, "-o", out + ".o", warns=False)
    if is_windows(build):
        return program_of(build, out + ".o", out)
    refuse_names(out + ".o", suffix)
    if suffix:
        run(*machine.compiler, "-c", path, "-o", out + ".plain.o")
        refuse_plain(out + ".plain.o", out + ".o", suffix)
        run(*machine.linker, "-shared", "-z", "noexecstack", "-z", "now", "--version-script",
            os.path.dirname(PROVE_FOLDER) + "/exports.map", out + ".plain.o", "-o", out + ".so")
        compare_with_objects(out + ".so", exports_of(out + ".o", suffix), [out + ".o"])
    if is_for_rust(path) and not machine.relaxed:
        compare_in_rust(build, path, out + ".o", out)
    return program_of(build, out + ".o", out)


def link(out, machine, objects, suffix="", moved_by=0):
    """Links objects, at addresses of more than 32 bits if the machine has them, and gives the Program. libc's three functions are only
    names there: the proof uses their contracts. `moved_by`: how much higher the addresses are."""
    # (The option keeps gcc from making a call of memset out of the loop in the host's memset.)
    host = out + ".host.o"
    run(*machine.compiler, "-O2", "-ffunction-sections", "-fno-tree-loop-distribute-patterns", "-fno-asynchronous-unwind-tables",
        "-fno-ident", "-DODD=%d" % (3 if moved_by else 1), "-c", PROVE_FOLDER + "/host.c", "-o", host)
    if machine is Windows:
        link_for_windows(out, machine, [host, *objects], moved_by)
        return Program(out, machine, suffix)
    write(out + ".ld", reversed_script(machine, [host, *objects], moved_by > 0))
    parted = parted_constants(machine, objects, out + ".parted", moved_by > 0)
    run(*machine.linker, "-static", *["--emit-relocs"] * bool(machine.relocations), "-e", "start", "--build-id=none", "-z", "noexecstack",
        "-T", out + ".ld", "-Ttext-segment=0x%x" % (machine.start + moved_by), host, parted, *objects, "-Map", out + ".map", "-o", out)
    return Program(out, machine, suffix)


def link_for_windows(out, machine, objects, moved_by):
    """Links objects with Windows' linker, at addresses of more than 32 bits, and turns the result into an ELF file. (The function that
    touches the stack does nothing here.)"""
    base = machine.start + moved_by
    room, *apart = (128, "0x5a", 8192, 128) if moved_by else (64, "0xa5", 64, 64)
    code = "".join("*host.o(.text$%s) . = . + %d; " % (name, room) for name in OF_HOST)
    write(out + ".ld", WINDOWS_SCRIPT % (base + 4096, code, *apart))
    run(*machine.linker, "-e", "start", "--image-base", hex(base), "--defsym", "___chkstk_ms=start", "-T", out + ".ld", *objects,
        "-Map", out + ".map", "-o", out + ".exe")
    run("objcopy", "-I", "pei-x86-64", "-O", "elf64-x86-64", out + ".exe", out)


