"""Proves and builds the library of exports (README.md) over the libraries of the crates that it calls."""
import os
import tempfile
import time

from evidence import shared
from evidence.exports import expand
from tools import crates, toolchain

NAME = "evidence_exports"
CRATES = "aes_planes aes_cipher aes_soft aes aes_permute aes_hybrid aes_rounds aes_ctr cbc key_wrap cmac ccm gcm gcm_siv ctr_drbg".split()


def sum_of_sources():
    """A sum of all that decides what the library is."""
    parts = [shared.run(["rt", "version"], "rt version"), (crates.TOP / "crates.txt").read_text(), *map(crates.sum_of_sources, CRATES)]
    return crates.sum_of("\n".join([*parts, *expand.sources().values()]).encode())


def add(tree):
    """Adds the library to the crates of a copy of the repository."""
    folder = tree / "crates" / NAME / "src"
    folder.mkdir(parents=True)
    for name, text in expand.sources().items():
        (folder / name).write_text(text)
    with open(tree / "crates.txt", "a") as file:
        file.write(f"{NAME} staticlib: {' '.join(CRATES)}\n")


def archive(compiler):
    """The library by one compiler: as it was built before of the same sources, or proved and built now, in a copy of the repository, over
    the libraries that `rt ci` keeps on this machine, or else those that `rt lib` makes."""
    shared.need("rt", None)
    library, total = shared.ROOM / f"lib{NAME}-{compiler}.a", sum_of_sources()
    stamp = library.with_suffix(".stamp")
    if not (library.exists() and stamp.exists() and stamp.read_text() == total):
        shared.say(f"proving and building {NAME} by {compiler}, over what is proved already")
        start = time.time()
        with tempfile.TemporaryDirectory() as room:
            copies = toolchain.workspace(room, add)
            crate = next(it for it in copies if it.name == NAME)
            try:
                toolchain.give_libraries(copies, [crate])
            except SystemExit as why:
                shared.stop(why)
            flags = ["--backend", compiler, "--toolchain", f"{toolchain.KIT}/toolchain", "--incremental", f"{shared.ROOM}/kept"]
            shared.run(toolchain.build_words(crate, *flags, "-o", f"{library}"), f"the proof and the build of {NAME}", cwd=crate.folder)
            os.chdir(crates.TOP)
        stamp.write_text(total)
        shared.say(f"built in {time.time() - start:.0f} seconds")
    return library
