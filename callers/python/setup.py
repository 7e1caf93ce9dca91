"""Builds the libraries of dist by the C compiler, and puts them into the wheel, beside the modules. Without a compiler, or in a copy of
this folder without dist, the wheel has none, and the modules load libraries that are installed."""
import atexit
import os
import pathlib
import shutil
import subprocess
import sys
import tempfile

from setuptools import setup
from setuptools.command.build_py import build_py

try:
    from setuptools.command.bdist_wheel import bdist_wheel
except ImportError:
    from wheel.bdist_wheel import bdist_wheel

DIST = pathlib.Path(__file__).resolve().parents[2] / "dist"
CC = os.environ.get("CC", "cc")
HAS_LIBRARIES = (DIST / "Makefile").exists() and all(shutil.which(tool) for tool in ("make", CC.split()[0]))
# For macOS the libraries are for both kinds of Macs.
ON_MAC = sys.platform == "darwin"
# All that is built goes elsewhere. So the folder stays unchanged, and nothing old is used.
ROOM = tempfile.mkdtemp()
atexit.register(shutil.rmtree, ROOM, ignore_errors=True)


class BuildWithLibraries(build_py):
    def run(self) -> None:
        super().run()
        if HAS_LIBRARIES and not getattr(self, "editable_mode", False):
            # One library for all processors: it holds all builds, and chooses one by itself. `hwcaps=` leaves out the other one.
            out = pathlib.Path(ROOM, "out")
            words = ["make", "-C", DIST, f"OUT={out}", f"CC={CC}", "hwcaps=", "PROGRAM=", "shared", *(["UNIVERSAL=1"] if ON_MAC else [])]
            subprocess.run(words, check=True, env={**os.environ, "MACOSX_DEPLOYMENT_TARGET": "11.0"})
            for library in out.glob("lib*.[0-9]*.dylib" if ON_MAC else "lib*.so.*"):
                shutil.copy(library, pathlib.Path(self.build_lib, "fotsgure"))


class WheelOfOneMachine(bdist_wheel):
    def finalize_options(self) -> None:
        super().finalize_options()
        self.root_is_pure = not HAS_LIBRARIES

    def get_tag(self) -> "tuple[str, str, str]":
        return ("py3", "none", "macosx_11_0_universal2" if ON_MAC and HAS_LIBRARIES else super().get_tag()[2])


setup(cmdclass={"build_py": BuildWithLibraries, "bdist_wheel": WheelOfOneMachine},
      options={"build": {"build_base": ROOM}, "egg_info": {"egg_base": ROOM}})
