"""Lists the builds that are proved, and says of each what differs from others."""
from machines.aarch64 import Aarch64
from machines.riscv import Riscv, Riscv32, Riscv64
from machines.x86_64 import X86_64, Windows

# Builds whose proofs run longest come first. `siv` are the calls of AES-GCM-SIV in gcm.s.
BUILDS = {"%s/%s%s" % (folder, library, wide): machine for library in ("aes", "gcm", "siv") for folder, machine, wide in (
    ("x86_64", X86_64, ""), ("aarch64", Aarch64, ""), ("x86_64", X86_64, "_v1"), ("x86_64", X86_64, "_v3"),
    *(("windows_x86_64", Windows, wide) for wide in ("_v1", "", "_v3")))}
BUILDS |= {build: machine for library in ("aes", "gcm", "siv") for build, machine in (
    ("riscv32/" + library, Riscv32), ("riscv64/%s_narrow" % library, Riscv64))}
KEY_SIZES = 16, 32, 24  # bytes, in the order in which they are proved
MACHINES = {build.split("/")[0]: machine for build, machine in BUILDS.items()}


def assembly_of(build):
    """Gives the name of a build's assembly file without `.s`, such as x86_64/gcm_v3."""
    return build.replace("siv", "gcm")


def source(dist, build):
    return "%s/%s.s" % (dist, assembly_of(build))


def library_of(build):
    """Gives the library of a build: aes or gcm."""
    return assembly_of(build).split("/")[1].split("_")[0]


def suffix_of(build):
    """Gives the ending of a build's names in a static library. A library for x86-64 holds several builds."""
    return "" if BUILDS[build].from_v2_and_v3 is None else build[-3:] if build[-3:] in ("_v1", "_v3") else "_v2"


def narrow_word(build):
    """Gives the bytes of a word of stored keys (keyed.py), in builds for processors without a byte shuffle. These have no tables for GHASH.
    It is 0 in other builds."""
    return BUILDS[build].word if issubclass(BUILDS[build], Riscv) else 4 if suffix_of(build) == "_v1" else 0


def is_windows(build):
    return BUILDS[build] is Windows


def takes_few(build, is_all=True):
    """Whether a build is proved at fewer lengths than others (cases.py). Such builds have the same source as others. Without PROVE=all
    `_v3` is one of them."""
    return suffix_of(build) == "_v1" or is_windows(build) or issubclass(BUILDS[build], Riscv) or not is_all and suffix_of(build) == "_v3"
