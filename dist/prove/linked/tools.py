"""Runs the tools of gcc and binutils."""
import subprocess

from symbols.bits import Unproved


def run(*command, warns=True, **more):
    """Runs a tool, and gives what it prints. `warns`: whether it may warn."""
    result = subprocess.run(command, capture_output=True, text=True, **more)
    if not warns and "arning:" in result.stderr:
        raise Unproved("%s warns: %s" % (command[0], result.stderr.strip()))
    if result.returncode:
        raise SystemExit("%s: %s" % (" ".join(command), result.stderr.strip()))
    return result.stdout


def write(path, text):
    """Writes a file."""
    with open(path, "w") as file:
        file.write(text)
