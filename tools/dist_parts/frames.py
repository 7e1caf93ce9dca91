"""Aligns to 32 bytes what the rounds on planes keep on the stack, in the module of a build for vectors of 32 bytes.

    python3 -B frames.py CLANG MODULE       changes the file MODULE; CLANG is the kit's

A caller aligns the stack to 16 bytes, and the kit's clang keeps vectors of 32 bytes there without aligning them. So in half of all stacks a
vector may lie across the border of a page, and each access to it is then slow: for the whole life of a process, decryption may take twice
its time (evidence/speed/places). None of these changes affects what a function computes:
 - The attribute "stackrealign" has clang align a function's frame, and so has a variable of a higher alignment.
 - The planes of a batch become an aligned part of a larger variable. Had that a higher alignment, clang would align the frames of the
   functions that work on batches too. These would then make no jump to another function at their end, so that more frames lie above each
   other than a wipe of the stack covers.
"""
import pathlib
import re
import subprocess
import sys

# The functions that keep many such vectors.
ROUNDS = re.compile(r'^(define [^\n]*@"aes_soft::soft::ciphers::planes::\w+::process_planes\b[^\n]*)(?= \{$)', re.M), r'\1 "stackrealign"'
# The planes of 15 round keys.
ROUND_KEYS = re.compile(r"(?<= = alloca \[3840 x i8\], align )\d+$", re.M), "32"
# The planes of a batch: of two variables of that size, the one whose address is kept. The stack is aligned to 16 bytes, so that they begin
# with the larger variable, or 16 bytes after that.
BATCH = re.compile(r'''(^define [^\n]*@"aes_soft::soft::ciphers::planes::process::(?:.(?!^\}))*?)'''
                   r"^  (%\w+) = alloca \[256 x i8\], align \d+$(?=(?:.(?!^\}))*?^  store ptr \2,)", re.M | re.S), r"""\1
  \2.room = alloca [272 x i8], align 16
  \2.last = getelementptr i8, ptr \2.room, i64 16
  \2 = call ptr @llvm.ptrmask.p0.i64(ptr \2.last, i64 -32)"""
# How clang writes that it keeps a vector of 32 bytes in a frame that isn't aligned, or reads it. A function may keep one. To align the
# frame of blocks on vectors, which keep one, takes 1.01 of the time of a single block, and brings nothing that could be measured.
UNALIGNED, MOST = re.compile(r"^\tvmov(?:dqu|up[ds])\t.*# 32-byte (?:Spill|Reload)$", re.M), 2
FUNCTION = re.compile(r"^(?=[^\s#.][^\n:]*:[ \t]+# @)", re.M)


def aligned(text):
    """A module with these changes."""
    for found, becomes in (ROUNDS, ROUND_KEYS, BATCH):
        text, count = found.subn(becomes, text)
        if not count:
            sys.exit(f"dist: a module for vectors of 32 bytes has nothing to be aligned that looks like {found.pattern}")
    return text + "\ndeclare ptr @llvm.ptrmask.p0.i64(ptr, i64)\n"


def keeps_unaligned(assembly):
    """The names of functions that keep several vectors in a frame that isn't aligned."""
    return [it.partition(":")[0] for it in FUNCTION.split(assembly) if len(UNALIGNED.findall(it)) > MOST]


def main(clang, module):
    words = "--target=x86_64-unknown-linux-gnu", "-Wno-override-module", "-x", "ir", "-S", "-emit-llvm", "-Xclang", "-disable-llvm-passes"
    path = pathlib.Path(module)
    path.write_text(aligned(subprocess.run([clang, *words, module, "-o", "-"], check=True, stdout=subprocess.PIPE, text=True).stdout))


if __name__ == "__main__":
    main(*sys.argv[1:])
