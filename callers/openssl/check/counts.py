#!/usr/bin/env python3
"""Prints what a module that was built with count.h counted. usage: counts.py FILE"""
import struct
import sys

MODES = {1: "ECB", 2: "CBC", 5: "CTR", 6: "GCM", 10: "WRAP", 13: "GCM-SIV"}
with open(sys.argv[1], "rb") as file:
    data = file.read()
numbers = struct.unpack(f"<{len(data) // 8}Q", data)
for mode, name in MODES.items():
    for size in range(3):
        contexts, keys, text, additional = numbers[mode * 16 + size * 4:mode * 16 + size * 4 + 4]
        if contexts:
            print(f"AES-{128 + 64 * size}-{name}: {contexts} contexts, {keys} keys, {text} bytes, {additional} additional")
