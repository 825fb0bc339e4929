#!/usr/bin/env python3
"""Prints how many bytes of machine code a linked file has: its executable sections."""
import struct
import sys

with open(sys.argv[1], "rb") as file:
    elf = file.read()
at, size, count = struct.unpack_from("<Q", elf, 40)[0], *struct.unpack_from("<HH", elf, 58)
EXECUTABLE = 4
sections = (struct.unpack_from("<IIQQQQ", elf, at + k * size) for k in range(count))
print(sum(s[5] for s in sections if s[2] & EXECUTABLE))
