#!/usr/bin/env python3
"""Writes a Glulx story that runs a loop of four simple instructions and then quits.

usage: loop_story.py FILE ROUNDS
"""
import struct
import sys

name, rounds = sys.argv[1], int(sys.argv[2])
code = bytes([0xC1, 4, 2, 0, 0])                      # a function with two locals of four bytes
code += bytes([0x40, 0x93]) + struct.pack(">I", rounds) + b"\x00"          # copy rounds to local 0
code += bytes([0x10, 0x19, 0x09, 4, 3, 4])            # add      local 4, 3, local 4
code += bytes([0x1A, 0x99, 0x09, 4, 0, 4])            # bitxor   local 4, local 0, local 4
code += bytes([0x11, 0x19, 0x09, 0, 1, 0])            # sub      local 0, 1, local 0
code += bytes([0x23, 0x19, 0, 0xEC])                  # jnz      local 0, back to the add
code += bytes([0x81, 0x20])                           # quit
header = b"Glul" + struct.pack(">8I", 0x00030103, 256, 256, 512, 256, 36, 0, 0)
with open(name, "wb") as file:
    file.write((header + code).ljust(256, b"\x00"))
