#!/usr/bin/env python3
"""Writes what the program replay_midi must write: the totals of data/cases, with nothing failed.

Counted from the list alone, by the format in oracle/README.md; no line comes from a run. Run it in crates/replay_midi, after each new
list.
"""
import struct
from collections import Counter

# Accepted, no room, not such a MIDI file, a bar too far. A file that is too large (12) is too large for the list.
KINDS = (0, 13, 14, 15)
TEXT = 2

with open("data/cases", "rb") as f:
    s = f.read()
assert s[:8] == b"PSTPMIDI"
version, cases = struct.unpack("<2I", s[8:16])
assert version == 1

kinds, at = Counter(), 16
for _ in range(cases):
    size, kind = struct.unpack("<2I", s[at:at + 8])
    file, *buffers = struct.unpack("<9I", s[at + 52:at + 88])
    text = buffers.pop(TEXT)
    assert size == 84 + file + text + 4 * sum(buffers) <= 4092
    assert file <= 400 and text <= 256 and max(buffers) <= 64
    assert kind in KINDS
    kinds[kind] += 1
    at += 4 + size
assert at == len(s)

with open("stdout", "w", encoding="ascii") as f:
    for kind in KINDS:
        f.write(f"kind {kind}: {kinds[kind]}\n")
    f.write(f"total: {cases} cases, 0 failed\n")
