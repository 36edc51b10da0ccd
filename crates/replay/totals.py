#!/usr/bin/env python3
"""Writes what the program replay must write: the totals of data/cases, with nothing failed.

Counted from the list alone, by the format in oracle/README.md; no line comes from a run. Run it in crates/replay, after each new list.
"""
import struct
from collections import Counter

CALLS = [
    "open", "document_lengths", "document_len", "df", "docs_with_term", "term_postings", "positions",
    "phrase_match_strs", "near_match", "near_match_terms_strs", "write_positional_segment",
]

with open("data/cases", "rb") as f:
    s = f.read()
assert s[:8] == b"PSTPCASE"
version, cases = struct.unpack("<2I", s[8:16])
assert version == 1

calls, kinds, at = Counter(), Counter(), 16
for _ in range(cases):
    size, call = struct.unpack("<IB", s[at:at + 5])
    (kind,) = struct.unpack("<I", s[at + 12:at + 16])
    lengths = struct.unpack("<14I", s[at + 44:at + 100])
    assert size == 96 + sum(lengths[:4]) + 4 * sum(lengths[4:]) <= 4092
    assert 1 <= call <= 11 and 0 <= kind <= 13
    calls[call] += 1
    kinds[kind] += 1
    at += 4 + size
assert at == len(s)

with open("stdout", "w", encoding="ascii") as f:
    for call, name in enumerate(CALLS, 1):
        f.write(f"{name}: {calls[call]} cases, 0 failed\n")
    for kind in range(14):
        f.write(f"kind {kind}: {kinds[kind]}\n")
    f.write(f"total: {cases} cases, 0 failed\n")
