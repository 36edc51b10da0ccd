#!/usr/bin/env python3
"""Writes the inputs of the program sheet, and what it must write.

Made from the words of documents 01 and 02 alone: a segment is laid out and opened by crates/listings/runs.py, its lists are decoded and
its bars drawn here, with zlib's checksum and Python's own UTF-8, and no line of the expected output comes from a run of the Rattle code.
Run it in crates/sheet; it writes data/*, args, stdout.
"""
import importlib.util, os, struct, sys, zlib

sys.dont_write_bytecode = True  # nothing is to be left among the crate's files
spec = importlib.util.spec_from_file_location("listings", os.path.join(os.path.dirname(os.path.abspath(__file__)), "../listings/runs.py"))
listings = importlib.util.module_from_spec(spec)
spec.loader.exec_module(listings)
from_listings = "Refused segment laid_out metadata posting_list"
Refused, segment, laid_out, metadata, posting_list = (getattr(listings, name) for name in from_listings.split())

# ---- the lists, in document 01's order of checks

def decoded(list, df, checksum, lengths):
    if zlib.crc32(list) != checksum:
        raise Refused(5, 6)
    postings, at, id = [], 0, None
    for place in range(df):
        gap, at = listings.number(list, at, 5, place)
        id = gap if id is None else id + gap
        if id >= 2**32:
            raise Refused(8, 0, place)
        if postings and gap == 0:
            raise Refused(6, 9)
        if id not in lengths:
            raise Refused(6, 10)
        count, at = listings.number(list, at, 5, place)
        if count == 0:
            raise Refused(6, 11)
        steps = []
        for k in range(count):
            gap, at = listings.number(list, at, 5, place + k)
            step = steps[-1] + gap if steps else gap
            if step >= 2**32:
                raise Refused(9, 0, place + k)
            if steps and gap == 0:
                raise Refused(6, 12)
            if step >= lengths[id]:
                raise Refused(6, 13)
            steps.append(step)
        postings.append((id, steps))
    if at != len(list):
        raise Refused(6, 14)
    return postings

def entries(s):
    """Name, list, df and checksum of each entry of a segment that opens."""
    _, _, _, terms = struct.unpack("<4I", s[8:24])
    sizes = struct.unpack("<4Q", s[24:56])
    directory = s[72:72 + sizes[0]]
    names = s[72 + sizes[0]:][:sizes[1]]
    lists = s[72 + sum(sizes[:3]):]
    for i in range(terms):
        start, size, list_at, list_size, df, checksum = struct.unpack("<2I2Q2I", directory[32 * i:32 * i + 32])
        yield names[start:start + size], lists[list_at:list_at + list_size], df, checksum

# ---- the sheet (document 02, wish 3)

def sheet(s, id):
    if len(s) > 4194304:
        raise Refused(12)
    bars, _ = listings.opened(s)
    lengths = dict(bars)
    if id not in lengths:
        raise Refused(16)
    if lengths[id] > 64:
        raise Refused(17)
    lines = [f"{id:10}{lengths[id]:10}" + " " * 60]
    for name, list, df, checksum in entries(s):
        hits = dict(decoded(list, df, checksum, lengths)).get(id, [])
        if hits:
            shown = "".join("?" if ord(c) < 32 or ord(c) == 127 else c for c in name.decode("utf-8"))
            steps = "".join("o" if k in hits else "." if k < lengths[id] else " " for k in range(64))
            lines.append(f"{shown[:12]:12}{steps}{len(hits):4}")
    assert all(len(line) == 80 for line in lines)
    return "".join(line + "\n" for line in lines).encode("utf-8")

def printed(s, id):
    try:
        return sheet(s, id)
    except Refused as x:
        return b"%10d%10d%10d\n" % x.numbers

# ---- the cases

two_bars = listings.two_bars
# Worked out by hand from document 02's wish 3.
assert sheet(two_bars, 3).decode() == (
    "         3        16" + " " * 60 + "\n"
    "kick        o...o..........o" + " " * 48 + "   3\n"
    "snare       ........o.....o." + " " * 48 + "   2\n")
assert sheet(two_bars, 7).decode() == (
    "         7        16" + " " * 60 + "\n"
    "kick        ..o............." + " " * 48 + "   1\n"
    "snare       ...oo..........." + " " * 48 + "   2\n")

def one_entry_damaged(list, k=1):
    """Two sounds in bars 3 and 7; the list of the k-th is the one given, with its right checksum."""
    documents = [(3, 16), (7, 16)]
    lists = [posting_list([(3, [0])]), posting_list([(7, [1])])]
    lists[k] = list
    directory = b""
    for j, l in enumerate(lists):
        directory += struct.pack("<2I2Q2I", j, 1, sum(map(len, lists[:j])), len(l), 1, zlib.crc32(l))
    return laid_out(2, 2, directory, b"ab", metadata(documents), b"".join(lists))

def shared_list():
    """Two sounds whose entries name the same bytes."""
    l = posting_list([(3, [0, 2])])
    directory = b"".join(struct.pack("<2I2Q2I", j, 1, 0, len(l), 1, zlib.crc32(l)) for j in range(2))
    return laid_out(1, 2, directory, b"ab", metadata([(3, 4)]), l)

def wrong_sum():
    """The list of a sound that bar 3 does not have, with another checksum in its entry."""
    s = bytearray(one_entry_damaged(posting_list([(7, [1])])))
    s[72 + 32 + 28] ^= 1
    struct.pack_into("<I", s, 56, zlib.crc32(s[72:72 + 64]))
    return bytes(s)

lengths = [(0, 0), (1, 1), (2, 63), (3, 64), (4, 65), (4294967295, 64)]
at_the_limits = segment(lengths, {
    b"all": [(1, [0]), (2, list(range(63))), (3, list(range(64))), (4, [64])],
    b"even": [(2, list(range(0, 63, 2))), (3, list(range(0, 64, 2)))],
    b"first": [(1, [0]), (2, [0]), (3, [0]), (4294967295, [0])],
    b"last": [(2, [62]), (3, [63]), (4, [64]), (4294967295, [63])],
    b"ten": [(3, list(range(10)))],
})

around_12 = [listings.letters(first, n) for first in "aα一𝐀" for n in (11, 12, 13)]
wide = listings.named(*around_12, "\x01a\u00e9\u0085鼓𝄞\x1fλ\x7f\u0080 \u009fz", "e\u0301" * 6, "e\u0301" * 7, "ταμπούρλο")
many = segment([(9, 8), (10, 8)], {b"s%03d" % k: [(9 + k % 2, [k % 8])] for k in range(300)})

cases = [
    ("two_bars", two_bars, [3, 7, 4, 0, 4294967295]),
    ("at_the_limits", at_the_limits, [0, 1, 2, 3, 4, 5, 4294967295]),
    ("names", wide, [1, 2]),
    ("many_sounds", many, [9, 10]),
    ("shared_list", shared_list(), [3]),
    ("no_bars", listings.empty, [0]),
    ("wrong_sum", wrong_sum(), [3, 7, 5]),
    ("cut_list", one_entry_damaged(b"\x07\x01\x80"), [3, 7, 5]),
    ("unknown_document", one_entry_damaged(b"\x05\x01\x00"), [3]),
    ("no_steps", one_entry_damaged(b"\x07\x00"), [3]),
    ("step_too_far", one_entry_damaged(b"\x07\x01\x10"), [3]),
    ("step_too_large", one_entry_damaged(b"\x07\x02\x01\xff\xff\xff\xff\x0f"), [3]),
    ("step_twice", one_entry_damaged(b"\x07\x02\x01\x00", 0), [3]),
    ("byte_behind", one_entry_damaged(b"\x07\x01\x00\x00", 0), [7]),
    ("broken_checksum", dict(listings.cases)["broken_checksum"], [3]),
    ("71_bytes", listings.empty[:71], [3]),
]

def write(path, s):
    with open(path, "wb") as f:
        f.write(s)

if __name__ == "__main__":
    os.makedirs("data", exist_ok=True)
    for name, s, _ in cases:
        write("data/" + name, s)
    write("args", b"".join(b"%s\n%d\n" % (name.encode(), id) for name, _, ids in cases for id in ids))
    write("stdout", b"".join(printed(s, id) for _, s, ids in cases for id in ids))
