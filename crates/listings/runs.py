#!/usr/bin/env python3
"""Writes the inputs of the programs listing and listings, and what they must write.

Made from the words of documents 01 and 02 alone, with zlib's checksum and Python's own UTF-8: a segment is laid out and checked here by
this script, and no line of the expected output comes from a run of the Rattle code. Run it in crates/listings; it writes
../listing/{stdin,stdout}, data/*, args, stdout. tests/listing/run imports it, which writes nothing.
"""
import os, struct, zlib

# ---- the format

def leb(n):
    out = bytearray()
    while n >= 128:
        out.append(n % 128 + 128)
        n //= 128
    return bytes(out + bytes([n]))

def gaps(values):
    """The values of a rising list as gaps: the first is the value itself."""
    return [b - a for a, b in zip([0] + values, values)]

def metadata(documents):
    ids = [i for i, _ in documents]
    return b"".join(leb(g) + leb(n) for g, (_, n) in zip(gaps(ids), documents))

def posting_list(postings):
    out = b""
    for gap, (_, positions) in zip(gaps([i for i, _ in postings]), postings):
        out += leb(gap) + leb(len(positions)) + b"".join(leb(g) for g in gaps(positions))
    return out

def laid_out(documents, terms, directory, names, meta, lists, version=2, flags=0):
    parts = [directory, names, meta, lists]
    head = b"PSTP0001" + struct.pack("<4I", version, flags, documents, terms)
    head += struct.pack("<4Q", *map(len, parts)) + struct.pack("<4I", *map(zlib.crc32, parts))
    assert len(head) == 72
    return head + b"".join(parts)

def segment(documents, terms, meta=None, **header):
    """A segment of documents (id, length) and of terms {name: postings}; other metadata where it is given."""
    directory, names, lists = b"", b"", b""
    for name, postings in sorted(terms.items()):
        l = posting_list(postings)
        directory += struct.pack("<2I2Q2I", len(names), len(name), len(lists), len(l), len(postings), zlib.crc32(l))
        names += name
        lists += l
    return laid_out(len(documents), len(terms), directory, names, metadata(documents) if meta is None else meta, lists, **header)

# ---- opening, in document 01's order of checks

class Refused(Exception):
    def __init__(self, kind, which=0, index=0):
        self.numbers = (kind, which, index)

def number(s, at, section, index):
    value = 0
    for k in range(5):
        if at + k == len(s):
            raise Refused(7, section, index)
        value += (s[at + k] % 128) << (7 * k)
        if s[at + k] < 128:
            if value >= 2**32:
                raise Refused(7, section, index)
            return value, at + k + 1
    raise Refused(7, section, index)

def ranged(whole, at, n, section):
    if at + n >= 2**64:
        raise Refused(6, 2)
    if at + n > len(whole):
        raise Refused(1, section)
    return whole[at:at + n]

def opened(s):
    if len(s) < 72:
        raise Refused(1, 1)
    if s[:8] != b"PSTP0001":
        raise Refused(2)
    version, flags, documents, terms = struct.unpack("<4I", s[8:24])
    if version != 2:
        raise Refused(3, 0, version)
    if flags != 0:
        raise Refused(4, 0, flags)
    parts, at = [], 72
    for section, n in zip((2, 3, 4, 5), struct.unpack("<4Q", s[24:56])):
        parts.append(ranged(s, at, n, section))
        at += n
    if at != len(s):
        raise Refused(6, 1)
    for section, part, sum in zip((2, 3, 4, 5), parts, struct.unpack("<4I", s[56:72])):
        if zlib.crc32(part) != sum:
            raise Refused(5, section)
    directory, names, meta, lists = parts
    bars, at = [], 0
    for i in range(documents):
        gap, at = number(meta, at, 4, i)
        length, at = number(meta, at, 4, i)
        id = gap if i == 0 else bars[-1][0] + gap
        if id >= 2**32:
            raise Refused(8, 0, i)
        if i > 0 and gap == 0:
            raise Refused(6, 4)
        bars.append((id, length))
    if at != len(meta):
        raise Refused(6, 3)
    if len(directory) != 32 * terms:
        raise Refused(6, 5)
    sounds = []
    for i in range(terms):
        start, size, list_at, list_size, df, _ = struct.unpack("<2I2Q2I", directory[32 * i:32 * i + 32])
        name = ranged(names, start, size, 3)
        try:
            name.decode("utf-8")
        except UnicodeDecodeError:
            raise Refused(10)
        if name == b"":
            raise Refused(6, 6)
        if i > 0 and name <= sounds[-1][0]:
            raise Refused(6, 7)
        ranged(lists, list_at, list_size, 5)
        if df == 0:
            raise Refused(6, 8)
        sounds.append((name, df))
    return bars, sounds

# ---- the listing

def column(name):
    """A name's 16 places are characters, one for each code point (document 02, wish 1); those below 32 and 127 print as ?."""
    shown = "".join("?" if ord(c) < 32 or ord(c) == 127 else c for c in name.decode("utf-8"))
    return shown[:16].ljust(16).encode("utf-8")

def listing(s):
    try:
        if len(s) > 65536:
            raise Refused(12)
        bars, sounds = opened(s)
    except Refused as x:
        return b"%10d%10d%10d\n" % x.numbers
    out = b"%10d%10d\n" % (len(bars), len(sounds))
    for bar in bars:
        out += b"%10d%10d\n" % bar
    for name, df in sounds:
        out += column(name) + b"%10d\n" % df
    return out

# ---- the cases

two_bars = segment([(3, 16), (7, 16)], {
    b"kick": [(3, [0, 4, 15]), (7, [2])],
    b"snare": [(3, [8, 14]), (7, [3, 4])],
})
assert len(two_bars) == 165
assert metadata([(3, 16), (7, 16)]) == bytes.fromhex("03100410")
assert posting_list([(3, [0, 4, 15]), (7, [2])]) == bytes.fromhex("030300040B040102")
assert listing(two_bars).decode() == """\
         2         2
         3        16
         7        16
kick                     2
snare                    2
"""

empty = segment([], {})
assert empty == b"PSTP0001" + b"\x02" + bytes(63)

few = [(5, 4), (6, 4)]
names = {
    b"a\tb\x00c\x1fd\x7fe\x20f~": [(5, [0])],
    b"caf\xc3\xa9": [(5, [0]), (6, [0])],
    b"exactly sixteen!": [(6, [1])],
    b"exactly sixteen!\n": [(6, [2])],
    b"one that is longer than sixteen bytes": [(6, [3])],
}

def named(*sounds):
    """A segment of one bar (1, 4), with each of these sounds on step 0."""
    assert len(set(sounds)) == len(sounds)
    return segment([(1, 4)], {name.encode("utf-8"): [(1, [0])] for name in sounds})

def letters(first, n):
    """n characters from `first` on, no two alike, so that a cut at the wrong place shows."""
    return "".join(chr(ord(first) + k) for k in range(n))

# Worked out by hand from document 02's wish 1: padded to 16 characters, and cut after the sixteenth.
greek_10_letters = named("ταμπούρλοσ")
assert len("ταμπούρλοσ".encode("utf-8")) == 20
assert listing(greek_10_letters).decode() == """\
         1         1
         1         4
ταμπούρλοσ               1
"""
greek_18_letters = named("αβγδεζηθικλμνξοπρσ")
assert listing(greek_18_letters).decode() == """\
         1         1
         1         4
αβγδεζηθικλμνξοπ         1
"""

# One short of 16, 16 and one over, in one, two, three and four bytes a character.
around_16 = [letters(first, n) for first in "aα一𝐀" for n in (15, 16, 17)]

# U+0080 to U+009F are control characters too, but of two bytes: they print as they are.
mixed_widths = [
    "\x01a\u00e9\u0085鼓𝄞\x1fλ\x7f\u0080 \u009fz",
    "αβγδεζηθικλμνξ\x1f",
    "αβγδεζηθικλμνξο\x7f",
    "αβγδεζηθικλμνξοπ\x01",
    "鼓𝄞aλ" * 4,
    "𝄞鼓λa" * 4 + "𝄞",
]

# An accent that follows its letter is a character of its own, though a screen shows the two as one.
combining_marks = [
    "e\u0301",
    "abcdefghijklmne\u0301",
    "abcdefghijklmnoe\u0301",
    "e\u0301" * 8,
    "\u0301" + "e\u0301" * 8,
]

# The sixteenth byte is not the last of its letter: in names of fewer than 16 characters, and in longer ones.
beginnings = [("a", "α"), ("", "一"), ("ab", "一"), ("a", "𝐀"), ("ab", "𝐀"), ("abc", "𝐀")]
half_a_letter = [ahead + letters(first, n) for ahead, first in beginnings for n in (8, 17)]

# Where the number of bytes changes, beside the surrogates, and the last character of all: one of each, and seventeen.
boundaries = [0x7F, 0x80, 0x7FF, 0x800, 0xD7FF, 0xE000, 0xFFFF, 0x10000, 0x10FFFF]
boundary_characters = ["U+%04X %c" % (c, c) for c in boundaries] + [chr(c) * 17 for c in boundaries]

broken = bytearray(two_bars)
broken[72] ^= 1

cases = [
    ("two_bars", two_bars),
    ("no_bars", empty),
    ("three_bars_one_sound", segment([(0, 1), (9, 0), (4294967295, 4294967295)], {b"tom": [(0, [0]), (4294967295, [0, 4294967294])]})),
    ("one_bar_three_sounds", segment([(1234567890, 8)], {n: [(1234567890, [k])] for k, n in enumerate([b"hat", b"ride", b"rim"])})),
    ("names", segment(few, names)),
    ("greek_10_letters", greek_10_letters),
    ("greek_18_letters", greek_18_letters),
    ("15_16_17_characters", named(*around_16)),
    ("mixed_widths", named(*mixed_widths)),
    ("combining_marks", named(*combining_marks)),
    ("half_a_letter", named(*half_a_letter)),
    ("boundary_characters", named(*boundary_characters)),
    ("71_bytes", empty[:71]),
    ("no_magic", bytes(72)),
    ("version_3", segment([], {}, version=3)),
    ("flags_4294967295", segment([], {}, flags=4294967295)),
    ("cut_short", two_bars[:-1]),
    ("one_byte_more", two_bars + b"\0"),
    ("broken_checksum", bytes(broken)),
    ("id_twice", segment(few, {}, meta=leb(5) + leb(4) + leb(0) + leb(4))),
    ("id_overflow", segment(few, {}, meta=leb(5) + leb(4) + leb(4294967291) + leb(4))),
    ("bad_number", segment(few + [(7, 4)], {}, meta=metadata(few) + b"\x01\x80")),
    ("bad_name", segment(few, {b"\xff": [(5, [0])]})),
    ("65536_bytes", bytes(65536)),
    ("65537_bytes", bytes(65537)),
]

def write(path, s):
    with open(path, "wb") as f:
        f.write(s)

if __name__ == "__main__":
    os.makedirs("data", exist_ok=True)
    for name, s in cases:
        write("data/" + name, s)
    write("args", b"".join(name.encode() + b"\n" for name, _ in cases))
    write("stdout", b"".join(name.encode() + b"\n" + listing(s) for name, s in cases))
    write("../listing/stdin", two_bars)
    write("../listing/stdout", listing(two_bars))
