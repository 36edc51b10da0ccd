#!/usr/bin/env python3
"""Brings the names of this repository's definitions and lemmas to today's spelling: words in snake case, types and modules in camel case.

usage: python3 tools/respell.py     at the top, once, after the kit's port.py

    well-named        -> well_named        a definition, a lemma, a field, a variable
    Well-named        -> WellNamed         a type, a module and its file
    decodedAt         -> decoded_at

Names of the library and names that the check makes keep their dashes; strings, numbers and the code of src/ are left alone. It prints the
names that would fall together, and then writes nothing.
"""

import os
import re
import subprocess
import sys

WORD = r"[A-Za-z][A-Za-z0-9_'₀₁₂]*(?:-[A-Za-z0-9_'₀₁₂]+)+"
TOKEN = re.compile(r"(?<![A-Za-z0-9_'₀₁₂◌-])" + WORD + r"(?![A-Za-z0-9_'₀₁₂-])")
CAMEL = {"crc32Of": "crc32_of", "decodedAt": "decoded_at"}
# Two would have the name of a type of src/.
OTHERS = {"Term-found": "TermIsFound", "Decoded-list": "ListIsDecoded"}
CAMEL_TOKEN = re.compile(r"(?<![\w'])(" + "|".join(CAMEL) + r")(?![\w'])")
USE = re.compile(r"^\s*(?:pub\s+)?(?:ghost\s+)?use\s+([^\s{;]+?)(?:\.\{([^}]*)\})?(?:\s+as\s+(\S+?))?\s*;?\s*$", re.M)
# What the check makes of a function, in a proof that walks its code.
MADE = re.compile(r"(?:tie|goal|Tie|Goals|Given)\.$")


def files(root):
    for folder, dirs, names in os.walk(os.path.join(root, "crates")):
        dirs[:] = sorted(d for d in dirs if d != "out")
        for name in sorted(names):
            if name.endswith((".antt", ".rt")):
                yield os.path.join(folder, name)


def respelled(name):
    parts = name.split("-")
    if name[0].isupper():
        return parts[0] + "".join(p[:1].upper() + p[1:] for p in parts[1:])
    return "_".join(parts)


def pieces(text, rust):
    """The text in pieces (kind, text): 'code', 'comment' or 'string'."""
    at = 0
    if rust:
        cut = re.compile(r'//[^\n]*|b?"(?:[^"\\]|\\.)*"|b?\'(?:[^\'\\\n]|\\.)\'')
    else:
        cut = re.compile(r'(?<![^\s(){}])--(?=[\s-])[^\n]*|"(?:[^"\\]|\\.)*"|«[^»]*»')
    for m in cut.finditer(text):
        if m.start() > at:
            yield "code", text[at : m.start()]
        yield ("comment" if m[0].startswith(("//", "--")) else "string"), m[0]
        at = m.end()
    if at < len(text):
        yield "code", text[at:]


def is_walk(path):
    return os.path.basename(path) == "Proof.antt"


def main():
    root = subprocess.run(["git", "rev-parse", "--show-toplevel"], capture_output=True, text=True, check=True).stdout.strip()
    own = set(os.listdir(os.path.join(root, "crates")))
    texts = {}
    for path in files(root):
        with open(path, encoding="utf-8") as it:
            texts[path] = it.read()

    # the library's names, as they are imported
    library = set()
    for text in texts.values():
        for m in USE.finditer(text):
            parts = m[1].split(".")
            if not (parts[0] == "Rattle" and len(parts) > 1 and parts[1] in own):
                library.update(parts)
                library.update(re.split(r"[,\s]+", m[2] or ""))

    # this repository's own names: all that stand in specs/, in proofs/ beside the walks, and in clauses
    names = set()
    plain = set()
    for path, text in texts.items():
        for kind, piece in pieces(text, path.endswith(".rt")):
            if kind == "code":
                if not is_walk(path):
                    names.update(m[0] for m in TOKEN.finditer(piece))
                plain.update(re.findall(r"[A-Za-z_][\w'₀₁₂]*", piece))
    for path in texts:
        for part in os.path.relpath(path, root).split(os.sep)[2:]:
            stem = part.removesuffix(".antt")
            if TOKEN.fullmatch(stem):
                names.add(stem)
    names -= library
    new = {n: OTHERS.get(n, respelled(n)) for n in names} | CAMEL

    together = {}
    for old, to in new.items():
        together.setdefault(to, []).append(old)
    clash = [(to, olds) for to, olds in sorted(together.items()) if len(olds) > 1]
    for to, olds in clash:
        print(f"fall together: {' '.join(sorted(olds))} -> {to}")
    if clash:
        return 1
    for to, olds in sorted(together.items()):
        if to in plain:
            print(f"look: {olds[0]} -> {to}, which stands in the text already")

    def code(piece, walk):
        def turn(m):
            if walk and MADE.search(piece[max(0, m.start() - 8) : m.start()]):
                return m[0]
            return new.get(m[0], m[0])

        return CAMEL_TOKEN.sub(lambda m: CAMEL[m[0]], TOKEN.sub(turn, piece))

    def comment(piece):
        piece = TOKEN.sub(lambda m: new.get(m[0], m[0]) if m[0][0].isupper() else m[0], piece)
        piece = re.sub(r"`[^`]*`", lambda b: TOKEN.sub(lambda m: new.get(m[0], m[0]), b[0]), piece)
        return CAMEL_TOKEN.sub(lambda m: CAMEL[m[0]], piece)

    changed = 0
    for path, text in texts.items():
        out = []
        for kind, piece in pieces(text, path.endswith(".rt")):
            out.append(code(piece, is_walk(path)) if kind == "code" else comment(piece) if kind == "comment" else piece)
        out = "".join(out)
        if out != text:
            changed += 1
            with open(path, "w", encoding="utf-8") as it:
                it.write(out)
    moved = 0
    for path in sorted(texts, reverse=True):
        stem = os.path.basename(path).removesuffix(".antt")
        if stem in new:
            subprocess.run(["git", "mv", path, os.path.join(os.path.dirname(path), new[stem] + ".antt")], cwd=root, check=True)
            moved += 1
    print(f"respell: {len(new)} names, {changed} files changed, {moved} files moved")
    return 0


if __name__ == "__main__":
    sys.exit(main())
