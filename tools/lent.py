#!/usr/bin/env python3
"""Writes `was p` and `left p` of contracts as today's `p.now`, `p.old` and `p.new`: of a `&`, and of a `&mut` before and after the call.

usage: python3 tools/lent.py [FOLDER]     FOLDER has crates/; else where it is run. Once, after respell.py
"""

import os
import re
import sys

HEAD = re.compile(
    r"\s*(?:pub )?(?:unsafe )?(?:extern \"C\" )?fn \w+(?:<[^>]*>)?\((.*?)\)\s*(?:->[^\n{]*)?\s*\n?\s*(?=requires|ensures|\{|ghost)", re.S
)


def kinds(parameters):
    """What each parameter is: written, read, or passed by value."""
    out = {}
    for one in re.split(r",\s*(?![^\[<(]*[\]>)])", parameters.strip()):
        one = one.strip()
        if one in ("&self", "&mut self"):
            out["self"] = "written" if "mut" in one else "read"
        elif ":" in one:
            name, of = one.split(":", 1)
            of = of.strip()
            written = re.match(r"&('\w+ )?mut", of)
            out[name.replace("mut ", "").strip()] = "written" if written else "read" if of.startswith("&") else "value"
    return out


def turn(text, path):
    out = []
    for piece in re.split(r"(?m)^(?=(?:    )?(?:pub )?(?:unsafe )?(?:extern \"C\" )?fn )", text):
        m = HEAD.match(piece)
        of = kinds(m[1]) if m else {}

        def spelled(w):
            kind = of.get(w[2])
            if kind in (None, "value"):
                print("look:", path, w[0])
                return w[0]
            return w[2] + (".now" if kind == "read" else ".old" if w[1] == "was" else ".new")

        piece = re.sub(r"\((was|left) (\w+)\)", spelled, piece)

        def bare(w):
            in_comment = "//" in piece[piece.rfind("\n", 0, w.start()) + 1 : w.start()]
            return spelled(w) if w[2] in of and not in_comment else w[0]

        out.append(re.sub(r"(?<![\w.])(was|left) ([a-z_]\w*)(?=[\s)},])", bare, piece))

    def imports(m):
        names = [n for n in re.split(r",\s*", m[2]) if n not in ("was", "left")]
        return m[1] + "{" + ", ".join(names) + "};\n" if names else ""

    return re.sub(r"(?m)^(ghost use Rattle\.common\.specs\.Slices\.)\{([^}]*)\};\n", imports, "".join(out))


def main():
    root = sys.argv[1] if len(sys.argv) > 1 else "."
    for folder, dirs, names in os.walk(os.path.join(root, "crates")):
        dirs[:] = sorted(d for d in dirs if d != "out")
        for name in sorted(names):
            if not name.endswith(".rt"):
                continue
            path = os.path.join(folder, name)
            with open(path, encoding="utf-8") as it:
                text = it.read()
            turned = turn(text, path)
            if turned != text:
                with open(path, "w", encoding="utf-8") as it:
                    it.write(turned)


if __name__ == "__main__":
    main()
