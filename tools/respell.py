#!/usr/bin/env python3
"""Gives the repository's own definitions and lemmas the spelling of today's Rattle: words in snake case.

usage: python3 tools/respell.py [ROOT]

It goes over the .rt and .antt files of crates/ (and the texts of crates/NAME/must-fail/*.edit) below ROOT, by default the folder that it is run
in, once, after the toolchain's own script. Each part of a name that a dash joins, as `fnvFrom` of `fnvFrom-turn`, becomes `fnv_from`;
types, facts and modules keep their capital. A lemma that would have its function's name gets `_lem`. Comments change with the code.
"""
import os
import re
import sys

TOKEN = re.compile(r"[^\s(){}\[\],;.\"«»⌜⌝`|]+")
CAMEL = re.compile(r"[a-z][a-z0-9]*(?:[A-Z][a-zA-Z0-9]*)+(?:['₀-₉⁺]*)")
HUMP = re.compile(r"(?<=[a-z0-9])(?=[A-Z])|(?<=[A-Z])(?=[A-Z][a-z])")

# Lemmas whose name, once its ending is joined by an underscore, is that of the definition that they speak of.
LEMMAS = {"same_key", "same_layout", "none_below", "switch_fits", "convert_said", "store_told"}


def respelled(part):
    return HUMP.sub("_", part).lower() if CAMEL.fullmatch(part) else part


def turned(text):
    def one(m):
        word = m[0]
        before = text[m.start() - 1] if m.start() else ""
        if word in LEMMAS and before != ".":
            return word + "_lem"
        return "-".join(respelled(it) for it in word.split("-"))

    return TOKEN.sub(one, text)


def texts(root):
    for folder, below, files in os.walk(os.path.join(root, "crates")):
        below[:] = sorted(it for it in below if it != "out")
        for name in sorted(files):
            if name.endswith((".rt", ".antt", ".edit")):
                path = os.path.join(folder, name)
                with open(path, encoding="utf-8", newline="") as f:
                    yield path, f.read()


def main(root):
    old = list(texts(root))
    if not any(CAMEL.fullmatch(part) for _, text in old for word in TOKEN.findall(text) for part in word.split("-")):
        raise SystemExit("respell: no name to turn: it was run before")
    changed = 0
    for path, text in old:
        new = turned(text)
        if new != text:
            with open(path, "w", encoding="utf-8", newline="") as f:
                f.write(new)
            changed += 1
    print(f"respelled: {changed} files")


if __name__ == "__main__":
    main(sys.argv[1] if len(sys.argv) > 1 else ".")
