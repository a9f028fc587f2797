#!/usr/bin/env python3
"""Brings the repository's own definitions and lemmas to today's spelling: words in snake case.

usage: tools/respell.py [FOLDER]      once, right after the kit's port.py; FOLDER is the top of the
                                      checkout

Each word of the .antt files and of the clauses of the .rt files that begins with a small letter and
has a capital in it, as `heldTo` or `letOff-picked`, becomes `held_to` and `let_off-picked`. Types,
modules, facts and constructors keep their capitals; functions, fields and exported names of src/
are in snake case already. Six lemmas would then have the name of a definition beside them: these
get `_lem` (CLASHES).
"""
import os
import re
import sys

# A word: parts of letters, digits, underscores and primes, joined by dashes.
# A byte literal, as b'R', is none.
WORD = re.compile(r"(?<![\w'-])(?!b'.')[A-Za-z_][\w']*(?:-[\w']+)*")

# Comments write a tenth of a decibel and a decibel so.
UNITS = {"cB", "dB"}

# Lemmas that would fall together with the definition that they speak of, with the folders in which
# they are named; behind a dot it is a step of a proof.
CLASHES = {
    "crates/merge/proofs": {"settled_at": "settled_at_lem"},
    "crates/promises/proofs": {"past_one": "past_one_lem", "past_two": "past_two_lem"},
    "crates/smf/proofs": {"four_bytes": "four_bytes_lem", "two_bytes": "two_bytes_lem"},
    "crates/merge/proofs/pages": {"four_bytes": "four_bytes_lem", "two_bytes": "two_bytes_lem"},
    "crates/voice/proofs": {"level_in": "level_in_lem"},
}


def snake(part):
    """A part of a word in snake case; one that begins with a capital stays."""
    if not re.match(r"[a-z]", part):
        return part
    part = re.sub(r"(?<=[a-z0-9'])([A-Z])", lambda m: "_" + m.group(1).lower(), part)
    return part.lower() if part.isascii() else part


def respelled(text, clashes=None):
    def word(m):
        w = m.group(0)
        if clashes and w in clashes and text[m.start() - 1 : m.start()] != ".":
            return clashes[w]
        if w not in UNITS and re.match(r"[a-z]", w) and re.search(r"[a-z0-9'][A-Z]", w):
            return "-".join(snake(p) for p in w.split("-"))
        return w

    return WORD.sub(word, text)


def main(top):
    changed = 0
    for folder, dirs, files in os.walk(os.path.join(top, "crates")):
        dirs[:] = sorted(d for d in dirs if d != "out")
        for name in sorted(files):
            if not name.endswith((".antt", ".rt")):
                continue
            path = os.path.join(folder, name)
            with open(path, encoding="utf-8") as f:
                old = f.read()
            clashes = None
            for where, those in CLASHES.items():
                if os.path.relpath(path, top).startswith(where + os.sep):
                    clashes = those
            new = respelled(old, clashes)
            if new != old:
                with open(path, "w", encoding="utf-8") as f:
                    f.write(new)
                changed += 1
    print(f"respell: {changed} files changed")


if __name__ == "__main__":
    main(sys.argv[1] if len(sys.argv) > 1 else ".")
