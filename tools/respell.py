#!/usr/bin/env python3
"""Brings the repository's own names to one spelling, after the kit's port.py has run. usage: tools/respell.py, at the top.

In .antt files, and in the clauses, ghost lines and comments of .rt files, a name that begins in lower case is snake case:
`stateAt` is `state_at`. A dash that joins two names stays (`timer-fits`), but in a definition (`simulation-of` is `simulation_of`).
"""

import glob
import os
import re
import sys

NAME = re.compile(r"(?<![\w'◌])[A-Za-z_◌][\w'◌]*(?:-[\w'◌]+)*")
CAMEL = re.compile(r"[a-z][a-z0-9_]*[A-Z]\w*")
# The bits of a number in hexadecimal are no name.
BITS = re.compile(r"x[0-9A-F]{8,}")
# Where the turned name is another's already, in one module.
OTHER = {"runOn": "run_on_after", "readNumber": "number_of_read"}
IN_FILE = {
    "crates/host/specs/Cases.antt": {"too_large": "too-large", "no_room": "no-room"},
    "crates/trace_blocks/specs/PairLaws.antt": {"is_block": "is_block-made"},
}
# A dashed definition.
DEFINED = re.compile(r"^(?:abbrev |unfoldable )(?:pub )?([a-z][\w']*(?:-[\w']+)+)(?= :)", re.M)


def snake(word):
    word = re.sub(r"([a-z])([A-Z])", r"\1_\2", word)
    word = re.sub(r"([A-Z])([A-Z][a-z])", r"\1_\2", word)
    word = re.sub(r"([A-Z])(?=[A-Z]\b)", r"\1_", word)
    word = re.sub(r"([a-z])([0-9]+)$", r"\1_\2", word) if re.search(r"[A-Z]", word) else word
    return word.lower()


def files(ending):
    found = glob.glob("crates/*/**/*" + ending, recursive=True)
    return sorted(f for f in found if "/out/" not in f and os.path.isfile(f))


def read(path):
    with open(path, encoding="utf-8") as f:
        return f.read()


def write(path, text):
    if read(path) != text:
        with open(path, "w", encoding="utf-8") as f:
            f.write(text)


def spelled(name, dashed):
    """The name's spelling: each part that is camel case below a small letter turned, and a dashed definition joined."""
    if name in OTHER:
        return OTHER[name]
    if name in dashed:
        name = name.replace("-", "_")
    return "-".join(snake(p) if CAMEL.fullmatch(p) and not BITS.fullmatch(p) else p for p in name.split("-"))


def dashed_names():
    found = set()
    for path in files(".antt"):
        if "/specs/" in path:
            found.update(DEFINED.findall(read(path)))
    return found


def turned(text, dashed, known=None, own=None):
    """The text with its names turned; with `known`, only those."""
    def one(m):
        name = m.group(0)
        if own and name in own:
            return own[name]
        if known is not None and name not in known:
            return name
        return spelled(name, dashed)
    return NAME.sub(one, text)


def rust_turned(text, dashed, known):
    """A string is left alone; in the rest only names that the .antt files have are turned."""
    parts = re.split(r'("(?:\\.|[^"\\\n])*")', text)
    return "".join(p if p.startswith('"') else turned(p, dashed, known) for p in parts)


def edit_turned(text, dashed, known):
    """The texts of an edit; the file that it names stays."""
    lines = text.split("\n")
    return "\n".join(turned(l, dashed, known) if l.startswith(("old:", "new:")) else l for l in lines)


def main():
    dashed = dashed_names()
    everything = set()
    for path in files(".antt"):
        everything.update(NAME.findall(read(path)))
    known = {n for n in everything if spelled(n, dashed) != n}
    for path in files(".antt"):
        write(path, turned(read(path), dashed, None, IN_FILE.get(path)))
    for path in files(".rt"):
        write(path, rust_turned(read(path), dashed, known))
    for path in files(".edit"):
        write(path, edit_turned(read(path), dashed, known))
    if len(sys.argv) > 1:
        with open(sys.argv[1], "w", encoding="utf-8") as f:
            f.writelines(f"{n} {spelled(n, dashed)}\n" for n in sorted(known))


if __name__ == "__main__":
    main()
