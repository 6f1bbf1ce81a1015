#!/usr/bin/env python3
"""Brings the names of definitions and lemmas to the spelling of the language's library.

Words are in snake case, types and statements in camel case. spelling.tsv, beside this script, has a row for each name: old, a tab,
new. Run it once, at the top, after the toolchain's port.py; it turns specs/, proofs/, the clauses of src/, and code spans of the
pages. Functions of src/, strings, inputs and outputs keep their names. A second run changes nothing.
"""

import os
import subprocess
import sys

HERE = os.path.dirname(os.path.realpath(__file__))
TOP = os.path.dirname(HERE)
SNAKE = "/opt/rattle/port/notes/2026-11-18-names-are-in-snake-case/snake.py"
TABLE = os.path.join(HERE, "spelling.tsv")
# a name that the toolchain makes for a call's place, of the same spelling as a lemma
MADE = os.path.join(HERE, "toolchain_names.txt")


def turn_names():
    paths = ["crates", "docs", "README.md"]
    words = ["--table", TABLE, "--keep-after-dot", MADE, "--only", "antt,rt,md", "--prose", "none"]
    return subprocess.run([sys.executable, SNAKE, *words, *paths], cwd=TOP).returncode


def turn_ghost_reasons():
    """A ghost field's `by { .. }` holds a lemma, which the library's script takes for code."""
    for folder, _, files in os.walk(os.path.join(TOP, "crates")):
        for file in (os.path.join(folder, f) for f in files if f.endswith(".rt")):
            with open(file, encoding="utf-8") as f:
                text = f.read()
            turned = text.replace("by { InOrder-prop ", "by { in_order_prop ")
            if turned != text:
                with open(file, "w", encoding="utf-8") as f:
                    f.write(turned)


if __name__ == "__main__":
    code = turn_names()
    turn_ghost_reasons()
    sys.exit(code)
