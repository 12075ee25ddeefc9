#!/usr/bin/env python3
"""Writes the repository's own names as tools/respell.py spells them into pages, and into comments of code and proofs: only what stands between backticks.

usage: python3 tools/respell_pages.py OLD FILE..    OLD: a checkout of the repository from before port.py

A name's new spelling is read off the declarations: those of a file of OLD and of the same file here stand in one order.
"""

import difflib
import os
import re
import sys

sys.path.insert(0, os.path.dirname(os.path.realpath(__file__)))
import respell

# Words of the papers that are also a name.
PLAIN = {"VL", "all", "changed"}


def declared(path):
    with open(path, encoding="utf-8") as f:
        return [m.group(3) for m in map(respell.DECLARED.match, f) if m]


def flat(name):
    return re.sub(r"[-_'\u2032]|lem$", "", name).lower()


def names(old, here):
    """Each old name with the one that stands for it now."""
    became = {}
    for path in respell.files(old, ".antt"):
        now = path.replace(old, here, 1)
        if respell.of_a_function(path) or not os.path.exists(now):
            continue
        a, b = declared(path), declared(now)
        match = difflib.SequenceMatcher(None, list(map(flat, a)), list(map(flat, b)), autojunk=False)
        for _, i1, i2, j1, j2 in match.get_opcodes():
            if i2 - i1 == j2 - j1:
                became.update(zip(a[i1:i2], b[j1:j2]))
    return {a: b for a, b in became.items() if a != b and a not in PLAIN}


def main(old, *paths):
    change = names(os.path.abspath(old), os.getcwd())
    for path in paths:
        with open(path, encoding="utf-8") as f:
            text = f.read()
        quoted = lambda it: respell.TOKEN.sub(lambda t: change.get(t.group(0), t.group(0)), it.group(0))
        comment = lambda it: re.sub(r"`[^`\n]*`", quoted, it.group(0))
        new = re.sub(r"`[^`\n]*`", quoted, text) if path.endswith(".md") else re.sub(r"(?m)(?://|--|^#|^ \*|/\*).*$", comment, text)
        if new != text:
            with open(path, "w", encoding="utf-8") as f:
                f.write(new)


if __name__ == "__main__":
    main(*sys.argv[1:])
