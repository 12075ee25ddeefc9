#!/usr/bin/env python3
"""Brings this repository's own names in specs/, proofs/, clauses and edits to the spelling of today's Rattle. Run once, right after port.py.

usage: python3 tools/respell.py          in the repository
       python3 tools/respell.py --list   only says which name becomes which

Words are in snake case, types and facts in upper camel case. A dash joins two names (`length-splice`); a plain word is
added with `_` (`rows_hold`). A record's field is a Rust identifier. Functions of src/, strings, inputs and outputs stay.
"""

import collections
import os
import re
import subprocess
import sys

# The part of a token that is no delimiter of antt or of a clause.
TOKEN = re.compile(r"[^\s(){}\[\],;.:\"`]+")
DECLARED = re.compile(r"^(\s*)((?:(?:pub|abbrev|unfoldable|opaque|data|record|ruleset)\s+)*)([^\s:{}(),\[\]=λ\"]+)((?:\s+(?:\([^:]*:[^=]*\)|\{[^:]*:[^=]*\}))*)\s+:\s")
# An import of another library's names, and its names.
IMPORT = re.compile(r"^\s*(?:ghost )?use ([^{]*)\.\{([^}]*)\}")
# Words of Arm's pseudocode and of the papers, which no rule turns.
BY_HAND = {"VL": "vl_of", "SInt": "s_int", "Int": "int_of", "SignedSat": "signed_sat", "LengthIsVL": "LengthIsVl"}
# Names that would fall together with another of the same file, or a lemma with the word that it is about.
BY_HAND |= {n: t + "_lem" for n, t in {"all_apart": "all_apart", "apart_from": "apart_from", "element-of": "element_of", "even-bytes": "even_bytes", "family-as": "family_as", "lane-b": "lane_b", "most-words": "most_words", "ones-of": "ones_of", "refused-with": "refused_with", "says-of": "says_of", "some_below": "some_below", "stepped-z": "stepped_z"}.items()}
BY_HAND |= {"new-bytes": "renewed_bytes", "z-after": "z_stepped", "za-after": "za_stepped"}


def files(root, *ends):
    for folder, dirs, names in os.walk(os.path.join(root, "crates")):
        dirs[:] = sorted(d for d in dirs if d != "out")
        for name in sorted(names):
            if name.endswith(ends):
                yield os.path.join(folder, name)


def of_a_function(path):
    """Whether the file is the proof of a function, whose own names follow Rattle's goals."""
    return re.search(r"/proofs/[^/]+/[^/]+\.antt$", path) is not None


def own_names(root):
    """Of each name that the repository declares: 'lemma', 'field' or 'word'."""
    kinds = {}
    for path in files(root, ".antt"):
        if of_a_function(path):
            continue
        with open(path, encoding="utf-8") as f:
            lines = f.read().split("\n")
        within = None
        for line in lines:
            if re.match(r"\S", line):
                within = None
                head = re.match(r"(?:pub )?(record|data) ", line)
                within = head.group(1) if head else None
            it = DECLARED.match(line)
            if not it:
                continue
            name, marks = it.group(3), it.group(2).split()
            if it.group(1) and within == "record":
                kind = "field"
            elif it.group(1) and within == "data" or set(marks) & {"abbrev", "unfoldable", "opaque", "data", "record", "ruleset"}:
                kind = "word"
            else:
                kind = "lemma"
            kinds.setdefault(name, set()).add(kind)
    return kinds


def library_words(root):
    """The names that the files import from the library."""
    words = set()
    for path in files(root, ".antt", ".rt"):
        with open(path, encoding="utf-8") as f:
            for line in f:
                it = IMPORT.match(line)
                if it and not re.match(r"Rattle\.(?!std\b)", it.group(1)):
                    words.update(w.split(" as ")[0].strip() for w in it.group(2).split(","))
    return words


def snake(part):
    """One word of a name: camel case that begins small becomes snake case."""
    if not part or not part[0].islower() or not re.search(r"[A-Z]", part):
        return part
    part = re.sub(r"([a-z0-9])([A-Z])", r"\1_\2", part)
    part = re.sub(r"([A-Z])([A-Z][a-z])", r"\1_\2", part)
    return part.lower()


def turned(name, kinds, named):
    """The name in today's spelling. A dash stays where a name, a type or an operator follows it."""
    if name in BY_HAND:
        return BY_HAND[name]
    parts = [BY_HAND.get(p, p) for p in name.replace("\u2032", "'").split("-")]
    parts = [snake(p) for p in parts]
    if len(parts) == 1 or "" in parts:
        return "-".join(parts)
    if kinds == {"field"}:
        return "_".join(parts)
    made = parts[0]
    for before, part in zip(parts, parts[1:]):
        dash = part in named and not part.isdigit() or not part[0].isalnum() or part[0].isupper() or not before[-1].isalnum()
        made += ("-" if dash else "_") + part
    return made


def changes(root):
    kinds = own_names(root)
    named = {snake(n) for n, k in kinds.items() if "word" in k and "-" not in n} | library_words(root)
    return {n: t for n in kinds for t in [turned(n, kinds[n], named)] if t != n}


def said(path):
    with open(path, encoding="utf-8") as f:
        return f.read()


def respelled(text, change):
    """The text with each name turned, but in strings. In a comment only camel case is turned, since a dash may join plain words there."""
    plain = {n: t for n, t in change.items() if "-" not in n and n not in BY_HAND}
    pieces = re.split(r'((?<!\S)(?:--|//|#(?!\[)) [^\n]*|"(?:[^"\\\n]|\\.)*")', text)
    for i, piece in enumerate(pieces):
        names = change if i % 2 == 0 else {} if piece.startswith('"') else plain
        pieces[i] = TOKEN.sub(lambda it: names.get(it.group(0), it.group(0)), piece)
    return "".join(pieces)


def fallen_together(root, change):
    """Names that would be one: two that turn to the same, or one that turns to a name that stands already."""
    stands = set(own_names(root)) - set(change)
    by_new = collections.defaultdict(list)
    for old, new in change.items():
        by_new[new].append(old)
    for new, olds in sorted(by_new.items()):
        if len(olds) > 1 or new in stands:
            yield new, sorted(olds) + ([new] if new in stands else [])


def main(argv):
    root = subprocess.run(["git", "rev-parse", "--show-toplevel"], capture_output=True, text=True, check=True).stdout.strip()
    change = changes(root)
    for new, olds in fallen_together(root, change):
        print(f"look: {new}: {' and '.join(olds)}")
    if argv == ["--list"]:
        for old, new in sorted(change.items()):
            print(f"{old} -> {new}")
        return 0
    touched = 0
    for path in files(root, ".antt", ".rt", ".edit"):
        text = said(path)
        new = respelled(text, change)
        if new != text:
            touched += 1
            with open(path, "w", encoding="utf-8") as f:
                f.write(new)
    for crate in sorted(os.listdir(os.path.join(root, "crates"))):
        subprocess.run(["rt", "fmt"], cwd=os.path.join(root, "crates", crate), stdout=subprocess.DEVNULL, check=True)
    print(f"respell: {len(change)} names, {touched} files")
    return 0


if __name__ == "__main__":
    raise SystemExit(main(sys.argv[1:]))
