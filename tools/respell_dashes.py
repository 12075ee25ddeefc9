#!/usr/bin/env python3
"""Second pass of tools/respell.py, which had kept a dash wherever the word behind it is a name of any file. Run once, after it.

usage: python3 tools/respell_dashes.py          in the repository
       python3 tools/respell_dashes.py --list   only says which name becomes which

A dash stays where it joins two names, that is where the lemma's own statement has what stands behind it, as in `length-laid`. All other dashes
join plain words, and become `_`. So do those of each field, constructor and definition. Pages have the names between backticks.
"""

import os
import re
import subprocess
import sys

sys.path.insert(0, os.path.dirname(os.path.realpath(__file__)))
import respell

# Names that would fall together with another.
BY_HAND = {"into-za": "into_za_lem", "first-vector": "first_vector_is"}
BY_HAND |= {n: n.replace("-", "_") + "_lem" for n in ("all-clear", "by-element", "fits-first", "four-at", "new-length", "own-by", "value-first", "za-vector")}


def statements(root):
    """Of each name that is declared: the words of its statements."""
    words = {}
    for path in respell.files(root, ".antt"):
        if respell.of_a_function(path):
            continue
        lines = respell.said(path).split("\n")
        for i, line in enumerate(lines):
            it = respell.DECLARED.match(line)
            if not it:
                continue
            text = line[it.end(3):]
            for more in lines[i + 1:]:
                if not more.startswith(it.group(1) + "    "):
                    break
                text += " " + more
            words.setdefault(it.group(3), []).append(set(respell.TOKEN.findall(text)))
    return words


def turned(name, kinds, said):
    if name in BY_HAND:
        return BY_HAND[name]
    parts = name.split("-")
    made = parts[0]
    for part in parts[1:]:
        keeps = kinds == {"lemma"} and (any(part in words for words in said) or not part[:1].isalpha() or part[0].isupper())
        made += ("-" if keeps else "_") + part
    return made


def changes(root):
    said = statements(root)
    kinds = respell.own_names(root)
    return {n: t for n, k in kinds.items() if "-" in n and "" not in n.split("-") for t in [turned(n, k, said[n])] if t != n}


def main(argv):
    root = subprocess.run(["git", "rev-parse", "--show-toplevel"], capture_output=True, text=True, check=True).stdout.strip()
    change = changes(root)
    for new, olds in respell.fallen_together(root, change):
        print(f"look: {new}: {' and '.join(olds)}")
    if argv == ["--list"]:
        for old, new in sorted(change.items()):
            print(f"{old} -> {new}")
        return 0
    for path in respell.files(root, ".antt", ".rt", ".edit"):
        text = respell.said(path)
        code = re.split(r'((?<!\S)(?:--|//|#(?!\[)) [^\n]*|"(?:[^"\\\n]|\\.)*")', text)
        for i, piece in enumerate(code):
            turn = lambda it: respell.TOKEN.sub(lambda t: change.get(t.group(0), t.group(0)), it if isinstance(it, str) else it.group(0))
            code[i] = turn(piece) if i % 2 == 0 else piece if piece.startswith('"') else re.sub(r"`[^`\n]*`", turn, piece)
        new = "".join(code)
        if new != text:
            with open(path, "w", encoding="utf-8") as f:
                f.write(new)
    for crate in sorted(os.listdir(os.path.join(root, "crates"))):
        subprocess.run(["rt", "fmt"], cwd=os.path.join(root, "crates", crate), stdout=subprocess.DEVNULL, check=True)
    print(f"respell_dashes: {len(change)} names")
    return 0


if __name__ == "__main__":
    raise SystemExit(main(sys.argv[1:]))
