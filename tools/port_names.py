#!/usr/bin/env python3
"""Turns the repository's own definitions and lemmas from dashes to snake case, once, after the toolchain's own script.

usage: python3 tools/port_names.py [FOLDER]     the folder that has crates/; this one by default

What counts as the repository's own: what specs/ and the lemma files of proofs/ define (definitions, lemmas, record
fields), and what is bound inside a proof: by `let`, by `where`, as a parameter, or as a lemma beside the answers. What the toolchain
makes (goals, steps, invariants) and what its library names keep their dashes. In .rt files only clauses are touched:
comments, strings and code stay. The script ends with an error where two names would fall together.
"""

import os
import re
import sys

DASHED = r"[A-Za-z_][\w']*(?:-[\w'][\w']*)+"
TOKEN = re.compile(r"[^\s(){}\[\],;.«»λ]+")
DEFINED = re.compile(rf"^\s*(?:(?:abbrev|unfoldable|pub)\s+)*({DASHED})\s*(?:\{{[^}}]*\}}\s*)?:(?=\s)")
LET = re.compile(rf"\blet\s+({DASHED})(?=\s+:\s)")
BINDER = re.compile(r"[({]((?:[\w'-]+\s+)+):\s")
# the modules of an import, which are no names of the file
PATH = re.compile(r"(?m)^use [\w.+]+(?=\.\{| as )")
# what a check asks for in the folder of a function's proof: the toolchain makes these names
MADE = re.compile(r"^(?:returns|loop|invariant|decreases|then|else|in|index|bounds|offset|overflow|ghost)-|-requires$|-preserved$|-init$")


def files(root):
    for folder, dirs, names in os.walk(os.path.join(root, "crates")):
        dirs[:] = sorted(d for d in dirs if d != "out")
        for name in sorted(names):
            if name.endswith((".antt", ".rt")):
                yield os.path.join(folder, name)


def is_answer(path):
    """Whether the file stands in the folder of a function's proof."""
    return re.search(r"/proofs/.+/[^/]+\.antt$", path) is not None


def pieces(path, text):
    """The text in pieces, each with whether it may be renamed: no comment and no string may."""
    comment = "--" if path.endswith(".antt") else "//"
    at = re.compile(rf"(?m)(?:^|(?<=\s)){comment}.*$" + (r'|"(?:[^"\\\n]|\\.)*"' if path.endswith(".rt") else ""))
    last = 0
    for m in at.finditer(text):
        yield text[last : m.start()], True
        yield m.group(0), False
        last = m.end()
    yield text[last:], True


def own_names(root):
    own = set()
    for path in files(root):
        if path.endswith(".rt"):
            continue
        with open(path, encoding="utf-8") as f:
            text = f.read()
        for piece, renamed in pieces(path, text):
            if not renamed:
                continue
            for line in piece.splitlines():
                m = DEFINED.match(line)
                if m and not (is_answer(path) and (MADE.search(m.group(1)) or re.search(r":\s*goal\.", line))):
                    own.add(m.group(1))
                own.update(LET.findall(line))
                for names in BINDER.findall(line):
                    own.update(n for n in names.split() if re.fullmatch(DASHED, n))
    return own


def snake(name):
    if name[0].isupper():
        return "".join(part[0].upper() + part[1:] for part in name.split("-"))
    return name.replace("-", "_")


def main(root):
    own = own_names(root)
    words = set()
    for path in files(root):
        if path.endswith(".antt"):
            with open(path, encoding="utf-8") as f:
                for piece, renamed in pieces(path, f.read()):
                    if renamed:
                        words.update(TOKEN.findall(PATH.sub("", piece)))
    together = sorted(n for n in own if snake(n) in words)
    if together:
        sys.exit("these would fall together with names that stand: " + ", ".join(together))
    turned = {n: snake(n) for n in own}
    changed = 0
    for path in files(root):
        with open(path, encoding="utf-8") as f:
            text = f.read()
        new = "".join(TOKEN.sub(lambda m: turned.get(m.group(0), m.group(0)), p) if r else p for p, r in pieces(path, text))
        if new != text:
            changed += 1
            with open(path, "w", encoding="utf-8") as f:
                f.write(new)
    print(f"{len(own)} names in {changed} files")


if __name__ == "__main__":
    main(sys.argv[1] if len(sys.argv) > 1 else ".")
