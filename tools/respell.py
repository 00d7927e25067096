#!/usr/bin/env python3
"""Brings the repository's own definitions and lemmas to snake case: with a dash only where it joins two names.

usage: python3 tools/respell.py            at the top of the repository, once, after the kit's port.py

A name is the repository's own where a file of a crate's specs/, or a file of lemmas right in its proofs/, defines it. It is respelled
wherever it stands as a whole word, in specs/, proofs/ and src/. Names that Rattle makes from the source stay as they are.
"""

import os
import re
import sys

# a dash that joins two names: a fact and a function, or two functions
KEPT = {"Within-all", "bit-or"}

# lemmas that a function of the same name states: the function keeps the plain name
LEMMAS = {
    "counterexample-leaves-no-rules",
    "estimates-are-exact",
    "fusion-in-words",
    "hidden-reach-is-closure",
    "legal-is-possible",
    "runs-and-counterexamples",
    "votes-generate-legal",
    "worked-cases",
    "worked-example",
}

# a word of antt: whatever stands between blanks, brackets and dots
WORD = re.compile(r"[^\s(){}\[\],;.:λ⌜⌝«»\"`]+")
SIGNATURE = re.compile(r"^\s*(?:(?:abbrev|unfoldable|pub) )*([^\s(){}\[\],;:]+)(?: [({][^:]*:[^)}]*[)}])* : ")
DECLARED = re.compile(r"^\s*(?:pub |abbrev )*(?:record|data) ([^\s(){}\[\],;:]+)")
CONSTRUCTORS = re.compile(r"^\s+([^\s(){}\[\],;:=]+) : ")


def texts(endings):
    for folder, folders, names in os.walk("crates"):
        folders[:] = sorted(f for f in folders if f != "out")
        for name in sorted(names):
            if name.endswith(endings):
                yield os.path.join(folder, name)


def is_own(path):
    parts = path.split(os.sep)
    return parts[2] == "specs" or (parts[2] == "proofs" and len(parts) == 4)


def defined():
    found = set()
    for path in texts(".antt"):
        if is_own(path):
            for line in open(path, encoding="utf-8"):
                for form in (SIGNATURE, DECLARED, CONSTRUCTORS):
                    m = form.match(line)
                    if m:
                        found.add(m.group(1))
    return found - {"use", "let", "module", "pub", "open", "in"}


def snake(name):
    if re.fullmatch(r"[a-z0-9]+([A-Z][a-z0-9]*)+", name):
        name = re.sub(r"[A-Z]", lambda m: "_" + m.group(0).lower(), name)
    return name.replace("-", "_") + ("_lem" if name in LEMMAS else "")


def main():
    names = {n: snake(n) for n in defined() if n not in KEPT and re.fullmatch(r"[A-Za-z][A-Za-z0-9'-]*", n) and snake(n) != n and not n[0].isupper()}
    words = set()
    for path in texts((".antt", ".rt")):
        words.update(WORD.findall(open(path, encoding="utf-8").read()))
    for old, new in sorted(names.items()):
        if new in words:
            print(f"look: {old} becomes {new}, which stands somewhere already")
    if "--dry" in sys.argv:
        return
    for path in texts((".antt", ".rt")):
        with open(path, encoding="utf-8") as f:
            text = f.read()
        said = WORD.sub(lambda m: names.get(m.group(0), m.group(0)), text)
        if said != text:
            with open(path, "w", encoding="utf-8") as f:
                f.write(said)
    print(f"{len(names)} names respelled")


main()
