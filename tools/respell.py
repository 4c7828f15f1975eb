#!/usr/bin/env python3
"""Respells this repository's own definitions and lemmas in snake case, once, after the kit's port.py.

usage: tools/respell.py            at the top of the checkout

port.py respells only the names that a library of the kit spelt alike. The others, as `firstFrom`, become `first_from` here, in every .antt and .rt file
below crates/. Rust names are in snake case already and types in camel case, so a lower-case start with a capital further on is a name of specs/ or proofs/.
A lemma that had the new name of a definition of the same file gets `_lem`.
"""

import os
import re

TOKEN = re.compile(r"[A-Za-z0-9_'\u2080-\u2089ℕℤ\-]+")
LEMMAS = {"by_row": "by_row_lem", "by_number": "by_number_lem", "list_at": "list_at_lem", "list_over": "list_over_lem"}


def part(p):
    if re.match("[a-z]", p) and re.search("[a-z0-9][A-Z]", p) and not p.startswith("is_"):
        return re.sub("([a-z0-9])([A-Z])", r"\1_\2", p).lower()
    return p


def word(m):
    w = m.group(0)
    return LEMMAS.get(w) or "-".join(part(p) for p in w.split("-"))


def main():
    for folder, dirs, files in os.walk("crates"):
        dirs[:] = sorted(d for d in dirs if d != "out")
        for f in sorted(files):
            if f.endswith((".antt", ".rt")):
                path = os.path.join(folder, f)
                with open(path, encoding="utf-8") as it:
                    old = it.read()
                new = TOKEN.sub(word, old)
                if new != old:
                    with open(path, "w", encoding="utf-8") as it:
                        it.write(new)


main()
