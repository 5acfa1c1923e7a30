#!/usr/bin/env python3
"""Brings the definitions and lemmas of this repository to the spelling of today's Rattle: words in snake case (`patternOf` is `pattern_of`).

usage: python3 tools/respell.py        at the top of the repository, once, after port.py

A name is respelled where it begins with a small letter and has a capital after a small letter or a digit. Types and modules begin with a
capital and stay; a dash, which joins two names, stays. The names are found in crates/*/specs and crates/*/proofs, and turned there, in the
clauses of crates/*/src, in the must-fail edits and in the pages. Names that the kit's libraries export keep their spelling. The script stops
where two definitions would fall together.
"""

import glob
import re
import sys

IDENTIFIER = re.compile(r"[^\s(){}\[\];,.:λ→|«»◌\"`]+")
IMPORT = re.compile(r"\s*(?:pub )?(?:ghost )?use ([\w.'+-]+)\.\{(.*?)\}")
# words of the older library that names of this repository still had in them
LIBRARY = {"getD": "get_or"}
# names that would fall together with a lemma of this repository, or with a member that Rattle makes
APART = {"heldItems": "held_items_of", "keptIn": "kept_values_in", "readsAt": "read_entries_at", "wellFormed": "all_well_formed"}
DEFINED = re.compile(r"^\s*(?:pub |abbrev |unfoldable )*([^\s(){}\[\];,.:λ→|]+) (?:\{[^}]*\} )?:", re.M)


def respelled(name):
    def part(word):
        if word in APART:
            return APART[word]
        word = LIBRARY.get(word, word)
        return re.sub(r"(?<=[a-z0-9])([A-Z])", lambda m: "_" + m.group(1), word).lower() if re.match(r"[a-z]", word) else word

    return "-".join(part(word) for word in name.split("-"))


def is_old(name):
    return bool(re.match(r"[a-z]", name) and re.search(r"[a-z0-9][A-Z]", name))


def main():
    proofs = sorted(glob.glob("crates/*/specs/**/*.antt", recursive=True) + glob.glob("crates/*/proofs/**/*.antt", recursive=True))
    sources = sorted(glob.glob("crates/*/src/**/*.rt", recursive=True))
    edits = sorted(glob.glob("crates/*/must-fail/*.edit"))
    pages = ["README.md"] + sorted(glob.glob("docs/*.md"))
    words, library, defined = set(), set(), set()
    for path in proofs + sources:
        text = open(path, encoding="utf-8").read()
        words.update(IDENTIFIER.findall(text))
        if path in proofs:
            defined.update(DEFINED.findall(text))
        for line in text.splitlines():
            found = IMPORT.match(line)
            if found and (not found.group(1).startswith("Rattle.") or found.group(1).startswith("Rattle.std")):
                library.update(word.split(" as ")[0].strip() for word in found.group(2).split(","))
    table = {word: respelled(word) for word in words if is_old(word) and word not in library}
    # A definition may have the name of a function of src/ that it is the meaning of. The edits still have the older spelling: what port.py
    # turned elsewhere is turned in them by hand.
    clashes = sorted((new, old) for old, new in table.items() if new in defined)
    twice = sorted(new for new in set(table.values()) if list(table.values()).count(new) > 1)
    if clashes or twice:
        print("names that fall together:", clashes, twice)
        return 1
    for path in proofs + sources + edits + pages:
        text = open(path, encoding="utf-8").read()
        turned = IDENTIFIER.sub(lambda m: table.get(m.group(0), m.group(0)), text)
        if turned != text:
            open(path, "w", encoding="utf-8").write(turned)
    print(len(table), "names respelled")
    return 0


if __name__ == "__main__":
    sys.exit(main())
