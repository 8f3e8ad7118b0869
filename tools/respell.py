#!/usr/bin/env python3
"""Brings the names of this repository's own definitions and lemmas to today's spelling.

usage: python3 tools/respell.py        at the top of a checkout, once, right after the kit's port.py

A name is the repository's own where a file of specs/ or proofs/ gives it a signature: a definition, a lemma, a
constructor or a field. A word in it that was joined by a dash is joined by an underscore (most-gates: most_gates); a type
or a fact, which begins with a capital, is in camel case (Names-below: NamesBelow). The names of goals, which the kit makes
from the code, stay. So do the functions of src/, strings, inputs and outputs.
"""

import glob
import re

SIGNATURE = re.compile(
    r"^\s*(?:abbrev |unfoldable |pub |data |record |ruleset )*(?P<n>[^\s(){}:.;,λ=]+)\s*(?:\([^)]*\)|\{[^}]*\}|\s)*:\s", re.M
)
GOAL = re.compile(r":\s*goal\.([^\s]+)")
NAME = re.compile(r"(?<![\w'-])[A-Za-z_][\w']*(?:-[\w']+)+(?![\w'-])")

# a name of the kit's library that a proof here cites under the same spelling
KEPT = {"and-true"}

# names that would fall together with one of the library, that are facts under a small letter, or that have an old word of the library in them
OWN_WORDS = {
    "bit-and": "bit_of_and",
    "bit-or": "bit_of_or",
    "bit_not": "bit_of_not",
    "is_call": "IsCall",
    "getD-span": "get_or_span",
}


def respelled(name):
    if name in OWN_WORDS:
        return OWN_WORDS[name]
    if name[0].isupper():
        return "".join(part[:1].upper() + part[1:] for part in name.split("-"))
    return name.replace("-", "_")


def main():
    proofs = sorted(glob.glob("crates/*/specs/**/*.antt", recursive=True) + glob.glob("crates/*/proofs/**/*.antt", recursive=True))
    sources = sorted(glob.glob("crates/*/src/**/*.rt", recursive=True))
    own, goals = set(), set()
    for path in proofs:
        text = open(path, encoding="utf-8").read()
        own |= {m.group("n") for m in SIGNATURE.finditer(text)}
        goals |= set(GOAL.findall(text))
    names = {n for n in own if "-" in n and n not in goals and n not in KEPT}
    words = re.compile(r"(?<![\w'-])(?:bit_not|is_call)(?![\w'-])")
    for path in proofs + sources:
        text = open(path, encoding="utf-8").read()
        new = NAME.sub(lambda m: respelled(m.group()) if m.group() in names else m.group(), text)
        if path in proofs:
            new = words.sub(lambda m: OWN_WORDS[m.group()], new)
        if new != text:
            open(path, "w", encoding="utf-8").write(new)
            print(path)


if __name__ == "__main__":
    main()
