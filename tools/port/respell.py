#!/usr/bin/env python3
"""Respells this repository's own definitions and lemmas as today's Rattle does: words in snake case, types in camel case.

usage: python3 tools/port/respell.py      at the top of the repository, once, after /opt/rattle/port/port.py

It reads and writes crates/**/*.antt, *.rt and *.edit, and the pages README.md and docs/*.md. Functions of src/, exported names,
strings, inputs and outputs have no name that it changes. It prints each name with what it became, and stops, with nothing
written, where two names would become one.
"""

import os
import re
import sys

# A word of an identifier: dashes join words. (Names of Rattle's own are not in camel case any more.)
WORD = r"[^\s(){}\[\],;:.\-λ→↦≡×∙⟨⟩\"`'«»|&!*+/<>=?%^~@#$\\]+"
CAMEL = re.compile(r"^[a-z][a-z0-9]*(?:_[a-z0-9]+)*[A-Z]")
# Names that other rules give.
GIVEN = {"getD": "get_or"}
# Fields of records, which are Rust's identifiers.
FIELDS = ["borne-out", "not-before", "trial-number", "columns-room", "model-room"]
# (file, old, new): names that would fall together with a definition, a fact with a small letter, a number with a capital one.
SINGLE = [
    ("crates/elimination/proofs/Cleared.antt", "row_step", "row_step_lem"),
    ("crates/tomography/proofs/Fits.antt", "fit_of", "read_sheet-fit"),
    ("crates/card_places/proofs/Within.antt", "model_in", "model_stands"),
    ("crates/model_words/proofs/load_model/Proof.antt", "model_in", "model_stands"),
    ("crates/logarithm/proofs/Theorem.antt", "at d r", "IsNear d r"),
    ("crates/logarithm/proofs/Theorem.antt", "abbrev at", "abbrev IsNear"),
]
UNITS = re.compile(r"Units\.\{[^}]*\bU\b|abbrev pub U : ℕ")


def snake(word):
    word = re.sub(r"([a-z0-9])([A-Z])", r"\1_\2", word)
    word = re.sub(r"([A-Z])([A-Z][a-z])", r"\1_\2", word)
    return word.lower()


def files():
    for folder, dirs, names in os.walk("crates"):
        dirs[:] = sorted(d for d in dirs if d != "out")
        for name in sorted(names):
            if name.endswith((".antt", ".rt", ".edit")):
                yield os.path.join(folder, name)
    yield "README.md"
    for name in sorted(os.listdir("docs")):
        if name.endswith(".md") and not name.startswith("PORT"):
            yield os.path.join("docs", name)


def whole(old):
    return re.compile(r"(?<![\w'\-])" + re.escape(old) + r"(?![\w'\-])")


def main():
    texts = {p: open(p, encoding="utf-8").read() for p in files()}
    made = {}

    def turned(word):
        if word in GIVEN:
            made[word] = GIVEN[word]
        elif CAMEL.match(word):
            made[word] = snake(word)
        return made.get(word, word)

    after = {}
    for p, t in texts.items():
        after[p] = re.sub(WORD, lambda m: turned(m.group()), t)
    for old, new in made.items():
        if sum(1 for n in made.values() if n == new) > 1:
            sys.exit(f"respell: {old} and another name become {new}")
    for p, t in after.items():
        for name in FIELDS:
            t = whole(name).sub(name.replace("-", "_"), t)
        if UNITS.search(t):
            t = whole("U").sub("units_in_one", t)
        after[p] = t
    for p, old, new in SINGLE:
        after[p] = whole(old).sub(new, after[p])
    for p, t in after.items():
        if t != texts[p]:
            with open(p, "w", encoding="utf-8") as f:
                f.write(t)
    for old in sorted(made):
        print(f"{old}\t{made[old]}")


main()
