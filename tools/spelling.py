#!/usr/bin/env python3
"""Turns the repository's own words from inCamelCase to in_snake_case: tools/spelling.py, once, at the top, right after the port.

A word turns where a .antt file of crates/ declares it, by itself or as a part of a name with dashes: in every .antt, .rt and
.edit file, and in README.md and docs/. Types and modules, which begin with a capital, keep their spelling. Where a lemma stands
beside a definition that comes to have its name, the lemma gets the ending _lem. It fails, with nothing written, where two names
would fall together.
"""

import os
import re
import sys

DECLARED = re.compile(r"^[ \t]*(?:(?:abbrev|unfoldable|pub) )*(?:data |record )?([A-Za-z][A-Za-z0-9_'₀-₉-]*)(?= *(?:\{|\(|:))", re.M)
SEVERAL = re.compile(r"^ +([a-z]\w*(?: [a-z]\w*)+) : ", re.M)  # constructors that one line declares
CAMEL = re.compile(r"[a-z][a-z0-9]*(?:[A-Z][a-z0-9]*)+")
WORD = re.compile(r"(?<![A-Za-z0-9_.])[A-Za-z][A-Za-z0-9_]*|(?<=\.)[A-Za-z][A-Za-z0-9_]*")
BEFORE = re.compile(r"[a-z0-9](?=[A-Z])|[A-Z](?=[A-Z][a-z])")
# Lemmas and local facts that get the ending: the name, and the files that speak of it.
LEMMAS = {
    "both_values": ["set_faults/proofs/Faults.antt", "set_faults/proofs/first_clash/Proof.antt"],
    "rule_fits": ["answer_set_theory/proofs/Decoding.antt"],
    "head_at": ["translation_bounds/proofs/Bounds.antt", "rule_words/proofs/RuleWords.antt"],
    "in_step": ["correctness/proofs/Translated.antt"],
    "end_line": ["reader_bounds/proofs/LineCases.antt"],
    "moved_by": ["possible_refusals/proofs/Readers.antt"],
    "after_first": ["description_reader/proofs/Walking.antt"],
}
# Fields of records, which are only named behind a dot.
FIELDS = {"after_list"}


def files(top, endings):
    for folder, dirs, names in os.walk(top):
        dirs[:] = sorted(d for d in dirs if d not in ("out", "target", ".git"))
        for name in sorted(names):
            if name.endswith(endings):
                yield os.path.join(folder, name)


def snake(word):
    return BEFORE.sub(lambda m: m[0] + "_", word).lower()


def main():
    texts = {p: open(p, encoding="utf-8").read() for p in files("crates", (".antt", ".rt", ".edit"))}
    declared = set()
    for path, text in texts.items():
        if path.endswith(".antt"):
            for m in DECLARED.finditer(text):
                declared |= {w for w in (p.rstrip("'₀₁₂₃₄₅₆₇₈₉") for p in m[1].split("-")) if CAMEL.fullmatch(w)}
            for m in SEVERAL.finditer(text):
                declared |= {w for w in m[1].split() if CAMEL.fullmatch(w)}
    table = {w: snake(w) for w in declared}
    if len(set(table.values())) < len(table):
        sys.exit("spelling: two words fall together")
    back = {new: old for old, new in table.items()}
    for name, places in LEMMAS.items():
        for place in places:
            path = os.path.join("crates", place)
            texts[path] = WORD.sub(lambda m: m[0] + "_lem" if m[0] == name else m[0], texts[path])
    for path, text in texts.items():
        if path.endswith(".antt"):
            here = {w for m in DECLARED.finditer(text) for w in [m[1]]}
            for new in here & set(back) - FIELDS:
                if re.search(rf"\b{back[new]}\b", text):
                    sys.exit(f"spelling: {path} has {back[new]} and {new}")
    pages = [p for p in files("docs", (".md", ".py"))] + ["README.md"]
    texts |= {p: open(p, encoding="utf-8").read() for p in pages}
    for path, text in texts.items():
        new = WORD.sub(lambda m: table.get(m[0], m[0]), text)
        if new != open(path, encoding="utf-8").read():
            with open(path, "w", encoding="utf-8") as f:
                f.write(new)
    print(f"spelling: {len(table)} words")


main()
