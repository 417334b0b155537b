#!/usr/bin/env python3
"""Counts the places in crates/*/src that docs/DESIGN-PASS.md speaks of: a line for each kind of place with its count, and with -v
each place. Run at the top of a checkout; with a commit as the argument it counts there."""
import collections
import pathlib
import re
import subprocess
import sys

LINES = [
    ("1a", "variant of an own enum that says none, accepted or refused",
     r"^\s+(Nothing|Neither|Idle|Accepted|Complete|Refused\(u8(, usize)?\)),$"),
    ("1b", "field or variable that says by a number or a bool whether the rest counts", r"\b(refused|ended|last): (u8|bool)\b"),
    ("1c", "constant that numbers a kind", r"^(pub |pub\(crate\) )?const [A-Z_]+: (usize|bool) = "),
    ("1d", "parameter or field that is the number of a kind", r"\b(key|word): usize"),
    ("1e", "refusal by a number written out", r"(Refused|refused|refusal)\((state, )?[0-9]+|refused(:| =) [0-9]"),
    ("1f", "use of Found or Tested", r"\bFound::|\bTested::"),
    ("1g", "arm or value of a Refused(number, place)", r"Refused\((k|number|_|_number|found\.|draft\.|record\.|state\.)"),
    ("3a", "while or loop", r"^\s+('[a-z]+: )?(while|loop)\b"),
    ("3b", "step of an index by hand", r"^\s+(i|t|k|f|number|place|turn|step|rule|line|at|rules) \+= (1|size);"),
    ("4a", "widening by as", r"\bas (usize|u64)\b"),
    ("4b", "function for a conversion, a minimum or a comparison that the library has",
     r"^(pub |pub\(crate\) )?fn (wide|wide_word|least|at_most|fitting|same|held|listed|digit|lowered|is_letter|is_digit|number_or)\("),
    ("4c", "function for an element or a default", r"^(pub |pub\(crate\) )?fn (word|number_at|copy_law|law_at|is_true|is_held|has)\("),
    ("4d", "struct or enum that derives no comparison", r"^#\[derive\(Clone, Copy\)\]$"),
    ("6a", "law records in an array, with a count elsewhere", r"\[Law; 64\]"),
    ("6b", "count or number lent beside a run", r"\b(lent|count|atoms): usize"),
    ("6c", "values in an array, with a count elsewhere", r"\[u8; 1024\]"),
    ("6d", "array beside another of the same places", r"(starts|lengths): \[usize; 32\]"),
    ("7a", "bool parameter", r"\b[a-z_]+: bool\b(?=[,)])"),
]


def sources(commit):
    if commit:
        names = subprocess.run(["git", "ls-tree", "-r", "--name-only", commit, "crates"], capture_output=True, text=True, check=True).stdout
        for name in names.split():
            if "/src/" in name and name.endswith(".rt"):
                yield name, subprocess.run(["git", "show", f"{commit}:{name}"], capture_output=True, text=True, check=True).stdout
    else:
        for path in sorted(pathlib.Path("crates").glob("*/src/*.rt")):
            yield str(path), path.read_text()


def functions(text):
    """The signatures and clauses of a file's functions."""
    for found in re.finditer(r"^\s*(?:pub(?:\(crate\))? )?(?:extern \"C\" )?fn (\w+)(.*?)\n\s*\{\n", text, re.S | re.M):
        yield found.group(1), found.group(2)


def main():
    words = [a for a in sys.argv[1:] if a != "-v"]
    files = list(sources(words[0] if words else None))
    verbose = "-v" in sys.argv
    places = collections.OrderedDict()
    for key, said, pattern in LINES:
        found = [f"{name}:{n}: {line.strip()}" for name, text in files for n, line in enumerate(text.split("\n"), 1)
                 if not line.lstrip().startswith("//") and re.search(pattern, line)]
        places[key, said] = found
    names = collections.defaultdict(set)
    asked = collections.defaultdict(set)
    runs = collections.defaultdict(set)
    for name, text in files:
        crate = name.split("/")[1]
        for function, rest in functions(text):
            names[function].add(crate)
            for clause in re.findall(r"requires(?: \w+)? \{(.*?)\}\s*(?=\n|ensures|requires)", rest, re.S):
                for fact in re.split(r" × ", " ".join(clause.split())):
                    asked[fact.strip(" ()")].add(f"{crate}::{function}")
            parameters = re.findall(r"(\w+): ([^,()]+(?:\[[^\]]*\])?)", rest.split("->")[0].split("requires")[0].split("ensures")[0])
            flat = tuple(p for p, _ in parameters)
            for size in (2, 3, 4):
                for i in range(len(flat) - size + 1):
                    runs[flat[i:i + size]].add(f"{crate}::{function}")
    places["2a", "function name in several crates"] = [f"{f}: {', '.join(sorted(c))}" for f, c in sorted(names.items())
                                                     if len(c) > 1 and f not in ("main", "new", "from", "fmt", "next")]
    places["2b", "function by size: few_ and all_, held and lent"] = [f"{n}: {f}" for n, t in files for f, _ in functions(t)
                                                                   if re.match(r"(few|all)_(starts|waits)$", f) or "/held_laws/" in n]
    places["5a", "fact asked by three functions or more"] = [f"{fact}: {len(fs)}" for fact, fs in sorted(asked.items()) if len(fs) >= 3]
    together = [f"{' '.join(run)}: {len(fs)}" for run, fs in sorted(runs.items()) if len(run) == 3 and len(fs) >= 3]
    places["5b", "three parameters together in three functions or more"] = together
    for (key, said), found in sorted(places.items()):
        print(f"{key} {len(found):4} {said}")
        if verbose:
            for place in found:
                print(f"        {place}")


if __name__ == "__main__":
    main()
