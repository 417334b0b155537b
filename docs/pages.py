#!/usr/bin/env python3
"""Holds the pages of the repository to two rules: a link leads to what it says, and a line has at most 120 characters,
lines of code and where links lead aside.

    docs/pages.py           fails and names each place that breaks a rule
    docs/pages.py --mend    first puts the line numbers of links right

A link may lead to a heading of a page, or as #L12 to a line of a source: the one where the link's name is defined, as
in [AnswerSet](..#L50), [`AnswerSet`](..#L50) or [AnswerSet]: ..#L50. A word and a point may stand in front of the name.
"""

import pathlib
import re
import subprocess
import sys

ROOT = pathlib.Path(__file__).resolve().parent.parent
# The text of a link may begin in the line before.
LINK = re.compile(r"(?:\[([^\]\[]*))?\]\(([^)\s]+)\)|^\[([^\]]+)\]: (\S+)$")
WIDEST = 120


def anchor(heading):
    """The name by which a link finds a heading."""
    kept = re.sub(r"[^\w\- ]", "", heading.strip().lower())
    return kept.replace(" ", "-")


def prose(text):
    """The lines of a page that stand in no block of code, with their numbers."""
    inside = False
    for number, line in enumerate(text.split("\n"), 1):
        if line.lstrip().startswith("```"):
            inside = not inside
        elif not inside:
            yield number, line


def links(line):
    """The links of a line: the name that each has, and where it leads."""
    for inline, target, name, defined in LINK.findall(line):
        if "://" not in (target or defined):
            yield (inline or name).strip("`").rsplit(".", 1)[-1], target or defined


def line_of(file, name):
    """The number of the line where a source defines a name; 0 where it does not."""
    start = re.compile(r"\s*(?:(?:abbrev|unfoldable|pub|data|record) )*" + re.escape(name) + r"(?=[ :]|$)")
    lines = file.read_text().splitlines()
    return next((number for number, line in enumerate(lines, 1) if start.match(line)), 0)


def amiss(page, name, target):
    """What is wrong with a link of a page, or nothing."""
    path, _, place = target.partition("#")
    file = (page.parent / path).resolve() if path else page
    if not file.exists():
        return f"{target} leads nowhere"
    if re.fullmatch(r"L\d+", place):
        at = line_of(file, name)
        return "" if place == f"L{at}" else f"{name} is defined in line {at}: {target}"
    if place and file.is_file():
        headings = [anchor(line.lstrip("#")) for _, line in prose(file.read_text()) if line.startswith("#")]
        return "" if place in headings else f"{target} leads to no heading"
    return ""


def faults(page):
    """What breaks a rule on a page: the line's number, and what is wrong there."""
    for number, line in prose(page.read_text()):
        if len(line) > WIDEST and not re.match(r"\[[^\]]+\]: ", line):
            yield number, f"{len(line)} characters"
        for name, target in links(line):
            if said := amiss(page, name, target):
                yield number, said


def mend(page):
    """Puts the line numbers of a page's links right, where their names are defined."""
    text = page.read_text()
    for _, line in prose(text):
        for name, target in links(line):
            path, _, place = target.partition("#")
            file = (page.parent / path).resolve()
            if re.fullmatch(r"L\d+", place) and file.is_file() and (at := line_of(file, name)):
                mended = line.replace(target, f"{path}#L{at}")
                text = text.replace(line, mended)
                line = mended
    page.write_text(text)


def main():
    if sys.argv[1:] not in ([], ["--mend"]):
        sys.exit(__doc__)
    listed = subprocess.run(["git", "ls-files", "*.md"], cwd=ROOT, capture_output=True, text=True, check=True)
    pages = [ROOT / name for name in listed.stdout.split()]
    found = 0
    for page in pages:
        if sys.argv[1:]:
            mend(page)
        for number, what in faults(page):
            print(f"{page.relative_to(ROOT)}:{number}: {what}")
            found += 1
    if found:
        sys.exit(f"pages: {found} places break a rule")


if __name__ == "__main__":
    main()
