"""How often each kind of case was drawn, and the least number of each that a run must have drawn."""

import collections
import re

import language
from cases import changed_order

# The numbers of cases asked for at which the least numbers are as stated below.
FULL = {"recipes": 3000, "tables": 3000, "halves": 160}


def first_word(said):
    return said.split()[0] if said else "none"


def formulas(case, judged):
    """What the completion formulas say, in words."""
    if judged.formulas == "holds":
        return "hold" if judged.verdict == "passes" else "hold and it does not pass"
    if not judged.formulas.startswith("fails"):
        return "not asked"
    return "only false fails" if judged.formulas == "fails 65535" else "a literal fails"


def causal(case, judged):
    word = first_word(judged.causal)
    return word + (" at time 0" if word == "contradicted" and judged.causal.split()[1] == "0" else "")


def writing(case, judged):
    """How the laws of a recipe are written."""
    short = re.search("^(default|inertial|causes|nonexecutable)=", case.text, re.M) is not None
    long = re.search("^(static|dynamic)=", case.text, re.M) is not None
    return {(0, 0): "no laws", (0, 1): "long", (1, 0): "short", (1, 1): "mixed"}[short, long]


def listing(case, judged):
    """How much of what was not done the act lines of a recipe list."""
    description, absent, listed = case.program.description, False, False
    for act in case.history.acts:
        absent = absent or len({code // 2 for code in act}) < len(description.actions)
        listed = listed or any(code % 2 and code ^ 1 not in act for code in act)
    return {(0, 0): "nothing undone", (0, 1): "all", (1, 0): "none", (1, 1): "some"}[absent, listed]


def capitals(case, judged):
    """Where the names of a recipe have capitals, and whether they are used as declared."""
    names = set(re.findall(r"^(?:fluent|action)=(\w+)", case.text, re.M))
    words = {word for word in re.findall(r"[=,-]([A-Za-z]\w*)", case.text) if language.lowered(word) != "false"}
    if words - names:
        return "otherwise"
    return "as declared" if any(name != name.lower() for name in names) else "no capitals"


def false_heads(case, judged):
    """How the word false is spelled where it heads a law."""
    heads = set(re.findall("^(?:static|dynamic|causes)=(false)$", case.text, re.M | re.I))
    return "none" if not heads else "false" if heads == {"false"} else "with capitals"


def ranged(number, tops):
    """The name of the range that holds the number, of those that end at the tops."""
    low = 0
    for top in tops:
        if number <= top:
            return "%d to %d" % (low, top) if low < top else str(top)
        low = top + 1
    raise ValueError("%d is over %d" % (number, tops[-1]))


def horizon(case, judged):
    return ranged(case.program.description.horizon, [0, 1, 5, 15, 29, 30])


def atoms(case, judged):
    return ranged(case.program.atoms, [0, 4, 12, 64, 200, 1024])


# For each sort of case: what is tallied, by which function, and each kind with its least number.
VERDICTS = ("verdicts", lambda case, judged: first_word(judged.verdict))
MADE = ("made", lambda case, judged: case.made)
TALLIES = {
    "recipes": [
        (*VERDICTS, "passes 700, broken 400, unfounded 180, missing 250, clash 220"),
        ("formulas", formulas, "hold 700, a literal fails 600, only false fails 4, not asked 500"),
        ("causal verdicts", causal, "path 700, contradicted at time 0 70, contradicted 250, uncaused 250, none 500"),
        (*MADE, "found by clingo 450, other value 220, other value from then on 180, crossed 130, gap 100, "
                "both values 100, gap and both values 40, any values 200, any set 60, bad atoms 160"),
        ("atoms", atoms, "1 to 4 120, 5 to 12 550, 13 to 64 650, 65 to 200 300, 201 to 1024 6"),
        ("horizons", horizon, "1 300, 2 to 5 900, 6 to 15 220, 16 to 29 200, 30 30"),
        ("laws", writing, "long 500, short 10, mixed 1300, no laws 20"),
        ("listed of what was not done", listing, "none 480, some 280, all 420, nothing undone 580"),
        ("names used", capitals, "no capitals 130, as declared 270, otherwise 1600"),
        ("false as a head", false_heads, "none 800, false 480, with capitals 500"),
        ("missing before, clash now", lambda case, judged: "yes" if changed_order(case) else "no", "yes 80, no 2000"),
    ],
    "tables": [
        (*VERDICTS, "passes 650, broken 420, unfounded 620, clash 120"),
        ("formulas", formulas, "hold 150, hold and it does not pass 4, a literal fails 300, only false fails 12, "
                               "not asked 1200"),
        (*MADE, "found by clingo 450, closed by clingo 300, subset 180, superset 380, other value 80, both values 80, "
                "any set 180"),
        ("atoms", atoms, "0 40, 1 to 4 850, 5 to 12 750, 13 to 64 15, 65 to 200 8"),
    ],
    "halves": [
        (*VERDICTS, "passes 400, broken 1, unfounded 4"),
        (*MADE, "whole to be cut 160, first half 160, second half 160, second of two that fit 30, joined 30, "
                "put together though unfit 25"),
    ],
}


def least_numbers(stated, share):
    """The kinds of one tally with their least numbers. A run smaller than the full one varies more, so its numbers go
    down with the square of its size."""
    pairs = (kind.rsplit(" ", 1) for kind in stated.split(", "))
    return {kind: int(int(number) * min(1, share) ** 2) for kind, number in pairs}


def show(sort, wanted, cases, found):
    """Prints the tallies of one sort of cases and returns what is wrong with them."""
    print("%s: %d, of %d programs" % (sort, len(cases), len({id(case.program) for case in cases})))
    faults = [] if len(cases) >= wanted else ["%d of %d %s were drawn" % (len(cases), wanted, sort)]
    for title, function, stated in TALLIES[sort]:
        counts = collections.Counter(map(function, cases, found))
        least = least_numbers(stated, wanted / FULL[sort])
        print("  %s: %s" % (title, ", ".join("%s %d" % (kind, counts[kind]) for kind in least)))
        faults += ["%s, %s: %s is no known kind" % (sort, title, kind) for kind in counts if kind not in least]
        faults += ["%s, %s: %s %d times, at least %d are due" % (sort, title, kind, counts[kind], number)
                   for kind, number in least.items() if counts[kind] < number]
    return faults
