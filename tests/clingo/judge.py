#!/usr/bin/env python3
"""Writes clingo's judgements out as case files, to be held against the checker and the independent reading.

    judge.py --seed S --recipes N --tables M --halves K --out DIR
    judge.py --translate FILE    prints the recipe in FILE for clingo, which finds it satisfiable exactly if it passes

The cases are recipes (a description and a history, as text) and tables (ground rules and a set, as numbers), drawn from
the seed; besides, recipes that pass are cut in two and joined with others, and all of these must pass. For each, clingo
is asked whether the set is an answer set of the program, which is written here from the description alone, and by a
second program, which takes rules and set as facts, which verdict the contract gives, what the completion formulas say,
and what the verdict was while missing came before clash; and by a third, which takes laws and values as facts, what the
causal reading says. Where these must agree and do not, the case is printed in full. The cases worked out by hand in
tests/cases are put to clingo too, and it must give the answers stated there.

Needs Python 3.11 and, but for --translate, clingo (Debian's package gringo). The exit code is 1 if anything differs or
a kind of case is too rare; it is 0 otherwise, also if clingo is not installed: nothing is written then.
"""

import sys

sys.dont_write_bytecode = True

import argparse
import os
import random

import language
import solver
import tallies
from case_files import FUNCTIONS, case_lines, worked_cases, write_cases
from cases import Case, answers, disagreement
from half_cases import half_recipes
from recipe_cases import random_recipes
from table_cases import random_tables

CASES = os.path.join(os.path.dirname(os.path.dirname(os.path.abspath(__file__))), "cases")


def show_case(name, case, judged, fault):
    print("%s (%s): %s" % (name, case.made, fault))
    print("clingo's verdict: %s; formulas: %s; causal reading: %s" % (judged.verdict, judged.formulas, judged.causal))
    print("--- values\n%s\n--- recipe\n%s--- program\n%s---" % (case.values(), case.text, case.program.plain))


def judged_cases(sort, cases):
    """What clingo says of each case; None if some of it does not agree."""
    found = solver.judge([(case.program, case.codes) for case in cases])
    for number, (case, judged) in enumerate(zip(cases, found)):
        fault = disagreement(case, judged)
        if fault:
            show_case("%s %d" % (sort, number), case, judged, fault)
            return None
    return found


def asked_of_worked(worked):
    """Cases worked out by hand as cases to be judged; those of one program are asked about in one call."""
    groups, cases = {}, {}
    for place, one in enumerate(worked):
        groups.setdefault((one.program.plain, one.program.atoms), []).append(place)
    for places in groups.values():
        passing = solver.are_answer_sets(worked[places[0]].program, [worked[place].codes for place in places])
        for place, passes in zip(places, passing):
            one = worked[place]
            cases[place] = Case(one.function + ", " + one.name, one.program, one.codes, passes)
    return [cases[place] for place in range(len(worked))]


def worked_agree(folder):
    """Does clingo give the stated answer in each case worked out by hand, and the translation the stated words?"""
    worked = [case for function in FUNCTIONS for case in worked_cases(folder, function)]
    cases = asked_of_worked(worked)
    found = judged_cases("worked out by hand", cases)
    if found is None:
        return False
    for one, case, judged in zip(worked, cases, found):
        answer = answers(case, judged)[one.function]
        if answer != one.answer:
            show_case(one.function, case, judged, "the answer is %r, and %r is stated" % (answer, one.answer))
            return False
        if one.program.words()[:len(one.words)] != list(one.words):
            show_case(one.function, case, judged, "the words of the table are not those stated")
            return False
    counts = [sum(one.function == function for one in worked) for function in FUNCTIONS]
    print("worked out by hand: " + ", ".join("%s %d" % pair for pair in zip(FUNCTIONS, counts)))
    if 0 in counts:
        print("no case worked out by hand for " + FUNCTIONS[counts.index(0)])
    return 0 not in counts


def judge(options):
    print("seed %d" % options.seed)
    if not worked_agree(options.cases):
        return 1
    makers = {"recipes": random_recipes, "halves": half_recipes, "tables": random_tables}
    lines, faults = [], []
    for sort, make in makers.items():
        wanted = getattr(options, sort)
        cases = make(random.Random("%s %d" % (sort, options.seed)), wanted)
        found = judged_cases(sort, cases)
        if found is None:
            return 1
        faults += tallies.show(sort, wanted, cases, found)
        for number, (case, judged) in enumerate(zip(cases, found)):
            name = "%s %d of seed %d: %s" % (sort, number, options.seed, case.made)
            lines.append(case_lines(name, case, answers(case, judged)))
    write_cases(options.out, "clingo's answers, drawn from seed %d" % options.seed, lines)
    for fault in faults:
        print("clingo: " + fault)
    return 1 if faults else 0


def translate(path):
    try:
        with open(path, encoding="ascii") as file:
            description, history = language.read_recipe(file.read())
    except ValueError as fault:
        print("not a recipe: %s" % fault, file=sys.stderr)
        return 1
    program = language.translated(description)
    constraints = language.set_constraints(program, language.history_codes(description, history))
    sys.stdout.write(program.plain + language.complete_only(description) + constraints)
    return 0


def main():
    parser = argparse.ArgumentParser(description="Writes clingo's judgements out as case files.")
    parser.add_argument("--seed", type=int, default=1)
    for sort, number in tallies.FULL.items():
        parser.add_argument("--" + sort, type=int, default=number)
    parser.add_argument("--cases", metavar="DIR", default=CASES, help="the cases worked out by hand")
    parser.add_argument("--out", metavar="DIR", help="where the case files are written")
    parser.add_argument("--translate", metavar="FILE")
    options = parser.parse_args()
    if options.translate:
        return translate(options.translate)
    if not options.out:
        parser.error("--out or --translate must be given")
    if not solver.installed():
        print("clingo is not installed: its judgements are left out")
        return 0
    return judge(options)


if __name__ == "__main__":
    sys.exit(main())
