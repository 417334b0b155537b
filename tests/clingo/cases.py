"""What one case is, what clingo's judgements of it must have in common, and the answers that follow from them."""

from typing import NamedTuple, Optional

import solver
from language import History, Program, values_of


class Case(NamedTuple):
    made: str  # how the case was made
    program: Program
    codes: frozenset  # the literal codes in the set
    answer_set: bool  # what clingo says of the plain program
    text: str = ""  # of a recipe
    history: Optional[History] = None  # as its text lists it
    stated: Optional[str] = None  # the verdict that it must have, if that is known

    def values(self):
        return values_of(self.program.atoms, self.codes)


def asked_cases(program, made, sets, found=None, texts=None, histories=None, stated=None):
    """Cases of one program; `made` says how each was made, `found` holds all answer sets where they are known."""
    passing = [one in found for one in sets] if found is not None else solver.are_answer_sets(program, sets)
    blank = [None] * len(sets)
    return [Case(how, program, codes, passes, text or "", history, stated) for how, codes, passes, text, history
            in zip(made, sets, passing, texts or blank, histories or blank)]


def readings_agree(case, judged):
    """Of a translated program a set passes if it is an answer set and every atom has a value."""
    complete = case.program.description is None or all(case.values())
    return (judged.verdict == "passes") == (case.answer_set and complete)


def formulas_agree(case, judged):
    """What passes meets the formulas where they are asked; a recipe that meets them passes, for its rules can be
    levelled by time, and a table's often cannot."""
    passes, holds = judged.verdict == "passes", judged.formulas == "holds"
    if case.program.description is None:
        return holds or not passes or not all(case.values())
    return passes == holds


def orders_agree(case, judged):
    """By change request 5 the verdict is another than in the former order exactly where an atom with both values lies
    below the first one with none: it was missing there and is clash now."""
    changed = changed_order(case) or (judged.verdict, judged.verdict)
    return (judged.former, judged.verdict) == changed


def changed_order(case):
    """The former verdict and the present one where they differ, else None."""
    values = case.values()
    if case.program.description is None or 0 not in values or 3 not in values[:values.index(0)]:
        return None
    return "missing %d" % values.index(0), "clash %d" % values.index(3)


def causal_agrees(case, judged):
    """A recipe is read causally where each atom has one value, and is a path exactly if it passes."""
    if case.program.description is None or not {*case.values()} <= {1, 2}:
        return judged.causal is None
    return (judged.causal == "path") == (judged.verdict == "passes")


def disagreement(case, judged):
    """Says which of the judgements that must agree do not, or nothing."""
    if not readings_agree(case, judged):
        return "the plain program says that the set is %s answer set" % ("an" if case.answer_set else "no")
    if case.stated not in (None, judged.verdict):
        return "the verdict must be " + case.stated
    if not formulas_agree(case, judged):
        return "the completion formulas say otherwise"
    if not orders_agree(case, judged):
        return "the former order of missing and clash gives " + judged.former
    if not causal_agrees(case, judged):
        return "the causal reading says otherwise"
    return None


def report_text(case, judged):
    """The nine lines: counts by the translation here, the verdicts by clingo."""
    program, description = case.program, case.program.description
    answer, at = (judged.verdict + " ").split(" ")[:2]
    causal, time, item = ((judged.causal or "none") + "  ").split(" ")[:3]
    if causal == "uncaused":
        item = description.fluents[int(item)]
    names = "horizon atoms rules words answer at causal time item".split()
    counts = (description.horizon, program.atoms, len(program.rules), len(program.words()))
    return "".join("%s=%s\n" % pair for pair in zip(names, (*counts, answer, at, causal, time, item)))


def causal_answer(case, judged):
    """The causal reading called by itself refuses a set without one value for each atom."""
    bad = (atom for atom, value in enumerate(case.values()) if value not in (1, 2))
    return judged.causal or "refused 11 %d" % next(bad)


def answers(case, judged):
    """The answer of each function that can be asked about a case."""
    if case.program.description is None:
        return {"check_set": judged.verdict, "check_completion": judged.formulas}
    return {"report": report_text(case, judged), "check_history": judged.verdict,
            "causal_reading": causal_answer(case, judged), "check_completion": judged.formulas}
