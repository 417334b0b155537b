"""Recipes cut in two and joined (change request 6): clingo finds histories that pass, each is cut after some step, and
each half must be an answer set of its own program; two that were found apart and fit are joined, and the join must be
one of the joined program. Two that do not fit are put together all the same, and clingo says what comes of it.
"""

import solver
from language import History, complete_only, solver_literal, translated
from recipe_cases import random_description, recipe_cases, write_history

LONGEST = 30
# Histories found for one description.
WHOLES = 3


def cut(history, steps):
    """The first steps and the others; the state between them belongs to both."""
    return (History(history.states[:steps + 1], history.acts[:steps]),
            History(history.states[steps:], history.acts[steps:]))


def together(first, second):
    """The first history, then the second without its first state."""
    return History(first.states + second.states[1:], first.acts + second.acts)


def fits(first, second):
    return set(first.states[-1]) == set(second.states[0])


def of_steps(description, steps):
    return translated(description._replace(horizon=steps))


def found_histories(rng, program, limit, more=""):
    """At most so many histories that pass, found by clingo under some more constraints."""
    found, _ = solver.answer_sets(rng, program, limit, complete_only(program.description) + more)
    return [write_history(rng, program.description, one) for one in found]


def cases_of(rng, program, histories, made, stated="passes"):
    """Cases of one description and number of steps, made in one way."""
    return recipe_cases(rng, program, [made] * len(histories), histories, None, stated)


def cut_cases(rng, program, wholes):
    """Whole histories and their halves, all cut after the same step."""
    horizon = program.description.horizon
    steps = rng.choice([1, horizon - 1, rng.randint(1, horizon - 1)])
    halves = [cut(whole, steps) for whole in wholes]
    for whole, (first, second) in zip(wholes, halves):
        if not fits(first, second) or together(first, second) != whole:
            raise RuntimeError("the halves do not join into the whole: %r" % (whole,))
    shorter, rest = of_steps(program.description, steps), of_steps(program.description, horizon - steps)
    return (cases_of(rng, program, wholes, "whole to be cut")
            + cases_of(rng, shorter, [first for first, _ in halves], "first half")
            + cases_of(rng, rest, [second for _, second in halves], "second half"))


def join_cases(rng, description, first):
    """A second history found apart that begins where the first ends, and the join; and one that begins elsewhere, and
    what comes of putting it behind the first."""
    room = LONGEST - description.horizon
    if room == 0:
        return []
    steps = rng.choice([1, min(room, 3), rng.randint(1, min(room, 6)), room])
    later, joined = of_steps(description, steps), of_steps(description, description.horizon + steps)
    state = [solver_literal(description, code, 0) for code in sorted(set(first.states[-1]))]
    fitting = found_histories(rng, later, 1, "".join(":- not %s.\n" % literal for literal in state))
    unfit = found_histories(rng, later, 1, ":- %s.\n" % ", ".join(state))
    if not all(fits(first, second) for second in fitting) or any(fits(first, second) for second in unfit):
        raise RuntimeError("a second history begins where it must not: %r" % (first,))
    return (cases_of(rng, later, fitting, "second of two that fit")
            + cases_of(rng, joined, [together(first, second) for second in fitting], "joined")
            + cases_of(rng, joined, [together(first, second) for second in unfit], "put together though unfit", None))


def half_recipes(rng, wanted):
    """Cases of so many whole recipes or a few more, with their halves and with joins."""
    cases, count = [], 0
    for _ in range(4 * wanted):
        if count >= wanted:
            break
        description = random_description(rng)
        program = of_steps(description, max(2, description.horizon))
        wholes = found_histories(rng, program, WHOLES)
        count += len(wholes)
        if wholes:
            cases += cut_cases(rng, program, wholes) + join_cases(rng, program.description, rng.choice(wholes))
    return cases
