"""Ground programs for the engine alone, drawn at random, most of them with loops through plain parts. A set is drawn
from the answer sets clingo finds, from closed and from supported sets that may not be answer sets, and from small
changes of all these.
"""

import solver
from cases import asked_cases
from language import FALSE_HEAD, Program
from recipe_cases import ENUMERATED, flipped

CHANGES = ("found by clingo," * 6 + "closed by clingo," * 4 + "subset," * 2 + "superset," * 3
           + "other value,both values,any set,any set").split(",")


def spelled(code):
    return "%sx(%d)" % ("-" if code % 2 else "", code // 2)


def body_text(negated, plain):
    return ", ".join(["not " + spelled(code) for code in negated] + [spelled(code) for code in plain])


def ground_program(atoms, rules):
    lines = ["%s :- %s.\n" % ("" if head == FALSE_HEAD else spelled(head), body_text(negated, plain))
             for head, negated, plain in rules]
    return Program(atoms, tuple(rules), "".join(lines), {spelled(code): code for code in range(2 * atoms)})


def closed_sets_program(program):
    """Any set is guessed; it must be closed under the rules and, if it is to be supported, which is guessed too, hold
    no literal without a rule whose whole body holds."""
    lines = ["{ %s }." % literal for literal in program.literals] + ["{ supported }. #show x/1. #show -x/1."]
    bodies = {}
    for place, (head, negated, plain) in enumerate(program.rules):
        lines.append("body(%d) :- %s." % (place, body_text(negated, plain)))
        lines.append(":- body(%d)%s." % (place, "" if head == FALSE_HEAD else ", not " + spelled(head)))
        bodies.setdefault(head, []).append("not body(%d)" % place)
    for literal, code in program.literals.items():
        lines.append(":- " + ", ".join(["supported", literal] + bodies.get(code, [])) + ".")
    return program._replace(plain="\n".join(lines) + "\n")


def draw_sets(rng, program):
    """Answer sets, sets otherwise closed, of these more that give each atom a value, and all answer sets if few."""
    found, whole = solver.answer_sets(rng, program, ENUMERATED)
    closed = [one for one in solver.answer_sets(rng, closed_sets_program(program), 12)[0] if one not in found]
    return found, closed + 2 * [one for one in closed if len(one) == program.atoms], found if whole else None


def any_set(rng, atoms):
    share = rng.choice([0.0, 0.15, 0.4, 0.7])
    codes = {2 * atom + rng.randint(0, 1) for atom in range(atoms) if rng.random() < share}
    if rng.random() < 0.15:
        codes.update(code for code in range(2 * atoms) if rng.random() < 0.2)
    return frozenset(codes)


def changed(rng, atoms, codes, how):
    """A set changed in the way named; what clingo found is left as it is."""
    new = [code for code in range(2 * atoms) if code not in codes and code ^ 1 not in codes]
    pool = new if how == "superset" else sorted(codes)
    some = rng.sample(pool, min(rng.choice([1, 1, 1, 2, 3]), len(pool)))
    changes = {"subset": codes.difference(some), "superset": codes.union(some), "other value": flipped(codes, some),
               "both values": codes.union(code ^ 1 for code in some)}
    return any_set(rng, atoms) if how == "any set" else changes.get(how, codes)


def cases_of(rng, program, count):
    """So many cases of one program; fewer if it has no answer set."""
    passing, closed, found = draw_sets(rng, program)
    sets, made = [], []
    for _ in range(count if passing else (count + 2) // 3):
        how = rng.choice(CHANGES)
        if how == "found by clingo" and not passing:
            how = "closed by clingo"
        if how == "closed by clingo" and not closed:
            how = "superset"
        pool = {"found by clingo": passing, "closed by clingo": closed}.get(how, passing + closed)
        sets.append(changed(rng, program.atoms, rng.choice(pool or [frozenset()]), how))
        made.append(how)
    return asked_cases(program, made, sets, found)


def some_codes(rng, codes, longest):
    return tuple(rng.choices(codes, k=rng.randint(0, longest))) if codes else ()


def random_rules(rng, atoms, style):
    """Rules of one style: positive heads only, any literal, few negations."""
    codes = range(0, 2 * atoms, 2) if style == "normal" else range(2 * atoms)
    negations, plains = (1, 3) if style == "loops" else (2, 2)
    rules = []
    for _ in range(rng.randint(0, 2 + 2 * atoms)):
        head = FALSE_HEAD if not codes or rng.random() < 0.1 else rng.choice(codes)
        rules.append((head, some_codes(rng, codes, negations), some_codes(rng, codes, plains)))
    return rules


def ring(rng, members):
    """A loop: each member follows from the one before it."""
    return [(code, (), (members[place - 1], *rng.choices(members, k=rng.random() < 0.2)))
            for place, code in enumerate(members)]


def random_rings(rng, atoms):
    rules = []
    for _ in range(rng.randint(1, 3) if atoms > 1 else 0):
        members = rng.sample(range(2 * atoms), rng.randint(1, min(5, atoms)))
        rules += ring(rng, members)
        if rng.random() < 0.6:  # support from outside the loop
            rules.append((rng.choice(members), (rng.randrange(2 * atoms),), ()))
    return rules


def choices(rng, atoms):
    """Pairs of rules that choose a value, or one of two atoms."""
    rules = []
    for code in range(0, 2 * atoms, 2):
        way, other = rng.random(), (code + 2) % (2 * atoms)
        if way < 0.3:
            rules += [(code + 1, (code,), ()), (code, (code + 1,), ())]
        elif way < 0.5 and atoms > 1:
            rules += [(code, (other,), ()), (other, (code,), ())]
    return rules


def small_program(rng):
    atoms = rng.choice([0, 1, 1, 2, 2, 3, 3, 4, 4, 5, 6, 7, 8, 9, 10, 11, 12])
    style = rng.choice(["normal", "normal", "any", "any", "loops", "loops", "rings"])
    rules = random_rings(rng, atoms) if style == "rings" else random_rules(rng, atoms, style)
    if rng.random() < 0.5:
        rules += choices(rng, atoms)
    rng.shuffle(rules)
    return ground_program(atoms, rules)


def chain(rng, signed):
    """Each literal follows from the one before, the first by itself or not, or from the last."""
    rules = [(code, (), (before,)) for before, code in zip(signed, signed[1:])]
    if rng.random() < 0.7:
        rules.append((signed[0], (), ()))
    if rng.random() < 0.5:
        rules.append((signed[0], (), (signed[-1],)))
    return rules


def many_rings(rng, signed):
    """All literals in rings, most with a rule from outside."""
    rules, rest = [], signed
    while rest:  # each turn takes one literal or more
        size = rng.randint(1, 12)
        members, rest = rest[:size], rest[size:]
        rules += ring(rng, members)
        if rng.random() < 0.7:
            rules.append((rng.choice(members), (rng.choice(signed),), ()))
    return rules + choices(rng, len(signed) // 8)


def large_program(rng):
    """A long chain, or many rings with and without support, in some order."""
    atoms = rng.choice([20, 32, 33, 40, 63, 64, 65, 100, 128, 200])
    signed = [2 * atom + (rng.random() < 0.2) for atom in rng.sample(range(atoms), atoms)]
    rules = chain(rng, signed) if rng.random() < 0.4 else many_rings(rng, signed)
    for _ in range(rng.randint(0, 3)):
        rules.append((FALSE_HEAD, (rng.choice(signed),), (rng.choice(signed),)))
    way = rng.random()
    if way < 0.3:
        rules.reverse()
    elif way < 0.6:
        rng.shuffle(rules)
    return ground_program(atoms, rules)


def random_tables(rng, wanted):
    cases = []
    for _ in range(wanted):  # each turn gives one case or more
        if len(cases) >= wanted:
            break
        large = rng.random() < 0.06
        program = large_program(rng) if large else small_program(rng)
        cases += cases_of(rng, program, rng.randint(2, 5 if large else 8))
    return cases[:wanted]
