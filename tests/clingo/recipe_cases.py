"""Recipes drawn at random: descriptions of many shapes, histories that clingo finds for them, and histories got from
those by small changes. Laws that have a short form are written short by chance, act lines leave out by chance none,
some or all of what was not done, and names are declared and used in any capitals. Histories with bad atoms of both
kinds, in either order, are drawn besides.
"""

import solver
from cases import asked_cases
from language import (Description, History, Law, Writer, complete_only, history_codes, read_recipe, some_capitals,
                      translated)

# Programs with at most so many answer sets are enumerated whole.
ENUMERATED = 200

LETTERS = "abcdefghijklmnopqrstuvwxyz"

KEY_NAMES = ("horizon fluent action static dynamic if after state act end default inertial causes by nonexecutable not "
             "false1 true f a t falses").split()

# (weight, fluents, actions, horizon), each as lowest and highest
SHAPES = [
    (28, (1, 3), (0, 2), (1, 2)),
    (32, (2, 5), (0, 3), (1, 5)),
    (20, (3, 9), (0, 4), (3, 12)),
    (13, (1, 5), (0, 3), (13, 30)),
    (4, (10, 24), (1, 8), (1, 6)),
    (3, (6, 24), (2, 8), (20, 30)),
    (3, (1, 3), (0, 2), (30, 30)),
]


def random_name(rng):
    if rng.random() < 0.04:
        return rng.choice(KEY_NAMES)
    longest = rng.choice([1, 1, 1, 2, 2, 2, 4, 4, 8, 15])
    tail = [rng.choice(LETTERS + "0123456789_") for _ in range(rng.randint(0, longest))]
    return rng.choice(LETTERS) + "".join(tail)


def random_names(rng, count):
    """So many names, all different; one that was drawn before gets a number."""
    names = ["false"]
    for _ in range(count):
        name = random_name(rng)
        numbered = [name[:13] + "_%d" % number for number in range(len(names))]
        names.append(next(word for word in [name] + numbered if word not in names))
    return names[1:]


class Drawer:
    """Draws laws over n fluents and m actions."""

    def __init__(self, rng, fluents, actions):
        self.rng, self.fluents, self.actions = rng, fluents, actions

    def fluent_literal(self):
        return self.rng.randrange(2 * self.fluents)

    def fluent_list(self, low, high):
        return tuple(self.fluent_literal() for _ in range(self.rng.randint(low, high)))

    def any_list(self, low, high):
        return tuple(self.rng.randrange(2 * (self.fluents + self.actions)) for _ in range(self.rng.randint(low, high)))

    def explanation(self, fluent):
        """Laws that let the fluent have causes, one way or another."""
        yes, no = 2 * fluent, 2 * fluent + 1
        way = self.rng.random()
        if way < 0.45:  # inertia
            return [Law(True, code, (code,), (code,)) for code in (yes, no)]
        if way < 0.60:  # may be anything: an empty after-list
            return [Law(True, code, (code,), ()) for code in (yes, no)]
        if way < 0.70:  # goes over to the other value at each step
            return [Law(True, yes, (), (no,)), Law(True, no, (), (yes,))]
        if way < 0.80:  # a default, held against by a dynamic law
            code = self.rng.choice((yes, no))
            return [Law(False, code, (code,)), Law(True, code ^ 1, (), self.any_list(1, 2))]
        if way < 0.90:  # defaults both ways
            return [Law(False, code, (code,)) for code in (yes, no)]
        return [Law(True, yes, (yes,), self.any_list(0, 1)), Law(True, no, (no,), ())]

    def effect(self):
        after = (2 * (self.fluents + self.rng.randrange(self.actions)),) if self.actions else ()
        return Law(True, self.fluent_literal(), self.fluent_list(0, 1), after + self.any_list(0, 2))

    def ban(self):
        if self.rng.random() < 0.4:
            return Law(False, None, self.fluent_list(1, 3))
        return Law(True, None, self.fluent_list(0, 2), self.any_list(1, 3))

    def cycle(self):
        """Static laws that lead round in a ring of two or more literals."""
        length = min(self.fluents, self.rng.randint(2, 4))
        ring = [2 * fluent + self.rng.randint(0, 1) for fluent in self.rng.sample(range(self.fluents), length)]
        return [Law(False, ring[i], (ring[i - 1],)) for i in range(length)]

    def wild(self):
        head = None if self.rng.random() < 0.12 else self.fluent_literal()
        longest = self.rng.choice([0, 1, 2, 2, 3, 6])
        if self.rng.random() < 0.4:
            return Law(False, head, self.fluent_list(0, longest))
        return Law(True, head, self.fluent_list(0, longest), self.any_list(0, longest))

    def explained(self):
        """Laws for most fluents, then effects, bans, rings and one more static law."""
        rng, laws = self.rng, []
        for fluent in range(self.fluents):
            if rng.random() < 0.95:
                laws += self.explanation(fluent)
        laws += [self.effect() for _ in range(rng.randint(0, 1 + self.actions))]
        laws += [self.ban() for _ in range(rng.choice([0, 0, 1, 1, 2]))]
        if rng.random() < 0.25:
            laws += self.cycle()
        if rng.random() < 0.4:
            laws.append(Law(False, self.fluent_literal(), self.fluent_list(1, 2)))
        return laws

    def roughened(self, codes):
        """Sometimes repeats a literal of a list, or adds its complement."""
        if codes and len(codes) < 6 and self.rng.random() < 0.06:
            return codes + (self.rng.choice(codes) ^ (self.rng.random() < 0.3),)
        return codes

    def laws(self):
        rng, style = self.rng, self.rng.random()
        if style < 0.80:
            laws = self.explained()
        else:
            laws = [self.wild() for _ in range(rng.randint(0, 3 * self.fluents if style < 0.95 else 2))]
        if laws and rng.random() < 0.1:
            laws.append(rng.choice(laws))
        rng.shuffle(laws)
        return tuple(law._replace(if_list=self.roughened(law.if_list), after_list=self.roughened(law.after_list))
                     for law in laws[:64])


def random_description(rng):
    """Names are declared in some capitals, in most cases; as they are drawn in small letters, all stay different."""
    shape = rng.choices(SHAPES, [shape[0] for shape in SHAPES])[0]
    fluents, actions, horizon = (rng.randint(low, high) for low, high in shape[1:])
    share = rng.choice([0.0, 0.5, 1.0])
    names = [some_capitals(rng, name) if rng.random() < share else name
             for name in random_names(rng, fluents + actions)]
    laws = Drawer(rng, fluents, actions).laws()
    return Description(tuple(names[:fluents]), tuple(names[fluents:]), laws, horizon)


def write_history(rng, description, chosen):
    """Lists the chosen literals, each list in some order, with some repeats, and some share of what was not done left
    out of the act lines; where both literals of an action are listed, they stay."""
    lists = [[] for _ in range(2 * description.horizon + 1)]
    share = rng.choice([0.0, 0.5, 1.0])
    for place in sorted(chosen):
        time, code = divmod(place, description.width)
        act = code >= description.fluent_width
        if not (act and code % 2 and place ^ 1 not in chosen and rng.random() < share):
            lists[2 * time + act].append(code)
    if rng.random() < 0.3:
        for codes in lists:
            rng.shuffle(codes)
    if rng.random() < 0.15:
        codes = rng.choice(lists)
        codes += rng.choices(codes) if codes else []
    return History(tuple(map(tuple, lists[0::2])), tuple(map(tuple, lists[1::2])))


def flipped(chosen, some):
    return chosen.difference(some).union(code ^ 1 for code in some)


def some_of(rng, chosen):
    return rng.sample(sorted(chosen), min(len(chosen), rng.choice([1, 1, 1, 2, 4])))


# Each change takes the program, the literals of one passing history and those of another one.


def other_value_from_then_on(rng, program, chosen, second):
    """One fluent has the other value from some time above 0 to the end."""
    width, fluents = program.description.width, program.description.fluent_width
    start = rng.choice([code for code in sorted(chosen) if code >= width and code % width < fluents])
    return flipped(chosen, [code for code in chosen if code // width >= start // width
                            and code % width // 2 == start % width // 2])


def crossed(rng, program, chosen, second):
    """The first steps of one history, the later ones of the other."""
    start = program.description.width * rng.randint(1, program.description.horizon)
    return frozenset({code for code in chosen if code < start} | {code for code in second if code >= start})


def gap(rng, program, chosen, second):
    return chosen.difference(some_of(rng, chosen))


def both_values(rng, program, chosen, second):
    return chosen.union(code ^ 1 for code in some_of(rng, chosen))


def any_values(rng, program, chosen=None, second=None):
    return frozenset(code + rng.randrange(2) for code in range(0, 2 * program.atoms, 2))


def any_set(rng, program, chosen, second):
    share = rng.choice([0.0, 0.1, 0.5, 0.9])
    return frozenset(code for code in range(2 * program.atoms) if rng.random() < share)


def bad_atoms(rng, program, chosen, second):
    """Some atoms lose their value and some get both. The first pair lies at the ends, next to each other or anywhere;
    an action without a value cannot be written."""
    names, fluents = program.description.width // 2, len(program.description.fluents)
    lacking = [atom for atom in range(program.atoms) if atom % names < fluents]
    none = rng.choice([lacking[0], lacking[-1], rng.choice(lacking), rng.choice(lacking)])
    both = rng.choice([none - 1, none + 1, 0, program.atoms - 1, rng.randrange(program.atoms)])
    more = rng.choices(range(program.atoms), k=rng.choice([0, 0, 0, 1, 2, 3]))
    faults = {atom: "both" if atom not in lacking else rng.choice(["both", "none"]) for atom in more}
    faults[min(max(both, 0), program.atoms - 1)] = "both"
    faults[none] = "none"
    for atom, fault in faults.items():
        literals = {2 * atom, 2 * atom + 1}
        chosen = chosen - literals if fault == "none" else chosen | literals
    return chosen


# How often each change is drawn, out of about a hundred; without a passing history there are only the last two.
CHANGES = {
    "found by clingo": (32, lambda rng, program, chosen, second: chosen),
    "other value": (16, lambda rng, program, chosen, second: flipped(chosen, some_of(rng, chosen))),
    "other value from then on": (14, other_value_from_then_on),
    "crossed": (10, crossed),
    "gap": (8, gap),
    "both values": (8, both_values),
    "gap and both values": (4, lambda *args: gap(args[0], args[1], both_values(*args), args[3])),
    "any values": (4, any_values),
    "any set": (4, any_set),
    "bad atoms": (0, bad_atoms),
}
CHANGES_OF_NONE = {"any values": 9, "any set": 1}


def draw_sets(rng, program, passing):
    """Some sets for a program and the names of their changes; in every other run one with bad atoms is the last."""
    weights = {name: weight for name, (weight, _) in CHANGES.items()} if passing else CHANGES_OF_NONE
    made = rng.choices(list(weights), list(weights.values()), k=rng.randint(3, 7)) + ["bad atoms"] * rng.randrange(2)
    sets = []
    for name in made:
        first, second = rng.choices(passing or [any_values(rng, program)], k=2)
        sets.append(CHANGES[name][1](rng, program, first, second))
    return sets, made


def complete_sets(rng, program):
    """Complete answer sets drawn by clingo, then all answer sets if few."""
    found, whole = solver.answer_sets(rng, program, ENUMERATED)
    if whole:
        return [one for one in found if len(one) == program.atoms], found
    return solver.answer_sets(rng, program, 3, complete_only(program.description))[0], None


def recipe_cases(rng, program, made, histories, found=None, stated=None):
    """Cases of one description, each text written in its own way; it must read back as the recipe."""
    texts, sets = [], []
    for history in histories:
        texts.append(Writer(rng).recipe_text(program.description, history))
        sets.append(history_codes(program.description, history))
        if read_recipe(texts[-1]) != (program.description, history):
            raise RuntimeError("the text reads as another recipe:\n" + texts[-1])
    return asked_cases(program, made, sets, found, texts, histories, stated)


def random_recipes(rng, wanted):
    """So many recipes. Of descriptions with laws of which no history passes every fourth is kept."""
    cases = []
    for _ in range(wanted + 10):
        program = translated(random_description(rng))
        passing, found = complete_sets(rng, program)
        if passing or not program.description.laws or rng.random() < 0.25:
            sets, made = draw_sets(rng, program, passing)
            histories = [write_history(rng, program.description, chosen) for chosen in sets]
            cases += recipe_cases(rng, program, made, histories, found)
        if len(cases) >= wanted:
            return cases[:wanted]
    return cases
