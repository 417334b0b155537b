"""Descriptions and histories in action language C: their text, the program in clingo's own language, and the same rules
counted and coded as the contract counts and codes them.

With n fluents and m actions a literal of fluent f has code 2f, one of action k 2(n+k), the negative literal one more;
at time t a literal has a code higher by 2t(n+m). The complement of a literal is got by changing the lowest bit.
"""

from typing import Dict, NamedTuple, Optional, Tuple

FALSE_HEAD = 65535

# Bytes 65 to 90, the capitals A to Z, go to the letters a to z; no other sign is changed.
LOWERING = {code: code + 32 for code in range(65, 91)}


class Law(NamedTuple):
    dynamic: bool
    head: Optional[int]  # None stands for false
    if_list: Tuple[int, ...]
    after_list: Tuple[int, ...] = ()


class Description(NamedTuple):
    fluents: Tuple[str, ...]  # as declared
    actions: Tuple[str, ...]
    laws: Tuple[Law, ...]
    horizon: int

    @property
    def width(self):
        """The number of literals of one time."""
        return 2 * (len(self.fluents) + len(self.actions))

    @property
    def fluent_width(self):
        """The number of literals of fluents of one time; those of actions come behind."""
        return 2 * len(self.fluents)

    def last_time(self, code):
        """The last time at which a literal has an atom."""
        return self.horizon - (code >= self.fluent_width)


class History(NamedTuple):
    states: Tuple[Tuple[int, ...], ...]  # as listed: any order, repeats kept
    acts: Tuple[Tuple[int, ...], ...]  # what is absent was not done


class Program(NamedTuple):
    """Ground rules (head, negated parts, plain parts) in their stated order, all literal codes over atoms."""

    atoms: int
    rules: Tuple[Tuple[int, Tuple[int, ...], Tuple[int, ...]], ...]
    plain: str  # the rules in clingo's language
    literals: Dict[str, int]  # each literal there, with its code, lowest first
    description: Optional[Description] = None  # what was translated; a missing value is a fault then

    def words(self):
        """The rules as the table's words."""
        return [word for head, negated, plain in self.rules
                for word in (head, len(negated), len(plain), *negated, *plain)]


def lowered(word):
    """The spelling that two spellings of one name have in common."""
    return word.translate(LOWERING)


# ---------------------------------------------------------------- writing


def list_text(description, codes):
    names = description.fluents + description.actions
    return ",".join(("-" if code % 2 else "") + names[code // 2] for code in codes)


def law_forms(description, law):
    """All ways to write a law: written out, then the short ones it has."""
    head = "false" if law.head is None else list_text(description, (law.head,))
    condition, after = list_text(description, law.if_list), list_text(description, law.after_list)
    if not law.dynamic:
        forms = [["static=" + head, "if=" + condition]]
    else:
        forms = [["dynamic=" + head, "if=" + condition, "after=" + after]]
    if law.if_list == (law.head,) and law.after_list == law.if_list * law.dynamic:
        forms.append([("inertial=" if law.dynamic else "default=") + head])
    if law.dynamic and not law.if_list:
        forms.append(["causes=" + head, "by=" + after])
        if law.head is None:
            forms.append(["nonexecutable=" + after])
    return forms


def some_capitals(rng, word):
    """The word in another spelling: all small, a first capital, all capitals, any mix."""
    way = rng.randrange(5)
    if way < 3:
        return [word.lower(), word.capitalize(), word.upper()][way]
    return "".join(rng.choice((sign.lower(), sign.upper())) for sign in word)


class Writer:
    """Writes laws short, and words where they are used in other letters, by chance; in some texts all or none."""

    def __init__(self, rng):
        self.rng = rng
        self.short, self.respelled = rng.choice([0.0, 0.3, 0.5, 0.7, 1.0]), rng.choice([0.0, 0.5, 0.9, 1.0])

    def law_lines(self, forms):
        return self.rng.choice(forms[1:]) if forms[1:] and self.rng.random() < self.short else forms[0]

    def item(self, item):
        name = item.removeprefix("-")
        spelled = some_capitals(self.rng, name) if name and self.rng.random() < self.respelled else name
        return item[:len(item) - len(name)] + spelled

    def line(self, line):
        key, _, value = line.partition("=")
        return key + "=" + ",".join(map(self.item, value.split(",")))

    def recipe_text(self, description, history):
        """The description and the history as the product's reader takes them."""
        declared = ["fluent=" + name for name in description.fluents]
        declared += ["action=" + name for name in description.actions]
        lines = [line for law in description.laws for line in self.law_lines(law_forms(description, law))] + ["end="]
        for state, act in zip(history.states, history.acts):
            lines += ["state=" + list_text(description, state), "act=" + list_text(description, act)]
        lines += ["state=" + list_text(description, history.states[-1]), "end="]
        return "\n".join(["horizon=%d" % description.horizon, *declared, *map(self.line, lines)]) + "\n"


# ---------------------------------------------------------------- reading


class RecipeLines:
    """The lines of a well-formed recipe, or of a description with anything behind it, taken one after another."""

    def __init__(self, text):
        self.pairs = [line.partition("=")[::2] for line in text.split("\n")]
        self.place = 0
        self.names = {}  # lowered, with the code of the positive literal

    def next_key(self):
        return self.pairs[self.place][0]

    def take(self, key):
        if self.next_key() != key:
            raise ValueError("expected %s=, found %s=" % (key, self.next_key()))
        self.place += 1
        return self.pairs[self.place - 1][1]

    def take_names(self, key):
        first = self.place
        while self.next_key() == key:
            self.names[lowered(self.take(key))] = 2 * len(self.names)
        return tuple(value for _, value in self.pairs[first:self.place])

    def literal(self, word):
        name = lowered(word.removeprefix("-"))
        if name not in self.names:
            raise ValueError("%s is not declared" % name)
        return self.names[name] + word.startswith("-")

    def take_list(self, key):
        return tuple(self.literal(word) for word in self.take(key).split(",") if word)

    def take_head(self, key):
        word = self.take(key)
        return None if lowered(word) == "false" else self.literal(word)

    def take_law(self):
        key = self.next_key()
        if key == "static":
            return Law(False, self.take_head(key), self.take_list("if"))
        if key == "dynamic":
            return Law(True, self.take_head(key), self.take_list("if"), self.take_list("after"))
        if key == "causes":
            return Law(True, self.take_head(key), (), self.take_list("by"))
        if key == "nonexecutable":
            return Law(True, None, (), self.take_list(key))
        if key not in ("default", "inertial"):
            raise ValueError("expected a law, found %s=" % key)
        codes = (self.literal(self.take(key)),)
        return Law(key == "inertial", codes[0], codes, codes if key == "inertial" else ())

    def take_description(self):
        horizon = int(self.take("horizon"))
        fluents, actions = self.take_names("fluent"), self.take_names("action")
        laws = []
        while self.next_key() != "end":
            laws.append(self.take_law())
        self.take("end")
        return Description(fluents, actions, tuple(laws), horizon)

    def take_history(self, horizon):
        lists = [self.take_list("act" if place % 2 else "state") for place in range(2 * horizon + 1)]
        self.take("end")
        return History(tuple(lists[0::2]), tuple(lists[1::2]))


def read_recipe(text):
    """Reads a well-formed recipe; it judges no faulty text."""
    lines = RecipeLines(text)
    description = lines.take_description()
    return description, lines.take_history(description.horizon)


# ---------------------------------------------------------------- the program for clingo


def solver_literal(description, code, time):
    """f(3,T) for fluent 3, -a(0,T) for the negative literal of action 0."""
    name, first = ("f", 0) if code < description.fluent_width else ("a", len(description.fluents))
    return "%s%s(%d,%s)" % ("-" if code % 2 else "", name, code // 2 - first, time)


def law_rule(description, law):
    """One rule with the time left to clingo as the variable T."""
    now, last = ("T+1", description.horizon - 1) if law.dynamic else ("T", description.horizon)
    body = ["T = 0..%d" % last]
    body += ["not " + solver_literal(description, code ^ 1, now) for code in law.if_list]
    body += [solver_literal(description, code, "T") for code in law.after_list]
    head = "" if law.head is None else solver_literal(description, law.head, now) + " "
    return head + ":- " + ", ".join(body) + "."


def solver_program(description):
    """The translation of section 4 in clingo's language; time-0 fluents and all actions may have either value."""
    lines = [law_rule(description, law) for law in description.laws]
    for code in range(description.width):
        last = 0 if code < description.fluent_width else description.horizon - 1
        literal, other = (solver_literal(description, one, "T") for one in (code, code ^ 1))
        lines.append("%s :- T = 0..%d, not %s." % (literal, last, other))
    return "\n".join(lines) + "\n"


def complete_only(description):
    """The constraints (6) of section 3: every atom has a value."""
    lines = []
    for code in range(0, description.width, 2):
        literals = tuple(solver_literal(description, one, "T") for one in (code, code + 1))
        lines.append(":- T = 0..%d, not %s, not %s." % (description.last_time(code), *literals))
    return "\n".join(lines) + "\n"


def set_constraints(program, codes, condition=""):
    """Requires each literal of a set, forbids each other literal, perhaps under a condition."""
    return "".join(":- %s%s%s.\n" % (condition, "not " if code in codes else "", literal)
                   for literal, code in program.literals.items())


# ---------------------------------------------------------------- counted rules


def law_rules(description):
    """The rules of the laws in the contract's order."""
    width, horizon = description.width, description.horizon
    for law in sorted(description.laws, key=lambda law: law.dynamic):
        for time in range(horizon + (not law.dynamic)):
            now = width * (time + law.dynamic)
            yield (FALSE_HEAD if law.head is None else now + law.head,
                   tuple(now + (code ^ 1) for code in law.if_list),
                   tuple(width * time + code for code in law.after_list))


def choice_rules(description):
    """For each atom that may have either value, lowest first, the rule for the negative literal and then the other."""
    width, first = description.width, description.fluent_width
    chosen = list(range(0, first, 2))
    for time in range(description.horizon):
        chosen += range(width * time + first, width * (time + 1), 2)
    for code in chosen:
        yield code + 1, (code,), ()
        yield code, (code + 1,), ()


def translated(description):
    """The description's program in both forms."""
    literals = [solver_literal(description, code, time) for time in range(description.horizon + 1)
                for code in range(description.width) if time <= description.last_time(code)]
    rules = (*law_rules(description), *choice_rules(description))
    codes = {literal: code for code, literal in enumerate(literals)}
    return Program(len(literals) // 2, rules, solver_program(description), codes, description)


def history_codes(description, history):
    """The set a history stands for: what it lists, and the negative literal of each action absent from its act line."""
    width, found = description.width, set()
    for time, state in enumerate(history.states):
        found.update(width * time + code for code in state)
    for time, act in enumerate(history.acts):
        undone = (code + 1 for code in range(description.fluent_width, width, 2) if not {code, code + 1} & {*act})
        found.update(width * time + code for code in (*act, *undone))
    return frozenset(found)


def values_of(atoms, codes):
    """One value for each atom: 0 none, 1 true, 2 false, 3 both."""
    return [(2 * atom in codes) + 2 * (2 * atom + 1 in codes) for atom in range(atoms)]


def codes_of(values):
    """The set of literal codes that values hold."""
    return frozenset(2 * atom + bit for atom, value in enumerate(values) for bit in (0, 1) if value >> bit & 1)
