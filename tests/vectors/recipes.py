"""Recipes that stored inputs are made from, and the form in which inputs are written."""
import pathlib

TOP = pathlib.Path(__file__).resolve().parents[2]


def example(name):
    """An example's description and its history."""
    text = (TOP / "examples" / f"{name}.txt").read_text()
    return text[: text.index("state=")], text[text.index("state=") :]


# The contract's full recipe, and its description with all laws written short.
FULL, PASSING = example("full")
SHORT = example("full_short")[0]
RECIPE, SHORT_RECIPE = FULL + PASSING, SHORT + PASSING
# Fluents p and q, which stay as they are; action a makes p true, action b makes it false.
SWITCH = """horizon=1\nfluent=p\nfluent=q\naction=a\naction=b\ncauses=p\nby=a\ncauses=-p\nby=b
inertial=p\ninertial=-p\ninertial=q\ninertial=-q\nend=\n"""
# With these and the least text: a log with two more laws, whose history lists only what was done, and the full recipe
# with names that are declared and used in many mixes of capitals.
TEXTS = {"full": FULL, "recipe": RECIPE, "short": SHORT, "short_recipe": SHORT_RECIPE, "log": "".join(example("log")),
         "capitals": example("capitals")[0], "capitals_recipe": "".join(example("capitals")), "switch": SWITCH,
         "bare": "horizon=1\nend=\n"}

# The contract's other histories of the full recipe, by a prefix of their names and the name of the description.
M1_TO_M5 = """
    {0}m1 | {1} | locked,-flowed | reflow | locked,flowed
    {0}m2 | {1} | -locked,-flowed | -reflow | -locked,flowed
    {0}m3 | {1} | locked,-flowed | -reflow | -locked,-flowed
    {0}m4 | {1} | -locked | reflow | -locked,flowed
    {0}m5 | {1} | -locked,locked,-flowed | reflow | -locked,flowed"""


def lines(text):
    """The text with line ends for its slashes."""
    return text.replace("/", "\n")


def history(*told):
    """A history's text: state, act, state, .., and the end line."""
    return "".join(f"{('state', 'act')[place % 2]}={line}\n" for place, line in enumerate(told)) + "end=\n"


def swapped(old, new, text):
    """The text with the first such part replaced; the part must be there."""
    assert old in text, old
    return text.replace(old, new, 1)


def rows(table):
    """The name of each row of a table, what is stated of it behind ` = `, and its other fields; # begins a comment."""
    for row in filter(None, map(str.strip, table.splitlines())):
        if not row.startswith("#"):
            named, *fields = map(str.strip, row.split("|"))
            name, _, stated = named.partition(" = ")
            yield name, stated, fields


def inputs(table, **texts):
    """Inputs by rows `name | text | edit .. | state | act | state ..`: a text by its name, edits `OLD -> NEW` of it and
    a history behind it, if any. A slash is a line end in edits and in rows `let NAME = TEXT`, which name a text. A row
    `name = missing 1 | ..` states the verdict and its atom too, and `name = refused=..` the output."""
    texts, parts = TEXTS | texts, []
    for name, stated, fields in rows(table):
        if name.startswith("let "):
            texts[name.removeprefix("let ")] = lines(stated)
            continue
        text = texts[fields.pop(0)]
        while fields and "->" in fields[0]:
            text = swapped(*(lines(part.strip()) for part in fields.pop(0).split("->")), text)
        text += history(*fields) if fields else ""
        ending = lines(stated) if "=" in stated else answer(*stated.split())
        parts.append({name: (text, ending) if stated else text})
    return gathered(*parts)


def each(template, *words):
    """Inputs by the same rows for each of some words, or run of words with spaces between."""
    return gathered(*(inputs(template.format(*run.split())) for run in words))


def answer(verdict="", at="", causal="none", time="", item=""):
    """The last lines of an output."""
    return f"answer={verdict}\nat={at}\ncausal={causal}\ntime={time}\nitem={item}\n"


def gathered(*parts):
    """All inputs of these parts; no name is given twice."""
    cases = {name: case for part in parts for name, case in part.items()}
    assert len(cases) == sum(map(len, parts)), "a name is given twice"
    return cases


def lasting(steps, text):
    """A description of horizon 1 with another horizon."""
    return swapped("horizon=1\n", f"horizon={steps}\n", text)


def inertia(*names):
    """Two dynamic laws for each fluent: it stays as it is."""
    return "".join(lines(f"dynamic={fact}/if={fact}/after={fact}/") for name in names for fact in (name, "-" + name))


def still(horizon, fluents, actions, laws="", listed=True):
    """Fluents f0, f1, .. and actions a0, a1, .., and a history in which all is false, the actions listed or not."""
    names, commands = [f"f{i}" for i in range(fluents)], [f"a{i}" for i in range(actions)]
    declared = "".join(f"fluent={name}\n" for name in names) + "".join(f"action={name}\n" for name in commands)
    state, act = (",".join("-" + name for name in sort) for sort in (names, commands if listed else []))
    return f"horizon={horizon}\n{declared}{laws}end=\n" + history(*[state, act] * horizon, state)


def largest(listed=True):
    """The most words: 64 dynamic laws with six literals in each list, over 24 fluents, 8 actions and 30 steps."""
    heads = [("" if i % 2 == 0 else "-") + f"f{i // 2 % 24}" for i in range(64)]
    laws = (f"dynamic={head}/if={six}/after={six}/" for head in heads for six in [",".join([head] * 6)])
    return still(30, 24, 8, lines("".join(laws)), listed)
