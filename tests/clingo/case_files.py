"""Case files: one case a line, `name | part | .. | answer`. Here those of tests/cases, worked out by hand, are read,
and those with clingo's answers are written. Texts are held as strings of which each character stands for one byte.
"""

import os
import re
from typing import NamedTuple, Tuple

from language import FALSE_HEAD, RecipeLines, codes_of, history_codes, read_recipe, translated
from table_cases import ground_program

FUNCTIONS = ["check_set", "check_completion", "check_history", "causal_reading", "report"]

# Hand-worked cases of more atoms are not put to clingo.
MOST_ATOMS = 400

# The words of a table that is translated from a recipe are written only up to so many.
MOST_WORDS = 400


def repeated(notation, between):
    """The notation with each `(STUFF)*N` written out, innermost first, and `#` in it as 0, 1, 2 and so on."""
    def written(group):
        return between.join(group[1].replace("#", str(place)) for place in range(int(group[2])))
    group = re.compile(r"\(([^()]*)\)\*(\d+)")
    while group.search(notation):
        notation = group.sub(written, notation)
    return notation


def number(word):
    """A number, perhaps of sums and products as in 2x3+1."""
    if not re.fullmatch(r"\d+(x\d+)?([+-]\d+(x\d+)?)*", word):
        raise ValueError("%s is no number" % word)
    terms = re.findall(r"(-?)(\d+)(?:x(\d+))?", word)
    return sum((-1 if sign else 1) * int(first) * int(second or 1) for sign, first, second in terms)


def numbers(notation):
    """`V*N` is V N times; `(V V ..)*N` a group N times."""
    grouped = re.sub(r"(\d+)\*(\d+)", r"(\1)*\2", notation)
    return [number(word) for word in repeated(grouped, " ").split()]


def written_out(notation):
    """A text's lines, a space behind each, with repetitions and then the edits in brackets made from left to right."""
    plain, *edits = re.split(r" \[(?=.*? -> )", notation)
    whole = repeated(plain, "") + (" " if plain else "")
    for edit in edits:
        old, new = (repeated(part, "") for part in re.fullmatch(r"(.*?) -> (.*)\]", edit).groups())
        if old not in whole:
            raise ValueError("%s does not stand in the text" % old)
        whole = whole.replace(old, new, 1)
    return whole.removesuffix("\\e ")


def text_of(notation):
    signs = {" ": "\n", "\\s": " "}
    return re.sub(r"\\x(..)|\\s| ", lambda found: signs.get(found[0]) or chr(int(found[1], 16)), written_out(notation))


def code_of(word):
    return 2 * (ord(word.removeprefix("-")) - ord("a")) + word.startswith("-")


def lettered_rule(notation):
    """A rule as `a: b, -c, not d`."""
    head, _, body = notation.partition(":")
    parts = [part.split() for part in body.split(",") if part.strip()]
    return (FALSE_HEAD if head == "false" else code_of(head),
            tuple(code_of(part[1]) for part in parts if part[0] == "not"),
            tuple(code_of(part[0]) for part in parts if part[0] != "not"))


def rules_of(notation):
    """The rules of a table, given by letters or as words."""
    if not notation.startswith("words"):
        return [lettered_rule(part) for part in notation.split("; ") if part]
    words, rules = numbers(notation.removeprefix("words")), []
    while words:
        (head, negated, plain), rest = words[:3], words[3:]
        rules.append((head, tuple(rest[:negated]), tuple(rest[negated:negated + plain])))
        words = rest[negated + plain:]
    return rules


class Worked(NamedTuple):
    """A case worked out by hand, ready for clingo."""

    function: str
    name: str
    program: object
    codes: frozenset
    answer: str
    words: Tuple[int, ...]  # which the table lent begins with afterwards, as far as they are stated


def worked_case(function, fields):
    """A case from its fields; None if it is a refusal."""
    name, *parts, answer = fields
    answer, words = (text_of(answer), "") if function == "report" else (answer + " : ").split(" : ")[:2]
    if answer.startswith("refused"):
        return None
    if function in ("check_set", "check_completion"):
        values = numbers(parts[0])
        program, codes = ground_program(len(values), rules_of(parts[1])), codes_of(values)
    elif function == "check_history":
        program = translated(RecipeLines(text_of(parts[0])).take_description())
        codes = codes_of(numbers(parts[1]))
    else:
        description, history = read_recipe(text_of(parts[0]))
        program, codes = translated(description), history_codes(description, history)
    return Worked(function, name, program, codes, answer, tuple(numbers(words)))


def variants(line):
    """`<A/B/C>` makes a line of each of A, B and C; several of these vary together."""
    choice = re.compile("<((?:->|[^<>])*)>")
    choices = [found.split("/") for found in choice.findall(line)] or [[""]]
    if len({len(words) for words in choices}) > 1:
        raise ValueError("choices of different numbers")
    for words in zip(*choices):
        rest = iter(words)
        yield choice.sub(lambda found: next(rest), line)


def worked_cases(folder, function):
    """The cases of one file that are no refusals and not too large."""
    named, found = {}, []
    with open(os.path.join(folder, function + ".txt"), encoding="utf-8", newline="\n") as file:
        lines = [line for line in file.read().replace("\n    ", " ").split("\n") if line.strip() and not line.startswith("#")]
    for line in lines:
        try:
            line = re.sub(r"\{([^}]*)\}", lambda name: named[name[1]], line)
            if line.startswith("let "):
                name, _, notation = line.removeprefix("let ").partition(" =")
                named[name] = written_out(notation.strip(" ")).rstrip(" ")
                continue
            found += [worked_case(function, map(str.strip, one.split(" | "))) for one in variants(line)]
        except (ValueError, LookupError, AttributeError, TypeError) as fault:
            raise RuntimeError("%s.txt, %s: %s" % (function, line, fault)) from fault
    return [case for case in found if case and case.program.atoms <= MOST_ATOMS]


def notation_of(text):
    """A text of which each line is ended and that has none of the signs with a meaning of their own."""
    if re.search(r"[\s\\(){}\[\]<>#|]", text.replace("\n", "")) or not text.endswith("\n"):
        raise ValueError("text to be escaped: %r" % text)
    return text[:-1].replace("\n", " ")


def spaced(words):
    return " ".join(map(str, words))


def case_lines(name, case, answers):
    """For each function that can be asked about a case its name, the parts lent and the answer. Of a recipe the words
    of the table are lent or stated where they are not too many."""
    values, words = spaced(case.values()), case.program.words()
    table = ("words " + spaced(words)) if words else ""
    if case.program.description is None:
        return {function: [name, values, table, answer] for function, answer in answers.items()}
    text = notation_of(case.text)
    short = len(words) <= MOST_WORDS
    verdict = answers["check_history"] + (" : " + spaced(words) if short else "")
    lines = {"report": [name, text, notation_of(answers["report"])],
             "causal_reading": [name, text, answers["causal_reading"]],
             "check_history": [name, text.partition(" end=")[0] + " end=", values, str(len(words)), verdict]}
    if short:
        lines["check_completion"] = [name, values, table, answers["check_completion"]]
    return lines


def write_cases(folder, title, lines):
    """Writes each function's file; `lines` has for each case what `case_lines` gives."""
    os.makedirs(folder, exist_ok=True)
    for function in FUNCTIONS:
        fields = [line[function] for line in lines if function in line]
        with open(os.path.join(folder, function + ".txt"), "w", encoding="ascii", newline="\n") as file:
            file.write("# %s\n" % title + "".join(" | ".join(case) + "\n" for case in fields))
        print("%s.txt: %d cases" % (function, len(fields)))
