#!/usr/bin/env python3
"""Makes the page docs/PROMISES.md from the sources: what each function open to callers promises.

    docs/promises.py            writes the page
    docs/promises.py --check    writes nothing and fails if the page is not what the sources say

Open to callers is each `pub fn` of a library that stands in lib.rt, or in modules that are all `pub`, and each function
of a trait that is implemented there. Beside them the page has the traits of such modules with their members, and what
a type's ghost fields say, for who builds a value of it has to prove that. Crates come in the order of crates.txt; a
line there that begins with ## starts a room, which gets a heading. Either way it fails if a function open to callers
has a `requires`, or if one with several clauses has a clause without a known name: one of the names below, a field of
the result that the clause speaks of, or both joined.
"""

import pathlib
import re
import sys
import textwrap
from typing import NamedTuple

ROOT = pathlib.Path(__file__).resolve().parent.parent
PAGE = ROOT / "docs" / "PROMISES.md"
WIDTH = 119

NAMES = {
    "answers": "the result, or the answer in it, is what a definition gives",
    "numbered": "a refusal's reason is the one that has its number, none of a caller's own",
    "leaves": "what lent memory holds afterwards",
    "writes": "which bytes the lent buffer holds afterwards, as far as it goes; the result is how many there are",
    "demand_2": "the answer is right by answer sets, the reduct and its least closed set",
    "demand_3": "passes, holds or path comes exactly if the set is a path of causally explained transitions",
    "by_formulas": "what the answer says of the completion formulas",
    "by_levels": "what the answer says of the levels lent, and with them of the formulas and of the engine",
    "by_values": "missing or clash comes exactly at the lowest atom that has no value or both",
    "fault": "which contradicted or uncaused the causal reading names",
    "printed": "what the output says of the input, by the meaning of C",
    "accepted": "what the reader takes is refused neither by 8 nor by 3",
    "filled": "unless it is refused, no action of the history is left without a value",
    "possible_codes": "which codes the answer can have",
    "bounded": "a limit of the result",
    "padded": "what stands behind the values is 0",
    "lies": "where in the lent text that lies which is returned",
    "number": "a refusal's number is above 0",
}

ABOUT = """\
# Promises

Made by docs/promises.py from the sources; do not edit.

This page has every function open to callers, {functions} in {crates} crates, with what it promises: {clauses} clauses.
Each is proved of every input. {owed}{typed}

## How to read a clause

- `result` is the result, `result.f` its field f, and `result.now` what a returned slice holds.
- `x.old` is what the memory lent as x by `&mut` holds when the function is called, and `x.new` what it holds when the
  function returns. Memory lent by `&` can't change, and `x.now` is what it holds; `x.entry` is the part of memory
  itself, which says where it lies. A parameter by value is its name alone. Memory and arrays are lists.
- `≡` is "equals", `×` is "and", `↔` is "exactly if", `x ∷ xs` is the list xs with x in front. `get_or xs i d` is the
  element i of xs, or d where xs has none; `set xs i x` is xs with x at place i; `sets xs i ys` is xs with ys from
  place i on, as far as xs goes.
- Below a clause stand the definitions of this repository that it cites; `take`, `drop`, `length` and the like come
  from the toolchain's libraries.

A function with several clauses has a name for each. The name of a field of the result says what that field is;
`demand_3_f` says `demand_3` of the field f. The others say:

"""

NOTHING_OWED = "None of these functions has a `requires`: a caller owes them nothing."

TYPES = """\
A type whose values have facts of their own says them under **ghost** at its name ({types}): a function that is handed
such a value relies on them, and who builds one proves them."""

FUNCTION = re.compile(r'^ *pub (?:(?:const|unsafe|extern "C") )*fn (\w+)', re.M)
CLAUSE = re.compile(r"\s*(requires|ensures|ghost)\b\*?(?: (\w+))? *(?=\{)")
ITEM = re.compile(
    r"^(?:pub (trait|struct|enum) (\w+)|impl(?:<[^>]*>)? ([\w:]+(?:<[^>]*>)?) for ([\w:()]+(?:<[^>]*>)?))[^;{]*\{", re.M
)
MEMBER = re.compile(r"^ +(?:pub )?ghost (\w+)(?::| =) *(?=\{)", re.M)
METHOD = re.compile(r"^ +fn (\w+)", re.M)
USE = re.compile(r"^ghost use Rattle\.(\w+)\.specs\.([\w.]+?)(?:\.\{([^}]*)\}| as (\w+))?;", re.M)


class Clause(NamedTuple):
    kind: str
    name: str
    text: str
    cites: list


class Function(NamedTuple):
    name: str
    signature: str
    comment: str
    clauses: list
    kind: str  # function, trait, struct or enum


def read_rooms():
    """The rooms of crates.txt, each with its heading and its crates; a crate has what it holds beside its name."""
    rooms, said = [("", [])], ""
    for line in (ROOT / "crates.txt").read_text().splitlines():
        if line.startswith("##"):
            rooms.append((line.lstrip("#").strip(), []))
        elif line.startswith("#"):
            said = line[1:].strip()
        else:
            if ":" in line:
                rooms[-1][1].append((line.split(":", 1)[0].split()[0], said))
            said = ""
    return [room for room in rooms if room[0] or room[1]]


def open_modules(file, name):
    """A source and those of the `pub` modules below it, each with what goes before the names of its functions."""
    found = [(file, name)]
    folder = file.parent if file.name in ("lib.rt", "mod.rt") else file.with_suffix("")
    for module in re.findall(r"^pub mod (\w+);", file.read_text(), re.M):
        below = folder / f"{module}.rt"
        found += open_modules(below if below.is_file() else folder / module / "mod.rt", f"{name}::{module}")
    return found


def comment_above(text, at):
    """The comment right above a place, as one paragraph; attributes may stand between."""
    lines, said = text[:at].splitlines(), []
    while lines and lines[-1].strip().startswith("#["):
        lines.pop()
    while lines and lines[-1].strip().startswith("//"):
        said.insert(0, lines.pop().strip().lstrip("/").strip())
    return " ".join(said)


def type_around(text, at):
    """The type whose method stands at a place, as it goes before the method's name; nothing outside of an impl."""
    start = text.rfind("\nimpl", 0, at)
    if start <= text.rfind("\n}", 0, at):
        return ""
    return re.match(r"impl(?:<[^>]*>)?\s+(?:[\w:]+ for )?(\w+)", text[start + 1 :])[1] + "::"


def closing(text, at):
    """The place of the brace that closes the one at a place."""
    depth = 0
    for place in range(at, len(text)):
        depth += (text[place] == "{") - (text[place] == "}")
        if depth == 0:
            return place
    sys.exit("a clause has no end: " + text[at : at + 60])


def brought_in(text):
    """What a source's `ghost use` lines bring in of specs: names, and modules by the name that they are called by.
    What comes from std, words that all crates share, and what the toolchain declares for a type is left out."""
    names, modules = {}, {}
    for crate, module, some, alias in USE.findall(text):
        if crate == "std" or module.split(".")[0] == "declared":
            continue
        if some:
            names.update({name.strip(): (crate, module) for name in some.split(",")})
        else:
            modules[alias or module.split(".")[-1]] = (crate, module)
    return names, modules


def cited(clause, bound, names, modules):
    """The definitions that a clause cites, each once: the words for it, its crate, its module and its own name."""
    bound = bound | set(re.findall(r"(?:λ|let) (\w+)", clause))
    found = {}
    for word in re.findall(r"[^\s(){}\[\],;λ]+", clause):
        module, dot, name = word.partition(".")
        if word in names and word not in bound:
            found[word] = (*names[word], word)
        elif module in modules and dot and name:
            found[word] = (*modules[module], name)
    return [(word, *where) for word, where in found.items()]


def contract(text, at, bound, brought):
    """The clauses that stand from a place on, up to the function's body."""
    found = []
    while start := CLAUSE.match(text, at):
        end = closing(text, start.end())
        said = text[start.end() + 1 : end].strip()
        found.append(Clause(start[1], start[2] or "", said, cited(said, bound, *brought)))
        at = end + 1
    if not re.match(r"\s*[{;]", text[at:]):
        sys.exit("neither a clause nor a body: " + text[at : at + 60].strip())
    return found


def signature_at(text, start):
    """A function's signature in one line, and where its clauses begin."""
    end = re.compile(r"\s*(?:\{|;$|\b(?:requires|ensures|ghost)\b)", re.M).search(text, start.end()).start()
    return " ".join(text[start.start() : end].split()).replace("( ", "(").replace(", )", ")"), end


def members(text, brought):
    """The ghost members or fields that stand in the text of an item."""
    found = []
    for start in MEMBER.finditer(text):
        said = text[start.end() + 1 : closing(text, start.end())].strip()
        found.append(Clause("ghost", start[1], said, cited(said, set(), *brought)))
    return found


def open_items(module, text, brought):
    """Traits with their members, types with ghost fields, and the functions of traits for a type, by the place of each."""
    found = []
    for start in ITEM.finditer(text):
        body = text[start.end() : closing(text, start.end() - 1)]
        facts, comment = members(body, brought), comment_above(text, start.start())
        methods = [(method[1], *signature_at(body, method)) for method in METHOD.finditer(body)]
        if start[3]:
            for name, signature, end in methods:
                named = f"{module}::<{start[4]} as {start[3]}>::{name}"
                clauses = facts + contract(body, end, set(), brought)
                found.append((start.start(), Function(named, signature, comment, clauses, "function")))
        elif facts or start[1] == "trait":
            clauses = facts + [clause for *_, end in methods for clause in contract(body, end, set(), brought)]
            signature = f"{start[1]} {start[2]}" + "".join(f": {signature}" for _, signature, _ in methods)
            found.append((start.start(), Function(f"{module}::{start[2]}", signature, comment, clauses, start[1])))
    return found


def open_functions(crate):
    """The functions of a crate that are open to callers, and its traits and types with facts; a program has none."""
    found, root = [], ROOT / "crates" / crate / "src" / "lib.rt"
    for file, module in open_modules(root, crate) if root.is_file() else []:
        text = file.read_text()
        brought = brought_in(text)
        here = open_items(module, text, brought)
        for start in FUNCTION.finditer(text):
            signature, end = signature_at(text, start)
            bound = set(re.findall(r"(\w+):(?!:)", signature))
            name = f"{module}::{type_around(text, start.start())}{start[1]}"
            clauses = contract(text, end, bound, brought)
            comment = comment_above(text, start.start())
            here.append((start.start(), Function(name, signature, comment, clauses, "function")))
        found += [function for _, function in sorted(here, key=lambda one: one[0])]
    return found


def link(word, crate, module, name):
    """A definition that a clause cites, as a link to its line; one of the toolchain's libraries has no link."""
    if not (ROOT / "crates" / crate).is_dir():
        return f"`{word}` of the toolchain's library {crate}"
    path = f"crates/{crate}/specs/{module.replace('.', '/')}.antt"
    lines = (ROOT / path).read_text().splitlines()
    for start in (r"(?:(?:abbrev|unfoldable|pub|data|record) )*", r"\s+(?:pub )?"):
        for number, line in enumerate(lines, 1):
            if re.match(start + re.escape(name) + r"(?=[ :]|$)", line):
                return f"[{word}](../{path}#L{number})"
    return f"[{word}](../{path})"


def broken(line):
    """A line of code in lines that aren't too wide, broken where the fewest parentheses are open."""
    indent = " " * (len(line) - len(line.lstrip()) + 4)
    if len(line) <= WIDTH:
        return [line]
    depth, best = 0, None
    for place, letter in enumerate(line[:WIDTH]):
        depth += (letter == "(") - (letter == ")")
        if letter == " " and place > len(indent) + 20 and (best is None or depth <= best[0]):
            best = (depth, place)
    if best is None:
        return [line]
    return [line[: best[1]], *broken(indent + line[best[1] :].strip())]


def code(text):
    """A clause as a block of code, with the source's own breaks."""
    lines = [line[4:] if line.startswith("    ") else line for line in text.splitlines()]
    return ["```", *[part for line in lines for part in broken(line)], "```"]


def wrapped(text):
    return textwrap.wrap(text, WIDTH, break_long_words=False, break_on_hyphens=False)


def head_of(signature):
    """A signature in a line, or where that is too long a parameter a line."""
    if len(signature) + 2 <= WIDTH:
        return [f"`{signature}`"]
    name, rest = signature.split("(", 1)
    parameters, result = rest.rsplit(")", 1)
    rows = [f"    {parameter}," for parameter in re.split(r", (?![^<]*>)", parameters)]
    return ["```", f"{name}(", *rows, f"){result}", "```"]


def shown(function, mark):
    """A function's part of the page."""
    lines = [f"{mark} {function.name}", "", *head_of(function.signature.removeprefix("pub ")), ""]
    if function.comment:
        lines += [*wrapped(function.comment), ""]
    for clause in function.clauses:
        lines += [f"**{clause.kind}** {clause.name}".strip(), "", *code(clause.text), ""]
        if clause.cites:
            lines += [*("cites " + ",\n".join(link(*cite) for cite in clause.cites)).split("\n"), ""]
    return lines


def owes(function):
    """Whether a function asks something of its callers."""
    return any(clause.kind == "requires" for clause in function.clauses)


def faults(functions):
    """What no function open to callers may have: a `requires`, or clauses that can't be told apart by their names."""
    found = []
    for function in functions:
        found += [f"{function.name} has a requires"] if owes(function) else []
        promised = [clause for clause in function.clauses if clause.kind == "ensures"]
        for clause in promised if len(promised) > 1 else []:
            said = next((name for name in NAMES if f"{clause.name}_".startswith(f"{name}_")), "")
            field = clause.name[len(said) :].lstrip("_")
            if not clause.name or field and not re.search(rf"\.{field}\b", clause.text):
                found.append(f"{function.name}: a clause has no name, or one that isn't known: {clause.name}")
    return found


def top(functions):
    """The page's beginning: how many functions there are, how to read a clause, and what the names say."""
    all_items = [item for some in functions.values() for item in some]
    every = [item for item in all_items if item.kind == "function"]
    types = [f"`{item.name}`" for item in all_items if item.kind in ("struct", "enum")]
    owing = [function.name for function in every if owes(function)]
    lines = ABOUT.format(
        functions=len(every),
        crates=sum(any(item.kind == "function" for item in some) for some in functions.values()),
        clauses=sum(len(function.clauses) for function in every),
        owed=f"These have a `requires`: {', '.join(owing)}." if owing else NOTHING_OWED,
        typed="\n\n" + "\n".join(wrapped(TYPES.format(types=", ".join(types)))) if types else "",
    ).splitlines()
    lines += ["| Name | What the clause says |", "|---|---|"]
    return lines + [f"| `{name}` | {what} |" for name, what in NAMES.items()] + [""]


def page(rooms, functions):
    """The whole page; where there are rooms, they are headings above the crates'."""
    lines = top(functions)
    mark = "###" if any(heading for heading, _ in rooms) else "##"
    for heading, crates in rooms:
        if heading:
            lines += [f"## {heading}", ""]
            if not any(functions[name] for name, _ in crates):
                lines += ["No function here is open to callers.", ""]
        for name, what in crates:
            if functions[name]:
                lines += [f"{mark} {name}", "", *wrapped(f"[crates/{name}](../crates/{name}): {what}"), ""]
            for function in functions[name]:
                lines += shown(function, mark + "#")
    return "\n".join(lines).rstrip("\n") + "\n"


def main():
    if sys.argv[1:] not in ([], ["--check"]):
        sys.exit(__doc__)
    rooms = read_rooms()
    functions = {name: open_functions(name) for _, crates in rooms for name, _ in crates}
    made = page(rooms, functions)
    wrong = faults([function for some in functions.values() for function in some])
    if not sys.argv[1:]:
        PAGE.write_text(made)
    elif not PAGE.is_file() or PAGE.read_text() != made:
        wrong.append("docs/PROMISES.md: not what the sources say; run docs/promises.py")
    if wrong:
        sys.exit("\n".join(wrong))


if __name__ == "__main__":
    main()
