"""Stored inputs for capitals in names: spellings that are one name, False, keys, shown names and bytes 32 apart."""
import re

from recipes import FULL, PASSING, RECIPE, SHORT_RECIPE, each, gathered, history, inputs, lines, swapped

# One law by each key; each use of a name is spelled as the name was declared.
EVERY_KEY = lines("horizon=1/fluent=Ab/fluent=c_0/action=Go/static=Ab/if=Ab/dynamic=c_0/if=c_0/after=c_0/default=-Ab/"
                  "inertial=-c_0/causes=Ab/by=Go/nonexecutable=Go,Ab/end=/state=-Ab,-c_0/act=Go/state=Ab,-c_0/end=/")


def changed(line):
    """The text of all keys with another line for the first one of its key."""
    return re.sub(f"(?m)^{line.split('=')[0]}=.*", line, EVERY_KEY, count=1)


def many(form, count):
    """The form with 0, 1, .. in turn."""
    return "".join(form.format(i) for i in range(count))


def named(declared, used):
    """A recipe of one fluent, declared in one spelling and used in another."""
    return lines(f"horizon=1/fluent={declared}/inertial={used}/inertial=-{used}/end=/") + history(used, "", used)


SPELLINGS = inputs("""
    capitals | capitals_recipe
    capitals_m1 | capitals | LOCKED,-flowed | reflow | locked,FLOWED
    capitals_m2 | capitals | -locked,-FLOWED | -REFLOW | -LOCKED,flowed
    capitals_m2_act_line_empty | capitals | -locked,-FLOWED | | -LOCKED,flowed
    capitals_m3 | capitals | locked,-Flowed | -reFLOW | -lockeD,-fLowed
    capitals_m4 | capitals | -LOCKED | REFLOW | -locked,flowed
    capitals_m5 | capitals | -Locked,LOCKED,-flowed | reflow | -locked,flowed
    capitals_where_declared | recipe | action=reflow -> action=Reflow
    capitals_where_used | full | -LOCKED,-Flowed | ReFlow | -lockeD,FLOWED
    capitals_in_each_locked | locked
    capitals_in_values_alone | upper
    capitals_short | capitalized
    capitals_short_m2 | short | fluent=flowed -> fluent=FLowed | -Locked,-Flowed | | -LOCKED,FLOWED
    spellings_in_one_list | capitals | -LOCKED,-locked,-Flowed,-flowed | reflow,REFLOW | FLOWED,-locked,flowed
    both_literals_spelled_apart | capitals | -locked,-flowed | reflow,-REFLOW | -locked,flowed
    action_left_out_with_capitals | capitals | LOCKED,-flowed | | locked,-Flowed
    """, locked=FULL.replace("locked", "LOCKED") + PASSING, upper=re.sub("=.*", lambda value: value[0].upper(), RECIPE),
                   capitalized=re.sub("(?<==).+", lambda value: value[0].capitalize(), SHORT_RECIPE))

# One use respelled, in each place where a literal may stand.
PLACES = ("static=aB dynamic=C_0 causes=AB default=-ab inertial=-C_0 if=AB after=C_0 by=GO nonexecutable=gO,ab "
          "state=-aB,-C_0 act=go").split()
RESPELLED = {f"respelled_in_{line.split('=')[0]}": changed(line) for line in PLACES} | {
    "respelled_last_state": swapped("state=Ab,-c_0", "state=ab,-C_0", EVERY_KEY),
    "respelled_action_in_if": changed("if=GO"),
    "respelled_action_as_head": changed("static=go"),
    "respelled_action_in_state": changed("state=-GO,-c_0"),
    "respelled_fluent_in_act": changed("act=AB"),
    "respelled_seventh_literal": changed("after=C_0,c_0,C_0,c_0,C_0,c_0,C_0"),
}

# Names declared before in another spelling, and names that only look so.
TWICE = """
    fluent_twice_{0} | bare | end=/ -> fluent={1}/fluent={2}/end=/ | | |
    action_as_fluent_{0} | bare | end=/ -> fluent={1}/action={2}/end=/ | | |
    action_twice_{0} | bare | end=/ -> fluent=p/action={1}/action={2}/end=/ | | |"""
FAR_APART = f"""
    fluent_twice_far_apart | bare | end=/ -> {many("fluent=F{}/", 20)}fluent=f0/end=/ | | |
    action_as_last_fluent | bare | end=/ -> {many("fluent=F{}/", 24)}action=f23/end=/ | | |
    ninth_action_declared_before | bare | end=/ -> fluent=p/{many("action=A{}/", 8)}action=a7/end=/ | | |"""
OTHER = "other_name_{0} | bare | end=/ -> fluent=Reflow/fluent={1}/action=R/end=/ | | |"
DECLARED = gathered(
    each(TWICE, "capital_first Reflow reflow", "capital_last reflow Reflow", "capitals REFLOW reflow",
         "last_letter reflow refloW", "same ReFlow ReFlow"),
    inputs(FAR_APART),
    each(OTHER, "shorter REFLO", "longer REFLOWS", "underscore REFLOW_", "digit REFL0W"),
    {"used_shorter": named("Reflow", "REFLO"), "used_longer": named("Reflow", "REFLOWS")},
    {"used_shorter_name": named("reflowS", "Reflow")},
)

# Each key with a capital, as its first letter and as its last.
KEYS = "horizon fluent action static dynamic if after state act end default inertial causes by nonexecutable".split()
CAPITAL_KEYS = {
    f"key_{key}_capital_{label}": re.sub(f"(?m)^{key}=", f"{word}=", EVERY_KEY, count=1)
    for key in KEYS for label, word in (("first", key.capitalize()), ("last", key[:-1] + key[-1].upper()))
} | {"key_end_of_history_in_capitals": EVERY_KEY[: -len("end=\n")] + "END=\n", "keys_in_capitals": EVERY_KEY.upper()}

# A fluent that nothing causes is shown as it was declared.
SHOWN = "shown_{0} | bare | end=/ -> fluent={1}/end=/ | {2} | | {2}"
SHOWN_LAST = f"""
    let last = horizon=1/{many("fluent=F{}/", 23)}fluent=lAsT/{many("inertial=F{0}/inertial=-F{0}/", 23)}end=/
    shown_last_of_24 | last | {many("-F{},", 23)}LaSt | | {many("-F{},", 23)}LaSt
    let longer = horizon=1/fluent=FlowedS/fluent=Flowed/inertial=FlowedS/inertial=-FlowedS/end=/
    shown_beside_a_longer_name | longer | -FlowedS,FLOWED | | -FlowedS,FLOWED"""


def false_words():
    """False in capitals: a head, and neither a name nor a literal; and names that are like it."""
    cases, heads = {}, "static dynamic causes default inertial".split()
    for label, word in {"capital": "False", "capitals": "FALSE", "all_but_one": "fALSE", "last": "falsE"}.items():
        cases |= {f"false_{label}_heads_{key}": changed(f"{key}={word}") for key in heads[:3]}
        cases |= {f"false_{label}_as_{key}": changed(f"{key}={word}") for key in heads[3:]}
        cases[f"false_{label}_as_fluent"] = swapped("fluent=c_0", f"fluent={word}", EVERY_KEY)
        cases[f"false_{label}_as_action"] = changed(f"action={word}")
    for line in "if=False after=False by=False nonexecutable=False,Ab state=False,-c_0 act=False".split():
        cases["false_in_capitals_in_" + line.split("=")[0]] = changed(line)
    cases |= {f"not_false_in_capitals_{key}": changed(f"{key}=-False") for key in heads}
    like = {"cut": "FALS", "with_more": "Falsee", "with_underscore": "False_", "with_digit": "FALSE0"}
    cases |= {f"name_like_false_{label}": named(name, name.lower()) for label, name in like.items()}
    return cases | {"head_like_false": changed("static=Falsee")}


def spelled():
    """How long a name may be, letters at the edges of the alphabet, and bytes 32 apart that are no letters."""
    cases = {"name_bytes_16_with_capitals": named("AbcdefghIjklmnoP", "aBCDEFGHiJKLMNOp"),
             "name_bytes_17_with_capitals": named("AbcdefghIjklmnoPQ", "aBCDEFGHiJKLMNOpq"),
             "used_bytes_17_with_capitals": named("AbcdefghIjklmnoP", "aBCDEFGHiJKLMNOpq")}
    for declared, used in ("Aa", "aA", "Zz", "zZ", "Az", "Zy"):
        label = f"declared_{declared}_used_{used}".replace("Z", "capital_z").replace("A", "capital_a")
        cases[label] = named(declared, used)
    cases["capitals_beside_digits"] = named("A0_9Z", "a0_9z")
    for low in (*range(16, 26), 64, 91, 92, 93, 94, 95, *range(0xC0, 0xE0, 5), 0xDF):
        for one, other in ((low, low + 32), (low + 32, low)):
            cases[f"bytes_{one}_and_{other}"] = named("p" + chr(one), "p" + chr(other))
    return cases | {f"used_byte_{ord(b)}_for_a_letter": named("p" + a, "p" + b) for a, b in zip("AZaz", "@[`{")}


CASES = gathered(
    SPELLINGS, {"spelled_as_declared": EVERY_KEY}, RESPELLED, DECLARED, false_words(), CAPITAL_KEYS,
    each(SHOWN, "capital Flowed flowed", "capitals FLOWED Flowed", "without_capitals flowed FLOWED",
         "mixed fLoW_eD2 FlOw_Ed2", "letters_at_the_edges AZaz azAZ", "one_letter Z z",
         "sixteen_bytes AbcdefghIjklmnoP aBCDEFGHiJKLMNOp"),
    inputs(SHOWN_LAST), spelled(),
)
