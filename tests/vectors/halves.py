"""Stored inputs for recipes cut in two and joined: halves of recipes that pass, two that fit and their join, two put
together that do not fit, thirty steps and thirty-one, and lines cut at wrong places. Each has the whole output that
follows from the contract, worked out by hand."""
from recipes import FULL, SHORT, answer, gathered, history, inputs, lasting, lines, rows

# Descriptions with horizon 1, and how many atoms, rules and words there are at horizon 0 and more with each step. Each
# fluent at time 0 and each action at each step has two rules of 4 words. The full recipe has six laws of 4, 5, 5, 5, 5
# and 5 words a step.
COUNTS = (2, 3), (4, 8), (16, 37)
# A lamp: each press turns it on or off, it is lit exactly while it is on, and it is warm at the time after one at which
# it was on, or else not warm by default. Laws 4, 5 and 6 are static, with 4 words for each time; laws 0 to 3 and 7 have
# 5, 5, 5, 5 and 4 words for each step.
LAMP = lines("horizon=1/fluent=on/fluent=lit/fluent=warm/action=press/causes=on/by=press,-on/causes=-on/by=press,on/"
             "inertial=on/inertial=-on/static=lit/if=on/static=-lit/if=-on/default=-warm/causes=warm/by=on/end=/")
# One fluent that changes at each step, without actions: two laws of 4 words a step.
BLINK = lines("horizon=1/fluent=p/causes=p/by=-p/causes=-p/by=p/end=/")
DESCRIBED = {"full": (FULL, *COUNTS), "short": (SHORT, *COUNTS), "lamp": (LAMP, (3, 4), (9, 10), (36, 44)),
             "blink": (BLINK, (1, 1), (2, 2), (8, 8))}


def recipe(described, told, said=""):
    """A history of as many steps as it tells, and its output: that it passes, where nothing else is said."""
    text, *counts = DESCRIBED[described]
    steps = len(told) // 2
    atoms, rules, words = (at_zero + steps * more for at_zero, more in counts)
    ending = answer(*said.split()) if said else answer("passes", causal="path")
    counted = f"horizon={steps}\natoms={atoms}\nrules={rules}\nwords={words}\n"
    return lasting(steps, text) + history(*told), counted + ending


FEW_STEPS = {name: recipe(described, told, said) for name, said, (described, *told) in rows("""
    # Three steps cut after one and after two.
    three_steps | short | -locked,-flowed | reflow | -locked,flowed | | -locked,flowed | reflow | -locked,flowed
    three_steps_first_1 | short | -locked,-flowed | reflow | -locked,flowed
    three_steps_second_1 | short | -locked,flowed | | -locked,flowed | reflow | -locked,flowed
    three_steps_first_2 | short | -locked,-flowed | reflow | -locked,flowed | | -locked,flowed
    three_steps_second_2 | short | -locked,flowed | reflow | -locked,flowed
    # Pressed, left on, and pressed again: each state at which it is cut has another first half behind it.
    lamp | lamp | -on,-lit,-warm | press | on,lit,-warm | | on,lit,warm | press | -on,-lit,warm
    lamp_first_1 | lamp | -on,-lit,-warm | press | on,lit,-warm
    lamp_second_1 | lamp | on,lit,-warm | | on,lit,warm | press | -on,-lit,warm
    lamp_first_2 | lamp | -on,-lit,-warm | press | on,lit,-warm | | on,lit,warm
    lamp_second_2 | lamp | on,lit,warm | press | -on,-lit,warm
    # Two steps without actions cut in the middle.
    blink | blink | p | | -p | | p
    blink_first_1 | blink | p | | -p
    blink_second_1 | blink | -p | | p
    # Two that fit, and their join; the state may be listed in another order, with repeats and with capitals.
    fits_first | lamp | on,lit,warm | press | -on,-lit,warm
    fits_second | lamp | -on,-lit,warm | press | on,lit,-warm | -press | on,lit,warm
    fits_second_spelled_anew | lamp | warm,-Lit,-on,WARM | press | on,lit,-warm | -press | on,lit,warm
    fits_joined | lamp | on,lit,warm | press | -on,-lit,warm | press | on,lit,-warm | -press | on,lit,warm
    fits_joined_spelled_anew | lamp | on,lit,warm | press | warm,-Lit,-on,WARM |press| on,lit,-warm |-press| on,lit,warm
    # Two of one step each that pass and do not fit, put together. Where something is wrong, it is so at time 2.
    unfit_first | full | -locked,-flowed | reflow | -locked,flowed
    unfit_second | full | locked,flowed | | locked,flowed
    # Locked at time 2 is atom 6, and nothing locks.
    unfit_uncaused = unfounded 12 uncaused 2 locked | full | -locked,-flowed | reflow | -locked,flowed | | locked,flowed
    # Reflow while locked: law 1, whose rule for the second step is rule 3.
    unfit_contradicted = broken 3 contradicted 2 1 | full | locked,flowed | | locked,flowed | reflow | -locked,flowed
    # Reflow gives flowed, whether it was flowed or not.
    unfit_passes | full | -locked,-flowed | | -locked,-flowed | reflow | -locked,flowed
    # On at time 2 is atom 8, and nothing was pressed; warm has no cause either, but is the higher atom.
    lamp_unfit_uncaused = unfounded 16 uncaused 2 on | lamp | -on,-lit,-warm | | -on,-lit,-warm | | on,lit,warm
    # Pressed while on, it goes off by law 1. Nine static rules come first, then two of law 0 and two of law 1.
    lamp_unfit_contradicted = broken 12 contradicted 2 1 | lamp | on,lit,warm | | on,lit,warm | press | on,lit,-warm
    # Whether it was warm before does not matter.
    lamp_unfit_passes | lamp | on,lit,-warm | press | -on,-lit,warm | | -on,-lit,-warm
    """)}


def pressed(on, warm, presses):
    """The lines of a lamp that is pressed at some steps, from the state in which it is."""
    told = []
    for press in [*presses, False]:
        told += ["{0}on,{0}lit,{1}warm".format("" if on else "-", "" if warm else "-"), "press" if press else ""]
        on, warm = on != press, on
    return told[:-1]


def thirty():
    """Thirty steps cut after 1, 15 and 29; fifteen joined with fifteen and with sixteen, which begin where they end."""
    long = pressed(True, False, [step % 3 != 1 for step in range(30)])
    cases = {"lamp_30": recipe("lamp", long)}
    for steps in (1, 15, 29):
        cases[f"lamp_30_first_{steps}"] = recipe("lamp", long[: 2 * steps + 1])
        cases[f"lamp_30_second_{steps}"] = recipe("lamp", long[2 * steps :])
    # Eight presses from off leave it off, the last at the last step: it was on before, and so it is warm.
    first = pressed(False, False, [step % 2 == 0 for step in range(15)])
    longer = pressed(False, True, [step % 4 == 2 for step in range(16)])
    assert first[-1] == longer[0] == "-on,-lit,warm"
    cases |= {"fits_15_first": recipe("lamp", first), "fits_15_second": recipe("lamp", longer[:-2])}
    cases["fits_15_joined"] = recipe("lamp", first + longer[1:-2])
    return cases | {"fits_15_and_16": (recipe("lamp", first + longer[1:])[0], "refused=3\nplace=1\n")}


# The description has 23 lines, and state, act and state are lines 24 to 26; a line is refused where another is due.
WRONG_LINES = inputs("""
    cut_state_kept_twice = refused=2/place=27/ | three | flowed/act=/ -> flowed/state=-locked,flowed/act=/
    cut_under_the_same_horizon = refused=2/place=27/ | full | n=1 -> n=3 | -locked,-flowed | reflow | -locked,flowed
    cut_without_its_state = refused=2/place=24/ | act_first | -locked,flowed | reflow | -locked,flowed
    not_cut_under_a_shorter_horizon = refused=2/place=27/ | three | n=3 -> n=1
    """, act_first=lasting(2, FULL) + "act=\n",
                     three=lasting(3, FULL) + "state=" + FEW_STEPS["three_steps"][0].partition("state=")[2])
CASES = gathered(FEW_STEPS, thirty(), WRONG_LINES)
