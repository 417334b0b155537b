"""Stored inputs for the contract itself: every verdict and causal verdict, every refusal that a text can meet, limits
from both sides, and damaged lines of each kind."""
from recipes import FULL, M1_TO_M5, RECIPE, gathered, history, inertia, inputs, largest, lasting, lines, still

VERDICTS = inputs("passes | recipe" + M1_TO_M5.format("", "full") + """
    missing_last_atom | full | -locked,-flowed | reflow | -locked
    m2_act_line_empty | full | -locked,-flowed | | -locked,flowed
    clash_below_missing | full | locked,-locked | reflow | -locked,flowed
    contradicted_at_time_0 | static | -p,q | | p,q
    contradicted_at_the_end | static | static=p -> action=a/static=p | p,q | a | -p,q
    static_law_caused | static | p,q | | p,q
    repeated_literals | full | -locked,-locked,-flowed | reflow,reflow | flowed,-locked
    let keys = horizon=1/fluent=end/fluent=if/action=state/dynamic=end/if=if/after=state/end=/
    fluents_named_as_keys | keys | -end,if | state | end,if
    longer_history | t3 | -locked,-flowed | reflow | -locked,flowed | -reflow | -locked,flowed | reflow | -locked,flowed
    uncaused_at_time_2 | full | n=1 -> n=2 | -locked,-flowed | -reflow | -locked,-flowed | -reflow | -locked,flowed
    """, static=lines("horizon=1/fluent=p/fluent=q/static=p/if=q/") + inertia("p", "q") + "end=\n", t3=lasting(3, FULL))


def limits():
    """Each limit from both sides."""
    cases = {f"fluents_{n}": still(1, n, 0) for n in (24, 25)}
    cases |= {f"actions_{n}": still(1, 1, n) for n in (8, 9)}
    cases |= {f"laws_{n}": still(1, 1, 0, lines("dynamic=f0/if=f0/after=f0/") * n) for n in (64, 65)}
    for n in (6, 7):
        items = ",".join(["f0"] * n)
        cases[f"if_literals_{n}"] = still(1, 1, 0, lines(f"static=f0/if={items}/"))
        cases[f"after_literals_{n}"] = still(1, 1, 0, lines(f"dynamic=f0/if=/after={items}/"))
    cases |= {f"name_bytes_{n}": still(1, 1, 0).replace("f0", "f" * n) for n in (16, 17)}
    cases |= {f"horizon_{t}": still(t, 2, 1, inertia("f0", "f1")) for t in (0, 1, 30, 31)}
    values = {"leading_zero": "01", "empty": "", "word": "x", "plus": "+1", "hundred": "100"}
    cases |= {f"horizon_{label}": lasting(value, still(1, 1, 0)) for label, value in values.items()}
    cases |= inputs("fluents_0 | bare\nlaws_0 | bare | end=/ -> fluent=p/end=/ | p | | p")
    for size in (65_535, 65_536):
        # Repeated literals of eight and of seven bytes make up any length.
        sevens = (len(RECIPE) - size) % 8
        eights = (size - len(RECIPE) - 7 * sevens) // 8
        told = "-locked,-flowed" + ",-locked" * eights, "reflow" + ",reflow" * sevens, "-locked,flowed"
        cases[f"bytes_{size}"] = FULL + history(*told)
        assert len(cases[f"bytes_{size}"]) == size
    return cases | {"largest_table": largest()}


DAMAGED = inputs("""
    # Lines of each kind.
    empty | bare | horizon=1/end=/ ->
    no_equals_sign | recipe | fluent=flowed -> fluentflowed
    no_last_line_end | recipe | state=-locked,flowed/end=/ -> state=-locked,flowed/end=
    no_line_end_in_the_description | bare | /end=/ ->
    key_in_capitals | recipe | horizon=1 -> Horizon=1
    unknown_key | recipe | action=reflow -> command=reflow
    key_out_of_order | recipe | horizon=1/fluent=locked/ -> fluent=locked/horizon=1/
    fluent_behind_action | recipe | action=reflow/ -> action=reflow/fluent=late/
    law_without_if | recipe | if=/after=reflow/ -> after=reflow/
    dynamic_without_after | recipe | after=reflow/ ->
    static_with_after | recipe | dynamic=flowed -> static=flowed
    end_with_a_value | recipe | end=/ -> end=x/
    history_end_with_a_value | recipe | state=-locked,flowed/end= -> state=-locked,flowed/end=x
    no_history | full
    history_cut | recipe | state=-locked,flowed/end=/ ->
    act_for_state | recipe | state=-locked,-flowed/ -> | state=-locked,flowed/end=/ ->
    one_state_too_many | recipe | state=-locked,flowed/ -> state=-locked,flowed/state=/
    bytes_behind_the_end | recipe | state=-locked,flowed/end=/ -> state=-locked,flowed/end=//
    second_recipe_behind | twice
    empty_line | recipe | action=reflow/ -> action=reflow//
    spaces | recipe | state=-locked,-flowed -> state=-locked, -flowed
    carriage_returns | returned
    second_equals_sign | recipe | fluent=flowed -> fluent=flo=wed
    # Names, heads and lists.
    name_false | recipe | fluent=flowed -> fluent=false
    name_twice | recipe | fluent=flowed -> fluent=locked
    action_named_as_fluent | recipe | action=reflow -> action=flowed
    name_empty | recipe | fluent=flowed -> fluent=
    name_in_capitals | recipe | fluent=flowed -> fluent=Flowed
    name_with_a_byte_of_no_name | recipe | fluent=flowed -> fluent=fl@wed
    name_with_digit_first | recipe | fluent=flowed -> fluent=1flowed
    name_with_digit_and_underscore | digit
    head_unknown | recipe | dynamic=flowed -> dynamic=flown
    head_action | recipe | dynamic=flowed -> dynamic=reflow
    head_empty | recipe | dynamic=flowed -> dynamic=
    head_not_false | recipe | dynamic=false -> dynamic=-false
    if_with_action | recipe | if=locked -> if=reflow
    list_with_false | recipe | if=locked -> if=false
    list_with_empty_item | recipe | after=reflow,locked -> after=reflow,,locked
    list_with_last_comma | recipe | after=reflow,locked -> after=reflow,locked,
    two_hyphens | recipe | after=-locked -> after=--locked
    state_with_action | recipe | state=-locked,-flowed -> state=reflow
    act_with_fluent | recipe | act=reflow -> act=locked
    # Which fault comes first.
    five_before_six | one | end=/ -> static=f0/if=f0,f0,f0,f0,f0,f0,nothing/end=/
    six_before_the_seventh | one | end=/ -> static=f0/if=f0,f0,nothing,f0,f0,f0,f0/end=/
    ninth_action_in_capitals | eight | end=/ -> action=X/end=/
    ninth_action_no_name | eight | end=/ -> action=@/end=/
    bad_line_behind_a_name_in_capitals | recipe | dynamic=false -> dynamic=nothing | fluent=flowed -> fluent=Flowed
    first_of_two_bad_lines_decides | recipe | dynamic=false -> dynamic=nothing | fluent=flowed -> fluent=fl@wed
    """, twice=RECIPE * 2, returned=RECIPE.replace("\n", "\r\n"),
                 digit=RECIPE.replace("flowed", "flow_2"), one=still(1, 1, 0), eight=still(1, 1, 8))

CASES = gathered(VERDICTS, limits(), DAMAGED)
