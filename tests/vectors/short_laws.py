"""Stored inputs for short laws: default, inertial, causes with by, and nonexecutable."""
from recipes import M1_TO_M5, SHORT_RECIPE, each, gathered, inputs, lines, still, swapped

# What each law stands for, short and long laws in one description, and names that are spelled as the keys.
TAKEN = inputs("short_passes | short_recipe" + M1_TO_M5.format("short_", "short") + """
    let door = horizon=1/fluent=closed/action=open/default=closed/causes=-closed/by=open/end=/
    default_kept | door | closed | -open | closed
    default_comes_back | door | -closed | -open | closed
    default_gives_way | door | closed | open | -closed
    default_one_way_only | door | -closed | -open | -closed
    let stays = horizon=1/fluent=p/action=a/inertial=p/inertial=-p/causes=-p/by=a/end=/
    inertial_gives_way | stays | p | a | -p
    inertial_no_cause | stays | -p | -a | p
    inertial_contradicted | stays | p | a | p
    let follows = horizon=1/fluent=p/fluent=q/causes=q/by=p/causes=-q/by=-p,-p/default=p/default=-p/end=/
    by_in_the_old_state | follows | p,-q | | -p,q
    by_not_in_the_new_state | follows | p,-q | | -p,-q
    let nothing = horizon=1/fluent=p/causes=p/by=/end=/
    by_empty | nothing | -p | | p
    by_empty_contradicted | nothing | p | | -p
    let bans = horizon=1/fluent=p/action=a/nonexecutable=a,-p/causes=false/by=a,p,p,-p/inertial=p/inertial=-p/end=/
    nonexecutable_not_done | bans | -p | -a | -p
    nonexecutable_done | bans | -p | a | -p
    nonexecutable_elsewhere | bans | p | a | p
    nonexecutable_empty | lawless | end=/ -> nonexecutable=/end=/
    causes_false | short_recipe | nonexecutable=reflow,locked/ -> causes=false/by=reflow,locked/
    mixed_long_first | short_recipe | causes=flowed/by=reflow/ -> dynamic=flowed/if=/after=reflow/
    mixed_long_between | short_recipe | inertial=locked/ -> dynamic=locked/if=locked/after=locked/
    mixed_long_last | short_recipe | inertial=-flowed/ -> dynamic=-flowed/if=-flowed/after=-flowed/
    mixed_static_between | short_recipe | inertial=locked/ -> inertial=locked/static=flowed/if=flowed/
    short_and_long_again | again | inertial=locked/ -> inertial=locked/dynamic=locked/if=locked/after=locked/
    let behind = horizon=1/fluent=p/default=p/end=/
    short_behind_fluents | behind | p | | p
    names_as_short_keys | named | default,-inertial,-by | causes,-nonexecutable | default,-inertial,by
    names_as_short_keys_broken | named | default,-inertial,by | causes,nonexecutable | default,-inertial,by
    """, lawless=still(1, 1, 1), again=SHORT_RECIPE.replace("inertial=locked\n", "inertial=locked\n" * 2),
               named=lines("horizon=1/fluent=default/fluent=inertial/fluent=by/action=causes/action=nonexecutable/"
                           "default=default/inertial=inertial/inertial=-inertial/causes=by/by=causes/"
                           "nonexecutable=nonexecutable,by/end=/"))

# A good law by each first key, over fluent f0 and action a0.
GOOD = "default=f0/ inertial=-f0/ causes=f0/by=a0/ nonexecutable=a0,f0/".split()


def limits():
    """64 and 65 laws by each short form, and lists of six and seven literals; the laws of each input."""
    laws = {}
    long, all_four, six = "static=f0/if=f0/", "".join(GOOD), "f0,a0,-f0,-a0,f0,a0"
    for law in GOOD:
        key = law.split("=")[0]
        laws |= {f"{key}_laws_{n}": law * n for n in (64, 65)}
        laws |= {f"{key}_as_{n}th": long * (n - 1) + law for n in (64, 65)}
        laws |= {f"{key}_garbage_as_{n}th": long * (n - 1) + f"{key}=garbage/" for n in (64, 65)}
        laws[f"static_behind_64_{key}"] = law * 64 + long
    behind = {"short_laws_64": "", "short_laws_65": "default=f0/", "by_behind_64_laws": "by=a0/"}
    laws |= {name: all_four * 16 + law for name, law in behind.items()}
    laws["nonexecutable_seven_as_65th"] = long * 64 + "nonexecutable=f0,f0,f0,f0,f0,f0,f0/"
    laws["default_false_as_65th"] = long * 64 + "default=false/"
    for key, start in (("by", "causes=f0/by="), ("nonexecutable", "nonexecutable=")):
        laws |= {f"{key}_literals_6": f"{start}{six}/", f"{key}_literals_7": f"{start}{six},f0/"}
        laws[f"{key}_five_before_six"] = f"{start}{six},garbage/"
        laws[f"{key}_six_before_the_seventh"] = f"{start}f0,garbage,{six}/"
        laws[f"{key}_comma_behind_six"] = f"{start}{six},/"
    return laws


def values():
    """Values that are no literal, or none of the allowed sort; the lines of each law."""
    bad = {"unknown": "flown", "empty": "", "action": "reflow", "not_false": "-false", "list": "locked,flowed",
           "two_hyphens": "--locked"}
    laws = {}
    for key, behind in (("default", ""), ("inertial", ""), ("causes", "by=reflow/")):
        laws |= {f"{key}_{label}": f"{key}={value}/{behind}" for label, value in bad.items()}
    laws |= {f"{key}_false": f"{key}=false/" for key in ("default", "inertial")}
    lists = {"unknown": "reflow,flown", "false": "false", "empty_item": "reflow,,locked", "last_comma": "reflow,",
             "first_comma": ",reflow", "two_hyphens": "--reflow"}
    for key, start in (("by", "causes=flowed/by="), ("nonexecutable", "nonexecutable=")):
        laws |= {f"{key}_{label}": f"{start}{value}/" for label, value in lists.items()}
    laws["causes_before_a_missing_by"] = "causes=flown/after=reflow/"
    return laws | {"causes_before_by": "causes=flown/by=flown/"}


# Keys of short laws where they are not allowed.
MISPLACED = """
    {0}_first | short_recipe | horizon=1/ -> {0}=locked/horizon=1/
    {0}_before_the_fluents | short_recipe | horizon=1/ -> horizon=1/{0}=locked/
    {0}_for_if | short_recipe | inertial=locked/ -> dynamic=locked/{0}=locked/after=locked/
    {0}_for_after | short_recipe | inertial=locked/ -> dynamic=locked/if=locked/{0}=locked/
    {0}_for_state | short_recipe | end=/ -> end=/{0}=locked/
    {0}_in_capitals | short_recipe | inertial=locked/ -> {1}=locked/
    {0}_cut | short_recipe | inertial=locked/ -> {2}=locked/"""
# Others where by is due, and by where it is not.
FOR_BY = "after=reflow/ if=/ causes=flowed/by=reflow/ default=flowed/ action=late/ dynamic=flowed/if=/after=/".split()
BY = """
    end_for_by | start | causes=flowed/ -> causes=flowed/end=/ | -locked,-flowed | reflow | -locked,flowed
    nothing_for_by | start
    by_without_line_end | start | causes=flowed/ -> causes=flowed/by=reflow
    short_key_with_a_letter_more | short_recipe | inertial=locked/ -> defaults=locked/
    short_key_without_equals_sign | short_recipe | inertial=locked/ -> inertiallocked/
    by_alone | short_recipe | inertial=locked/ -> by=reflow/
    by_twice | short_recipe | by=reflow/ -> by=reflow/by=reflow/
    if_behind_causes_and_by | short_recipe | by=reflow/ -> by=reflow/if=/"""
BEHIND = """
    by_behind_{0} | short_recipe | inertial=locked/ -> {0}=locked/by=reflow/
    action_behind_{0} | short_recipe | inertial=locked/ -> {0}=locked/action=late/
    fluent_behind_{0} | short_recipe | inertial=locked/ -> {0}=locked/fluent=late/"""

CASES = gathered(
    TAKEN,
    {name: still(1, 1, 1, lines(laws)) for name, laws in limits().items()},
    {name: swapped("inertial=locked\n", lines(law), SHORT_RECIPE) for name, law in values().items()},
    each(MISPLACED, "default Default defaul", "inertial Inertial inertia", "causes Causes cause", "by By b",
         "nonexecutable Nonexecutable nonexecutabl"),
    {line.split("=")[0] + "_for_by": swapped("by=reflow\n", lines(line), SHORT_RECIPE) for line in FOR_BY},
    inputs(BY, start=SHORT_RECIPE[: SHORT_RECIPE.index("by=")]),
    each(BEHIND, "default", "inertial", "nonexecutable"),
)
