"""Stored inputs for missing and clash in one history: the lowest atom that has either fault decides.

Each answer follows from the contract and was worked out by hand. Fluents and actions have the atom numbers of their
time: in the full recipe locked is 0, flowed 1, reflow 2, then locked 3 and flowed 4 at time 1. A literal that a state
line does not list leaves its fluent without a value; an action that is not listed is false."""
from recipes import SWITCH, inertia, inputs, largest, lasting, still

CASES = inputs("""
    # M4 with both literals of the action, of each later fluent, and of all of these: atom 1 is below them.
    m4_and_an_action_clash = missing 1 | full | -locked | reflow,-reflow | -locked,flowed
    m4_and_a_later_clash = missing 1 | full | -locked | reflow | -locked,locked,flowed
    m4_and_a_clash_at_the_last_atom = missing 1 | full | -locked | reflow | -locked,flowed,-flowed
    m4_and_all_later_clash = missing 1 | full | -locked | -reflow,reflow | locked,-locked,flowed,-flowed
    # M5 with each other fluent missing, and all: atom 0 is below them.
    m5_and_missing_beside_it = clash 0 | full | -locked,locked | reflow | -locked,flowed
    m5_and_missing_later = clash 0 | full | -locked,locked,-flowed | reflow | flowed
    m5_and_missing_at_the_last_atom = clash 0 | full | -locked,locked,-flowed | reflow | -locked
    m5_and_all_others_missing = clash 0 | full | -locked,locked | |
    # One state line: the atoms' order is that of the declarations, not that of the list.
    state_missing_then_clash = missing 0 | full | flowed,-flowed | reflow | -locked,flowed
    last_state_clash_then_missing = clash 3 | full | -locked,-flowed | reflow | locked,-locked
    last_state_missing_then_clash = missing 3 | full | -locked,-flowed | reflow | -flowed,flowed
    # An act line: atom 2 is above the fluents of time 0 and below those of time 1.
    action_clash_then_all_missing = clash 2 | full | -locked,-flowed | reflow,-reflow |
    action_clash_then_missing_first = clash 2 | full | -locked,-flowed | -reflow,reflow | flowed
    missing_then_action_clash = missing 0 | full | -flowed | reflow,-reflow | -locked,flowed
    missing_action_clash_missing = missing 1 | full | -locked | reflow,-reflow | -locked
    clash_action_clash_missing = clash 1 | full | -locked,flowed,-flowed | reflow,-reflow | -locked
    # An act line that lists nothing is no fault, and so the next bad atom decides.
    act_line_empty_then_clash_and_missing = clash 3 | full | -locked,-flowed | | locked,-locked
    act_line_empty_then_missing_and_clash = missing 3 | full | -locked,-flowed | | flowed,-flowed
    # Repeated literals change nothing.
    clash_listed_thrice_then_missing = clash 0 | full | locked,-locked,locked | reflow | -locked,flowed
    missing_then_clash_listed_thrice = missing 0 | full | -flowed,flowed,-flowed | reflow | -locked,flowed
    # Fluents p and q and actions a and b over three steps: p at time t is atom 4t, q 4t + 1, a 4t + 2, b 4t + 3.
    clash_at_time_0_missing_at_the_end = clash 1 | three | p,q,-q | | p,q | | p,q | | p
    missing_at_time_0_clash_at_the_end = missing 1 | three | p | | p,q | | p,q | | p,q,-q
    action_clash_a_step_before_missing = clash 3 | three | p,q | b,-b | q | | p,q | | p,q
    action_clash_two_steps_before_missing = clash 2 | three | p,q | a,-a | p,q | | p,q | | q
    action_clash_a_step_behind_missing = missing 5 | three | p,q | | p | a,-a | p,q | | p,q
    last_action_clash_then_missing = clash 11 | three | p,q | | p,q | | p,q | -b,b |
    last_action_clash_behind_missing = missing 8 | three | p,q | | p,q | | | -b,b | p,q
    both_actions_clash_then_missing = clash 6 | three | p,q | | p,q | a,b,-b,-a | q | | p,q
    second_action_clash_beside_the_first = clash 7 | three | p,q | | p,q | a,-b,b | q | | p,q
    several_of_each_clash_first = clash 4 | three | p,q | | p,-p | a,-a | p | b,-b | q,-q
    several_of_each_missing_first = missing 4 | three | p,q | | q,-q | a,-a | | b,-b | p,-p
    clash_and_missing_by_turns = clash 1 | three | p,q,-q | | p | | p,q,-q | | p
    missing_and_clash_by_turns = missing 1 | three | p | | p,q,-q | | p | | p,q,-q
    clash_at_the_last_time_then_missing = clash 12 | three | p,q | | p,q | | p,q | | p,-p
    missing_at_the_last_time_then_clash = missing 12 | three | p,q | | p,q | | p,q | | q,-q
    # Laws written short, both literals of one name in two spellings, and no laws and no actions.
    short_clash_then_missing = clash 0 | short | locked,-locked | reflow | -locked,flowed
    short_missing_then_clash = missing 0 | short | -flowed,flowed | reflow | -locked,flowed
    capitals_clash_then_missing = clash 0 | capitals | LOCKED,-locked | REFLOW | -Locked
    capitals_action_clash_then_missing = clash 2 | capitals | -locked,-FLOWED | Reflow,-reFLOW |
    capitals_missing_then_clash = missing 0 | capitals | Flowed,-FLOWED | reflow | -Locked,flowed
    let bare = horizon=1/fluent=p/fluent=q/end=/
    no_laws_clash_then_missing = clash 0 | bare | p,-p,q | | p
    no_laws_missing_then_clash = missing 1 | bare | p | | q,-q
    # The log has two fluents and three actions: lock at time 2 is atom 2 * 5 + 2 + 1, and the last fluent atom 16.
    log_clash_then_missing = clash 13 | log | flow,lock/ -> flow,lock,-lock/ | state=locked,flowed/ -> state=locked/
    log_missing_then_clash = missing 1 | log | flow,lock/ -> flow,lock,-lock/ | state=locked,-flowed/ -> state=locked/
    # Thirty steps: the bad atoms lie as far from each other as they can, and next to each other.
    horizon_30_clash_then_missing_at_the_end = clash 0 | long | state=-f0 -> state=f0,-f0 | -f0,-f1/end= -> -f0/end=
    horizon_30_missing_then_clash_at_the_end = missing 1 | long | state=-f0,-f1 -> state=-f0 | ,-f1/end= -> ,-f1,f1/end=
    horizon_30_clash_then_missing_last = clash 90 | long | -f0,-f1/end= -> -f0,f0/end=
    horizon_30_missing_then_clash_last = missing 90 | long | -f0,-f1/end= -> -f1,f1/end=
    # The largest recipe has 32 names a step: fluent 22 at time 30 is atom 982.
    largest_clash_then_missing_at_the_end = clash 0 | largest | state=-f0 -> state=f0,-f0 | ,-f23/end= -> /end=
    largest_missing_then_clash_at_the_end = missing 0 | largest | state=-f0, -> state= | ,-f23/end= -> ,-f23,f23/end=
    largest_clash_then_missing_last = clash 982 | largest | ,-f23/end= -> ,f22/end=
    """, three=lasting(3, SWITCH), long=still(30, 2, 1, inertia("f0", "f1")), largest=largest())
