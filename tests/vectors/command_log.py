"""Stored inputs for command logs: histories whose act lines list only what was done."""
from recipes import SWITCH, history, inertia, inputs, largest, lasting, still

CASES = inputs("""
    # The full recipe, long and short, and the log.
    m3_act_line_empty | full | locked,-flowed | | -locked,-flowed
    nothing_done | full | locked,-flowed | | locked,-flowed
    nothing_done_but_unlocked | full | locked,flowed | | -locked,flowed
    short_nothing_done | short | locked,-flowed | | locked,-flowed
    short_nothing_done_but_unlocked | short | locked,flowed | | -locked,flowed
    short_m2_act_line_empty | short | -locked,-flowed | | -locked,flowed
    short_m3_act_line_empty | short | locked,-flowed | | -locked,-flowed
    log | log
    log_all_listed | log | act=/ -> act=-reflow,-lock,-unlock/
    log_unlock_left_out | log | act=unlock/ -> act=/
    log_lock_left_out | log | act=reflow,lock/ -> act=reflow/
    log_reflow_too_early | log | act=unlock/ -> act=reflow,unlock/
    # What an act line of two actions lists of them.
    first_of_two_listed | switch | -p,q | a | p,q
    last_of_two_listed | switch | p,q | b | -p,q
    first_of_two_listed_negative | switch | p,-q | -a | p,-q
    last_of_two_listed_negative | switch | p,-q | -b | p,-q
    none_of_two_listed | switch | -p,-q | | -p,-q
    the_other_of_two_listed | switch | -p,q | b | p,q
    both_of_two_listed | switch | -p,q | b,a | p,q
    negative_listed_twice | switch | p,-q | -b,-b | p,-q
    done_and_negative_twice | switch | -p,q | -b,a,-b | p,q
    both_literals_of_an_action | switch | p,q | a,-a | p,q
    both_literals_negative_first | switch | p,q | -b,b | p,q
    both_literals_beside_the_other | switch | p,q | -b,a,b | p,q
    both_literals_at_the_second_step | two | p,q | | p,q | -b,b | p,q
    let by_nothing = horizon=1/fluent=p/action=a/action=b/causes=p/by=-a/nonexecutable=a,-b/end=/
    caused_by_what_was_not_done | by_nothing | -p | | p
    caused_by_what_was_not_done_either | by_nothing | -p | b | p
    nonexecutable_without_the_other | by_nothing | -p | a | p
    not_caused_by_what_was_done | by_nothing | -p | a,b | p
    # Which of several act lines leave their actions out.
    act_line_empty_first | three | p,-q | | p,-q | -b,-a | p,-q | -b,-a | p,-q
    act_line_empty_middle | three | p,-q | -b,-a | p,-q | | p,-q | -b,-a | p,-q
    act_line_empty_last | three | p,-q | -b,-a | p,-q | -b,-a | p,-q | | p,-q
    act_line_empty_first_and_last | three | p,-q | | p,-q | -b,-a | p,-q | | p,-q
    act_line_empty_each | three | p,-q | | p,-q | | p,-q | | p,-q
    done_first | three | -p,-q | a | p,-q | | p,-q | | p,-q
    done_in_the_middle | three | -p,-q | | -p,-q | a | p,-q | | p,-q
    done_last | three | -p,-q | | -p,-q | | -p,-q | a | p,-q
    done_by_turns | three | -p,q | a | p,q | b | -p,q | a | p,q
    done_a_step_too_late | three | -p,q | | p,q | a | p,q | | p,q
    done_a_step_too_early | three | -p,q | a | -p,q | | p,q | | p,q
    # Fluents that are not listed: missing is said of them, whatever actions are left out before; an action with both
    # literals before them is a clash.
    missing_first_atom_act_line_empty | full | -flowed | | -locked,flowed
    missing_before_an_act_line_empty | full | -locked | | -locked,flowed
    missing_behind_an_act_line_empty | full | -locked,-flowed | | flowed
    missing_last_atom_act_line_empty | full | -locked,-flowed | | -locked
    missing_behind_an_action_negative | full | -locked,-flowed | -reflow | -locked
    missing_behind_an_action_clash | full | -locked,-flowed | reflow,-reflow | -locked
    missing_behind_all_act_lines_empty | three | p,q | | p,q | | p,q | | p
    missing_between_act_lines_empty | three | p,q | | p,q | | q | | p,q
    no_list_at_all | full | | |
    let still = horizon=2/fluent=p/inertial=p/inertial=-p/end=/
    no_actions | still | p | | p | | p
    no_actions_missing | still | p | | | | p
    # Eight actions and thirty steps.
    actions_8_none_listed | eight
    actions_8_first_listed | eight | act=/ -> act=a0/
    actions_8_last_listed | eight | act=/ -> act=a7/
    actions_8_seven_listed | eight | act=/ -> act=a0,a1,a2,a3,a4,a5,a6/
    actions_8_all_listed | eight | act=/ -> act=a0,a1,a2,a3,a4,a5,a6,a7/
    horizon_30_act_lines_empty | thirty
    actions_8_horizon_30_act_lines_empty | eight_thirty
    largest_table_act_lines_empty | largest
    last_action_done_last | eight_thirty | end=/ -> causes=f0/by=a7/end=/ | act=/state=-f0/end= -> act=a7/state=f0/end=
    last_action_not_done_last | eight_thirty | end=/ -> causes=f0/by=a7/end=/ | state=-f0/end= -> state=f0/end=
    # Refusals behind act lines that leave actions out.
    act_lines_empty | good
    fluent_behind_an_act_line_empty | two | p,q | | p,q | p | p,q
    unknown_behind_an_act_line_empty | two | p,q | | p,q | a,c | p,q
    last_comma_behind_an_act_line_empty | two | p,q | | p,q | b, | p,q
    comma_alone_in_an_act_line | two | p,q | , | p,q | | p,q
    false_in_an_act_line | two | p,q | false | p,q | | p,q
    action_in_the_last_state | two | p,q | | p,q | | p,q,a
    cut_behind_an_act_line_empty | good | act=/state=p,q/act=/state=p,q/end=/ -> act=/
    act_line_empty_without_line_end | good | act=/state=p,q/act=/state=p,q/end=/ -> act=
    act_line_without_equals_sign | good | act=/ -> act/
    act_line_left_out | good | act=/ ->
    act_line_twice | good | act=/ -> act=/act=/
    one_act_line_too_many | two | p,q | | p,q | | p,q |
    end_with_a_value_act_lines_empty | good | ,q/end=/ -> ,q/end=x/
    bytes_behind_act_lines_empty | good | ,q/end=/ -> ,q/end=//
    second_history_act_lines_empty | good | ,q/end=/ -> ,q/end=/state=p,q/act=/state=p,q/act=/state=p,q/end=/
    """, two=lasting(2, SWITCH), three=lasting(3, SWITCH), eight=still(1, 1, 8, inertia("f0"), False),
               good=lasting(2, SWITCH) + history("p,q", "", "p,q", "", "p,q"), largest=largest(listed=False),
               thirty=still(30, 2, 1, inertia("f0", "f1"), False), eight_thirty=still(30, 1, 8, inertia("f0"), False))
