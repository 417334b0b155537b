//! Random histories, most of them found by simulation so that many pass; and what spoils them.

use crate::random::Random;
use oracle::record::{Description, Head, Law};

/// How often a step is tried, and a guess at a state is mended, before a history is left as it is.
const TRIES: usize = 8;

fn all_hold(codes: &[u16], truths: &[bool]) -> bool {
    let holds = |code: &u16| truths[usize::from(code / 2)] == code.is_multiple_of(2);
    codes.iter().all(holds)
}

fn truths(random: &mut Random, count: usize) -> Vec<bool> {
    (0..count).map(|_| random.chance(1, 2)).collect()
}

/// One value an atom: a history that the laws explain, where such a one is found.
pub fn explained_values(random: &mut Random, description: &Description) -> Vec<u8> {
    let mut state = first_state(random, description);
    let mut history = Vec::with_capacity(description.atoms());
    for _ in 0..description.horizon {
        let (mut before, mut next) = (vec![], vec![]);
        for _ in 0..TRIES {
            before = [state.clone(), truths(random, description.actions.len())].concat();
            next = state.clone();
            if mend(random, description, &before, &mut next) {
                break;
            }
        }
        history.extend(before);
        state = next;
    }
    let all = history.iter().chain(&state);
    all.map(|truth| if *truth { 1 } else { 2 }).collect()
}

/// A random state, mended until it satisfies the static laws or no try is left.
pub fn first_state(random: &mut Random, description: &Description) -> Vec<bool> {
    let mut state = truths(random, description.fluents.len());
    for _ in 0..6 * TRIES {
        let broken = |law: &&Law| {
            let head = matches!(law.head, Head::Literal(code) if all_hold(&[code], &state));
            law.after.is_none() && all_hold(&law.ifs, &state) && !head
        };
        match description.laws.iter().find(broken).map(|law| law.head) {
            None => return state,
            Some(Head::Literal(code)) => state[usize::from(code / 2)] = code.is_multiple_of(2),
            Some(Head::False) => state = truths(random, state.len()),
        }
    }
    state
}

/// Changes a guess at the next state towards what the laws cause. True if the guess ends up explained.
pub fn mend(random: &mut Random, description: &Description, before: &[bool], next: &mut [bool]) -> bool {
    for _ in 0..TRIES {
        let Some(caused) = caused(description, before, next) else {
            return false;
        };
        let mut good = true;
        for (fluent, truth) in next.iter_mut().enumerate() {
            let code = 2 * fluent + usize::from(!*truth);
            let against = caused[code ^ 1];
            if against || !caused[code] {
                good = false;
                *truth ^= against || random.chance(2, 3);
            }
        }
        if good {
            return true;
        }
    }
    false
}

/// One mark a fluent literal: is it caused in the step? None if false is.
fn caused(description: &Description, before: &[bool], next: &[bool]) -> Option<Vec<bool>> {
    let mut marks = vec![false; 2 * next.len()];
    for law in &description.laws {
        let after = law.after.as_ref().is_none_or(|after| all_hold(after, before));
        if after && all_hold(&law.ifs, next) {
            match law.head {
                Head::Literal(code) => marks[usize::from(code)] = true,
                Head::False => return None,
            }
        }
    }
    Some(marks)
}

/// Spoils a history a little: a value turned round, taken away or doubled, at one place or a few.
pub fn spoil(random: &mut Random, _description: &Description, values: &mut [u8]) {
    let times = if random.chance(3, 4) { 1 } else { random.between(2, 4) };
    for _ in 0..times {
        let index = random.below(values.len());
        let other = 3 - values[index];
        values[index] = *random.pick(&[0, 3, 3, other, other, other, other, other]);
    }
}

/// Leaves some atoms without a value and gives some both, near each other and far apart, in any order. Only atoms that
/// may lack a value do; there is one at least.
pub fn put_faults(random: &mut Random, values: &mut [u8], may_lack: impl Fn(usize) -> bool) {
    let last = values.len() - 1;
    let lacking: Vec<usize> = (0..=last).filter(|atom| may_lack(*atom)).collect();
    let any = *random.pick(&lacking);
    let none = *random.pick(&[lacking[0], lacking[lacking.len() - 1], any, any, any]);
    let anywhere = random.below(values.len());
    let (below, above) = (none.saturating_sub(1), last.min(none + 1));
    let both = *random.pick(&[below, below, above, above, 0, last, anywhere, anywhere]);
    for _ in 0..random.weighted(&[4, 2, 1, 1]) {
        let atom = random.below(values.len());
        values[atom] = if may_lack(atom) { *random.pick(&[0, 3]) } else { 3 };
    }
    values[both] = 3;
    values[none] = 0;
}

/// Puts a history's lists into another order, with some literals twice; the set it stands for stays the same.
pub fn reorder(random: &mut Random, lists: &mut [Vec<u16>]) {
    for list in lists {
        if random.chance(1, 3) {
            repeat_literals(random, list, 3);
            random.shuffle(list);
        }
    }
}

/// Lists some of a list's literals, fewer than the limit, once more; of an empty list there is none.
pub fn repeat_literals(random: &mut Random, list: &mut Vec<u16>, limit: usize) {
    let more = random.below(limit);
    for _ in 0..more.min(more * list.len()) {
        let again = *random.pick(list);
        list.push(again);
    }
}
