//! Texts at the contract's limits and one past them.

use super::damage::{keys_from, law_lines, parts, split, LAW_VALUES};
use super::descriptions::{any_law, description, effect, law, names, pick_word, spelled, without_laws, SMALL};
use super::render::{description_lines, history_lines, join, line, log_lines, log_lists, mixed_lines};
use super::{histories::explained_values, histories::repeat_literals, known::largest_description};
use crate::random::Random;
use oracle::record::{Description, Head};
use oracle::{MAX_ACTIONS, MAX_FLUENTS, MAX_HORIZON, MAX_LAWS, MAX_NAME, MAX_TEXT};

/// Horizons in and out of range, well and badly spelled.
pub const HORIZONS: &str = "|0|00|01|030|1|2|9|10|29|30|31|32|40|99|100|257|65537|4294967297|18446744073709551617|\
                            +1|-1| 1|1 |1a|a|:|1/";

/// Lists of five to seven items, some of which are no literals or of the wrong sort; + and * as in LAW_VALUES.
const LONG_LISTS: &str = "+,+,+,+,+|+,+,+,+,+,+|*,+,+,+,*,*|+,+,+,+,+,+,+|+,+,+,+,+,+,*|*,*,*,*,*,*,*|+,+,+,*,+|\
                          +,*,+,+,+,+,+|+,+,+,+,+,|+,+,+,+,+,+,|+,+,+,+,+,+,+,|+,+,+,+,+,undeclared|\
                          +,+,+,+,+,+,undeclared|undeclared,+,+,+,+,+,+";

/// One text at a limit. Its history fits if the description is taken, and follows all laws but one put in at the end.
pub fn text(random: &mut Random) -> Vec<u8> {
    let mut made = description(random, Some(SMALL));
    let limit = random.below(10);
    match limit {
        0 | 1 => many_names(random, &mut made, limit == 0),
        2 | 3 => many_laws(random, &mut made),
        7 => long_name(random, &mut made),
        _ => (),
    }
    let horizon = pick_word(random, if limit == 8 { HORIZONS } else { "1|2" });
    let number = String::from_utf8_lossy(horizon).parse().ok();
    made.horizon = number.filter(|number| *number <= MAX_HORIZON + 1).unwrap_or(1);
    let mut lines = mixed_lines(random, &made);
    lines[0] = line("horizon", horizon);
    if (2..=6).contains(&limit) {
        let (heads, lists) = [(LAW_VALUES, LAW_VALUES), ("+|+|false", LONG_LISTS)][limit / 4];
        let key = *random.pick(keys_from(b"static"));
        let (end, last) = (lines.len() - 1, law_lines(random, &lines, key, heads, lists));
        lines.splice(end..end, last);
    }
    let values = explained_values(random, &made);
    let mut lists = log_lists(random, &made, &values);
    for list in lists.iter_mut().filter(|_| limit == 9) {
        repeat_literals(random, list, 20);
    }
    lines.extend(history_lines(&made, &lists));
    join(&lines)
}

/// One name too few, as many as may be, or one too many; that one may be good, taken, or no name at all.
fn many_names(random: &mut Random, made: &mut Description, of_fluents: bool) {
    let (before, most) = if of_fluents { (0, MAX_FLUENTS) } else { (2, MAX_ACTIONS) };
    let count = before + random.between(most - 1, most + 1);
    let mut all = names(random, count);
    if count > before + most {
        let taken = random.pick(&all[..count - 1]).clone();
        let last = [all[count - 1].clone(), taken, b"false".to_vec(), b"-x".to_vec()];
        all[count - 1] = random.pick(&last).clone();
    }
    *made = without_laws(1, all, if of_fluents { count } else { before });
    made.laws = (0..2).map(|_| any_law(random, made)).collect();
}

/// 62 to 64 laws, many of which always hold.
fn many_laws(random: &mut Random, made: &mut Description) {
    for _ in made.laws.len()..random.between(MAX_LAWS - 2, MAX_LAWS) {
        let law = match random.below(6) {
            0 | 1 => any_law(random, made),
            2 => effect(random, made),
            way => law(Head::Literal(0), vec![0], (way != 3).then(|| vec![0])),
        };
        made.laws.push(law);
    }
}

fn long_name(random: &mut Random, made: &mut Description) {
    let is_fluent = made.actions.is_empty() || random.chance(1, 2);
    let names = if is_fluent { &mut made.fluents } else { &mut made.actions };
    let index = random.below(names.len());
    let length = random.between(MAX_NAME - 1, MAX_NAME + 2);
    names[index] = spelled(random, length);
}

/// A text of 65,534 to 65,537 bytes or far more, by its history, by its history alone, or by bytes behind the history.
pub fn long_text(random: &mut Random) -> Vec<u8> {
    let made = description(random, Some(SMALL));
    let mut text = join(&mixed_lines(random, &made));
    let wanted = MAX_TEXT - 1 + *random.pick(&[0, 0, 1, 1, 2, 3, 4_000, 66_000]);
    let whole = wanted - text.len();
    let of_history = *random.pick(&[whole, whole, wanted, 0]);
    text.extend(history_of(random, &made, of_history));
    text.resize(text.len().max(wanted), b'x');
    text
}

/// A history of so many bytes at least: its first literal is repeated, and what is left stands behind the end line.
fn history_of(random: &mut Random, description: &Description, wanted: usize) -> Vec<u8> {
    let values = explained_values(random, description);
    let mut lines = log_lines(random, description, &values);
    let again = [b",", &split(parts(&lines[0]).1, b',')[0][..]].concat();
    let missing = wanted.saturating_sub(join(&lines).len());
    lines[0].extend(again.repeat(missing / again.len()));
    [join(&lines), vec![b'\n'; missing % again.len()]].concat()
}

/// The largest description or one law less, with a history in which all is done or nothing, spoilt in one place or not.
pub fn largest_text(random: &mut Random) -> Vec<u8> {
    let mut made = largest_description();
    made.horizon = random.between(MAX_HORIZON - 2, MAX_HORIZON);
    made.laws.truncate(MAX_LAWS - random.below(2));
    let of_actions = *random.pick(&[1, 1, 2]);
    let value = |atom: usize| if made.is_action(atom) { of_actions } else { 1 };
    let mut values: Vec<u8> = (0..made.atoms()).map(value).collect();
    if random.chance(1, 2) {
        values[random.below(made.atoms())] = random.below(4) as u8;
    }
    let mut lines = description_lines(&made);
    lines.extend(log_lines(random, &made, &values));
    join(&lines)
}
