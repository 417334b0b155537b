//! Descriptions and histories written out as text.

use crate::random::Random;
use oracle::record::{Description, Head, Law};

/// A line, without its ending byte.
pub fn line(key: impl AsRef<[u8]>, value: &[u8]) -> Vec<u8> {
    [key.as_ref(), b"=", value].concat()
}

/// A literal of a fluent or an action. A code past all names shows a name nothing declares.
fn literal_text(description: &Description, code: u16) -> Vec<u8> {
    let mut names = description.fluents.iter().chain(&description.actions);
    let name = names.nth(usize::from(code / 2));
    let sign: &[u8] = if code % 2 == 1 { b"-" } else { b"" };
    [sign, name.map_or(b"undeclared", Vec::as_slice)].concat()
}

/// A line with a list.
pub fn list_line(description: &Description, key: impl AsRef<[u8]>, codes: &[u16]) -> Vec<u8> {
    let items: Vec<Vec<u8>> = codes.iter().map(|code| literal_text(description, *code)).collect();
    line(key, &items.join(&b','))
}

/// The lines of a description, without their ending bytes. Every law is written out in full.
pub fn description_lines(description: &Description) -> Vec<Vec<u8>> {
    lines_with(description, |law| forms(description, law).swap_remove(0))
}

/// The same lines, but laws that have a short form may be written so: none of them, all, or law by law at random.
pub fn mixed_lines(random: &mut Random, description: &Description) -> Vec<Vec<u8>> {
    let short_of_four = *random.pick(&[0, 1, 2, 2, 3, 4]);
    lines_with(description, |law| {
        let forms = forms(description, law);
        let is_short = forms.len() > 1 && random.chance(short_of_four, 4);
        random.pick(if is_short { &forms[1..] } else { &forms[..1] }).clone()
    })
}

/// The lines of a description whose laws are written by the given function.
fn lines_with(description: &Description, law_lines: impl FnMut(&Law) -> Vec<Vec<u8>>) -> Vec<Vec<u8>> {
    let mut lines = vec![line("horizon", description.horizon.to_string().as_bytes())];
    lines.extend(description.fluents.iter().map(|name| line("fluent", name)));
    lines.extend(description.actions.iter().map(|name| line("action", name)));
    lines.extend(description.laws.iter().flat_map(law_lines));
    lines.push(line("end", b""));
    lines
}

/// The forms of a law, each as its lines: the one written out in full, and behind it every short one that it has.
fn forms(description: &Description, law: &Law) -> Vec<Vec<Vec<u8>>> {
    let (head, own) = match law.head {
        Head::Literal(code) => (literal_text(description, code), Some(vec![code])),
        Head::False => (b"false".to_vec(), None),
    };
    let ifs = list_line(description, "if", &law.ifs);
    let after = |key| list_line(description, key, law.after.as_deref().unwrap_or(&[]));
    let is_static = law.after.is_none();
    let is_own = own.as_ref() == Some(&law.ifs);
    let is_bare = law.ifs.is_empty() && !is_static;
    let forms = [
        (is_static, vec![line("static", &head), ifs.clone()]),
        (!is_static, vec![line("dynamic", &head), ifs, after("after")]),
        (is_own && is_static, vec![line("default", &head)]),
        (is_own && law.after == own, vec![line("inertial", &head)]),
        (is_bare, vec![line("causes", &head), after("by")]),
        (is_bare && own.is_none(), vec![after("nonexecutable")]),
    ];
    let forms = forms.into_iter().filter(|(is_one, _)| *is_one);
    forms.map(|(_, lines)| lines).collect()
}

/// The lists of a history, state and act in turn, as literal codes in the order of the atoms: all that the values hold.
pub fn history_lists(description: &Description, values: &[u8]) -> Vec<Vec<u16>> {
    let stride = description.stride();
    let mut lists = vec![Vec::new(); 2 * description.horizon + 1];
    for (atom, value) in values.iter().enumerate() {
        let list = &mut lists[2 * (atom / stride) + usize::from(description.is_action(atom))];
        let code = 2 * (atom % stride) as u16;
        list.extend([code].iter().filter(|_| value & 1 != 0));
        list.extend([code + 1].iter().filter(|_| value & 2 != 0));
    }
    lists
}

/// The same lists, but act lines may leave out what was not done: none of it, all in some lines, some in any, or all.
pub fn log_lists(random: &mut Random, description: &Description, values: &[u8]) -> Vec<Vec<u16>> {
    let (lines_of_two, literals_of_two) = *random.pick(&[(0, 2), (1, 2), (2, 1), (2, 2)]);
    let mut lists = history_lists(description, values);
    for act in lists.iter_mut().skip(1).step_by(2) {
        if random.chance(lines_of_two, 2) {
            let whole = act.clone();
            let undone = |code: u16| code % 2 == 1 && !whole.contains(&(code - 1));
            act.retain(|code| !(undone(*code) && random.chance(literals_of_two, 2)));
        }
    }
    lists
}

/// The lines of a history given by its lists, without their ending bytes.
pub fn history_lines(description: &Description, lists: &[Vec<u16>]) -> Vec<Vec<u8>> {
    let keys = ["state", "act"].iter().cycle();
    let lines = keys.zip(lists).map(|(key, codes)| list_line(description, key, codes));
    lines.chain([line("end", b"")]).collect()
}

/// The lines of a history that may leave out what was not done.
pub fn log_lines(random: &mut Random, description: &Description, values: &[u8]) -> Vec<Vec<u8>> {
    history_lines(description, &log_lists(random, description, values))
}

/// Lines put together, each ended by byte 10.
pub fn join(lines: &[Vec<u8>]) -> Vec<u8> {
    lines.iter().flat_map(|line| line.iter().chain(b"\n")).copied().collect()
}

/// A description's text, every law written out.
pub fn description_text(description: &Description) -> Vec<u8> {
    join(&description_lines(description))
}

/// A history's text, in which all is listed.
pub fn history_text(description: &Description, values: &[u8]) -> Vec<u8> {
    join(&history_lines(description, &history_lists(description, values)))
}

#[cfg(test)]
mod tests {
    use super::super::{damage::keys_from, damage::parts, descriptions::description};
    use super::*;
    use oracle::{description::read_description, history::filled, history::read_lines, Refusal, MAX_LAWS};

    /// Tries something on random descriptions and their lines.
    fn on_descriptions(test: fn(&mut Random, Description, Vec<Vec<u8>>)) {
        let mut random = Random::new(5);
        for _ in 0..2_000 {
            let made = description(&mut random, None);
            let lines = mixed_lines(&mut random, &made);
            test(&mut random, made, lines);
        }
    }

    #[test]
    fn what_is_written_short_is_read_back() {
        on_descriptions(|_, mut made, lines| {
            (made.length, made.lines) = (join(&lines).len(), lines.len());
            assert_eq!(read_description(&join(&lines), MAX_LAWS), Ok(made));
        });
    }

    /// A text has no way to say that an action is without a value; all other values are read back.
    #[test]
    fn what_is_listed_or_left_out_is_read_back() {
        on_descriptions(|random, made, _| {
            let values: Vec<u8> = (0..made.atoms()).map(|_| random.below(4) as u8).collect();
            for text in [history_text(&made, &values), join(&log_lines(random, &made, &values))] {
                assert_eq!(read_lines(&made, &text), Ok(filled(&made, &values)));
            }
        });
    }

    #[test]
    fn a_shorter_run_is_refused_where_the_next_law_starts() {
        on_descriptions(|random, made, lines| {
            let starts_law = |key: &[u8]| keys_from(b"static").contains(&key) && key != b"by";
            let starts = (1..=lines.len()).filter(|at| starts_law(parts(&lines[at - 1]).0));
            let refusals: Vec<Refusal> = starts.map(|place| Refusal::new(5, place)).collect();
            assert_eq!(refusals.len(), made.laws.len());
            let run = random.below(made.laws.len() + 1);
            let read = read_description(&join(&lines), run);
            assert_eq!(read.err().as_ref(), refusals.get(run));
        });
    }
}
