//! Labels of lists, calls and answers, with the least number of each that a run must see.

use crate::call::Function::{self, *};
use crate::call::{Call, Part, Said};
use crate::claims::{printed, printed_verdict, told, FEW_ATOMS};
use crate::draw::List;
use oracle::causal::{causal_reading, Causal};
use oracle::description::read_description;
use oracle::header::{meaning, Answer, LAST_REFUSAL};
use oracle::header::{BROKEN, CLASH, CONTRADICTED, FAILS, HOLDS, MISSING, PASSES, PATH, UNCAUSED, UNFOUNDED};
use oracle::history::{filled, listed_values};
use oracle::record::{Description, Head, Law};
use oracle::report::read_input;
use oracle::text::{is_false, is_name, lowered, same_name, Lines};
use oracle::{FALSE_HEAD, MAX_LAWS};
use std::collections::BTreeMap;
use std::io::{self, Write};

/// The least numbers are those of a run of so many lists.
const RUN: u64 = 200_000;

/// Every label with its least number. Words in braces make a label each. What does not stand here cannot be counted.
#[rustfmt::skip]
const LABELS: [(u64, &str); 45] = [
    (100, "list: {text sound|text with a spoilt history|text with several bad atoms|text at a limit|damaged text}"),
    (100, "list: {long text|text respelled|table of up to 5 atoms|table of up to 40 atoms|table with loops}"),
    (100, "list: {damaged table|damaged values|levels that fit|levels that fit negated parts too|levels off by one}"),
    (100, "list: {levels of loops|levels of another length|levels with bad atoms|levels with a damaged table}"),
    (100, "list: {recipe cut|recipes joined|recipes that do not fit|recipe cut at a wrong place}"),
    (50, "list: {table of 41 to 1,024 atoms|recipes too long}"),
    (100, "list: {every byte in a name|every pair of bytes in a name|every set of the full recipe}"),
    (10, "list: {every small program}"),
    (10, "list: {table of about 1,024 atoms|table of about 4,096 rules|levels of about 1,024 atoms}"),
    (5, "list: {largest text}"),
    (100, "report: {1|2|3|4|5|6|7|passes|clash|broken|unfounded|missing|path|contradicted|uncaused}"),
    (100, "check_set: {10|11|12|passes|clash|broken|unfounded}"),
    (100, "check_completion: {10|11|12|clash|missing|holds|fails}"),
    (100, "check_by_levels: {10|11|12|13|clash|missing|holds|fails}"),
    (100, "translate: {1|2|3|4|5|6|9|written}"),
    (100, "read_history: {1|2|3|4|5|6|7|10|read}"),
    (50, "check_history: {1}"),
    (100, "check_history: {2|3|4|5|6|9|10|11|passes|clash|broken|unfounded|missing}"),
    (100, "causal_reading: {1|2|3|4|5|6|7|11|path|contradicted|uncaused}"),
    (100, "text: a law by {static|dynamic|default|inertial|causes|nonexecutable}"),
    (100, "text: passes, {1 step|2 to 5 steps|6 to 10 steps|11 to 20 steps|21 to 30 steps}"),
    (100, "text: passes, {none|some|all} of what was not done is listed"),
    (100, "text: {both literals of an action|a fluent missing behind an action not listed}"),
    (100, "text: other spelling in {laws|states|acts|what passes}"),
    (100, "text: {name declared with capitals|name shown with capitals}"),
    (100, "text: False heads {static|dynamic|causes}"),
    (100, "refused: in another spelling {fluent then fluent|fluent then action|action then action}"),
    (100, "refused: False {declared|as default or inertial|in a list|behind a hyphen}"),
    (100, "refused: {a key with capitals|a declared byte 32 away|a used byte 32 away}"),
    (100, "both faults: {clash|missing} by {report|check_history|check_completion|check_by_levels}"),
    (100, "both faults: {clash|missing} {of a fluent|of an action|and the other at the next atom}"),
    (100, "both faults: {at time 0|at two times|at the last time}"),
    (100, "formulas: {check_completion|check_by_levels} fails at {a literal|false}"),
    (100, "formulas: {check_completion|check_by_levels} {holds of what passes|fails of what does not}"),
    (100, "formulas: check_completion holds of what does not"),
    (100, "formulas: {levels refused by a rule|levels refused by length|holds on a table left|fails on a table left}"),
    (100, "formulas: by the definition {passes|clash|broken|unfounded}"),
    (50, "recipe cut: {2 steps|30 steps|1 fluent|24 fluents|no actions|8 actions|a default}"),
    (50, "recipe cut: {most steps change a fluent|most steps do an action|a fluent caused by static laws alone}"),
    (50, "recipe cut: {a static law headed by false|a dynamic law headed by false|a law without conditions}"),
    (50, "recipe cut: {an empty after-list beside an if-list|1 step first|1 step last|another state explained}"),
    (50, "recipes joined: {30 steps|1 step first|1 step last}"),
    (50, "recipes that do not fit: {path|contradicted|uncaused}"),
    (50, "recipe cut at a wrong place: {lines refused|values refused|values pass|values judged otherwise}"),
    (50, "recipe cut at a wrong place: another first state {passes|breaks a law|judged otherwise}"),
];

/// Each label with its least number and how often it was seen.
pub struct Tally(BTreeMap<String, (u64, u64)>);

/// The labels that one of the table stands for.
fn rows(least: u64, label: &str) -> Vec<(String, (u64, u64))> {
    let Some((front, rest)) = label.split_once('{') else {
        return vec![(label.to_string(), (least, 0))];
    };
    let (words, end) = rest.split_once('}').unwrap_or((rest, ""));
    let labels = words.split('|').map(|word| format!("{front}{word}{end}"));
    labels.flat_map(|label| rows(least, &label)).collect()
}

impl Default for Tally {
    fn default() -> Self {
        Tally(LABELS.iter().flat_map(|(least, label)| rows(*least, label)).collect())
    }
}

impl Tally {
    /// Counts what a list and its answers are examples of. Of its texts the first counts for which all is printed.
    pub fn count(&mut self, drawn: &List, said: &[Said]) {
        let calls: Vec<(&Call, &Said)> = drawn.calls.iter().zip(said).collect();
        self.see("list", [drawn.kind]);
        for (call, said) in &calls {
            self.see(call.function.name(), words(call.function, said));
            self.see("formulas", formulas(call, said, &calls));
            self.see("both faults", faults(call.function, said).into_iter().flatten());
        }
        let text =
            calls.iter().find_map(|(call, said)| Some((said.parts[0].as_bytes(), printed(call.function, said)?)));
        if let Some((text, printed)) = text {
            self.see("refused", refused(text, printed).into_iter().flatten());
            self.see("text", taken(text, printed).into_iter().flatten());
        }
        self.see(drawn.kind, recipes(drawn.kind, &calls).into_iter().flatten());
    }

    /// Counts labels of a sort. Each must stand in the table.
    fn see(&mut self, sort: &str, labels: impl IntoIterator<Item = impl AsRef<str>>) {
        for label in labels {
            let label = format!("{sort}: {}", label.as_ref());
            let row = self.0.get_mut(&label);
            row.unwrap_or_else(|| panic!("no such label: {label}")).1 += 1;
        }
    }

    pub fn print(&self, out: &mut impl Write) -> io::Result<()> {
        let mut rows = self.0.iter();
        rows.try_for_each(|(label, (_, seen))| writeln!(out, "{label}: {seen}"))
    }

    /// The labels that were seen too rarely in a run of so many lists. In a small run chance counts for more, so that its least
    /// numbers are smaller than its size alone makes them.
    pub fn too_rare(&self, lists: u64) -> Vec<String> {
        let rare = |(label, (least, seen)): (&String, &(u64, u64))| {
            let wanted = least * lists * lists.min(RUN) / (RUN * RUN);
            (*seen < wanted).then(|| format!("{label}: {seen}, wanted {wanted}"))
        };
        self.0.iter().filter_map(rare).collect()
    }
}

/// Those of some labels that are so.
fn those(labels: &[(bool, &str)]) -> Vec<String> {
    let so = labels.iter().filter(|(is_so, _)| *is_so);
    so.map(|(_, label)| label.to_string()).collect()
}

/// What a call says, in words. Of `report` it is what is printed, if all is.
fn words(function: Function, said: &Said) -> Vec<String> {
    let code = said.answer().code;
    let lines = printed(function, said).unwrap_or_default();
    let told = "refused= answer= causal=".split(' ').filter_map(|key| told(lines, key));
    match function {
        Report => told.filter(|word| *word != "none").map(str::to_string).collect(),
        _ if code <= LAST_REFUSAL => vec![code.to_string()],
        _ => vec![meaning(code).to_string()],
    }
}

/// What the engine and the formulas say: alone, side by side on the same values, on a table that a call left.
fn formulas(call: &Call, said: &Said, calls: &[(&Call, &Said)]) -> Vec<String> {
    let Answer { code, value } = said.answer();
    let (name, word, is_last) = (call.function.name(), meaning(code), value == u64::from(FALSE_HEAD));
    let is_set = |(other, set): &&(&Call, &Said)| other.function == CheckSet && set.parts[..] == said.parts[..2];
    let is_small = || said.parts[0].as_bytes().len() <= FEW_ATOMS;
    match (call.function, code) {
        (CheckSet, PASSES..=MISSING) if is_small() => vec![format!("by the definition {word}")],
        (CheckByLevels, 13) if is_last => vec!["levels refused by length".to_string()],
        (CheckByLevels, 13) => vec!["levels refused by a rule".to_string()],
        (CheckCompletion | CheckByLevels, HOLDS | FAILS) => {
            let set = calls.iter().find(is_set).map(|(_, set)| set.answer().code == PASSES);
            let beside = set.map(|so| format!("{name} {word} of what {}", ["does not", "passes"][usize::from(so)]));
            let place = if is_last { "false" } else { "a literal" };
            let fails = (code == FAILS).then(|| format!("{name} fails at {place}"));
            let is_left = matches!(call.parts[1], Part::Left(..));
            let left = is_left.then(|| format!("{word} on a table left"));
            fails.into_iter().chain(beside).chain(left).collect()
        }
        _ => vec![],
    }
}

/// What is said of a recipe cut at a wrong place, or with a second half that begins in another state.
fn wrong_place((call, said): &(&Call, &Said)) -> Option<&'static str> {
    match (call.function, said.answer().code) {
        (CheckHistory, 10) => Some("values refused"),
        (CheckHistory, PASSES) => Some("values pass"),
        (CheckHistory, BROKEN | UNFOUNDED) => Some("values judged otherwise"),
        (CausalReading, 2) => Some("lines refused"),
        (CausalReading, PATH) => Some("another first state passes"),
        (CausalReading, CONTRADICTED) if said.answer().value < 65_536 => Some("another first state breaks a law"),
        (CausalReading, CONTRADICTED | UNCAUSED) => Some("another first state judged otherwise"),
        _ => None,
    }
}

/// What a verdict is an example of if the set has atoms without a value and atoms with both.
fn faults(function: Function, said: &Said) -> Option<Vec<String>> {
    let part = |place: usize| said.parts[place].as_bytes();
    let verdict = match function {
        Report => printed_verdict(printed(function, said)?)?,
        _ => said.answer(),
    };
    let values = match (verdict.code, function) {
        (MISSING | CLASH, Report) => &read_input(part(0)).ok()?.values,
        (MISSING | CLASH, CheckHistory) => part(1),
        (MISSING | CLASH, CheckCompletion | CheckByLevels) => part(0),
        _ => return None,
    };
    let sought = if verdict.code == CLASH { 0 } else { 3 };
    let other = values.iter().position(|value| *value == sought)?;
    let (first, word) = (verdict.value as usize, meaning(verdict.code));
    let mut labels = vec![format!("{word} by {}", function.name())];
    labels.extend((other == first + 1).then(|| format!("{word} and the other at the next atom")));
    if let Ok(names) = read_description(part(0), MAX_LAWS) {
        let sort = ["a fluent", "an action"][usize::from(names.is_action(first))];
        labels.push(format!("{word} of {sort}"));
        let (time, later) = (first / names.stride(), other / names.stride());
        labels.extend(those(&[(later == 0, "at time 0"), (time < later, "at two times")]));
        labels.extend(those(&[(time == names.horizon, "at the last time")]));
    }
    Some(labels)
}

/// A line's key and its value.
type Line<'a> = (&'a str, &'a [u8]);

fn lines(text: &[u8]) -> impl Iterator<Item = Line<'_>> {
    text.split(|byte| *byte == b'\n').map(|line| {
        let equals = line.iter().position(|byte| *byte == b'=').unwrap_or(line.len());
        let key = std::str::from_utf8(&line[..equals]).unwrap_or_default();
        (key, line.get(equals + 1..).unwrap_or_default())
    })
}

/// The literals of a list.
fn items(value: &[u8]) -> impl Iterator<Item = &[u8]> {
    value.split(|byte| *byte == b',').filter(|item| !item.is_empty())
}

fn unsigned(item: &[u8]) -> &[u8] {
    item.strip_prefix(b"-").unwrap_or(item)
}

fn has_capital(bytes: &[u8]) -> bool {
    bytes.iter().any(u8::is_ascii_uppercase)
}

/// Would the bytes be right if one of them were 32 away?
fn is_apart(bytes: &[u8], is_right: impl Fn(&[u8]) -> bool) -> bool {
    let apart = |at: usize| [&bytes[..at], &[bytes[at] ^ 32], &bytes[at + 1..]].concat();
    (0..bytes.len()).any(|at| is_right(&apart(at)))
}

/// What a taken text is an example of: its laws and capitals, and its history as a command log.
fn taken(text: &[u8], printed: &str) -> Option<Vec<String>> {
    let passes = told(printed, "answer=")? == "passes";
    let names = read_description(text, MAX_LAWS).ok()?;
    let mut labels = log(&names, &text[names.length..], passes)?;
    let declared = || names.fluents.iter().chain(&names.actions);
    let is_new = |item: &[u8]| !is_false(item) && !declared().any(|name| name == unsigned(item));
    // Is a name spelled otherwise in laws, in states, in acts?
    let mut other = [false; 3];
    for (key, value) in lines(text) {
        let place = match key {
            "horizon" | "fluent" | "action" | "end" | "" => continue,
            "state" => 1,
            "act" => 2,
            _ => 0,
        };
        other[place] = other[place] || items(value).any(is_new);
        if !matches!(key, "if" | "after" | "by" | "state" | "act") {
            labels.push(format!("a law by {key}"));
            labels.extend((is_false(value) && has_capital(value)).then(|| format!("False heads {key}")));
        }
    }
    let is_shown = has_capital(told(printed, "item=")?.as_bytes());
    labels.extend(those(&[
        (other[0], "other spelling in laws"),
        (other[1], "other spelling in states"),
        (other[2], "other spelling in acts"),
        (passes && other.contains(&true), "other spelling in what passes"),
        (declared().any(|name| has_capital(name)), "name declared with capitals"),
        (is_shown, "name shown with capitals"),
    ]));
    Some(labels)
}

/// What a history is an example of as a command log.
#[rustfmt::skip]
fn log(names: &Description, history: &[u8], passes: bool) -> Option<Vec<String>> {
    let listed = listed_values(names, history).ok()?;
    let values = filled(names, &listed);
    let actions = || (0..values.len()).filter(|atom| names.is_action(*atom));
    let undone = |values: &[u8]| actions().filter(|atom| values[*atom] == 2).count();
    let (all, some) = (undone(&values), undone(&listed));
    let missing = values.iter().position(|value| *value == 0).unwrap_or(0);
    let bands = ["1 step", "2 to 5 steps", "6 to 10 steps", "11 to 20 steps", "21 to 30 steps"];
    let band = bands[[2, 6, 11, 21].iter().filter(|first| **first <= names.horizon).count()];
    Some(those(&[
        (passes, &format!("passes, {band}")),
        (passes && all > 0 && some == 0, "passes, none of what was not done is listed"),
        (passes && some > 0 && some < all, "passes, some of what was not done is listed"),
        (passes && all > 0 && some == all, "passes, all of what was not done is listed"),
        (actions().any(|atom| listed[atom] == 3), "both literals of an action"),
        (actions().any(|atom| atom < missing && listed[atom] == 0), "a fluent missing behind an action not listed"),
    ]))
}

/// What a refused text is an example of, by the line at which it is refused and the names declared before it.
#[rustfmt::skip]
fn refused(text: &[u8], printed: &str) -> Option<Vec<String>> {
    let number: usize = told(printed, "refused=")?.parse().ok()?;
    let mut declared: Vec<Line> = lines(text).take(told(printed, "place=")?.parse().ok()?).collect();
    let (key, value) = declared.pop()?;
    declared.retain(|(key, _)| matches!(*key, "fluent" | "action"));
    let is_declared = |name: &[u8]| declared.iter().any(|(_, known)| same_name(known, name));
    let stray = items(value).find(|item| !is_declared(unsigned(item))).unwrap_or_default();
    let is_word = |word: &[u8]| is_false(word) && has_capital(word);
    let is_single = matches!(key, "default" | "inertial");
    let small: Vec<u8> = key.bytes().map(lowered).chain(*b"=\n").collect();
    let is_key = has_capital(key.as_bytes()) && Lines::new(&small).take().is_ok();
    let twice = declared.iter().find(|(_, known)| same_name(known, value) && *known != value);
    let twice = twice.map(|(first, _)| format!("in another spelling {first} then {key}"));
    Some(those(&[
        (number == 2 && is_key, "a key with capitals"),
        (number == 4 && twice.is_some(), &twice.unwrap_or_default()),
        (number == 4 && is_word(value), "False declared"),
        (number == 4 && !is_name(value) && is_apart(value, is_name), "a declared byte 32 away"),
        (number == 6 && is_single && is_word(stray), "False as default or inertial"),
        (number == 6 && !is_single && is_word(stray), "False in a list"),
        (number == 6 && stray.strip_prefix(b"-").is_some_and(is_word), "False behind a hyphen"),
        (number == 6 && is_apart(unsigned(stray), is_declared), "a used byte 32 away"),
    ]))
}

/// What recipes are an example of: the longest, and whether others of one step are its beginning or its end.
#[rustfmt::skip]
fn recipes(kind: &str, calls: &[(&Call, &Said)]) -> Option<Vec<String>> {
    match kind {
        "recipe cut" | "recipes joined" | "recipes that do not fit" => (),
        "recipe cut at a wrong place" => return Some(calls.iter().filter_map(wrong_place).map(String::from).collect()),
        _ => return None,
    }
    let judged = calls.iter().filter(|(call, said)| call.function == CheckHistory && said.answer().code > LAST_REFUSAL);
    let histories: Vec<_> = judged.map(|(_, said)| (said.parts[0].as_bytes(), said.parts[1].as_bytes())).collect();
    let (text, values) = *histories.iter().max_by_key(|(_, values)| values.len())?;
    let names = read_description(text, MAX_LAWS).ok()?;
    let causal = Answer::from(causal_reading(&names, values).ok()?);
    let mut ones = histories.iter().filter(|(_, part)| part.len() == names.stride() + names.fluents.len());
    let first = ones.clone().any(|(_, part)| values.starts_with(part));
    let last = ones.any(|(_, part)| values.ends_with(part));
    let mut labels = those(&[(first, "1 step first"), (last, "1 step last"), (names.horizon == 30, "30 steps")]);
    match kind {
        "recipe cut" => labels.extend(whole(&names, values)),
        "recipes that do not fit" => labels = vec![meaning(causal.code).to_string()],
        _ => (),
    }
    Some(labels)
}

/// What a recipe that is cut is an example of.
#[rustfmt::skip]
fn whole(names: &Description, values: &[u8]) -> Vec<String> {
    let (fluents, steps) = (names.fluents.len(), names.horizon);
    let times: Vec<&[u8]> = values.chunks(names.stride()).collect();
    let changing = times.windows(2).filter(|pair| pair[0][..fluents] != pair[1][..fluents]).count();
    let doing = times.iter().filter(|time| time[fluents..].contains(&1)).count();
    let any = |is_so: fn(&Law) -> bool| names.laws.iter().any(is_so);
    let is_default = |law: &Law| matches!(law.head, Head::Literal(code) if law.ifs == [code]) && law.after.is_none();
    let is_path = |names: &Description, values: &[u8]| causal_reading(names, values) == Ok(Causal::Path);
    let (mut direct, mut one) = (names.clone(), names.clone());
    direct.laws.retain(|law| law.after.is_some() || is_default(law));
    one.horizon = 1;
    // Would another next state, which differs in one fluent, be explained by the same step too?
    let turned = |step: &[u8], atom: usize| [&step[..atom], &[3 - step[atom]], &step[atom + 1..]].concat();
    let is_open = |step: &[u8]| (one.stride()..one.atoms()).any(|atom| is_path(&one, &turned(step, atom)));
    those(&[
        (steps == 2, "2 steps"),
        (fluents == 1, "1 fluent"),
        (fluents == 24, "24 fluents"),
        (names.actions.is_empty(), "no actions"),
        (names.actions.len() == 8, "8 actions"),
        (2 * changing > steps, "most steps change a fluent"),
        (2 * doing > steps, "most steps do an action"),
        (any(|law| law.head == Head::False && law.after.is_none()), "a static law headed by false"),
        (any(|law| law.head == Head::False && law.after.is_some()), "a dynamic law headed by false"),
        (any(|law| law.ifs.is_empty() && law.after.as_ref().is_none_or(Vec::is_empty)), "a law without conditions"),
        (any(|law| !law.ifs.is_empty() && law.after == Some(vec![])), "an empty after-list beside an if-list"),
        (names.laws.iter().any(is_default), "a default"),
        (!is_path(&direct, values), "a fluent caused by static laws alone"),
        (is_open(&values[..one.atoms()]) || is_open(&values[values.len() - one.atoms()..]), "another state explained"),
    ])
}

#[cfg(test)]
mod tests {
    use super::*;
    use crate::claims::Claim;
    use crate::sides::{answers, Oracle};

    #[test]
    fn nothing_seen_is_too_rare() {
        let tally = Tally::default();
        assert_eq!(tally.too_rare(RUN).len(), tally.0.len());
        assert!(tally.too_rare(RUN / 1_000).is_empty());
    }

    fn counted(kind: &'static str) -> Vec<String> {
        let calls = vec![Call::new(CheckSet, [Part::bytes([1]), Part::words([0; 3])])];
        let said = answers(&mut Oracle, &calls);
        let claim = Claim::Nothing;
        let mut tally = Tally::default();
        tally.count(&List { kind, calls, claim }, &said);
        tally.0.retain(|_, (_, seen)| *seen > 0);
        tally.0.into_keys().collect()
    }

    #[test]
    fn a_list_is_counted() {
        let labels = "check_set: passes; formulas: by the definition passes; list: damaged table";
        assert_eq!(counted("damaged table").join("; "), labels);
    }

    #[test]
    #[should_panic(expected = "no such label: list: none")]
    fn an_unknown_kind_is_a_mistake() {
        counted("none");
    }
}
