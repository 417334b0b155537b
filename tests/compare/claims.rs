//! What the contract claims over several answers, or over an answer and what was lent. Both sides say the same when
//! this is asked, so that a claim tries the oracle too.

use crate::call::Function::{self, *};
use crate::call::{Call, Part, Said};
use crate::draw::List;
use crate::sides::lent;
use oracle::description::read_description;
use oracle::engine::{read_rules, Rule};
use oracle::header::{meaning, Answer, LAST_REFUSAL};
use oracle::header::{CLASH, CONTRADICTED, FAILS, HOLDS, MISSING, PASSES, PATH, READ, UNCAUSED, WRITTEN};
use oracle::report::read_input;
use oracle::translation::all_rules;
use oracle::{FALSE_HEAD, MAX_LAWS};

#[derive(Clone, Copy, Debug, PartialEq, Eq)]
pub enum Claim {
    /// Nothing beyond what holds of all calls.
    Nothing,
    /// Every call of the list says that a recipe passes: passes, holds, path, written or read; and so does all printed.
    AllPass,
    /// The list is three texts, each put through report, causal_reading and translate: the second differs from the
    /// first in the spelling of used names alone, the third in that of declared names alone.
    Respelled,
}

/// Most atoms of a set that is held to the definition.
pub const FEW_ATOMS: usize = 5;
/// How the printed output of a recipe that passes ends.
const PASSING: &str = "\nanswer=passes\nat=\ncausal=path\ntime=\nitem=\n";
/// Demand 3, and change request 4 for translated tables.
const AGREE: &str = "engine, formulas and history check agree on a translated table";

/// A call, what it was lent and what it said.
struct Seen<'a> {
    function: Function,
    lent: Vec<Part>,
    said: &'a Said,
    answer: Answer,
    /// What `report` printed.
    printed: Option<&'a str>,
}

impl<'a> Seen<'a> {
    fn new(calls: &[Call], said: &'a [Said], place: usize) -> Self {
        Seen {
            function: calls[place].function,
            lent: lent(&calls[place], &said[..place]),
            said: &said[place],
            answer: said[place].answer(),
            printed: printed(calls[place].function, &said[place]),
        }
    }

    fn passes(&self) -> bool {
        match self.function {
            Report => self.printed.is_none_or(|printed| printed.ends_with(PASSING)),
            _ => matches!(self.answer.code, PASSES | HOLDS | PATH | WRITTEN | READ),
        }
    }

    /// The answer, or that which is printed, if it is no refusal.
    fn verdict(&self) -> Option<Answer> {
        match self.function {
            Report => printed_verdict(self.printed?),
            _ => Some(self.answer).filter(|answer| answer.code > LAST_REFUSAL),
        }
    }
}

/// What `report` printed, if there was room for all of it.
pub fn printed(function: Function, said: &Said) -> Option<&str> {
    let is_whole = function == Report && said.number as usize <= said.parts[1].as_bytes().len();
    is_whole.then(|| std::str::from_utf8(said.printed()).unwrap_or_default())
}

/// What the printed line with this key says.
pub fn told<'a>(printed: &'a str, key: &str) -> Option<&'a str> {
    printed.lines().find_map(|line| line.strip_prefix(key))
}

/// The verdict that is printed; none where a refusal is.
pub fn printed_verdict(printed: &str) -> Option<Answer> {
    let word = told(printed, "answer=")?;
    let code = (PASSES..=MISSING).find(|code| meaning(*code) == word)?;
    Some(Answer::new(code, told(printed, "at=")?.parse().unwrap_or(0)))
}

/// The first claim that the answers of a list break, in words.
pub fn broken(drawn: &List, said: &[Said]) -> Option<String> {
    let places = 0..said.len();
    let seen: Vec<Seen> = places.map(|place| Seen::new(&drawn.calls, said, place)).collect();
    let mut pairs = seen.iter().flat_map(|one| seen.iter().map(move |other| (one, other)));
    let of_calls = seen.iter().find_map(of_one);
    let of_list = match drawn.claim {
        Claim::AllPass if !seen.iter().all(Seen::passes) => Some("every call passes"),
        Claim::Respelled if !is_respelled(&seen) => Some("spelling changes no more than a shown name"),
        _ => None,
    };
    let found = of_calls.or_else(|| pairs.find_map(|(one, other)| of_two(one, other)));
    found.or(of_list).map(str::to_string)
}

/// A claim that one call breaks.
fn of_one(seen: &Seen) -> Option<&'static str> {
    let told = |key| told(seen.printed?, key);
    let (answer, causal) = (told("answer="), told("causal="));
    let (passes, is_path) = (answer == Some("passes"), causal == Some("path"));
    let (is_fault, is_none) = (matches!(answer, Some("missing" | "clash")), causal == Some("none"));
    let claims = [
        (is_left(seen), "what is not written is as it was lent"),
        (by_definition(seen), "a small set passes exactly by the definition"),
        (has_stated_fault(seen), "missing and clash are as request 5 states"),
        (passes == is_path, "what is printed passes exactly on a path"),
        (is_fault == is_none, "causal=none is for missing and clash"),
    ];
    claims.iter().find(|(is_kept, _)| !is_kept).map(|(_, claim)| *claim)
}

/// A claim that two calls break.
fn of_two(one: &Seen, other: &Seen) -> Option<&'static str> {
    let same = || one.lent[..2] == other.lent[..2];
    let same_history = || is_same_history(one, other);
    let (code, beside) = (one.answer.code, other.answer.code);
    let (equal, alike) = (one.answer == other.answer, one.passes() == other.passes());
    let (is_kept, claim) = match (one.function, other.function) {
        (CheckSet, CheckByLevels) if matches!(beside, HOLDS | FAILS) && same() => {
            (alike, "where levels fit, what holds passes")
        }
        (CheckSet, CheckCompletion) if beside == FAILS && same() => (!one.passes(), "what passes meets the formulas"),
        (CheckCompletion, CheckByLevels) if beside != 13 && same() => (equal, "levels that fit change no answer"),
        (CheckSet, CheckHistory) if same_history() => (equal, AGREE),
        (CheckCompletion | CheckByLevels, CheckHistory) if code != 13 && same_history() => (alike, AGREE),
        (Report, CausalReading) if one.lent[0] == other.lent[0] => {
            (tells(one.printed?, other), "report and causal_reading agree")
        }
        _ => return None,
    };
    (!is_kept).then_some(claim)
}

/// Is all as it was lent that must be, and no output over 400 bytes? How far the history check writes is not said.
fn is_left(seen: &Seen) -> bool {
    let written = match seen.function {
        Report => seen.said.number,
        _ if seen.answer.code <= LAST_REFUSAL => 0,
        Translate => seen.answer.value >> 32,
        _ => u64::MAX,
    };
    let parts = seen.lent.iter().zip(&seen.said.parts);
    let is_kept = parts.zip(seen.function.sorts()).all(|((lent, left), sort)| {
        let start = if sort.is_ascii_uppercase() { written as usize } else { 0 };
        behind(lent, start) == behind(left, start)
    });
    is_kept && (seen.function != Report || written <= 400)
}

/// What stands in a part from a place on.
fn behind(part: &Part, start: usize) -> (Option<&[u8]>, Option<&[u16]>) {
    (part.as_bytes().get(start..), part.as_words().get(start..))
}

/// Asked of the engine, and of the formulas where levels fit and each atom has one value.
fn by_definition(seen: &Seen) -> bool {
    let is_judged = match seen.function {
        CheckSet => seen.verdict().is_some(),
        CheckByLevels => matches!(seen.answer.code, HOLDS | FAILS),
        _ => return true,
    };
    let (values, table) = (seen.lent[0].as_bytes(), seen.lent[1].as_words());
    !is_judged || values.len() > FEW_ATOMS || is_answer_set(values, table) == Some(seen.passes())
}

/// Is the set an answer set by the definition? All its subsets are tried.
fn is_answer_set(values: &[u8], table: &[u16]) -> Option<bool> {
    let bits = |codes: &[u16]| codes.iter().fold(0, |set, code| set | 1_u32 << code);
    let set = values.iter().rev().fold(0, |set, value| set << 2 | u32::from(*value));
    let mut reduct = read_rules(table, values.len()).ok()?;
    reduct.retain(|rule| bits(rule.negated) & set == 0);
    let has = |set: u32, head: u16| head != FALSE_HEAD && set >> head & 1 == 1;
    let keeps = |set: u32, rule: &Rule| bits(rule.plain) & !set != 0 || has(set, rule.head);
    let is_closed = |set: u32| reduct.iter().all(|rule| keeps(set, rule));
    let has_closed_part = (0..set).any(|part| part & !set == 0 && is_closed(part));
    Some(!values.contains(&3) && is_closed(set) && !has_closed_part)
}

/// Is the lowest bad atom named? Before change request 5 a clash was said only where every atom had a value: do answers
/// change, from missing to clash, exactly where an atom with both values lies below the first one with none?
fn has_stated_fault(seen: &Seen) -> bool {
    let Some(verdict) = seen.verdict() else {
        return true;
    };
    let values = match seen.function {
        Report => &read_input(seen.lent[0].as_bytes()).map_or(vec![], |input| input.values),
        CheckHistory => seen.lent[1].as_bytes(),
        CheckCompletion | CheckByLevels => seen.lent[0].as_bytes(),
        _ => return true,
    };
    let first = |is_bad: fn(&u8) -> bool| values.iter().position(is_bad);
    let (none, both) = (first(|value| *value == 0), first(|value| *value == 3));
    let clash = both.map(|atom| Answer::new(CLASH, atom));
    let former = none.map(|atom| Answer::new(MISSING, atom)).or(clash);
    let stated = if both.is_some() && both < none { clash } else { former };
    let present = Some(verdict).filter(|verdict| matches!(verdict.code, MISSING | CLASH));
    let lowest = first(|value| matches!(value, 0 | 3));
    present == stated && present.map(|fault| fault.value as usize) == lowest
}

/// Is a lent table the translation of the description whose history was checked, on the same values, one an atom?
fn is_same_history(table: &Seen, history: &Seen) -> bool {
    let (text, values) = (history.lent[0].as_bytes(), history.lent[1].as_bytes());
    let is_same = table.lent[0] == history.lent[1] && history.verdict().is_some();
    let is_whole = |names| all_rules(&names).words == table.lent[1].as_words();
    let has_one = is_same && values.iter().all(|value| matches!(value, 1 | 2));
    has_one && read_description(text, MAX_LAWS).is_ok_and(is_whole)
}

/// Is what is printed for a text what the causal reading says of it? Refusal 11 is a bad atom.
fn tells(printed: &str, causal: &Seen) -> bool {
    let Answer { code, value } = causal.answer;
    let (time, item) = (value / 65_536, value % 65_536);
    let text = String::from_utf8_lossy(causal.lent[0].as_bytes());
    let mut names = text.lines().filter_map(|line| line.strip_prefix("fluent="));
    let item = match code {
        PATH => return printed.ends_with(PASSING),
        11 => return printed.ends_with(&format!("\nat={value}\ncausal=none\ntime=\nitem=\n")),
        CONTRADICTED => item.to_string(),
        UNCAUSED => names.nth(item as usize).unwrap_or_default().to_string(),
        _ => return printed == format!("refused={code}\nplace={value}\n"),
    };
    printed.ends_with(&format!("\ncausal={}\ntime={time}\nitem={item}\n", meaning(code)))
}

/// Used names in another spelling change nothing; declared ones no more than the shown name, which stands in the last
/// line printed and is held against the causal reading of every text.
fn is_respelled(seen: &[Seen]) -> bool {
    let by = |function| seen.iter().filter(move |seen| seen.function == function);
    let is_same = |function| {
        let said = by(function).map(|seen| (seen.said.number, seen.said.parts.get(1)));
        let said: Vec<_> = said.collect();
        said.len() == 3 && said.iter().all(|one| *one == said[0])
    };
    let reports: Vec<&str> = by(Report).filter_map(|seen| seen.printed).collect();
    let [first, used, declared] = reports[..] else {
        return false;
    };
    let unnamed = first.split("item=").next() == declared.split("item=").next();
    first == used && unnamed && is_same(CausalReading) && is_same(Translate)
}

#[cfg(test)]
mod tests {
    use super::*;
    use crate::sides::{answers, Oracle};
    use oracle::header::{BROKEN, UNFOUNDED};

    const LEFT: &str = "what is not written is as it was lent";

    /// Places among the calls below, wrong numbers that they may say, and the claims that these break.
    const WRONG: [(usize, u64, &str); 12] = [
        (0, 401, LEFT),
        (1, UNCAUSED as u64, "report and causal_reading agree"),
        (2, 9, LEFT),
        (3, BROKEN as u64, AGREE),
        (4, FAILS as u64, AGREE),
        (5, FAILS as u64, AGREE),
        (6, UNFOUNDED as u64, AGREE),
        (7, UNFOUNDED as u64, "where levels fit, what holds passes"),
        (8, FAILS as u64, "what passes meets the formulas"),
        (9, 10, "levels that fit change no answer"),
        (10, MISSING as u64, "missing and clash are as request 5 states"),
        (11, PASSES as u64, "a small set passes exactly by the definition"),
    ];

    /// Answers by the oracle break no claim; made wrong they break the one with these words.
    fn breaks(claim: Claim, calls: Vec<Call>, words: &str, spoil: impl Fn(&mut [Said])) {
        let kind = "";
        let drawn = List { kind, calls, claim };
        let mut said = answers(&mut Oracle, &drawn.calls);
        assert_eq!(broken(&drawn, &said), None, "{words}");
        spoil(&mut said);
        assert_eq!(broken(&drawn, &said).as_deref(), Some(words));
    }

    fn calls() -> Vec<Call> {
        let history = "state=a\nact=\n".repeat(5);
        let text = format!("horizon=5\nfluent=a\ninertial=a\nend=\n{history}state=a\nend=\n");
        let (text, room) = (|| Part::bytes(&text), || Part::words([7; 33]));
        let values = || Part::bytes([1; 6]);
        let levels = || Part::words([0, 0, 1, 1, 2, 2, 3, 3, 4, 4, 5, 5]);
        let facts = || Part::words([0, 0, 0, 2, 0, 0, 4, 0, 0, 6, 0, 0, 8, 0, 0, 10, 0, 0]);
        vec![
            Call::new(Report, [text(), Part::bytes([7; 420])]),
            Call::new(CausalReading, [text()]),
            Call::new(Translate, [text(), room()]),
            Call::new(CheckHistory, [text(), values(), room()]),
            Call::new(CheckByLevels, [values(), Part::Left(2, 1), levels()]),
            Call::new(CheckCompletion, [values(), Part::Left(3, 2)]),
            Call::new(CheckSet, [values(), Part::Left(2, 1)]),
            Call::new(CheckSet, [values(), facts()]),
            Call::new(CheckCompletion, [values(), facts()]),
            Call::new(CheckByLevels, [values(), facts(), levels()]),
            Call::new(CheckCompletion, [Part::bytes([3, 0]), Part::words([])]),
            Call::new(CheckSet, [Part::bytes([1]), Part::words([0, 0, 1, 0])]),
        ]
    }

    #[test]
    fn each_claim_can_be_broken() {
        for (place, number, words) in WRONG {
            breaks(Claim::Nothing, calls(), words, |said| said[place].number = number);
        }
        breaks(Claim::Nothing, calls(), LEFT, |said| said[4].parts[1] = Part::words([]));
        let causal = vec![calls().remove(1)];
        breaks(Claim::AllPass, causal, "every call passes", |said| said[0].number = 0);
        let three = || [&calls()[..3], &calls()[..3], &calls()[..3]].concat();
        let (path, none) = ("passes\nat=\ncausal=path", "broken\nat=\ncausal=none");
        for (old, new, words) in [
            ("passes", "broken", "what is printed passes exactly on a path"),
            (path, none, "causal=none is for missing and clash"),
            ("words=33", "words=34", "spelling changes no more than a shown name"),
        ] {
            breaks(Claim::Respelled, three(), words, |said| {
                let printed = String::from_utf8_lossy(said[3].parts[1].as_bytes());
                said[3].parts[1] = Part::bytes(printed.replace(old, new).as_bytes());
            });
        }
    }
}
