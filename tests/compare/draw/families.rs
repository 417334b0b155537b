//! Families of calls that are small enough to be made whole.

use super::known::full_recipe;
use super::List;
use crate::call::{Call, Function, Part};
use crate::claims::Claim;

/// All families, one behind the other.
pub fn families() -> impl Iterator<Item = List> {
    let bytes = 0..=u8::MAX;
    let names = bytes.clone().map(|byte| list("every byte in a name", names_with(byte).map(|name| declared(&name))));
    let pairs =
        bytes.map(|byte| list("every pair of bytes in a name", (0..=u8::MAX).map(move |used| used_as(byte, used))));
    let sets = (0..1 << 10).map(|set| list("every set of the full recipe", judged(set)));
    let programs = rules().into_iter().map(|rule| list("every small program", programs_with(&rule)));
    names.chain(pairs).chain(sets).chain(programs)
}

fn list(kind: &'static str, calls: impl IntoIterator<Item = Call>) -> List {
    let calls = calls.into_iter().collect();
    List { kind, calls, claim: Claim::Nothing }
}

/// A call that reads a description and leaves its table.
fn translate(text: &[u8]) -> Call {
    Call::new(Function::Translate, [Part::bytes(text), Part::words([7; 20])])
}

/// Names with a byte alone, first, last, between others and as the sixteenth.
fn names_with(byte: u8) -> impl Iterator<Item = Vec<u8>> {
    let around: [(&[u8], &[u8]); 5] = [(b"", b""), (b"", b"q"), (b"P", b""), (b"p", b"Q"), (b"XXXXXXXXXXXXXXX", b"")];
    around.into_iter().map(move |(before, behind)| [before, &[byte], behind].concat())
}

fn declared(name: &[u8]) -> Call {
    translate(&[b"horizon=1\nfluent=", name, b"\nend=\n"].concat())
}

/// A name that is declared with one byte and used with another, in another case besides.
fn used_as(declared: u8, used: u8) -> Call {
    translate(&[b"horizon=1\nfluent=p", &[declared][..], b"\nstatic=P", &[used], b"\nif=\nend=\n"].concat())
}

/// A set of the full recipe, two bits an atom, by all calls that judge values.
fn judged(set: u32) -> [Call; 4] {
    let values = Part::Bytes((0..5).map(|atom| (set >> (2 * atom) & 3) as u8).collect());
    let table = Part::Left(0, 2);
    let times = Part::words([0, 0, 0, 0, 0, 0, 1, 1, 1, 1]);
    [
        Call::new(Function::CheckHistory, [Part::bytes(full_recipe()), values.clone(), Part::words([7; 53])]),
        Call::new(Function::CheckSet, [values.clone(), table.clone()]),
        Call::new(Function::CheckCompletion, [values.clone(), table.clone()]),
        Call::new(Function::CheckByLevels, [values, table, times]),
    ]
}

/// Every rule over one atom without repeated parts, and none.
fn rules() -> Vec<Vec<u16>> {
    let bodies: [&[u16]; 7] = [&[0, 0], &[1, 0, 0], &[1, 0, 1], &[0, 1, 0], &[0, 1, 1], &[1, 1, 0, 1], &[1, 1, 1, 0]];
    let headed = |head: u16| bodies.map(|body| [&[head], body].concat());
    [vec![vec![]], [0, 1, 65_535].map(headed).concat()].concat()
}

/// A rule and every other one behind it, with every value.
fn programs_with(first: &[u16]) -> Vec<Call> {
    let program = |second: &Vec<u16>| [first, second].concat();
    let check = |value: u8, table: &Vec<u16>| Call::new(Function::CheckSet, [Part::bytes([value]), Part::words(table)]);
    let tables: Vec<Vec<u16>> = rules().iter().map(program).collect();
    (0..4).flat_map(|value| tables.iter().map(move |table| check(value, table))).collect()
}

#[cfg(test)]
mod tests {
    use super::*;
    use crate::sides::{answers, Oracle};
    use oracle::header::WRITTEN;

    /// How many calls of a kind leave a table.
    fn taken(kind: &str) -> usize {
        let said = families().filter(|list| list.kind == kind).flat_map(|list| answers(&mut Oracle, &list.calls));
        said.filter(|said| said.answer().code == WRITTEN).count()
    }

    /// 52 letters may stand first, 10 digits and the underscore behind them too.
    #[test]
    fn bytes_of_names_are_as_many_as_there_are() {
        assert_eq!(taken("every byte in a name"), 2 * 52 + 3 * 63);
    }

    /// Each letter stands for itself and for its other case; a digit or the underscore for itself.
    #[test]
    fn pairs_that_are_one_name_are_as_many_as_there_are() {
        assert_eq!(taken("every pair of bytes in a name"), 2 * 52 + 11);
    }
}
