//! The one comparison: a list of calls answered by both sides. A difference is shown with the smallest input found that has it.

use crate::call::{Call, Part, Said};
use crate::claims;
use crate::draw::families::families;
use crate::draw::{list, List};
use crate::kinds::Tally;
use crate::program::Program;
use crate::random::Random;
use crate::sides::{answers, Oracle, Side};

/// How often a smaller input is tried for a difference, at most.
const TRIES: usize = 4_000;

/// A list, and how it is made again.
pub type Named = (String, List);

/// So many lists drawn from a seed.
pub fn drawn(seed: u64, lists: u64) -> impl Iterator<Item = Named> {
    (0..lists).map(move |number| {
        let drawn = list(&mut Random::of_case(seed, number));
        (format!("seed {seed}, list {number}"), drawn)
    })
}

/// The lists of all families.
pub fn whole_families() -> impl Iterator<Item = Named> {
    families().map(|list| ("a family".to_string(), list))
}

/// Compares lists, some of them beside the program too. The error tells the first difference.
pub fn compare(
    library: &mut dyn Side,
    mut program: Option<&mut Program>,
    lists: impl Iterator<Item = Named>,
    tally: &mut Tally,
) -> Result<(), String> {
    for (name, list) in lists {
        let found = compare_list(library, &list).and_then(|said| {
            tally.count(&list, &said);
            match &mut program {
                Some(program) => program.compare(list.kind, &list.calls, &said),
                None => Ok(()),
            }
        });
        found.map_err(|found| format!("{name}, {}\n{found}", list.kind))?;
    }
    Ok(())
}

/// Compares one list: both sides must say the same, and what they say must be as the contract claims. It is handed on.
pub fn compare_list(library: &mut dyn Side, drawn: &List) -> Result<Vec<Said>, String> {
    let wanted = answers(&mut Oracle, &drawn.calls);
    let given = answers(library, &drawn.calls);
    if let Some(place) = differs(&wanted, &given) {
        return Err(shown(library, &drawn.calls[..=place]));
    }
    match claims::broken(drawn, &wanted) {
        Some(claim) => Err(format!("both sides break a claim: {claim}\n{}", lines(&drawn.calls))),
        None => Ok(wanted),
    }
}

/// The first call that is answered otherwise.
pub fn differs(wanted: &[Said], given: &[Said]) -> Option<usize> {
    wanted.iter().zip(given).position(|(wanted, given)| wanted != given)
}

/// A difference in the last of some calls, made as small as can be found.
fn shown(library: &mut dyn Side, calls: &[Call]) -> String {
    let mut has_difference = |calls: &[Call]| {
        let (wanted, given) = (answers(&mut Oracle, calls), answers(library, calls));
        differs(&wanted, &given) == Some(calls.len() - 1)
    };
    let small = shrunk(calls, &mut has_difference);
    let (wanted, given) = (answers(&mut Oracle, &small), answers(library, &small));
    let last = small.len() - 1;
    format!("{}oracle  {}\nlibrary {}", lines(&small), said(&wanted[last]), said(&given[last]))
}

fn lines(calls: &[Call]) -> String {
    let line =
        |(number, call): (usize, &Call)| format!("call {number}: {} of {:?}\n", call.function.name(), call.parts);
    calls.iter().enumerate().map(line).collect()
}

fn said(said: &Said) -> String {
    format!("{:?} (number {}), parts left: {:?}", said.answer(), said.number, said.parts)
}

/// Smaller calls that still have what is looked for: first without earlier calls, then with shorter parts, in ever smaller
/// pieces, as long as that gets on.
pub fn shrunk(calls: &[Call], has_it: &mut dyn FnMut(&[Call]) -> bool) -> Vec<Call> {
    let mut small = calls.to_vec();
    let mut tries = TRIES;
    for call in (0..calls.len() - 1).rev() {
        let fewer = without_call(&small, call);
        if fewer.as_ref().is_some_and(|fewer| has_it(fewer)) {
            small = fewer.unwrap_or_default();
        }
    }
    loop {
        let before = small.clone();
        for call in 0..small.len() {
            for part in 0..small[call].parts.len() {
                shorten(&mut small, (call, part), &mut tries, has_it);
            }
        }
        if small == before || tries == 0 {
            return small;
        }
    }
}

/// The calls without one of them; none if a later one is lent what it left.
fn without_call(calls: &[Call], gone: usize) -> Option<Vec<Call>> {
    let mut fewer = calls.to_vec();
    fewer.remove(gone);
    for part in fewer[gone..].iter_mut().flat_map(|call| &mut call.parts) {
        match part {
            Part::Left(call, _) if *call == gone => return None,
            Part::Left(call, _) if *call > gone => *call -= 1,
            _ => (),
        }
    }
    Some(fewer)
}

/// Takes pieces out of a part: the whole, halves, quarters and so on down to single elements.
fn shorten(calls: &mut [Call], at: (usize, usize), tries: &mut usize, has_it: &mut dyn FnMut(&[Call]) -> bool) {
    let length = |part: &Part| part.as_bytes().len() + part.as_words().len();
    let mut size = length(&calls[at.0].parts[at.1]);
    while size > 0 {
        let mut start = 0;
        while start < length(&calls[at.0].parts[at.1]) && *tries > 0 {
            *tries -= 1;
            let whole = calls[at.0].parts[at.1].clone();
            calls[at.0].parts[at.1] = without(&whole, start, size);
            if !has_it(calls) {
                calls[at.0].parts[at.1] = whole;
                start += size;
            }
        }
        size = if size == 1 { 0 } else { size.div_ceil(2) };
    }
}

/// A part without some of its elements.
fn without(part: &Part, start: usize, size: usize) -> Part {
    fn cut<T: Clone>(whole: &[T], start: usize, size: usize) -> Vec<T> {
        [&whole[..start], &whole[whole.len().min(start + size)..]].concat()
    }
    match part {
        Part::Bytes(bytes) => Part::Bytes(cut(bytes, start, size)),
        Part::Words(words) => Part::Words(cut(words, start, size)),
        left => left.clone(),
    }
}

#[cfg(test)]
mod tests {
    use super::*;
    use crate::call::Function;
    use oracle::header::{Answer, PASSES, UNFOUNDED};
    use std::collections::BTreeSet;

    /// A library that makes no derivation.
    struct NoDerivation;

    impl Side for NoDerivation {
        fn say(&mut self, function: Function, parts: &mut [Part]) -> u64 {
            let said = Oracle.say(function, parts);
            match (function, Answer::from_number(said).code) {
                (Function::CheckSet, UNFOUNDED) => u64::from(PASSES),
                _ => said,
            }
        }
    }

    /// A library that leaves a byte behind which it should not.
    struct OneByteMore;

    impl Side for OneByteMore {
        fn say(&mut self, function: Function, parts: &mut [Part]) -> u64 {
            let said = Oracle.say(function, parts);
            if let (Function::Report, Part::Bytes(out)) = (function, &mut parts[parts.len() - 1]) {
                out.iter_mut().skip(said as usize).take(1).for_each(|byte| *byte ^= 1);
            }
            said
        }
    }

    fn found(library: &mut dyn Side) -> Result<(), String> {
        compare(library, None, drawn(7, 3_000), &mut Tally::default())
    }

    #[test]
    fn the_oracle_agrees_with_itself() {
        assert_eq!(found(&mut Oracle), Ok(()));
    }

    #[test]
    fn a_difference_is_found_and_tells_its_seed() {
        let told = found(&mut NoDerivation).unwrap_err();
        assert!(told.starts_with("seed 7, list "), "{told}");
    }

    /// The smallest program with an unfounded set has one atom, which has a value, and no rule at all; a call on which no other
    /// rests goes.
    #[test]
    fn a_difference_is_shown_by_the_smallest_input_found() {
        let report = Call::new(Function::Report, [Part::bytes("horizon=1\n"), Part::bytes([0; 9])]);
        let table = Part::words([0, 0, 1, 2, 2, 0, 1, 0, 4, 0, 0]);
        let calls = [report, Call::new(Function::CheckSet, [Part::bytes([1, 1, 1]), table])];
        let told = shown(&mut NoDerivation, &calls);
        assert!(told.starts_with("call 0: check_set of [bytes [1], words []]\n"), "{told}");
    }

    #[test]
    fn a_byte_left_otherwise_is_a_difference() {
        assert!(found(&mut OneByteMore).unwrap_err().contains("report of"));
    }

    /// Seeds that differ in a bit, or by one, draw no list of each other; small ones may come up twice by chance.
    #[test]
    fn near_seeds_draw_other_lists() {
        let shown = |seed: u64, number: u64| lines(&list(&mut Random::of_case(seed, number)).calls);
        let large = |seed: u64| -> BTreeSet<String> {
            let all = (0..300).map(|number| shown(seed, number));
            all.filter(|calls| calls.len() > 1_000).collect()
        };
        let first = large(0);
        assert!(first.len() > 100, "{}", first.len());
        for seed in 1..32 {
            assert!(first.is_disjoint(&large(seed)), "{seed}");
        }
    }
}
