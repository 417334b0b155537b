//! The two sides of the comparison. The oracle's is here; the library's is `library.rs`, which only linking programs include.

use crate::call::{Call, Function, Part, Said};

/// Whoever answers calls. The parts are left as a caller would find them.
pub trait Side {
    fn say(&mut self, function: Function, parts: &mut [Part]) -> u64;
}

/// Answers a list of calls; what an earlier call left is lent to a later one that asks for it.
pub fn answers(side: &mut dyn Side, calls: &[Call]) -> Vec<Said> {
    let mut said: Vec<Said> = Vec::with_capacity(calls.len());
    for call in calls {
        let mut parts = lent(call, &said);
        let number = side.say(call.function, &mut parts);
        said.push(Said { number, parts });
    }
    said
}

/// What is lent to a call whose earlier ones said this. An earlier call that is not there leaves nothing.
pub fn lent(call: &Call, said: &[Said]) -> Vec<Part> {
    let sorts = call.function.sorts().iter();
    let parts = call.parts.iter().zip(sorts);
    parts
        .map(|(part, sort)| match (part, sort) {
            (Part::Left(earlier, place), _) if *earlier < said.len() => said[*earlier].parts[*place].clone(),
            (Part::Left(..), b'w' | b'W') => Part::Words(vec![]),
            (Part::Left(..), _) => Part::Bytes(vec![]),
            _ => part.clone(),
        })
        .collect()
}

/// Makes a side of a module with the functions of `oracle::header`.
#[macro_export]
macro_rules! side_of {
    ($name:ident, $($header:tt)+) => {
        pub struct $name;

        impl $crate::sides::Side for $name {
            fn say(&mut self, function: $crate::call::Function, parts: &mut [$crate::call::Part]) -> u64 {
                use $($header)+ as header;
                use $crate::call::{Function as F, Part::{Bytes, Words}};
                match (function, parts) {
                    (F::Report, [Bytes(input), Bytes(out)]) => header::report(input, out),
                    (F::CheckSet, [Bytes(values), Words(table)]) => header::check_set(values, table),
                    (F::CheckCompletion, [Bytes(values), Words(table)]) => header::check_completion(values, table),
                    (F::CheckByLevels, [Bytes(values), Words(table), Words(levels)]) => {
                        header::check_by_levels(values, table, levels)
                    }
                    (F::Translate, [Bytes(text), Words(table)]) => header::translate(text, table),
                    (F::ReadHistory, [Bytes(text), Bytes(history), Bytes(values)]) => {
                        header::read_history(text, history, values)
                    }
                    (F::CheckHistory, [Bytes(text), Bytes(values), Words(table)]) => {
                        header::check_history(text, values, table)
                    }
                    (F::CausalReading, [Bytes(input)]) => header::causal_reading(input),
                    (function, parts) => unreachable!("{function:?} is not lent {parts:?}"),
                }
            }
        }
    };
}

side_of!(Oracle, oracle::header);
