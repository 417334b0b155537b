//! Times the proved causal reading by itself against the oracle's, on the same inputs in one run.
//!
//! The C library reads a text at each call. So the crate `bench_causal_reading` is linked here, which reads a text once and its
//! history causally so many times more: that leaves the time of one reading, on values and laws that are there
//! already. The figures hold for the machine and the day they are taken on; nothing depends on them.

use compare::draw::known::{belt_recipe, full_recipe, inertia_recipe, largest_recipe};
use oracle::causal::causal_reading;
use oracle::header::{Answer, PATH};
use oracle::report::{read_input, Input};
use oracle::MAX_HORIZON;
use std::hint::black_box;
use timing::measure::{by_turns, print_pair, timed};

#[link(name = "bench_causal_reading", kind = "static")]
extern "C" {
    fn causal_times(input: *const u8, input_length: usize, times: usize) -> u64;
}

/// How many readings are timed together, on either side.
const TIMES: u32 = 100;

/// The library: an input is read once, and its history causally once and so many times more.
fn library(text: &[u8], times: u32) -> Answer {
    // SAFETY: the text lives as long as the call, which only reads it, and the length is its own.
    Answer::from_number(unsafe { causal_times(text.as_ptr(), text.len(), times as usize) })
}

/// Runs that answer the nanoseconds of so many readings: a call that makes them less one that does not.
fn readings_time(text: &[u8], times: u32) -> impl FnMut() -> f64 + '_ {
    let call = move |times: u32| {
        black_box(library(black_box(text), times));
    };
    let mut with = timed(move || call(times));
    let mut without = timed(move || call(0));
    move || with() - without()
}

/// The oracle's reading of an input that has been read.
fn reading(input: &Input) -> Answer {
    causal_reading(&input.description, &input.values).map_or_else(Answer::from, Answer::from)
}

/// Both sides must say that the sample is a path; anything else is no measure of the same work.
fn agree(label: &str, text: &[u8], input: &Input) {
    let path = Answer::new(PATH, 0);
    assert_eq!(library(text, 0), path, "{label}");
    assert_eq!(library(text, TIMES), path, "{label}");
    assert_eq!(reading(input), path, "{label}");
}

/// How many times as long ten times as many readings take: about 10 if each of them is really made, and about 1 if the
/// compiler has taken them out of the loop.
fn growth(text: &[u8]) -> f64 {
    by_turns(readings_time(text, 10 * TIMES), readings_time(text, TIMES)).ratio()
}

fn time_sample(label: &str, text: &[u8]) {
    let input = read_input(text).expect("samples are good texts");
    agree(label, text, &input);
    println!(
        "{label}: {} atoms, {} laws, horizon {}",
        input.values.len(),
        input.description.laws.len(),
        input.description.horizon
    );
    let mut proved = readings_time(text, TIMES);
    let mut own = timed(|| {
        for _ in 0..TIMES {
            black_box(reading(black_box(&input)));
        }
    });
    let each = f64::from(TIMES);
    let times = by_turns(|| proved() / each, || own() / each);
    print_pair("causal reading", &times);
    println!("    {} readings take {:.1} times as long as {TIMES}", 10 * TIMES, growth(text));
}

fn main() {
    println!("Times of one causal reading by itself; ratio is library by oracle. The sides run by turns.");
    time_sample("full recipe", &full_recipe());
    time_sample("largest table", &largest_recipe());
    time_sample("inertia", &inertia_recipe());
    time_sample("belt", &belt_recipe(MAX_HORIZON));
}
