//! Recipes that pass: the contract's full recipe, the largest one, one of any horizon, and inertia alone.

use super::descriptions::{law, without_laws};
use super::render::{description_text, history_text};
use oracle::record::{Description, Head, Law};
use oracle::{MAX_ACTIONS, MAX_FLUENTS, MAX_HORIZON, MAX_LAWS, MAX_LIST};

/// The contract's recipe in full, as the program `check` reads it.
pub fn full_recipe() -> Vec<u8> {
    let lines = "horizon=1 fluent=locked fluent=flowed action=reflow dynamic=flowed if= after=reflow \
                 dynamic=false if= after=reflow,locked dynamic=locked if=locked after=locked \
                 dynamic=-locked if=-locked after=-locked dynamic=flowed if=flowed after=flowed \
                 dynamic=-flowed if=-flowed after=-flowed end= \
                 state=-locked,-flowed act=reflow state=-locked,flowed end= ";
    lines.replace(' ', "\n").into_bytes()
}

/// A description of all fluents, some actions and so many laws, each given by its number.
fn described(horizon: usize, actions: &[&str], laws: usize, law: impl Fn(u16) -> Law) -> Description {
    let fluents = (0..MAX_FLUENTS).map(|number| format!("f{number:02}"));
    let names = fluents.chain(actions.iter().map(|name| name.to_string()));
    let mut made = without_laws(horizon, names.map(String::into_bytes).collect(), MAX_FLUENTS);
    made.laws = (0..laws as u16).map(law).collect();
    made
}

/// The text of a description with a history in which some atoms are true and the others false.
fn written(description: &Description, is_true: impl Fn(usize) -> bool) -> Vec<u8> {
    let value = |atom| if is_true(atom) { 1 } else { 2 };
    let values: Vec<u8> = (0..description.atoms()).map(value).collect();
    [description_text(description), history_text(description, &values)].concat()
}

/// The largest description: most fluents, actions, laws and steps, and every list full. 64 dynamic laws over 30 steps,
/// with 15 words each, and two rules of 4 words for each of the 24 + 8 * 30 free atoms give 30,912 words. Law j makes
/// fluent j true after the five fluents behind it and an action, so that a time is derived only when the one before is.
pub fn largest_description() -> Description {
    let actions = ["a00", "a01", "a02", "a03", "a04", "a05", "a06", "a07"];
    described(MAX_HORIZON, &actions, MAX_LAWS, |number| {
        let fluent = |step: usize| 2 * ((usize::from(number) + step) % MAX_FLUENTS) as u16;
        let action = 2 * (MAX_FLUENTS as u16 + number % MAX_ACTIONS as u16);
        let ifs = (0..MAX_LIST).map(fluent).collect();
        let after = (1..MAX_LIST).map(fluent).chain([action]).collect();
        law(Head::Literal(fluent(0)), ifs, Some(after))
    })
}

/// The largest description, with everything true and all actions at each step.
pub fn largest_recipe() -> Vec<u8> {
    written(&largest_description(), |_| true)
}

/// A belt of 24 places, each of which takes over at every step what lay on the next one; what is put on the last
/// place is the action's choice. 48 dynamic laws, for any horizon.
pub fn belt_recipe(horizon: usize) -> Vec<u8> {
    // Behind the last fluent comes the action, whose code is the next one.
    let moving = |code| law(Head::Literal(code), vec![], Some(vec![code + 2]));
    let made = described(horizon, &["load"], 2 * MAX_FLUENTS, moving);
    // What lies on a place at a time was loaded so many steps ago; the pattern goes on before the first step.
    let loaded = |moment: usize| moment.is_multiple_of(3) || moment % 7 == 2;
    written(&made, |atom| loaded(atom / made.stride() + atom % made.stride()))
}

/// Inertia alone: 24 fluents that stay as they are, every third of them true, over the most steps, without actions.
pub fn inertia_recipe() -> Vec<u8> {
    let keeping = |code| law(Head::Literal(code), vec![code], Some(vec![code]));
    let made = described(MAX_HORIZON, &[], 2 * MAX_FLUENTS, keeping);
    written(&made, |atom| (atom % MAX_FLUENTS).is_multiple_of(3))
}
