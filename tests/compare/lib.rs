//! The comparison of the checker's library with the oracle, call by call.
//!
//! - `cargo test --release`: the comparison tried on itself, and the cases of tests/cases by the oracle.
//! - `cargo run --release --bin compare -- --seed SEED --lists N --cases cases`: so many lists of calls, drawn from a seed, and the
//!   cases of a folder, with the library linked. It is looked for in the directory named by HUNTYGHAI_LIB, or else in
//!   `../crates/huntyghai/out`.

pub mod call;
pub mod cases;
pub mod claims;
pub mod draw;
pub mod kinds;
pub mod memory;
pub mod program;
pub mod random;
pub mod run;
pub mod sides;
