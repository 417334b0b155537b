//! Times of the library beside the oracle's and a solver's; nothing depends on them.

pub mod clingo;
pub mod measure;
