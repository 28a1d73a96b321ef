//! A second checker of ELK derivation files, written from the papers alone, and
//! the tests around it: a brute-force semantics, a generator and a mutator of
//! derivations, and the corpus. It shares nothing with the proved crates, so that
//! a misreading of the papers shows as a difference.

pub mod adding;
mod checker;
pub mod escapes;
pub mod formula;
pub mod instance;
pub mod judge;
pub mod line;
pub mod list;
pub mod notation;
pub mod open;
pub mod rules;
pub mod semantics;
pub mod sequent;
pub mod words;

// Around the checker: ../../mutants builds its variants without these lines.
pub mod constraint;
pub mod corpus;
pub mod draft;
pub mod entering;
pub mod fuzz;
pub mod generate;
pub mod laws;
pub mod mutate;
pub mod prove;
pub mod random;
pub mod reading;
pub mod rewrite;
pub mod sample;
