//! Sequents: what rows and claims speak of.

use crate::formula::{FormulaSet, Formulas, Node};

/// What a row speaks of: entailment, or a countermodel of it.
#[derive(Clone, Copy, Debug, Eq, Hash, PartialEq)]
pub enum Kind {
    Elk,
    Refutation,
}

/// An antecedent and a succedent.
#[derive(Clone, Debug, Default, Eq, Hash, PartialEq)]
pub struct Sequent {
    pub antecedent: FormulaSet,
    pub succedent: FormulaSet,
}

impl Sequent {
    /// Does a claim of this want a model? Not if the right is empty or holds only `#`: that
    /// reports a contradiction.
    pub fn wants_model(&self, formulas: &Formulas) -> bool {
        self.succedent.iter().any(|&f| formulas.node(f) != Node::Falsum)
    }
}
