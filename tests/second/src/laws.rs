//! Formulas made over by laws: into others that hold in the same pairs, or into some that
//! come near.

use crate::formula::{Formula, Formulas};
use crate::generate::formula;
use crate::random::Random;
use crate::rules::{B, Bindings, Forms};
use std::sync::LazyLock;

/// Forms that hold in the same pairs. Where B is only in the second, it is any formula.
const EQUAL: [(&str, &str); 19] = [
    ("A", "A&A"),
    ("A", "A|A"),
    ("A", "A&(A|B)"),
    ("A", "A|A&B"),
    ("A", "~#->A"),
    ("A&B", "B&A"),
    ("A&B", "A&(A->B)"),
    ("A|B", "B|A"),
    ("A|B", "((A->B)->B)&((B->A)->A)"),
    ("A->B", "A->A&B"),
    ("A->B", "A|B->B"),
    ("A->A", "~#"),
    ("A&~A", "#"),
    ("~A", "A->#"),
    ("~A", "~~~A"),
    ("~A->B", "~~A|B"),
    ("~(A&B)", "~A|~B"),
    ("~(A|B)", "~A&~B"),
    ("~(A->B)", "~~A&~B"),
];

/// Forms that do not, most of which agree in classical logic.
const NEAR: [(&str, &str); 9] = [
    ("A", "~~A"),
    ("~~A", "A"),
    ("A|~A", "~#"),
    ("A", "(A->B)->A"),
    ("A->B", "~A|B"),
    ("A->B", "~B->~A"),
    ("A|B", "~A->B"),
    ("A&B", "A|B"),
    ("A->B", "B->A"),
];

/// Pairs of forms, the first to be found and the second to be put in its place.
pub struct Laws {
    forms: Forms,
    pairs: Vec<(Formula, Formula)>,
}

pub static EQUALITIES: LazyLock<Laws> = LazyLock::new(|| Laws::read(&EQUAL));
pub static NEAR_EQUALITIES: LazyLock<Laws> = LazyLock::new(|| Laws::read(&NEAR));

impl Laws {
    fn read(written: &[(&str, &str)]) -> Self {
        let mut forms = Forms::default();
        let pairs = written.iter().map(|(from, to)| (forms.read(from), forms.read(to))).collect();
        Laws { forms, pairs }
    }

    /// The formula with one of the laws used once, on it or on a part of it. What comes in
    /// is over these atoms.
    pub fn apply(
        &self,
        random: &mut Random,
        formulas: &mut Formulas,
        atoms: &[u16],
        whole: Formula,
    ) -> Formula {
        let node = formulas.node(whole);
        let parts = node.parts();
        if !parts.is_empty() && random.once_in(2) {
            let part = random.pick(&parts);
            let other = self.apply(random, formulas, atoms, part);
            return formulas.keep(node.map(|held| if held == part { other } else { held }));
        }
        let bound = |&(from, to): &(Formula, Formula)| {
            let mut bindings = [None; 3];
            self.forms.matches(formulas, from, whole, &mut bindings).then_some((bindings, to))
        };
        let fitting: Vec<(Bindings, Formula)> = self.pairs.iter().filter_map(bound).collect();
        let (mut bindings, to) = random.pick(&fitting);
        bindings[B].get_or_insert_with(|| formula(random, formulas, atoms, 1));
        self.forms.instantiate(formulas, to, &bindings)
    }
}

#[cfg(test)]
mod tests {
    use super::*;
    use crate::semantics::same_pairs;

    fn disagreeing(laws: &Laws) -> usize {
        let mut random = Random::new(13);
        let mut differs = || {
            let mut formulas = Formulas::default();
            let one = formula(&mut random, &mut formulas, &[0, 1, 2], 3);
            let other = laws.apply(&mut random, &mut formulas, &[0, 1, 2], one);
            !same_pairs(&formulas, [one, other])
        };
        (0..2_000).filter(|_| differs()).count()
    }

    #[test]
    fn laws_are_what_they_are_called() {
        assert_eq!(disagreeing(&EQUALITIES), 0);
        assert!(disagreeing(&NEAR_EQUALITIES) > 500);
    }
}
