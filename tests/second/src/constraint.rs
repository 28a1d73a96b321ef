//! Constraints that join a sheet. The equilibrium models of L with `~A`, or with `A->#`, are
//! those of L that do not satisfy A; so what L entails is still entailed, and a few rows more
//! derive it. Of a model beside the claim it is asked anew whether it is one.

use crate::draft::{Draft, DraftRow};
use crate::formula::{Atoms, Formula, Formulas, Node};
use crate::prove::{sequent, with};
use crate::semantics::Pair;
use crate::sequent::Sequent;

/// The constraints that forbid a formula A: `~A` and `A->#`.
pub fn against(formulas: &mut Formulas, forbidden: Formula) -> [Formula; 2] {
    let falsum = formulas.falsum();
    [formulas.not(forbidden), formulas.keep(Node::Implies(forbidden, falsum))]
}

/// Is an equilibrium model of a sheet still one when A is forbidden there?
pub fn stays(formulas: &Formulas, model: Atoms, forbidden: Formula) -> bool {
    !Pair::new(model, model).holds(formulas, forbidden)
}

/// The rows from L => R, the sequent of row `claimed`, to L with a constraint => R. They are
/// numbered from `next`.
pub fn joining(
    formulas: &mut Formulas,
    constraint: Formula,
    claim: &Sequent,
    claimed: usize,
    next: usize,
) -> Vec<DraftRow> {
    let Sequent { antecedent: left, succedent: right } = claim;
    let weakened = |forbidden| {
        let sequent = sequent(left, &with(right, forbidden));
        DraftRow::new("wr", Some(forbidden), &[claimed], sequent)
    };
    let sharpened = sequent(&with(left, constraint), right);
    match formulas.node(constraint) {
        Node::Not(forbidden) => {
            vec![weakened(forbidden), DraftRow::new("notl", Some(constraint), &[next], sharpened)]
        }
        Node::Implies(forbidden, falsum) if formulas.node(falsum) == Node::Falsum => {
            let (left, right) = (with(left, falsum), with(right, formulas.not(forbidden)));
            vec![
                weakened(forbidden),
                DraftRow::new("same", Some(falsum), &[], sequent(&left, &with(&right, falsum))),
                DraftRow::new("bot", Some(falsum), &[next + 1], sequent(&left, &right)),
                DraftRow::new("impl", Some(constraint), &[next + 2, next], sharpened),
            ]
        }
        other => panic!("no constraint: {other:?}"),
    }
}

/// Lets one of the constraints against A join the sheet of a derivation. The model beside the
/// claim is left there; true if it is still one, or if there is none.
pub fn join(draft: &mut Draft, forbidden: Formula, choose: impl FnOnce(&[Formula]) -> Formula) -> bool {
    let constraint = choose(&against(&mut draft.formulas, forbidden));
    let next = draft.rows.len();
    let claim = draft.rows[next - 1].sequent.clone();
    for row in joining(&mut draft.formulas, constraint, &claim, next - 1, next) {
        draft.push(row);
    }
    draft.model.is_none_or(|model| stays(&draft.formulas, model, forbidden))
}
