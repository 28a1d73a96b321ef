//! Is a row an instance of its rule? Two independent ways to decide it.
//!
//! A rule asks of each side that it be a union of unknown sets (L, R, Q) and given
//! formulas: an equation. [`by_algebra`] takes for each unknown the largest set that
//! could do, the intersection of all sides in which it stands: if any choice solves
//! the equations, this one does. [`by_search`] tries every choice. Both try every B of
//! `swap`; whether it holds in the same pairs as A is asked in two ways as well.

use crate::formula::{Atoms, Formula, FormulaSet, Formulas, Node, rising, subsets};
use crate::rules::{A, ATOM, B, Bindings, Calculus, Rule, Scheme, SetName, Sets, SideScheme};
use crate::semantics::{same_pairs, same_values};
use crate::sequent::Sequent;

/// The most atoms that A and B of `swap` may have together.
pub const MOST_SWAPPED: u32 = 8;

#[derive(Clone, Copy, Debug, Eq, PartialEq)]
pub enum Verdict {
    Instance,
    /// No instance of `swap`, and some B that leaves the sides right is too wide for it.
    TooManyAtoms,
    NoInstance,
}

/// A row to be decided. There are as many premises as the rule has.
pub struct Step<'a> {
    pub rule: &'a Rule,
    pub principal: Option<Formula>,
    pub premises: Vec<&'a Sequent>,
    pub conclusion: &'a Sequent,
}

impl Step<'_> {
    /// V of `unst`, whose L is the conclusion's whole antecedent.
    fn atoms(&self, formulas: &Formulas) -> Atoms {
        formulas.atoms_of(&self.conclusion.antecedent)
    }
}

/// Decides by set algebra; serves sides of any length.
pub fn by_algebra(calculus: &Calculus, formulas: &mut Formulas, step: &Step) -> Verdict {
    let mut right = all_bindings(calculus, formulas, step);
    right.retain(|bindings| solved_by_algebra(calculus, formulas, step, bindings));
    verdict(formulas, step.rule, &right, |formulas, two| formulas.compare(two, same_pairs))
}

/// Decides by trying every choice of the unknown sets; None if there are too many.
pub fn by_search(calculus: &Calculus, formulas: &mut Formulas, step: &Step) -> Option<Verdict> {
    let mut right = vec![];
    for bindings in all_bindings(calculus, formulas, step) {
        if solved_by_search(calculus, formulas, step, &bindings)? {
            right.push(bindings);
        }
    }
    Some(verdict(formulas, step.rule, &right, |formulas, two| same_values(formulas, two)))
}

/// What A, B and p may be. The principal says all, but for B of `swap`, which is any
/// formula of the premise's left side.
fn all_bindings(calculus: &Calculus, formulas: &Formulas, step: &Step) -> Vec<Bindings> {
    let Some(bindings) = calculus.bind(formulas, step.rule, step.principal) else {
        return vec![];
    };
    match step.rule.name {
        "swap" => step.premises[0].antecedent.iter().map(|&b| [bindings[A], Some(b), None]).collect(),
        _ => vec![bindings],
    }
}

/// The verdict where these bindings, and no others, leave the sides right.
fn verdict(
    formulas: &mut Formulas,
    rule: &Rule,
    right: &[Bindings],
    equal: fn(&mut Formulas, [Formula; 2]) -> bool,
) -> Verdict {
    if rule.name != "swap" {
        return if right.is_empty() { Verdict::NoInstance } else { Verdict::Instance };
    }
    let swapped = |bindings: &Bindings| [A, B].map(|place| bindings[place].expect("swap binds both"));
    let is_narrow = |two: &[Formula; 2]| formulas.atoms_of(two).count_ones() <= MOST_SWAPPED;
    let (narrow, wide): (Vec<_>, Vec<_>) = right.iter().map(swapped).partition(is_narrow);
    if narrow.iter().any(|&two| equal(formulas, two)) {
        Verdict::Instance
    } else if wide.is_empty() {
        Verdict::NoInstance
    } else {
        Verdict::TooManyAtoms
    }
}

fn solved_by_algebra(calculus: &Calculus, formulas: &mut Formulas, step: &Step, bindings: &Bindings) -> bool {
    let given = match step.rule.name {
        "unst" => match chosen_atoms(formulas, step) {
            Some(chosen) => {
                let atoms = step.atoms(formulas);
                stability(formulas, atoms, chosen)
            }
            None => return false,
        },
        _ => Sets::new(),
    };
    let problem = Problem::of(calculus, formulas, step, bindings, &given);
    let largest = [largest_sets(&problem.antecedents), largest_sets(&problem.succedents)];
    let solution: Sets = largest.into_iter().flatten().collect();
    let solves = |equation: &Equation| equation.holds(&solution);
    problem.antecedents.iter().all(solves)
        && problem.succedents.iter().all(solves)
        && condition(formulas, step.rule, bindings, &solution)
}

fn solved_by_search(
    calculus: &Calculus,
    formulas: &mut Formulas,
    step: &Step,
    bindings: &Bindings,
) -> Option<bool> {
    for given in choices_of_s(formulas, step)? {
        let problem = Problem::of(calculus, formulas, step, bindings, &given);
        let antecedents = all_solutions(&problem.antecedents)?;
        let succedents = all_solutions(&problem.succedents)?;
        for antecedent in &antecedents {
            for succedent in &succedents {
                let solution = antecedent.clone().into_iter().chain(succedent.clone()).collect();
                if condition(formulas, step.rule, bindings, &solution) {
                    return Some(true);
                }
            }
        }
    }
    Some(false)
}

/// What the rules ask of L and R beside the form of the sides.
fn condition(formulas: &Formulas, rule: &Rule, bindings: &Bindings, sets: &Sets) -> bool {
    match rule.name {
        "def" => {
            let p = bindings[ATOM].expect("the principal of def is a negated atom");
            let left = &sets[&SetName::L];
            left.iter().all(|&a| formulas.is_atom(a)) && !left.contains(&p)
        }
        "xini" => initial_refutation(formulas, &sets[&SetName::L], &sets[&SetName::R]),
        _ => true,
    }
}

fn initial_refutation(formulas: &Formulas, left: &FormulaSet, right: &FormulaSet) -> bool {
    let negated = |f| match formulas.node(f) {
        Node::Not(a) => Some(a),
        _ => None,
    };
    let is_falsum = |f| formulas.node(f) == Node::Falsum;
    let literal = |f| formulas.is_atom(f) || negated(f).is_some_and(|a| formulas.is_atom(a));
    let contradicted = |f| negated(f).is_some_and(|a| left.contains(&a));
    left.iter().all(|&f| literal(f) || negated(f).is_some_and(is_falsum))
        && right.iter().all(|&f| literal(f) || is_falsum(f))
        && left.is_disjoint(right)
        && !left.iter().any(|&f| contradicted(f))
}

/// One side of a row: the union of these unknown sets and these formulas.
struct Equation<'a> {
    unknowns: Vec<SetName>,
    given: FormulaSet,
    side: &'a FormulaSet,
}

impl Equation<'_> {
    fn holds(&self, sets: &Sets) -> bool {
        let mut union = self.given.clone();
        for name in &self.unknowns {
            union.extend(&sets[name]);
        }
        union == *self.side
    }
}

/// The equations of a row. No unknown stands on both sides of a rule, so the two
/// lists are solved apart.
struct Problem<'a> {
    antecedents: Vec<Equation<'a>>,
    succedents: Vec<Equation<'a>>,
}

impl<'a> Problem<'a> {
    fn of(
        calculus: &Calculus,
        formulas: &mut Formulas,
        step: &Step<'a>,
        bindings: &Bindings,
        given: &Sets,
    ) -> Self {
        let mut equation = |scheme: &SideScheme, side: &'a FormulaSet| {
            let mut equation =
                Equation { unknowns: vec![], given: calculus.named(formulas, scheme, bindings), side };
            for &name in &scheme.sets {
                match given.get(&name) {
                    Some(set) => equation.given.extend(set),
                    None => equation.unknowns.push(name),
                }
            }
            equation
        };
        let mut problem = Problem { antecedents: vec![], succedents: vec![] };
        let mut ask = |scheme: &Scheme, sequent: &'a Sequent| {
            problem.antecedents.push(equation(&scheme.antecedent, &sequent.antecedent));
            problem.succedents.push(equation(&scheme.succedent, &sequent.succedent));
        };
        ask(&step.rule.conclusion, step.conclusion);
        for (scheme, &premise) in step.rule.premises.iter().zip(&step.premises) {
            ask(scheme, premise);
        }
        problem
    }
}

fn largest_sets(equations: &[Equation]) -> Sets {
    let mut sets = Sets::new();
    for equation in equations {
        for &name in &equation.unknowns {
            let largest = sets.entry(name).or_insert_with(|| equation.side.clone());
            largest.retain(|f| equation.side.contains(f));
        }
    }
    sets
}

/// The most members that all unknown sets together may have in the search.
const MOST_SEARCHED: usize = 14;

/// Every choice of the unknown sets, out of the formulas on the sides, that solves
/// all equations. Sets of formulas are bit sets here.
fn all_solutions(equations: &[Equation]) -> Option<Vec<Sets>> {
    let universe: FormulaSet =
        equations.iter().flat_map(|e| e.side.iter().chain(&e.given).copied()).collect();
    let universe: Vec<Formula> = universe.into_iter().collect();
    let mut unknowns: Vec<SetName> = equations.iter().flat_map(|e| e.unknowns.clone()).collect();
    unknowns.sort();
    unknowns.dedup();
    let width = universe.len();
    if width * unknowns.len() > MOST_SEARCHED {
        return None;
    }
    let bits = |set: &FormulaSet| -> u32 {
        let members = universe.iter().enumerate().filter(|(_, f)| set.contains(f));
        members.map(|(k, _)| 1 << k).sum()
    };
    let part = |choice: u32, name: SetName| -> u32 {
        let place = unknowns.iter().position(|&n| n == name).expect("every unknown is listed");
        choice >> (place * width) & ((1 << width) - 1)
    };
    let asked: Vec<(u32, u32, &[SetName])> =
        equations.iter().map(|e| (bits(e.side), bits(&e.given), &e.unknowns[..])).collect();
    let solves = |choice: &u32| {
        asked.iter().all(|&(side, given, names)| {
            names.iter().fold(given, |union, &name| union | part(*choice, name)) == side
        })
    };
    let members = |bits: u32| (0..width).filter(move |k| bits >> k & 1 == 1).map(|k| universe[k]).collect();
    let sets = |choice| unknowns.iter().map(|&name| (name, members(part(choice, name)))).collect();
    Some((0..1 << (width * unknowns.len())).filter(solves).map(sets).collect())
}

/// The sets that `unst` names beside L and R: K, E, ~~S and ~S' where V is `atoms` and
/// S is `chosen`, not empty.
pub fn stability(formulas: &mut Formulas, atoms: Atoms, chosen: Atoms) -> Sets {
    let mut sets = Sets::new();
    let (mut literals, mut decided) = (vec![], vec![]);
    for k in rising(atoms) {
        let p = formulas.atom(k);
        let not_p = formulas.not(p);
        if chosen >> k & 1 == 1 {
            literals.push(p);
            decided.push(formulas.keep(Node::Or(p, not_p)));
            let not_not_p = formulas.not(not_p);
            sets.entry(SetName::NotNotS).or_default().insert(not_not_p);
        } else {
            literals.push(not_p);
            sets.entry(SetName::NotRest).or_default().insert(not_p);
        }
    }
    sets.entry(SetName::NotRest).or_default();
    sets.insert(SetName::K, [join(formulas, &literals)].into());
    sets.insert(SetName::E, [join(formulas, &decided)].into());
    sets
}

/// The conjunction of a list that isn't empty, nested to the right.
fn join(formulas: &mut Formulas, list: &[Formula]) -> Formula {
    let (&last, others) = list.split_last().expect("S isn't empty");
    others.iter().rfold(last, |rest, &first| formulas.keep(Node::And(first, rest)))
}

/// S, read off a formula of the first premise's succedent; None if that is no K with
/// an S that isn't empty. That K stands alone is left to the equations.
fn chosen_atoms(formulas: &Formulas, step: &Step) -> Option<Atoms> {
    let mut rest = *step.premises[0].succedent.first()?;
    let atoms: Vec<u16> = rising(step.atoms(formulas)).collect();
    let mut chosen = 0;
    for (place, &k) in atoms.iter().enumerate() {
        let literal = match formulas.node(rest) {
            _ if place + 1 == atoms.len() => rest,
            Node::And(first, others) => {
                rest = others;
                first
            }
            _ => return None,
        };
        match formulas.node(literal) {
            Node::Atom(atom) if atom == k => chosen |= 1 << k,
            Node::Not(a) if formulas.node(a) == Node::Atom(k) => {}
            _ => return None,
        }
    }
    (chosen != 0).then_some(chosen)
}

/// The sets of `unst` for every S there is; for other rules one choice, of nothing.
fn choices_of_s(formulas: &mut Formulas, step: &Step) -> Option<Vec<Sets>> {
    if step.rule.name != "unst" {
        return Some(vec![Sets::new()]);
    }
    let atoms = step.atoms(formulas);
    if atoms.count_ones() > 6 {
        return None;
    }
    let chosen = subsets(atoms).filter(|&s| s != 0);
    Some(chosen.map(|s| stability(formulas, atoms, s)).collect())
}

#[cfg(test)]
mod tests {
    use super::*;
    use crate::generate::loose_step;
    use crate::random::Random;
    use crate::rules::ELK;
    use crate::semantics::true_row;

    /// Rows in general position are instances, and disturbed rows are decided alike.
    #[test]
    fn algebra_and_search_agree_on_every_rule() {
        let mut random = Random::new(11);
        for rule in &ELK.rules {
            let (mut held, mut failed, mut searched) = (0, 0, 0);
            for _ in 0..1500 {
                let Some(mut loose) = loose_step(&mut random, rule) else { continue };
                let mut formulas = loose.formulas.clone();
                let conditional = matches!(rule.name, "def" | "xini");
                let decided = by_algebra(&ELK, &mut formulas, &loose.step(rule));
                assert!(conditional || decided == Verdict::Instance, "{}", rule.name);
                for _ in 0..2 {
                    let decided = by_algebra(&ELK, &mut formulas, &loose.step(rule));
                    if let Some(found) = by_search(&ELK, &mut formulas, &loose.step(rule)) {
                        assert_eq!(decided, found, "{}", rule.name);
                        searched += 1;
                    }
                    *if decided == Verdict::Instance { &mut held } else { &mut failed } += 1;
                    loose.disturb(&mut random);
                }
            }
            assert!(
                held > 100 && failed > 100 && searched > 1000,
                "{}: {held} {failed} {searched}",
                rule.name
            );
        }
    }

    /// An instance whose premises are true has a true conclusion, disturbed or not.
    #[test]
    fn every_rule_is_sound() {
        let mut random = Random::new(12);
        for rule in &ELK.rules {
            let mut true_premises = 0;
            for _ in 0..4000 {
                let Some(mut loose) = loose_step(&mut random, rule) else { continue };
                if random.once_in(2) {
                    loose.disturb(&mut random);
                }
                let mut formulas = loose.formulas.clone();
                let decided = by_algebra(&ELK, &mut formulas, &loose.step(rule));
                let mut premises = rule.premises.iter().zip(&loose.premises);
                if decided == Verdict::Instance
                    && premises.all(|(scheme, premise)| true_row(&formulas, scheme.kind, premise))
                {
                    true_premises += 1;
                    assert!(true_row(&formulas, rule.conclusion.kind, &loose.conclusion), "{}", rule.name);
                }
            }
            assert!(true_premises > 5, "{}: {true_premises}", rule.name);
        }
    }
}
