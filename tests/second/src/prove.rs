//! Derivations found by the proof of completeness.
//!
//! For a set T of the atoms V, M(T) is `~~p` for p in T and `~p` for the rest. With
//! M(T) on the left every formula is decided by T; what T leaves open is closed by
//! `unst`; and `rcut` glues the cases, an atom at a time. A refutation is found from
//! its countermodel. Each step may keep or drop its principal, at random.

use crate::draft::DraftRow;
use crate::formula::{Atoms, Formula, FormulaSet, Formulas, Node, rising, subsets};
use crate::instance::stability;
use crate::random::Random;
use crate::rules::{Bindings, ELK, Rule, SetName, Sets};
use crate::semantics::{Interpretations, Pair, equilibrium_models, satisfies};
use crate::sequent::{Kind, Sequent};
use std::collections::HashMap;

pub struct Prover {
    pub formulas: Formulas,
    pub rows: Vec<DraftRow>,
    pub random: Random,
    known: HashMap<(Kind, Sequent), usize>,
}

pub(crate) fn with(set: &FormulaSet, formula: Formula) -> FormulaSet {
    let mut set = set.clone();
    set.insert(formula);
    set
}

pub(crate) fn sequent(antecedent: &FormulaSet, succedent: &FormulaSet) -> Sequent {
    Sequent { antecedent: antecedent.clone(), succedent: succedent.clone() }
}

impl Prover {
    pub fn new(formulas: Formulas, random: Random) -> Self {
        Prover { formulas, rows: vec![], random, known: HashMap::new() }
    }

    /// Adds a row as it is and gives its number.
    pub fn push(&mut self, row: DraftRow) -> usize {
        let number = self.rows.len();
        self.known.entry((row.kind(), row.sequent.clone())).or_insert(number);
        self.rows.push(row);
        number
    }

    fn row(&mut self, rule: &str, principal: Option<Formula>, premises: &[usize], sequent: Sequent) -> usize {
        let row = DraftRow::new(rule, principal, premises, sequent);
        match self.known.get(&(row.kind(), row.sequent.clone())) {
            Some(&number) => number,
            None => self.push(row),
        }
    }

    /// Derives a sequent that is entailed; None if it isn't.
    pub fn prove(&mut self, goal: &Sequent) -> Option<usize> {
        if !Interpretations::over(&self.formulas, self.atoms(goal)).entails(goal) {
            return None;
        }
        let weakened = if self.random.once_in(3) { self.weakened(goal) } else { None };
        Some(weakened.unwrap_or_else(|| {
            let mut atoms: Vec<u16> = rising(self.atoms(goal)).collect();
            self.random.shuffle(&mut atoms);
            self.split(&goal.antecedent, &goal.succedent, &atoms, 0)
        }))
    }

    /// By `wr`, where a formula of the succedent isn't needed.
    fn weakened(&mut self, goal: &Sequent) -> Option<usize> {
        let mut premise = goal.clone();
        let added = premise.succedent.pop_last()?;
        let premise = self.prove(&premise)?;
        Some(self.row("wr", Some(added), &[premise], goal.clone()))
    }

    /// Derives left => anything where left has no equilibrium model but does have a
    /// model that isn't empty: by one `unst` at the root.
    pub fn prove_unstable(&mut self, goal: &Sequent) -> Option<usize> {
        let atoms = self.formulas.atoms_of(&goal.antecedent);
        let models = equilibrium_models(&self.formulas, &goal.antecedent);
        let there = subsets(atoms).find(|&t| t != 0 && satisfies(&self.formulas, t, t, &goal.antecedent))?;
        models.is_empty().then(|| self.unstable(goal, there))
    }

    fn atoms(&self, sequent: &Sequent) -> Atoms {
        self.formulas.atoms_of(sequent.antecedent.iter().chain(&sequent.succedent))
    }

    /// left => right, where left holds M of `there` for the atoms not in `open`.
    fn split(&mut self, left: &FormulaSet, right: &FormulaSet, open: &[u16], there: Atoms) -> usize {
        if let Some(row) = self.at_sight(left, right) {
            return row;
        }
        let Some((&k, open)) = open.split_first() else {
            return self.decided(&sequent(left, right), there);
        };
        let p = self.formulas.atom(k);
        let not_p = self.formulas.not(p);
        let not_not_p = self.formulas.not(not_p);
        let without = self.split(&with(left, not_p), right, open, there);
        let conclusion = sequent(left, &with(right, not_not_p));
        let first = self.row("notr", Some(not_not_p), &[without], conclusion);
        let second = self.split(&with(left, not_not_p), right, open, there | 1 << k);
        self.row("rcut", Some(not_not_p), &[first, second], sequent(left, right))
    }

    /// By an initial sequent, where there is one; the construction can do without.
    fn at_sight(&mut self, left: &FormulaSet, right: &FormulaSet) -> Option<usize> {
        if self.random.once_in(2) {
            return None;
        }
        if let Some(&common) = left.intersection(right).next() {
            return Some(self.row("same", Some(common), &[], sequent(left, right)));
        }
        for &formula in right {
            let Node::Not(p) = self.formulas.node(formula) else { continue };
            let atoms_only = left.iter().all(|&f| self.formulas.is_atom(f));
            if atoms_only && self.formulas.is_atom(p) && !left.contains(&p) {
                return Some(self.row("def", Some(formula), &[], sequent(left, right)));
            }
        }
        None
    }

    /// A goal whose left holds M(T) for every atom.
    fn decided(&mut self, goal: &Sequent, there: Atoms) -> usize {
        let mut total = Pair::new(there, there);
        if let Some(&formula) = goal.succedent.iter().find(|&&f| total.holds(&self.formulas, f)) {
            return self.on_the_right(goal, formula, &mut total);
        }
        if let Some(&formula) = goal.antecedent.iter().find(|&&f| !total.holds(&self.formulas, f)) {
            return self.on_the_left(goal, formula, &mut total);
        }
        self.unstable(goal, there)
    }

    /// `unst` with S = T. T satisfies the left, and no equilibrium model of the left
    /// differs from T, nor is T one.
    fn unstable(&mut self, goal: &Sequent, there: Atoms) -> usize {
        let atoms = self.formulas.atoms_of(&goal.antecedent);
        let here = subsets(there)
            .find(|&h| h != there && satisfies(&self.formulas, h, there, &goal.antecedent))
            .expect("a model that is no equilibrium model has a smaller pair");
        let mut sets = stability(&mut self.formulas, atoms, there);
        sets.insert(SetName::L, goal.antecedent.clone());
        let rule = &ELK.rules[ELK.code("unst").expect("unst is a rule")];
        let mut premise = |k: usize| ELK.sequent(&mut self.formulas, &rule.premises[k], &[None; 3], &sets);
        let (modelled, refuted) = (premise(0), premise(1));
        let decided = refuted.antecedent == goal.antecedent;
        let first = match decided {
            true => self.decided(&modelled, there),
            false => self.prove(&modelled).expect("what has no equilibrium model entails all"),
        };
        let second = self.refute_at(&refuted, &mut Pair::new(here, there));
        self.row("unst", None, &[first, second], goal.clone())
    }

    /// A goal on whose right T satisfies `formula`.
    fn on_the_right(&mut self, goal: &Sequent, formula: Formula, total: &mut Pair) -> usize {
        let Sequent { antecedent: left, succedent: right } = goal;
        let rest = self.rest_of(right, formula);
        let mut holds = |f| total.holds(&self.formulas, f);
        match self.formulas.node(formula) {
            Node::Falsum => unreachable!("# holds nowhere"),
            Node::Atom(_) => {
                let not_p = self.formulas.not(formula);
                let not_not_p = self.formulas.not(not_p);
                let same = self.row("same", Some(formula), &[], sequent(&with(left, formula), right));
                let notr = self.row("notr", Some(not_p), &[same], sequent(left, &with(right, not_p)));
                self.row("notl", Some(not_not_p), &[notr], goal.clone())
            }
            Node::Not(a) => {
                let premise = self.on_the_left(&sequent(&with(left, a), &rest), a, total);
                self.row("notr", Some(formula), &[premise], goal.clone())
            }
            Node::And(a, b) => {
                let first = self.on_the_right(&sequent(left, &with(&rest, a)), a, total);
                let second = self.on_the_right(&sequent(left, &with(&rest, b)), b, total);
                self.row("andr", Some(formula), &[first, second], goal.clone())
            }
            Node::Or(a, b) => {
                let part = if holds(a) { a } else { b };
                let premise = self.on_the_right(&sequent(left, &with(&with(&rest, a), b)), part, total);
                self.row("orr", Some(formula), &[premise], goal.clone())
            }
            Node::Implies(a, b) => {
                let premise = sequent(&with(left, a), &with(&rest, b));
                let premise = match holds(b) {
                    true => self.on_the_right(&premise, b, total),
                    false => self.on_the_left(&premise, a, total),
                };
                self.row("impr", Some(formula), &[premise], goal.clone())
            }
        }
    }

    /// A goal on whose left T fails `formula`.
    fn on_the_left(&mut self, goal: &Sequent, formula: Formula, total: &mut Pair) -> usize {
        let Sequent { antecedent: left, succedent: right } = goal;
        let rest = self.rest_of(left, formula);
        let mut holds = |f| total.holds(&self.formulas, f);
        match self.formulas.node(formula) {
            Node::Falsum => {
                let premise = self.row("same", Some(formula), &[], sequent(left, &with(right, formula)));
                self.row("bot", Some(formula), &[premise], goal.clone())
            }
            Node::Atom(_) => {
                let not_p = self.formulas.not(formula);
                let premise = self.row("same", Some(formula), &[], sequent(left, &with(right, formula)));
                self.row("notl", Some(not_p), &[premise], goal.clone())
            }
            Node::Not(a) => {
                let premise = self.on_the_right(&sequent(&rest, &with(right, a)), a, total);
                self.row("notl", Some(formula), &[premise], goal.clone())
            }
            Node::And(a, b) => {
                let part = if holds(a) { b } else { a };
                let premise = self.on_the_left(&sequent(&with(&with(&rest, a), b), right), part, total);
                self.row("andl", Some(formula), &[premise], goal.clone())
            }
            Node::Or(a, b) => {
                let first = self.on_the_left(&sequent(&with(&rest, a), right), a, total);
                let second = self.on_the_left(&sequent(&with(&rest, b), &with(right, a)), b, total);
                self.row("orl", Some(formula), &[first, second], goal.clone())
            }
            Node::Implies(a, b) => {
                let not_a = self.formulas.not(a);
                let first = self.on_the_left(&sequent(&with(&rest, b), &with(right, not_a)), b, total);
                let second = self.on_the_right(&sequent(&rest, &with(right, a)), a, total);
                self.row("impl", Some(formula), &[first, second], goal.clone())
            }
        }
    }

    /// A side without its principal formula, or with it: a rule's L or R may hold it.
    fn rest_of(&mut self, side: &FormulaSet, principal: Formula) -> FormulaSet {
        let mut rest = side.clone();
        if !self.random.once_in(3) {
            rest.remove(&principal);
        }
        rest
    }

    /// Derives a refutation that has a countermodel; None if it has none.
    pub fn refute(&mut self, goal: &Sequent) -> Option<usize> {
        let (here, there) = Interpretations::over(&self.formulas, self.atoms(goal)).countermodel(goal)?;
        Some(self.refute_at(goal, &mut Pair::new(here, there)))
    }

    /// Derives a refutation at a countermodel: while some formula is no literal, a
    /// rule for it has a premise of which the pair is a countermodel too.
    pub fn refute_at(&mut self, goal: &Sequent, pair: &mut Pair) -> usize {
        let mut applicable = vec![];
        for rule in ELK.rules.iter().filter(|rule| rule.conclusion.kind == Kind::Refutation) {
            for principal in goal.antecedent.union(&goal.succedent) {
                let Some(premise) = self.reduced(rule, *principal, goal) else { continue };
                if pair.refutes(&self.formulas, &premise) {
                    applicable.push((rule, *principal, premise));
                }
            }
        }
        if applicable.is_empty() {
            return self.row("xini", None, &[], goal.clone());
        }
        let (rule, principal, premise) = applicable.swap_remove(self.random.below(applicable.len()));
        let premise = self.refute_at(&premise, pair);
        self.row(rule.name, Some(principal), &[premise], goal.clone())
    }

    /// The premise of a refutation rule whose conclusion is `goal`, if the principal
    /// stands where the rule wants it. L or R holds the principal now and then, where
    /// the premise is new all the same.
    fn reduced(&mut self, rule: &Rule, principal: Formula, goal: &Sequent) -> Option<Sequent> {
        let bindings: Bindings = ELK.bind(&self.formulas, rule, Some(principal))?;
        let named = ELK.named(&mut self.formulas, &rule.conclusion.antecedent, &bindings);
        let stands = if named.is_empty() { &goal.succedent } else { &goal.antecedent };
        if !stands.contains(&principal) {
            return None;
        }
        let mut sets =
            Sets::from([(SetName::L, goal.antecedent.clone()), (SetName::R, goal.succedent.clone())]);
        let side = if named.is_empty() { SetName::R } else { SetName::L };
        let kept = ELK.sequent(&mut self.formulas, &rule.premises[0], &bindings, &sets);
        if kept != *goal && self.random.once_in(6) {
            return Some(kept);
        }
        sets.entry(side).and_modify(|set| {
            set.remove(&principal);
        });
        Some(ELK.sequent(&mut self.formulas, &rule.premises[0], &bindings, &sets))
    }
}
