//! A derivation that is being put together, and its text.

use crate::formula::{Atoms, Formula, FormulaSet, Formulas, Node, rising};
use crate::random::Random;
use crate::rules::ELK;
use crate::semantics::equilibrium_models;
use crate::sequent::{Kind, Sequent};
use std::collections::HashMap;

#[derive(Clone, Debug)]
pub struct DraftRow {
    pub rule: usize,
    pub principal: Option<Formula>,
    pub premises: Vec<usize>,
    pub sequent: Sequent,
}

impl DraftRow {
    pub fn new(rule: &str, principal: Option<Formula>, premises: &[usize], sequent: Sequent) -> Self {
        let rule = ELK.code(rule).expect("a rule of the table");
        DraftRow { rule, principal, premises: premises.into(), sequent }
    }

    pub fn kind(&self) -> Kind {
        ELK.rules[self.rule].conclusion.kind
    }

    /// The principal and the formulas of both sides.
    fn formulas(&self) -> Vec<Formula> {
        let Sequent { antecedent, succedent } = &self.sequent;
        self.principal.iter().chain(antecedent).chain(succedent).copied().collect()
    }
}

/// Atoms are named, formulas are numbered in the order of `listed`, which holds every
/// formula of the rows after its parts. The claim is the last row, with a model beside it
/// or none.
#[derive(Clone)]
pub struct Draft {
    pub names: Vec<String>,
    pub formulas: Formulas,
    pub listed: Vec<Formula>,
    pub rows: Vec<DraftRow>,
    pub model: Option<Atoms>,
}

impl Draft {
    /// Numbers the formulas of the rows, and those in `first` before them.
    pub fn new(names: Vec<String>, formulas: Formulas, first: &[Formula], rows: Vec<DraftRow>) -> Self {
        let mut draft = Draft { names, formulas, listed: vec![], rows, model: None };
        let wanted: Vec<Formula> = draft.rows.iter().flat_map(DraftRow::formulas).collect();
        draft.number(first.iter().copied().chain(wanted));
        draft
    }

    /// Adds a row, and numbers those of its formulas that are new.
    pub fn push(&mut self, row: DraftRow) {
        self.number(row.formulas());
        self.rows.push(row);
    }

    /// Numbers formulas, parts before wholes, after those that are numbered already.
    fn number(&mut self, formulas: impl IntoIterator<Item = Formula>) {
        let mut listed = vec![false; self.formulas.nodes().len()];
        for &formula in &self.listed {
            listed[self.formulas.place(formula)] = true;
        }
        for formula in formulas {
            self.list(formula, &mut listed);
        }
    }

    fn list(&mut self, formula: Formula, listed: &mut [bool]) {
        if std::mem::replace(&mut listed[self.formulas.place(formula)], true) {
            return;
        }
        for part in self.formulas.node(formula).parts() {
            self.list(part, listed);
        }
        self.listed.push(formula);
    }

    /// Numbers the formulas anew, at random, parts still before wholes.
    pub fn shuffle(&mut self, random: &mut Random) {
        let mut waiting = std::mem::take(&mut self.listed);
        random.shuffle(&mut waiting);
        self.number(waiting);
    }

    /// Puts one of the models of the last row's left beside the claim, if it wants one.
    /// False if there is none to choose, or no sequent to claim.
    pub fn confirm(&mut self, choose: impl FnOnce(&[Atoms]) -> Atoms) -> bool {
        let Some(row) = self.rows.last().filter(|row| row.kind() == Kind::Elk) else { return false };
        if !row.sequent.wants_model(&self.formulas) {
            return true;
        }
        let models = equilibrium_models(&self.formulas, &row.sequent.antecedent);
        self.model = (!models.is_empty()).then(|| choose(&models));
        self.model.is_some()
    }

    /// Adds a row of an atom alone, with that atom as the model beside the claim.
    pub fn close(&mut self, atom: u16) {
        let p = self.formulas.atom(atom);
        let sequent = Sequent { antecedent: [p].into(), succedent: [p].into() };
        self.push(DraftRow::new("same", Some(p), &[], sequent));
        self.model = Some(1 << atom);
    }

    /// The text whose claim is the last row's sides.
    pub fn text(&self) -> Vec<u8> {
        let claim = self.rows.last().map(|row| row.sequent.clone()).unwrap_or_default();
        let numbers: HashMap<Formula, usize> = self.listed.iter().enumerate().map(|(k, &f)| (f, k)).collect();
        let mut text = String::new();
        let mut line = |fields: &[String]| {
            text.push_str(&fields.join("\t"));
            text.push('\n');
        };
        for (k, name) in self.names.iter().enumerate() {
            line(&["A".into(), k.to_string(), name.clone()]);
        }
        for (k, &formula) in self.listed.iter().enumerate() {
            let [word, first, second] = self.word(formula, &numbers);
            line(&["F".into(), k.to_string(), word, first, second]);
        }
        let side = |set: &FormulaSet| {
            let mut side: Vec<usize> = set.iter().map(|f| numbers[f]).collect();
            side.sort();
            list(&side)
        };
        for (k, row) in self.rows.iter().enumerate() {
            line(&[
                "N".into(),
                k.to_string(),
                ELK.rules[row.rule].name.into(),
                row.principal.map_or("-".into(), |f| numbers[&f].to_string()),
                list(&row.premises),
                side(&row.sequent.antecedent),
                side(&row.sequent.succedent),
            ]);
        }
        if let Some(model) = self.model {
            line(&["M".into(), atom_list(model)]);
        }
        line(&["C".into(), side(&claim.antecedent), side(&claim.succedent)]);
        text.into_bytes()
    }

    fn word(&self, formula: Formula, numbers: &HashMap<Formula, usize>) -> [String; 3] {
        let node = self.formulas.node(formula);
        let (word, operands) = match node {
            Node::Falsum => ("bot", vec![]),
            Node::Atom(k) => ("atom", vec![k as usize]),
            Node::Not(_) => ("not", vec![]),
            Node::And(..) => ("and", vec![]),
            Node::Or(..) => ("or", vec![]),
            Node::Implies(..) => ("imp", vec![]),
        };
        let parts = node.parts().into_iter().map(|part| numbers[&part]);
        let mut operands = operands.into_iter().chain(parts).map(|number| number.to_string());
        let mut operand = || operands.next().unwrap_or("-".into());
        [word.into(), operand(), operand()]
    }
}

/// A list of numbers as the files write it.
pub fn list(numbers: &[usize]) -> String {
    match numbers {
        [] => "-".into(),
        _ => numbers.iter().map(usize::to_string).collect::<Vec<_>>().join(","),
    }
}

/// A set of atoms as the files write it.
pub fn atom_list(atoms: Atoms) -> String {
    list(&rising(atoms).map(usize::from).collect::<Vec<_>>())
}

/// Names for so many atoms.
pub fn names(count: usize) -> Vec<String> {
    (0..count).map(|k| format!("a{k}")).collect()
}
