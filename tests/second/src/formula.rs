//! Formulas as trees, each distinct tree kept once, and finite sets of them.
//!
//! A formula's parts are always kept before it, and whatever is asked of a formula
//! is found in one pass over the kept trees; so a tree that repeats its parts a
//! thousand deep costs no more than its distinct parts.

use std::collections::{BTreeSet, HashMap};

/// One kept formula; equal formulas are equal here.
#[derive(Clone, Copy, Debug, Eq, Hash, Ord, PartialEq, PartialOrd)]
pub struct Formula(u32);

/// A set of formulas, as the sides of sequents are.
pub type FormulaSet = BTreeSet<Formula>;

/// A set of atoms: bit k stands for atom k.
pub type Atoms = u64;

/// The outermost connective of a formula and its parts.
#[derive(Clone, Copy, Debug, Eq, Hash, PartialEq)]
pub enum Node {
    Falsum,
    Atom(u16),
    Not(Formula),
    And(Formula, Formula),
    Or(Formula, Formula),
    Implies(Formula, Formula),
}

impl Node {
    /// The immediate subformulas, left to right.
    pub fn parts(self) -> Vec<Formula> {
        match self {
            Node::Falsum | Node::Atom(_) => vec![],
            Node::Not(a) => vec![a],
            Node::And(a, b) | Node::Or(a, b) | Node::Implies(a, b) => vec![a, b],
        }
    }

    /// The same connective over other parts.
    pub fn map(self, mut change: impl FnMut(Formula) -> Formula) -> Node {
        match self {
            Node::Falsum | Node::Atom(_) => self,
            Node::Not(a) => Node::Not(change(a)),
            Node::And(a, b) => Node::And(change(a), change(b)),
            Node::Or(a, b) => Node::Or(change(a), change(b)),
            Node::Implies(a, b) => Node::Implies(change(a), change(b)),
        }
    }
}

/// All formulas spoken of, in the order in which they were first met.
#[derive(Clone, Debug, Default)]
pub struct Formulas {
    nodes: Vec<Node>,
    atoms: Vec<Atoms>,
    index: HashMap<Node, Formula>,
    compared: HashMap<[Formula; 2], bool>,
}

impl Formulas {
    /// The formula of this node, kept now if it was not before.
    pub fn keep(&mut self, node: Node) -> Formula {
        if let Some(formula) = self.find(node) {
            return formula;
        }
        let formula = Formula(self.nodes.len() as u32);
        let atoms = match node {
            Node::Atom(k) => 1 << k,
            _ => self.atoms_of(&node.parts()),
        };
        self.nodes.push(node);
        self.atoms.push(atoms);
        self.index.insert(node, formula);
        formula
    }

    pub fn find(&self, node: Node) -> Option<Formula> {
        self.index.get(&node).copied()
    }

    pub fn node(&self, formula: Formula) -> Node {
        self.nodes[formula.0 as usize]
    }

    /// The place of a formula in the order of keeping.
    pub fn place(&self, formula: Formula) -> usize {
        formula.0 as usize
    }

    /// Every node, parts before wholes.
    pub fn nodes(&self) -> &[Node] {
        &self.nodes
    }

    pub fn falsum(&mut self) -> Formula {
        self.keep(Node::Falsum)
    }

    pub fn atom(&mut self, k: u16) -> Formula {
        self.keep(Node::Atom(k))
    }

    pub fn not(&mut self, a: Formula) -> Formula {
        self.keep(Node::Not(a))
    }

    pub fn is_atom(&self, formula: Formula) -> bool {
        matches!(self.node(formula), Node::Atom(_))
    }

    /// Two formulas in a keeping of their own, with nothing beside their parts.
    pub fn alone(&self, two: [Formula; 2]) -> (Formulas, [Formula; 2]) {
        let mut needed = BTreeSet::from(two);
        for whole in (0..self.nodes.len() as u32).rev().map(Formula) {
            if needed.contains(&whole) {
                needed.extend(self.node(whole).parts());
            }
        }
        let mut own = Formulas::default();
        let mut moved = HashMap::new();
        for formula in needed {
            moved.insert(formula, own.keep(self.node(formula).map(|part| moved[&part])));
        }
        (own, two.map(|formula| moved[&formula]))
    }

    /// Asks a question, always the same one, about two formulas, and keeps the answer: a file
    /// may have two thousand rows in which it is asked.
    pub fn compare(&mut self, two: [Formula; 2], question: fn(&Formulas, [Formula; 2]) -> bool) -> bool {
        if let Some(&answer) = self.compared.get(&two) {
            return answer;
        }
        let answer = question(self, two);
        self.compared.insert(two, answer);
        answer
    }

    /// The atoms that occur, at any depth.
    pub fn atoms_of<'a>(&self, formulas: impl IntoIterator<Item = &'a Formula>) -> Atoms {
        formulas.into_iter().fold(0, |atoms, f| atoms | self.atoms[f.0 as usize])
    }
}

/// The atom numbers of a set, rising.
pub fn rising(atoms: Atoms) -> impl Iterator<Item = u16> {
    (0..64).filter(move |k| atoms >> k & 1 == 1)
}

/// Every subset of a set of atoms, the empty one first and the whole one last.
pub fn subsets(atoms: Atoms) -> impl Iterator<Item = Atoms> {
    let mut next = Some(0);
    std::iter::from_fn(move || {
        let subset: Atoms = next?;
        next = (subset != atoms).then(|| subset.wrapping_sub(atoms) & atoms);
        Some(subset)
    })
}

#[cfg(test)]
mod tests {
    use super::*;

    #[test]
    fn equal_formulas_are_kept_once() {
        let mut formulas = Formulas::default();
        let p = formulas.atom(3);
        let first = formulas.not(p);
        assert_eq!(first, formulas.not(p));
        assert_eq!(formulas.nodes().len(), 2);
        assert_eq!(formulas.atoms_of(&[first]), 8);
    }

    #[test]
    fn formulas_alone_have_only_their_parts_beside_them() {
        let mut formulas = Formulas::default();
        let [p, _, r] = [2, 1, 0].map(|k| formulas.atom(k));
        let [not_p, _] = [p, r].map(|atom| formulas.not(atom));
        let both = formulas.keep(Node::And(r, not_p));
        let (own, [moved, part]) = formulas.alone([both, p]);
        assert_eq!(own.nodes().len(), 4);
        assert_eq!(own.node(part), Node::Atom(2));
        assert!(matches!(own.node(moved), Node::And(a, b)
            if own.node(a) == Node::Atom(0) && own.node(b) == Node::Not(part)));
    }

    #[test]
    fn subsets_come_each_once() {
        let all: Vec<Atoms> = subsets(0b1010).collect();
        assert_eq!(all, [0, 0b0010, 0b1000, 0b1010]);
        assert_eq!(subsets(0).collect::<Vec<_>>(), [0]);
        assert_eq!(rising(0b1010).collect::<Vec<_>>(), [1, 3]);
    }
}
