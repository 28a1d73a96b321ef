//! The meaning of formulas, by brute force: here-and-there satisfaction, formulas that
//! hold in the same pairs, equilibrium models, entailment, and countermodels of
//! refutations.

use crate::formula::{Atoms, Formula, FormulaSet, Formulas, Node, rising, subsets};
use crate::sequent::{Kind, Sequent};

/// A pair (H,T) with what holds in it and in (T,T), for every formula kept so far.
pub struct Pair {
    here: Atoms,
    there: Atoms,
    holds_here: Vec<bool>,
    holds_there: Vec<bool>,
}

impl Pair {
    /// H is inside T.
    pub fn new(here: Atoms, there: Atoms) -> Self {
        assert!(here & !there == 0, "H lies inside T");
        Pair { here, there, holds_here: vec![], holds_there: vec![] }
    }

    /// Does the formula hold in (H,T)?
    pub fn holds(&mut self, formulas: &Formulas, formula: Formula) -> bool {
        self.cover(formulas);
        self.holds_here[formulas.place(formula)]
    }

    /// Does the pair satisfy every formula on the left and none on the right?
    pub fn refutes(&mut self, formulas: &Formulas, sequent: &Sequent) -> bool {
        sequent.antecedent.iter().all(|&f| self.holds(formulas, f))
            && !sequent.succedent.iter().any(|&f| self.holds(formulas, f))
    }

    /// Parts are kept before wholes, so one pass values all formulas.
    fn cover(&mut self, formulas: &Formulas) {
        for &node in &formulas.nodes()[self.holds_here.len()..] {
            let there = value(formulas, node, self.there, &self.holds_there);
            self.holds_there.push(there);
            let here = match node {
                Node::Not(_) => there,
                Node::Implies(..) => there && value(formulas, node, self.here, &self.holds_here),
                _ => value(formulas, node, self.here, &self.holds_here),
            };
            self.holds_here.push(here);
        }
    }
}

/// The classical value of a node at a set of atoms, given those of its parts.
fn value(formulas: &Formulas, node: Node, atoms: Atoms, parts: &[bool]) -> bool {
    let part = |f| parts[formulas.place(f)];
    match node {
        Node::Falsum => false,
        Node::Atom(k) => atoms >> k & 1 == 1,
        Node::Not(a) => !part(a),
        Node::And(a, b) => part(a) && part(b),
        Node::Or(a, b) => part(a) || part(b),
        Node::Implies(a, b) => !part(a) || part(b),
    }
}

/// Every pair over some atoms, those with the same T together: (T,T) first.
pub struct Interpretations<'a> {
    formulas: &'a Formulas,
    by_there: Vec<(Atoms, Vec<Pair>)>,
}

impl<'a> Interpretations<'a> {
    pub fn over(formulas: &'a Formulas, atoms: Atoms) -> Self {
        let pairs = |there| subsets(there).map(|gone| Pair::new(there & !gone, there)).collect();
        let by_there = subsets(atoms).map(|there| (there, pairs(there))).collect();
        Interpretations { formulas, by_there }
    }

    /// The equilibrium models of a set of formulas among the atoms at hand.
    pub fn equilibrium_models(&mut self, set: &FormulaSet) -> Vec<Atoms> {
        let formulas = self.formulas;
        let mut satisfies = |pair: &mut Pair| set.iter().all(|&f| pair.holds(formulas, f));
        let mut models = vec![];
        for (there, pairs) in &mut self.by_there {
            let (total, smaller) = pairs.split_first_mut().expect("(T,T) is a pair");
            if satisfies(total) && !smaller.iter_mut().any(&mut satisfies) {
                models.push(*there);
            }
        }
        models
    }

    /// Does every equilibrium model of the left satisfy some formula of the right?
    pub fn entails(&mut self, sequent: &Sequent) -> bool {
        let formulas = self.formulas;
        let models = self.equilibrium_models(&sequent.antecedent);
        models.into_iter().all(|model| {
            let mut total = Pair::new(model, model);
            sequent.succedent.iter().any(|&f| total.holds(formulas, f))
        })
    }

    /// Does some pair satisfy all of the left and none of the right?
    pub fn countermodel(&mut self, sequent: &Sequent) -> Option<(Atoms, Atoms)> {
        let formulas = self.formulas;
        let mut pairs = self.by_there.iter_mut().flat_map(|(_, pairs)| pairs);
        pairs.find_map(|pair| pair.refutes(formulas, sequent).then_some((pair.here, pair.there)))
    }

    /// Is what a row of this kind says of its sides true?
    pub fn true_row(&mut self, kind: Kind, sequent: &Sequent) -> bool {
        match kind {
            Kind::Elk => self.entails(sequent),
            Kind::Refutation => self.countermodel(sequent).is_some(),
        }
    }
}

/// Does the pair (H,T) satisfy every formula of a set?
pub fn satisfies(formulas: &Formulas, here: Atoms, there: Atoms, set: &FormulaSet) -> bool {
    let mut pair = Pair::new(here, there);
    set.iter().all(|&f| pair.holds(formulas, f))
}

/// Is T an equilibrium model of a set? Its proper parts are tried as far as the first that
/// upsets it.
pub fn in_equilibrium(formulas: &Formulas, there: Atoms, set: &FormulaSet) -> bool {
    let mut parts = subsets(there).filter(|&here| here != there);
    satisfies(formulas, there, there, set) && !parts.any(|here| satisfies(formulas, here, there, set))
}

/// Every equilibrium model of a set. None has an atom that does not occur in the set.
pub fn equilibrium_models(formulas: &Formulas, set: &FormulaSet) -> Vec<Atoms> {
    Interpretations::over(formulas, formulas.atoms_of(set)).equilibrium_models(set)
}

/// Do two formulas hold in the same pairs? Those over the atoms that occur decide it.
pub fn same_pairs(formulas: &Formulas, two: [Formula; 2]) -> bool {
    let (formulas, [a, b]) = formulas.alone(two);
    let parts = |there| subsets(there).map(move |here| (here, there));
    let mut pairs = subsets(formulas.atoms_of(&[a, b])).flat_map(parts);
    pairs.all(|(here, there)| {
        let mut pair = Pair::new(here, there);
        pair.holds(&formulas, a) == pair.holds(&formulas, b)
    })
}

/// The same by values: 0 for what fails in (T,T), 1 for what holds there alone, 2 for what
/// holds in (H,T) too. Formulas with the same value for all values of their atoms hold in the
/// same pairs, and the other way round, since each (T,T) is a pair.
pub fn same_values(formulas: &Formulas, two: [Formula; 2]) -> bool {
    let (formulas, [a, b]) = formulas.alone(two);
    let atoms: Vec<u16> = rising(formulas.atoms_of(&[a, b])).collect();
    let mut values = vec![];
    (0..3usize.pow(atoms.len() as u32)).all(|choice| {
        let digit = |k| {
            let place = atoms.iter().position(|&atom| atom == k).expect("an atom that occurs");
            choice / 3usize.pow(place as u32) % 3
        };
        values.clear();
        for &node in formulas.nodes() {
            let value = |f| values[formulas.place(f)];
            let implied = |a: usize, b: usize| if a <= b { 2 } else { b };
            values.push(match node {
                Node::Falsum => 0,
                Node::Atom(k) => digit(k),
                Node::Not(a) => implied(value(a), 0),
                Node::And(a, b) => value(a).min(value(b)),
                Node::Or(a, b) => value(a).max(value(b)),
                Node::Implies(a, b) => implied(value(a), value(b)),
            });
        }
        values[formulas.place(a)] == values[formulas.place(b)]
    })
}

/// Is what a row says true, over the atoms that occur in it?
pub fn true_row(formulas: &Formulas, kind: Kind, sequent: &Sequent) -> bool {
    let atoms = formulas.atoms_of(sequent.antecedent.iter().chain(&sequent.succedent));
    Interpretations::over(formulas, atoms).true_row(kind, sequent)
}

#[cfg(test)]
mod tests {
    use super::*;
    use crate::notation;

    fn atom(name: &str) -> u16 {
        u16::from(name.as_bytes()[0] - b'a')
    }

    fn set(formulas: &mut Formulas, text: &str) -> FormulaSet {
        notation::side(formulas, text, &mut atom)
    }

    fn is_true(text: &str) -> bool {
        let mut formulas = Formulas::default();
        let (kind, sequent) = notation::sequent(&mut formulas, text, &mut atom);
        true_row(&formulas, kind, &sequent)
    }

    /// The table of the third condition of acceptance, over two more atoms than occur.
    #[test]
    fn equilibrium_models_of_the_papers_sheets() {
        let table: [(&str, &[&str]); 11] = [
            ("-", &[""]),
            ("#", &[]),
            ("~~p", &[]),
            ("~p->p", &[]),
            ("a|b", &["a", "b"]),
            ("a|~a", &["", "a"]),
            ("(a|b)&(b->a)", &["a"]),
            ("a->b,b->a", &[""]),
            ("a|b,a->b,b->a", &["ab"]),
            ("~a->b,~b->a,a->c", &["ac", "b"]),
            ("~c->(a|b),~(a&d),~b,d", &[]),
        ];
        for (sheet, models) in table {
            let mut formulas = Formulas::default();
            let sheet_set = set(&mut formulas, sheet);
            let atoms = formulas.atoms_of(&sheet_set) | 1 << atom("y") | 1 << atom("z");
            let mut expected: Vec<Atoms> =
                models.iter().map(|model| model.bytes().map(|name| 1 << (name - b'a')).sum()).collect();
            expected.sort();
            let mut found = Interpretations::over(&formulas, atoms).equilibrium_models(&sheet_set);
            found.sort();
            assert_eq!(found, expected, "equilibrium models of {sheet}");
            let one_by_one = subsets(atoms).filter(|&there| in_equilibrium(&formulas, there, &sheet_set));
            assert_eq!(one_by_one.collect::<Vec<_>>(), expected, "equilibrium models of {sheet}, each alone");
            let mut occurring = equilibrium_models(&formulas, &sheet_set);
            occurring.sort();
            assert_eq!(occurring, expected, "equilibrium models of {sheet} over its atoms");
        }
    }

    #[test]
    fn rows_that_look_sound() {
        assert!(is_true("- => ~a"));
        assert!(!is_true("a => ~a"));
        assert!(is_true("- => a|~a"));
        assert!(!is_true("a|~a => ~a"));
        assert!(!is_true("q,q->p => ~p"));
        assert!(is_true("- ; p,~p"));
        assert!(is_true("p ; ~p"));
        assert!(!is_true("p,~p ; -"));
        assert!(!is_true("# ; -"));
        assert!(!is_true("- ; ~#"));
    }

    #[test]
    fn implication_and_negation_look_at_both_worlds() {
        let mut formulas = Formulas::default();
        let f = notation::formula(&mut formulas, "a->b", &mut atom);
        let g = notation::formula(&mut formulas, "~a", &mut atom);
        assert!(!Pair::new(0, 0b01).holds(&formulas, f));
        assert!(!Pair::new(0, 0b01).holds(&formulas, g));
        assert!(Pair::new(0, 0b11).holds(&formulas, f));
        assert!(!Pair::new(0b01, 0b11).holds(&formulas, f));
        assert!(Pair::new(0b11, 0b11).holds(&formulas, f));
    }

    /// The equal ones are equal in classical logic too, and so are some of the others.
    #[test]
    fn formulas_that_hold_in_the_same_pairs() {
        let equal = [
            ("~p", "~~~p"),
            ("p&~p", "#"),
            ("p->p", "~#"),
            ("p|q", "((p->q)->q)&((q->p)->p)"),
            ("~(p&q)", "~p|~q"),
            ("~p->q", "~~p|q"),
            ("(p->q)|(q->p)", "~p|~~p"),
        ];
        let unequal = [
            ("p", "~~p"),
            ("p", "q"),
            ("p|~p", "~#"),
            ("p->q", "~p|q"),
            ("p->q", "~q->~p"),
            ("p|q", "~p->q"),
            ("p", "(p->q)->p"),
        ];
        for (table, expected) in [(equal, true), (unequal, false)] {
            for (one, other) in table {
                let mut formulas = Formulas::default();
                let two = [one, other].map(|text| notation::formula(&mut formulas, text, &mut atom));
                assert_eq!(same_pairs(&formulas, two), expected, "{one} and {other}");
                assert_eq!(same_values(&formulas, two), expected, "{one} and {other} by values");
            }
        }
    }

    #[test]
    fn a_thousand_shared_conjunctions_are_valued_at_once() {
        let mut formulas = Formulas::default();
        let p = formulas.atom(0);
        let deep = (0..1000).fold(p, |f, _| formulas.keep(Node::And(f, f)));
        assert!(same_pairs(&formulas, [deep, p]) && same_values(&formulas, [deep, p]));
        let sequent = Sequent { antecedent: [deep].into(), succedent: [p].into() };
        assert!(true_row(&formulas, Kind::Elk, &sequent));
        assert!(!true_row(&formulas, Kind::Refutation, &sequent));
    }
}
