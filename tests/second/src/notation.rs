//! Formulas written as in the papers: `#`, names, `~A`, `A&B`, `A|B`, `A->B`, with
//! brackets. `~` binds closest, then `&`, `|`, `->`, each nested to the right. A
//! sequent is `left => right` and a refutation `left ; right`.

use crate::formula::{Formula, FormulaSet, Formulas, Node};
use crate::sequent::{Kind, Sequent};

/// Reads one formula; `atom` gives each name its number.
pub fn formula(formulas: &mut Formulas, text: &str, atom: &mut dyn FnMut(&str) -> u16) -> Formula {
    let mut reader = Reader { formulas, rest: text, atom };
    let formula = reader.implication();
    assert!(reader.rest.is_empty(), "not a formula: {text}");
    formula
}

/// Reads formulas parted by commas, or `-` for none.
pub fn side(formulas: &mut Formulas, text: &str, atom: &mut dyn FnMut(&str) -> u16) -> FormulaSet {
    let written = text.split(',').filter(|_| text != "-");
    written.map(|part| formula(formulas, part, atom)).collect()
}

/// Cuts a sequent into its kind and its two sides.
pub fn sides(text: &str) -> (Kind, &str, &str) {
    let cut = |sign| text.split_once(sign);
    let elk = cut(" => ").map(|(left, right)| (Kind::Elk, left, right));
    let refutation = || cut(" ; ").map(|(left, right)| (Kind::Refutation, left, right));
    elk.or_else(refutation).expect("a sequent has two sides")
}

/// Reads a sequent.
pub fn sequent(formulas: &mut Formulas, text: &str, atom: &mut dyn FnMut(&str) -> u16) -> (Kind, Sequent) {
    let (kind, left, right) = sides(text);
    let antecedent = side(formulas, left, atom);
    (kind, Sequent { antecedent, succedent: side(formulas, right, atom) })
}

/// The names in a text of formulas, in the order of writing, with repeats.
pub fn names(text: &str) -> Vec<&str> {
    let parts = text.split(|c: char| !(c.is_alphanumeric() || c == '_'));
    parts.filter(|name| !name.is_empty()).collect()
}

struct Reader<'a> {
    formulas: &'a mut Formulas,
    rest: &'a str,
    atom: &'a mut dyn FnMut(&str) -> u16,
}

impl Reader<'_> {
    fn takes(&mut self, sign: &str) -> bool {
        match self.rest.strip_prefix(sign) {
            Some(rest) => {
                self.rest = rest;
                true
            }
            None => false,
        }
    }

    fn implication(&mut self) -> Formula {
        let first = self.disjunction();
        if !self.takes("->") {
            return first;
        }
        let second = self.implication();
        self.formulas.keep(Node::Implies(first, second))
    }

    fn disjunction(&mut self) -> Formula {
        let first = self.conjunction();
        if !self.takes("|") {
            return first;
        }
        let second = self.disjunction();
        self.formulas.keep(Node::Or(first, second))
    }

    fn conjunction(&mut self) -> Formula {
        let first = self.primary();
        if !self.takes("&") {
            return first;
        }
        let second = self.conjunction();
        self.formulas.keep(Node::And(first, second))
    }

    fn primary(&mut self) -> Formula {
        if self.takes("#") {
            return self.formulas.falsum();
        }
        if self.takes("~") {
            let part = self.primary();
            return self.formulas.not(part);
        }
        if self.takes("(") {
            let inner = self.implication();
            assert!(self.takes(")"), "a bracket is open before: {}", self.rest);
            return inner;
        }
        let end = self.rest.find(|c: char| !(c.is_alphanumeric() || c == '_'));
        let (name, rest) = self.rest.split_at(end.unwrap_or(self.rest.len()));
        assert!(!name.is_empty(), "a formula is missing before: {rest}");
        self.rest = rest;
        let number = (self.atom)(name);
        self.formulas.atom(number)
    }
}
