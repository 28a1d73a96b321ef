//! The 38 rules, as the papers write them.
//!
//! Each rule is four texts: its name, its principal formula, its premises and its
//! conclusion. `=>` makes an ELK sequent and `;` a refutation. `A` and `B` stand for
//! any formulas, `p` for an atom, `L`, `R` and `Q` for any sets. In `unst`, `K` and
//! `E` are the sets of the one formula of that name, and `~~S`, `~S'` are sets that
//! the choice of S gives. Conditions on the sets, and on B of `swap`, which the
//! principal does not give, are in [`crate::instance`].

use crate::formula::{Formula, FormulaSet, Formulas, Node};
use crate::notation;
use crate::sequent::{Kind, Sequent};
use std::collections::BTreeMap;
use std::sync::LazyLock;

type Written = (&'static str, &'static str, &'static [&'static str], &'static str);

const TABLE: [Written; 38] = [
    ("def", "~p", &[], "L => R,~p"),
    ("same", "A", &[], "L,A => R,A"),
    ("andl", "A&B", &["L,A,B => R"], "L,A&B => R"),
    ("andr", "A&B", &["L => R,A", "L => R,B"], "L => R,A&B"),
    ("wr", "A", &["L => R"], "L => R,A"),
    ("bot", "#", &["L => R,#"], "L => R"),
    ("orr", "A|B", &["L => R,A,B"], "L => R,A|B"),
    ("orl", "A|B", &["L,A => R", "L,B => R,A"], "L,A|B => R"),
    ("notl", "~A", &["L => R,A"], "L,~A => R"),
    ("impr", "A->B", &["L,A => R,B"], "L => R,A->B"),
    ("impl", "A->B", &["L,B => R,~A", "L => R,A"], "L,A->B => R"),
    ("notr", "~A", &["L,A => R"], "L => R,~A"),
    ("rcut", "A", &["L => R,A", "L,A => Q"], "L => R,Q"),
    ("unst", "-", &["L => K", "L,~~S,~S' ; E"], "L => R"),
    ("xini", "-", &[], "L ; R"),
    ("xnnl", "~~A", &["L ; R,~A"], "L,~~A ; R"),
    ("xnnr", "~~A", &["L,~A ; R"], "L ; R,~~A"),
    ("xandl", "A&B", &["L,A,B ; R"], "L,A&B ; R"),
    ("xandr1", "A&B", &["L ; R,A"], "L ; R,A&B"),
    ("xandr2", "A&B", &["L ; R,B"], "L ; R,A&B"),
    ("xorr", "A|B", &["L ; R,A,B"], "L ; R,A|B"),
    ("xorl1", "A|B", &["L,A ; R"], "L,A|B ; R"),
    ("xorl2", "A|B", &["L,B ; R"], "L,A|B ; R"),
    ("ximpl1", "A->B", &["L ; R,A,~B"], "L,A->B ; R"),
    ("ximpl2", "A->B", &["L,B ; R"], "L,A->B ; R"),
    ("ximpl3", "A->B", &["L,~A ; R"], "L,A->B ; R"),
    ("ximpr1", "A->B", &["L,A ; R,B"], "L ; R,A->B"),
    ("ximpr2", "A->B", &["L,~B ; R,~A"], "L ; R,A->B"),
    ("xnimpl", "~(A->B)", &["L,~B ; R,~A"], "L,~(A->B) ; R"),
    ("xnimpr1", "~(A->B)", &["L,~A ; R"], "L ; R,~(A->B)"),
    ("xnimpr2", "~(A->B)", &["L ; R,~B"], "L ; R,~(A->B)"),
    ("xnandl1", "~(A&B)", &["L,~A ; R"], "L,~(A&B) ; R"),
    ("xnandl2", "~(A&B)", &["L,~B ; R"], "L,~(A&B) ; R"),
    ("xnandr", "~(A&B)", &["L ; R,~A,~B"], "L ; R,~(A&B)"),
    ("xnorl", "~(A|B)", &["L,~A,~B ; R"], "L,~(A|B) ; R"),
    ("xnorr1", "~(A|B)", &["L ; R,~A"], "L ; R,~(A|B)"),
    ("xnorr2", "~(A|B)", &["L ; R,~B"], "L ; R,~(A|B)"),
    ("swap", "A", &["L,B => R"], "L,A => R"),
];

/// A set that a rule speaks of.
#[derive(Clone, Copy, Debug, Eq, Ord, PartialEq, PartialOrd)]
pub enum SetName {
    L,
    R,
    Q,
    K,
    E,
    NotNotS,
    NotRest,
}

/// What each set named in a rule is.
pub type Sets = BTreeMap<SetName, FormulaSet>;

/// One side of a sequent in a rule: the union of its sets and its formulas.
pub struct SideScheme {
    pub sets: Vec<SetName>,
    formulas: Vec<Formula>,
}

pub struct Scheme {
    pub kind: Kind,
    pub antecedent: SideScheme,
    pub succedent: SideScheme,
}

pub struct Rule {
    pub name: &'static str,
    pub principal: Option<Formula>,
    pub premises: Vec<Scheme>,
    pub conclusion: Scheme,
}

/// What `A`, `B` and `p` stand for in one application of a rule.
pub type Bindings = [Option<Formula>; 3];

/// The places of `A`, `B` and `p` in [`Bindings`]; `p` stands for atoms only.
pub const A: usize = 0;
pub const B: usize = 1;
pub const ATOM: usize = 2;

/// Forms of formulas over `A`, `B` and `p`.
#[derive(Default)]
pub struct Forms(Formulas);

/// The rules in the order of their codes, with the forms they are written in.
pub struct Calculus {
    pub forms: Forms,
    pub rules: Vec<Rule>,
}

/// The one rule table, read.
pub static ELK: LazyLock<Calculus> = LazyLock::new(Calculus::read);

impl Forms {
    pub fn read(&mut self, text: &str) -> Formula {
        notation::formula(&mut self.0, text, &mut |name| match name {
            "A" => A as u16,
            "B" => B as u16,
            "p" => ATOM as u16,
            _ => panic!("{name} stands for no formula"),
        })
    }

    /// Is the formula of this form, with what is bound already? Binds the rest.
    pub fn matches(
        &self,
        formulas: &Formulas,
        form: Formula,
        formula: Formula,
        bindings: &mut Bindings,
    ) -> bool {
        match (self.0.node(form), formulas.node(formula)) {
            (Node::Atom(variable), _) => {
                let variable = variable as usize;
                let earlier = bindings[variable].replace(formula);
                earlier.is_none_or(|bound| bound == formula)
                    && (variable != ATOM || formulas.is_atom(formula))
            }
            (Node::Falsum, Node::Falsum) => true,
            (Node::Not(a), Node::Not(x)) => self.matches(formulas, a, x, bindings),
            (Node::And(a, b), Node::And(x, y))
            | (Node::Or(a, b), Node::Or(x, y))
            | (Node::Implies(a, b), Node::Implies(x, y)) => {
                self.matches(formulas, a, x, bindings) && self.matches(formulas, b, y, bindings)
            }
            _ => false,
        }
    }

    /// The formula that a form stands for.
    pub fn instantiate(&self, formulas: &mut Formulas, form: Formula, bindings: &Bindings) -> Formula {
        let node = match self.0.node(form) {
            Node::Atom(variable) => {
                return bindings[variable as usize].expect("what a form speaks of is bound");
            }
            node => node.map(|part| self.instantiate(formulas, part, bindings)),
        };
        formulas.keep(node)
    }
}

impl Calculus {
    fn read() -> Self {
        let mut forms = Forms::default();
        let rules = TABLE.map(|(name, principal, premises, conclusion)| Rule {
            name,
            principal: (principal != "-").then(|| forms.read(principal)),
            premises: premises.iter().map(|text| scheme(&mut forms, text)).collect(),
            conclusion: scheme(&mut forms, conclusion),
        });
        Calculus { forms, rules: rules.into() }
    }

    /// The code of the rule of this name.
    pub fn code(&self, name: &str) -> Option<usize> {
        self.rules.iter().position(|rule| rule.name == name)
    }

    /// What `A`, `B` and `p` are if the principal formula has the form that the rule
    /// asks for.
    pub fn bind(&self, formulas: &Formulas, rule: &Rule, principal: Option<Formula>) -> Option<Bindings> {
        let mut bindings = [None; 3];
        let fits = match (rule.principal, principal) {
            (None, None) => true,
            (Some(form), Some(formula)) => self.forms.matches(formulas, form, formula, &mut bindings),
            _ => false,
        };
        fits.then_some(bindings)
    }

    /// The formulas that a side names one by one.
    pub fn named(&self, formulas: &mut Formulas, side: &SideScheme, bindings: &Bindings) -> FormulaSet {
        let forms = side.formulas.iter();
        forms.map(|&form| self.forms.instantiate(formulas, form, bindings)).collect()
    }

    /// The sequent that a scheme is for these formulas and sets.
    pub fn sequent(
        &self,
        formulas: &mut Formulas,
        scheme: &Scheme,
        bindings: &Bindings,
        sets: &Sets,
    ) -> Sequent {
        let mut side = |side: &SideScheme| {
            let mut members = self.named(formulas, side, bindings);
            for name in &side.sets {
                members.extend(&sets[name]);
            }
            members
        };
        Sequent { antecedent: side(&scheme.antecedent), succedent: side(&scheme.succedent) }
    }
}

fn scheme(forms: &mut Forms, text: &str) -> Scheme {
    let (kind, antecedent, succedent) = notation::sides(text);
    let antecedent = side_scheme(forms, antecedent);
    Scheme { kind, antecedent, succedent: side_scheme(forms, succedent) }
}

fn side_scheme(forms: &mut Forms, text: &str) -> SideScheme {
    let mut side = SideScheme { sets: vec![], formulas: vec![] };
    for part in text.split(',') {
        match set_name(part) {
            Some(name) => side.sets.push(name),
            None => side.formulas.push(forms.read(part)),
        }
    }
    side
}

fn set_name(part: &str) -> Option<SetName> {
    Some(match part {
        "L" => SetName::L,
        "R" => SetName::R,
        "Q" => SetName::Q,
        "K" => SetName::K,
        "E" => SetName::E,
        "~~S" => SetName::NotNotS,
        "~S'" => SetName::NotRest,
        _ => return None,
    })
}
