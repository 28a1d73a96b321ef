//! For each rule that has premises with one L and one R: one instance, taken from the
//! paper by hand, and all that follows from it. Changes that put something into L or R
//! throughout are accepted; each change of one sequent alone is refused.

use super::{Case, rows};
use crate::notation;
use crate::sequent::Kind;
use std::collections::BTreeSet;

type Side = BTreeSet<String>;

const LEFT: usize = 0;
const RIGHT: usize = 1;

/// Rule, principal, premises, conclusion, with nothing in L and R.
const INSTANCES: [(&str, &str, &[&str], &str); 33] = [
    ("andl", "p&q", &["p,q => -"], "p&q => -"),
    ("andr", "p&q", &["- => p", "- => q"], "- => p&q"),
    ("wr", "r", &["- => -"], "- => r"),
    ("orr", "p|q", &["- => p,q"], "- => p|q"),
    ("orl", "p|q", &["p => -", "q => p"], "p|q => -"),
    ("notl", "~p", &["- => p"], "~p => -"),
    ("impr", "p->q", &["p => q"], "- => p->q"),
    ("impl", "p->q", &["q => ~p", "- => p"], "p->q => -"),
    ("notr", "~p", &["p => -"], "- => ~p"),
    ("xnnl", "~~p", &["- ; ~p"], "~~p ; -"),
    ("xnnr", "~~p", &["~p ; -"], "- ; ~~p"),
    ("xandl", "p&q", &["p,q ; -"], "p&q ; -"),
    ("xandr1", "p&q", &["- ; p"], "- ; p&q"),
    ("xandr2", "p&q", &["- ; q"], "- ; p&q"),
    ("xorr", "p|q", &["- ; p,q"], "- ; p|q"),
    ("xorl1", "p|q", &["p ; -"], "p|q ; -"),
    ("xorl2", "p|q", &["q ; -"], "p|q ; -"),
    ("ximpl1", "p->q", &["- ; p,~q"], "p->q ; -"),
    ("ximpl2", "p->q", &["q ; -"], "p->q ; -"),
    ("ximpl3", "p->q", &["~p ; -"], "p->q ; -"),
    ("ximpr1", "p->q", &["p ; q"], "- ; p->q"),
    ("ximpr2", "p->q", &["~q ; ~p"], "- ; p->q"),
    ("xnimpl", "~(p->q)", &["~q ; ~p"], "~(p->q) ; -"),
    ("xnimpr1", "~(p->q)", &["~p ; -"], "- ; ~(p->q)"),
    ("xnimpr2", "~(p->q)", &["- ; ~q"], "- ; ~(p->q)"),
    ("xnandl1", "~(p&q)", &["~p ; -"], "~(p&q) ; -"),
    ("xnandl2", "~(p&q)", &["~q ; -"], "~(p&q) ; -"),
    ("xnandr", "~(p&q)", &["- ; ~p,~q"], "- ; ~(p&q)"),
    ("xnorl", "~(p|q)", &["~p,~q ; -"], "~(p|q) ; -"),
    ("xnorr1", "~(p|q)", &["- ; ~p"], "- ; ~(p|q)"),
    ("xnorr2", "~(p|q)", &["- ; ~q"], "- ; ~(p|q)"),
    ("bot", "#", &["- => #"], "- => -"),
    ("swap", "p&q", &["q&p => -"], "p&q => -"),
];

/// Rows of the other rules, for the premises that they must have.
const OTHERS: [(&str, &str); 5] = [
    ("def", "def ~p - q => ~p"),
    ("same", "same p - p => p"),
    ("rcut", "same c - c => c,p\nsame c - c,p => c\nrcut p 0,1 c => c"),
    ("unst", "prove ~~p => p\nrefute ~~p ; p|~p\nunst - 0,1 ~~p => -"),
    ("xini", "xini - - p ; q"),
];

pub fn cases() -> Vec<Case> {
    let mut cases = vec![];
    for entry in &INSTANCES {
        let step = Step::read(entry);
        cases.extend(accepted(&step));
        cases.extend(refused(&step));
        cases.extend(wrong_rules(&step));
        cases.extend(wrong_premises(&step.rule, &step.rows()));
    }
    for (rule, rows) in OTHERS {
        cases.extend(wrong_premises(rule, rows));
    }
    cases
}

/// A row with its premises; sides are sets of written formulas.
#[derive(Clone, PartialEq)]
struct Step {
    kind: Kind,
    rule: String,
    principal: String,
    order: Vec<usize>,
    premises: Vec<[Side; 2]>,
    conclusion: [Side; 2],
}

/// What a rule adds to its premises, beside L and R.
struct Part {
    premise: usize,
    side: usize,
    formula: String,
}

impl Step {
    /// The instance with a formula in L and one in R; ELK rows have a common one too,
    /// by which their premises are initial.
    fn read(&(rule, principal, premises, conclusion): &(&str, &str, &[&str], &str)) -> Self {
        let mut step = Step::bare(rule, principal, premises, conclusion);
        step.everywhere(LEFT, "g");
        step.everywhere(RIGHT, "h");
        step
    }

    fn bare(rule: &str, principal: &str, premises: &[&str], conclusion: &str) -> Self {
        let sides = |text: &str| {
            let (_, left, right) = notation::sides(text);
            let side = |text: &str| text.split(',').filter(|_| text != "-").map(String::from).collect();
            [side(left), side(right)]
        };
        let mut step = Step {
            kind: notation::sides(conclusion).0,
            rule: rule.into(),
            principal: principal.into(),
            order: (0..premises.len()).collect(),
            premises: premises.iter().map(|text| sides(text)).collect(),
            conclusion: sides(conclusion),
        };
        if step.kind == Kind::Elk {
            step.everywhere(LEFT, "c");
            step.everywhere(RIGHT, "c");
        }
        step
    }

    fn everywhere(&mut self, side: usize, formula: &str) {
        for sequent in self.premises.iter_mut().chain([&mut self.conclusion]) {
            sequent[side].insert(formula.into());
        }
    }

    /// The side of the conclusion where the principal stands; none for `bot`.
    fn principal_side(&self) -> Option<usize> {
        [LEFT, RIGHT].into_iter().find(|&side| self.conclusion[side].contains(&self.principal))
    }

    fn parts(&self) -> Vec<Part> {
        let mut parts = vec![];
        for (premise, sides) in self.premises.iter().enumerate() {
            for side in [LEFT, RIGHT] {
                let added = sides[side].difference(&self.conclusion[side]).cloned();
                parts.extend(added.map(|formula| Part { premise, side, formula }));
            }
        }
        parts
    }

    /// The same step with other formulas for p and q.
    fn renamed(&self, p: &str, q: &str) -> Self {
        let rename = |text: &String| {
            let marked = text.replace('p', "P").replace('q', "Q");
            marked.replace('P', p).replace('Q', q)
        };
        let sides = |sides: &[Side; 2]| [LEFT, RIGHT].map(|side| sides[side].iter().map(rename).collect());
        Step {
            principal: rename(&self.principal),
            premises: self.premises.iter().map(sides).collect(),
            conclusion: sides(&self.conclusion),
            ..self.clone()
        }
    }

    fn rows(&self) -> String {
        let written = |side: &Side| match side.is_empty() {
            true => "-".into(),
            false => side.iter().cloned().collect::<Vec<_>>().join(","),
        };
        let sequent = |sides: &[Side; 2]| {
            let sign = if self.kind == Kind::Elk { "=>" } else { ";" };
            format!("{} {sign} {}", written(&sides[LEFT]), written(&sides[RIGHT]))
        };
        let start = if self.kind == Kind::Elk { "same c -" } else { "refute" };
        let premises: String = self.premises.iter().map(|p| format!("{start} {}\n", sequent(p))).collect();
        let order = crate::draft::list(&self.order);
        format!("{premises}{} {} {order} {}", self.rule, self.principal, sequent(&self.conclusion))
    }
}

/// L and R hold more, throughout. A refutation for which there is no countermodel, or
/// a change that changes nothing, is left out.
fn accepted(step: &Step) -> Vec<Case> {
    let mut changed: Vec<(&str, Step)> = vec![("plain", step.clone())];
    let mut change = |name, change: &dyn Fn(&mut Step)| {
        let mut other = step.clone();
        change(&mut other);
        if changed.iter().all(|(_, known)| *known != other) {
            changed.push((name, other));
        }
    };
    let keep_principal = |other: &mut Step| {
        other.everywhere(step.principal_side().unwrap_or(RIGHT), &step.principal);
    };
    let keep_parts = |other: &mut Step| {
        for part in step.parts() {
            other.everywhere(part.side, &part.formula);
        }
    };
    change("principal_kept", &keep_principal);
    change("parts_kept", &keep_parts);
    change("principal_and_parts_kept", &|other| {
        keep_principal(other);
        keep_parts(other);
    });
    change("principal_on_the_other_side_of_all", &|other| {
        other.everywhere(1 - step.principal_side().unwrap_or(RIGHT), &step.principal);
    });
    change("wider_context", &|other| {
        other.everywhere(LEFT, "e");
        other.everywhere(RIGHT, "~f");
    });
    change("bare", &|other| {
        for sequent in other.premises.iter_mut().chain([&mut other.conclusion]) {
            sequent[LEFT].remove("g");
            sequent[RIGHT].remove("h");
        }
    });
    change("compound_parts", &|other| *other = step.renamed("(s|t)", "~t"));
    change("equal_parts", &|other| *other = step.renamed("p", "p"));
    change("parts_exchanged", &|other| *other = step.renamed("q", "p"));
    let case =
        |(name, other): &(&str, Step)| rows::accepted(&format!("rule_{}/{name}", step.rule), &other.rows());
    changed.iter().filter_map(case).collect()
}

/// One sequent alone is changed.
fn refused(step: &Step) -> Vec<Case> {
    let mut cases = vec![];
    let mut refuse = |name: String, change: &dyn Fn(&mut Step)| {
        let mut other = step.clone();
        change(&mut other);
        cases.extend(rows::refused(&format!("rule_{}/{name}", step.rule), 11, &other.rows()));
    };
    let side_name = ["left", "right"];
    if let Some(side) = step.principal_side() {
        refuse("principal_missing".into(), &|other| {
            other.conclusion[side].remove(&step.principal);
        });
        refuse("principal_on_the_other_side".into(), &|other| {
            other.conclusion[side].remove(&step.principal);
            other.conclusion[1 - side].insert(step.principal.clone());
        });
        if step.rule != "wr" {
            refuse("principal_of_another_form".into(), &|other| {
                other.conclusion[side].remove(&step.principal);
                other.conclusion[side].insert("s".into());
                other.principal = "s".into();
            });
        }
    }
    for (count, part) in step.parts().iter().enumerate() {
        refuse(format!("part_{count}_missing"), &|other| {
            other.premises[part.premise][part.side].remove(&part.formula);
        });
        refuse(format!("part_{count}_on_the_other_side"), &|other| {
            other.premises[part.premise][part.side].remove(&part.formula);
            other.premises[part.premise][1 - part.side].insert(part.formula.clone());
        });
    }
    for side in [LEFT, RIGHT] {
        let (place, context) = (side_name[side], ["g", "h"][side]);
        refuse(format!("conclusion_gains_on_the_{place}"), &|other| {
            other.conclusion[side].insert("e".into());
        });
        refuse(format!("conclusion_loses_on_the_{place}"), &|other| {
            other.conclusion[side].remove(context);
        });
        for k in 0..step.premises.len() {
            refuse(format!("premise_{k}_gains_on_the_{place}"), &|other| {
                other.premises[k][side].insert("e".into());
            });
            refuse(format!("premise_{k}_loses_on_the_{place}"), &|other| {
                other.premises[k][side].remove(context);
            });
        }
    }
    if let ([_, _], Some(side)) = (&step.order[..], step.principal_side()) {
        refuse("premises_swapped".into(), &|other| other.order = vec![1, 0]);
        for k in [0, 1] {
            refuse(format!("premise_{k}_twice"), &|other| other.order = vec![k, k]);
            refuse(format!("principal_kept_in_premise_{k}_alone"), &|other| {
                other.premises[k][side].insert(step.principal.clone());
            });
        }
    }
    cases
}

/// The rows of one rule under the name of each other with the same principal: what
/// they add, or where, differs.
fn wrong_rules(step: &Step) -> Vec<Case> {
    let like = INSTANCES.iter().filter(|(rule, principal, _, conclusion)| {
        *rule != step.rule && *principal == step.principal && notation::sides(conclusion).0 == step.kind
    });
    let same_count = like.filter(|(_, _, premises, _)| premises.len() == step.premises.len());
    let case = |(rule, ..): &(&str, &str, &[&str], &str)| {
        let other = Step { rule: rule.to_string(), ..step.clone() };
        rows::refused(&format!("rule_{rule}/rows_of_{}", step.rule), 11, &other.rows())
    };
    same_count.filter_map(case).collect()
}

/// An accepted row with another number or kind of premises, or with a principal that
/// comes or goes: 10.
fn wrong_premises(rule: &str, accepted: &str) -> Vec<Case> {
    let (before, row) = accepted.rsplit_once('\n').unwrap_or(("", accepted));
    let words: Vec<&str> = row.split_whitespace().collect();
    let [name, principal, premises, left, sign, right] = words[..] else { panic!("not a row: {row}") };
    let count = before.lines().count();
    let premises: Vec<usize> = premises.split(',').filter_map(|line| line.parse().ok()).collect();
    let elk_row = count;
    let refutation_row = count + 1;
    let mut cases = vec![];
    let mut refuse = |what: String, principal: &str, premises: &[usize]| {
        let premises = crate::draft::list(premises);
        let row = format!("{name} {principal} {premises} {left} {sign} {right}");
        let rows = format!("{before}\nsame c - c => c\nxini - - c ; -\n{row}");
        cases.extend(rows::refused(&format!("premises/{rule}_{what}"), 10, &rows));
    };
    let other_principal = if principal == "-" { "c" } else { "-" };
    let toggled = if principal == "-" { "with_a_principal" } else { "without_principal" };
    refuse(toggled.into(), other_principal, &premises);
    refuse("with_one_more_sequent".into(), principal, &[&premises[..], &[elk_row]].concat());
    refuse("with_one_more_refutation".into(), principal, &[&premises[..], &[refutation_row]].concat());
    if let Some((_, fewer)) = premises.split_last() {
        refuse("with_one_premise_fewer".into(), principal, fewer);
        refuse(
            "with_the_last_premise_twice".into(),
            principal,
            &[&premises[..], &premises[fewer.len()..]].concat(),
        );
        for k in 0..premises.len() {
            for (kind, row) in [("sequent", elk_row), ("refutation", refutation_row)] {
                let mut others = premises.clone();
                others[k] = row;
                let is_elk = |line: usize| !before.lines().nth(line).unwrap().contains(" ; ");
                if is_elk(premises[k]) != (row == elk_row) {
                    refuse(format!("with_a_{kind}_as_premise_{k}"), principal, &others);
                }
            }
        }
    }
    cases
}
