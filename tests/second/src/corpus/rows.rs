//! Derivations written with formulas in place of numbers.
//!
//! A line is `rule principal premises left => right` (or `left ; right`), in which
//! premises are counted among these lines from 0. `prove left => right` and `refute
//! left ; right` stand for as many rows as it takes, the last of which is meant by
//! the line's number; `join constraint` likewise for those by which `~A` or `A->#` joins
//! the sequent of the line before. `atoms` and `also`, both first, give the order of atoms
//! (else that of the alphabet) and formulas to be numbered first. `model` gives the atoms
//! of the M line, `-` for none.

use super::Case;
use crate::constraint;
use crate::draft::{Draft, DraftRow};
use crate::formula::{Atoms, Formula, Formulas};
use crate::notation;
use crate::prove::Prover;
use crate::random::Random;
use crate::rules::ELK;
use crate::sequent::Kind;

/// A case in which every row is accepted and the last one is claimed, with the least
/// model that it has if it wants one and none is given. A derivation that ends in a
/// refutation, or in a sequent that no model confirms, gets one more row to claim.
pub fn accepted(name: &str, rows: &str) -> Option<Case> {
    let least = |models: &[Atoms]| *models.iter().min().expect("a model to choose");
    let mut draft = draft(rows)?;
    if draft.model.is_none() && !draft.confirm(least) {
        draft = self::draft(&format!("{rows}\nsame c - c => c"))?;
        assert!(draft.confirm(least), "an atom is a model of itself");
    }
    let text = draft.text();
    let lines = text.iter().filter(|&&byte| byte == b'\n').count();
    Some(super::raw(name, 0, lines, text))
}

/// A case in which the last row, and no earlier one, earns this number; or, from 15 to 17, the
/// line after it: the model's, or the claim's if there is no model.
pub fn refused(name: &str, number: u16, rows: &str) -> Option<Case> {
    let draft = draft(rows)?;
    let rows = draft.names.len() + draft.listed.len() + draft.rows.len();
    let line = if matches!(number, 15..=17) { rows + 1 } else { rows };
    Some(super::raw(name, number, line, draft.text()))
}

/// None if some `prove` or `refute` can't be done.
fn draft(text: &str) -> Option<Draft> {
    let lines: Vec<Vec<&str>> = text.lines().map(|line| line.split_whitespace().collect()).collect();
    let lines: Vec<Vec<&str>> = lines.into_iter().filter(|words| !words.is_empty()).collect();
    let names = atom_names(&lines);
    let mut reader = Reader {
        names: &names,
        prover: Prover::new(Formulas::default(), Random::new(1)),
        first: vec![],
        made: vec![],
        model: None,
    };
    for words in &lines {
        reader.line(words)?;
    }
    let Reader { prover, first, model, .. } = reader;
    Some(Draft { model, ..Draft::new(names, prover.formulas, &first, prover.rows) })
}

fn atom_names(lines: &[Vec<&str>]) -> Vec<String> {
    if let ["atoms", order] = lines[0][..] {
        return order.split(',').map(String::from).collect();
    }
    let formulas = |words: &Vec<&str>| match words[..] {
        [_, side] => side.to_string(),
        [_, left, _, right] => format!("{left},{right}"),
        [_, principal, _, left, _, right] => format!("{principal},{left},{right}"),
        _ => panic!("not a row: {words:?}"),
    };
    let written: String = lines.iter().map(|words| formulas(words) + ",").collect();
    let mut names: Vec<String> = notation::names(&written).into_iter().map(String::from).collect();
    names.sort();
    names.dedup();
    names
}

struct Reader<'a> {
    names: &'a [String],
    prover: Prover,
    first: Vec<Formula>,
    made: Vec<usize>,
    model: Option<Atoms>,
}

impl Reader<'_> {
    fn line(&mut self, words: &[&str]) -> Option<()> {
        let names = self.names;
        let mut atom = |name: &str| {
            let place = names.iter().position(|known| known == name);
            place.unwrap_or_else(|| panic!("{name} is no atom of the file")) as u16
        };
        let formulas = &mut self.prover.formulas;
        let row = match *words {
            ["atoms", _] => return Some(()),
            ["also", side] => {
                let parts = side.split(',');
                self.first.extend(parts.map(|part| notation::formula(formulas, part, &mut atom)));
                return Some(());
            }
            ["model", atoms] => {
                let parts = atoms.split(',').filter(|_| atoms != "-");
                self.model = Some(parts.map(|name| 1 << atom(name)).sum());
                return Some(());
            }
            ["prove" | "refute", left, sign, right] => {
                let (kind, goal) = notation::sequent(formulas, &format!("{left} {sign} {right}"), &mut atom);
                match kind {
                    Kind::Elk => self.prover.prove(&goal)?,
                    Kind::Refutation => self.prover.refute(&goal)?,
                }
            }
            ["join", constraint] => {
                let constraint = notation::formula(formulas, constraint, &mut atom);
                let (claimed, next) = (*self.made.last().expect("a line before"), self.prover.rows.len());
                let claim = self.prover.rows[claimed].sequent.clone();
                let rows = constraint::joining(formulas, constraint, &claim, claimed, next);
                rows.into_iter().fold(claimed, |_, row| self.prover.push(row))
            }
            [rule, principal, premises, left, sign, right] => {
                let rule = ELK.code(rule).expect("a rule of the table");
                let principal = (principal != "-").then(|| notation::formula(formulas, principal, &mut atom));
                let (kind, sequent) =
                    notation::sequent(formulas, &format!("{left} {sign} {right}"), &mut atom);
                assert_eq!(kind, ELK.rules[rule].conclusion.kind, "the sign of {words:?}");
                let premises = premises.split(',').filter(|_| premises != "-");
                let premises = premises.map(|line| self.made[line.parse::<usize>().unwrap()]).collect();
                self.prover.push(DraftRow { rule, principal, premises, sequent })
            }
            _ => panic!("not a row: {words:?}"),
        };
        self.made.push(row);
        Some(())
    }
}

/// The cases of one group, from a text of headings `accepted NAME` and `refused
/// NUMBER NAME`, each followed by rows.
pub fn group(group: &str, text: &str) -> Vec<Case> {
    let mut cases: Vec<(Vec<&str>, String)> = vec![];
    for line in text.lines() {
        let words: Vec<&str> = line.split_whitespace().collect();
        match (words.first(), cases.last_mut()) {
            (Some(&"accepted" | &"refused"), _) => cases.push((words, String::new())),
            (_, Some((_, rows))) => *rows += &format!("{line}\n"),
            (_, None) => assert!(words.is_empty(), "rows before a heading"),
        }
    }
    let case = |(heading, rows): &(Vec<&str>, String)| match heading[..] {
        ["accepted", name] => accepted(&format!("{group}/{name}"), rows),
        ["refused", number, name] => refused(&format!("{group}/{name}"), number.parse().unwrap(), rows),
        _ => panic!("not a heading: {heading:?}"),
    };
    cases.iter().map(|entry| case(entry).unwrap_or_else(|| panic!("no derivation: {entry:?}"))).collect()
}
