//! Random texts, judged and cross-checked.
//!
//! Every text is judged by set algebra and by search; what is accepted must be true
//! in the brute-force semantics, row by row, and its model be one there, or the left have
//! none where there is no model; constraints must take from the models of the left those that
//! satisfy what is forbidden, and no others, and leave the claim true; its tables must give the
//! text back, and its words the rows; an answer that is known beforehand must be given; another
//! writing of the same lists must change nothing; and rows that are entered one by one must be
//! answered as in their places.

use crate::constraint::{against, stays};
use crate::draft::{atom_list, list};
use crate::entering;
use crate::formula::{Atoms, Formulas, Node, rising};
use crate::generate::{MOST_TRIED, formula};
use crate::judge::{Deciding, Derivation, Judgement, Refusal, judge, judge_closely};
use crate::line::{self, Line};
use crate::prove::{sequent, with};
use crate::random::Random;
use crate::reading;
use crate::rewrite::in_runs;
use crate::rules::ELK;
use crate::sample::{Sample, samples};
use crate::semantics::Interpretations;
use crate::sequent::Sequent;
use crate::words;
use std::cell::Cell;
use std::collections::{BTreeMap, HashMap};
use std::fmt;
use std::hash::{DefaultHasher, Hash, Hasher};
use std::panic::{AssertUnwindSafe, catch_unwind};
use std::path::{Path, PathBuf};
use std::process::ExitCode;

/// How often each number and each rule came up, and how much was confirmed.
#[derive(Default)]
struct Report {
    passed: usize,
    failed: usize,
    numbers: [usize; 19],
    rules: BTreeMap<usize, RowCounts>,
    rows_compared: Cell<usize>,
    rows_valued: usize,
    claims_confirmed: usize,
    contradictions_shown: usize,
    claims_too_large: usize,
    constraints: ConstraintCounts,
    words_read: usize,
    words_too_long: usize,
    rewritten: usize,
    rewritten_accepted: usize,
    rows_by_words: HashMap<u64, u64>,
}

/// What became of the rows of one rule.
#[derive(Clone, Copy, Default)]
struct RowCounts {
    passed: usize,
    wrong_premises: usize,
    wrong_step: usize,
    too_many_atoms: usize,
}

/// What became of accepted claims when formulas were forbidden, each alone, or stated in place
/// of that.
#[derive(Clone, Copy, Default)]
struct ConstraintCounts {
    joined: usize,
    lost_a_model: usize,
    lost_the_last: usize,
    failed_with_the_fact: usize,
}

/// So many formulas are forbidden, each alone, in the sheet of each accepted claim.
const FORBIDDEN: usize = 5;

/// So many of the last rows are entered one by one.
const MOST_ENTERED: usize = 4;

/// Words of more bytes are not read back.
pub const MOST_READ: u64 = 1 << 18;

/// The command `PROGRAM SEED COUNT`: judges random texts and prints what came up.
/// `also` is asked about each text, its judgement, and the derivation if it is accepted.
pub fn command(also: impl FnMut(&Sample, &Judgement, Option<&Derivation>) -> Result<(), String>) -> ExitCode {
    let numbers: Result<Vec<u64>, _> = std::env::args().skip(1).map(|word| word.parse()).collect();
    let Ok(&[seed, count]) = numbers.as_deref() else {
        eprintln!("usage: PROGRAM SEED COUNT");
        return ExitCode::FAILURE;
    };
    let report = run(seed, count as usize, also);
    println!("{report}");
    if report.failed == 0 { ExitCode::SUCCESS } else { ExitCode::FAILURE }
}

fn run(
    seed: u64,
    count: usize,
    mut also: impl FnMut(&Sample, &Judgement, Option<&Derivation>) -> Result<(), String>,
) -> Report {
    let mut report = Report::default();
    for (index, sample) in samples(seed).take(count).enumerate() {
        let check = || {
            let (judgement, derivation) = report.check(&sample)?;
            also(&sample, &judgement, derivation.as_ref())
        };
        let checked = catch_unwind(AssertUnwindSafe(check));
        match checked.unwrap_or_else(|_| Err("a panic".into())) {
            Ok(()) => report.passed += 1,
            Err(what) => {
                report.failed += 1;
                let kept = keep(&sample.text, seed, index).display().to_string();
                eprintln!("text {index} of seed {seed}, in {kept}: {what}; lent were {:?}", sample.lent);
            }
        }
    }
    report
}

/// Writes a text that failed into a file.
fn keep(text: &[u8], seed: u64, index: usize) -> PathBuf {
    let folder = Path::new(env!("CARGO_MANIFEST_DIR")).join("../target/failures");
    let file = folder.join(format!("{seed}-{index}.txt"));
    std::fs::create_dir_all(folder).and_then(|()| std::fs::write(&file, text)).expect("a file for the text");
    file
}

impl Report {
    fn check(&mut self, sample: &Sample) -> Result<(Judgement, Option<Derivation>), String> {
        let Sample { text, rewritten, lent, answer } = sample;
        let (judgement, derivation) = judge_closely(text, lent, Deciding::Compared(&self.rows_compared));
        self.count(text, &judgement);
        if judgement != judge(text, lent) {
            return Err("another answer by algebra alone".into());
        }
        let given = (judgement.number, judgement.line);
        if answer.is_some_and(|known| known != given) {
            return Err(format!("{given:?} is answered for {answer:?}"));
        }
        if let Some(rewritten) = rewritten {
            if judge(rewritten, lent) != judgement {
                return Err("another answer, or other tables, in another writing".into());
            }
            self.rewritten += 1;
            self.rewritten_accepted += usize::from(derivation.is_some());
        }
        entering::check(text, lent, &judgement, MOST_ENTERED)?;
        match &derivation {
            Some(derivation) => {
                if in_runs(&rebuilt(text, &judgement, derivation.model)) != in_runs(text) {
                    return Err("tables that give another text".into());
                }
                self.value(derivation)?;
                self.sharpen(derivation, &mut Random::new(hashed(text)))?;
                self.read_back(derivation)?;
            }
            None if !judgement.all_zero() => return Err("tables that aren't zero after a refusal".into()),
            None => {}
        }
        Ok((judgement, derivation))
    }

    /// How many texts earned each number that a judgement may have; 14 is for words alone.
    fn judged(&self) -> impl Iterator<Item = (usize, usize)> {
        let numbered = self.numbers.into_iter().enumerate();
        numbered.filter(|&(number, _)| number != Refusal::NoRoom as usize)
    }

    /// Asks of the words whether they have their length and no room to spare, read back
    /// as the rows, and have not told other rows before.
    fn read_back(&mut self, derivation: &Derivation) -> Result<(), String> {
        let length = words::length(derivation);
        if length > MOST_READ {
            self.words_too_long += 1;
            return match words::written(derivation, MOST_READ as usize) {
                None => Ok(()),
                Some(_) => Err("words that are longer than what they fit into".into()),
            };
        }
        let Some(written) = words::written(derivation, length as usize) else {
            return Err("words that don't fit into their length".into());
        };
        if written.len() as u64 != length || words::written(derivation, length as usize - 1).is_some() {
            return Err("words of another length".into());
        }
        let rows = reading::told(derivation);
        if reading::read(&written).as_ref() != Some(&rows) {
            return Err("words that tell other rows".into());
        }
        let (written, rows) = (hashed(&written), hashed(&rows));
        if self.rows_by_words.insert(written, rows).is_some_and(|known| known != rows) {
            return Err("equal words for unequal rows".into());
        }
        self.words_read += 1;
        Ok(())
    }

    /// Counts the number, the rows before the answer's line, which passed, and the row
    /// on that line if it is wrong.
    fn count(&mut self, text: &[u8], judgement: &Judgement) {
        self.numbers[judgement.number as usize] += 1;
        let mut lines = text.split(|&byte| byte == b'\n').map(rule_of);
        for rule in lines.by_ref().take(judgement.line.saturating_sub(1)).flatten() {
            self.rules.entry(rule).or_default().passed += 1;
        }
        match (judgement.number, lines.next().flatten()) {
            (10, Some(rule)) => self.rules.entry(rule).or_default().wrong_premises += 1,
            (11, Some(rule)) => self.rules.entry(rule).or_default().wrong_step += 1,
            (18, Some(rule)) => self.rules.entry(rule).or_default().too_many_atoms += 1,
            _ => {}
        }
    }

    /// Asks of the claim and of every row whether it is true, and of the model whether it
    /// is one, where the atoms are few.
    fn value(&mut self, derivation: &Derivation) -> Result<(), String> {
        let Derivation { formulas, rows, model, claim, .. } = derivation;
        match few_atoms(formulas, [claim]) {
            None => self.claims_too_large += 1,
            Some(atoms) => {
                let mut interpretations = Interpretations::over(formulas, atoms);
                if !interpretations.entails(claim) {
                    return Err("the claim is accepted and fails".into());
                }
                let models = interpretations.equilibrium_models(&claim.antecedent);
                let only_falsum = claim.succedent.iter().all(|&f| formulas.node(f) == Node::Falsum);
                match model {
                    Some(model) if models.contains(model) => self.claims_confirmed += 1,
                    None if only_falsum && models.is_empty() => self.contradictions_shown += 1,
                    Some(_) => return Err("the claim is accepted with a set that is no model".into()),
                    None => {
                        return Err(
                            "the claim is accepted without a model, and shows no contradiction".into()
                        );
                    }
                }
            }
        }
        let Some(atoms) = few_atoms(formulas, rows.iter().map(|(_, sequent)| sequent)) else { return Ok(()) };
        let mut interpretations = Interpretations::over(formulas, atoms);
        for (number, (kind, sequent)) in rows.iter().enumerate() {
            self.rows_valued += 1;
            if !interpretations.true_row(*kind, sequent) {
                return Err(format!("row {number} is accepted and false"));
            }
        }
        Ok(())
    }

    /// Forbids formulas over the atoms of the claim and one more, in both forms, where the atoms
    /// are few: of the models of the left those stay that do not satisfy what is forbidden, no
    /// others come, and the claim is still true. With the formula as a fact it need not be.
    fn sharpen(&mut self, derivation: &Derivation, random: &mut Random) -> Result<(), String> {
        let Sequent { antecedent: left, succedent: right } = &derivation.claim;
        let Some(atoms) = few_atoms(&derivation.formulas, [&derivation.claim]) else { return Ok(()) };
        let atoms = atoms | 1 << atoms.trailing_ones();
        let mut formulas = derivation.formulas.clone();
        let chosen = [(); FORBIDDEN].map(|()| {
            let forbidden = formula(random, &mut formulas, &rising(atoms).collect::<Vec<_>>(), 2);
            (forbidden, against(&mut formulas, forbidden))
        });
        let mut interpretations = Interpretations::over(&formulas, atoms);
        let models = interpretations.equilibrium_models(left);
        for (forbidden, constraints) in chosen {
            let left_over: Vec<Atoms> =
                models.iter().copied().filter(|&model| stays(&formulas, model, forbidden)).collect();
            for constraint in constraints {
                let sheet = with(left, constraint);
                if interpretations.equilibrium_models(&sheet) != left_over {
                    return Err("a constraint that leaves other models than it should".into());
                }
                if !interpretations.entails(&sequent(&sheet, right)) {
                    return Err("the claim is accepted and fails with a constraint".into());
                }
            }
            let counts = &mut self.constraints;
            counts.joined += 1;
            counts.lost_a_model += usize::from(left_over.len() < models.len());
            counts.lost_the_last += usize::from(left_over.is_empty() && !models.is_empty());
            let with_the_fact = sequent(&with(left, forbidden), right);
            counts.failed_with_the_fact += usize::from(!interpretations.entails(&with_the_fact));
        }
        Ok(())
    }
}

fn hashed(what: &impl Hash) -> u64 {
    let mut hasher = DefaultHasher::new();
    what.hash(&mut hasher);
    hasher.finish()
}

/// The code of the rule that a line has, if it is a row.
fn rule_of(line: &[u8]) -> Option<usize> {
    match line::read(line, 0)? {
        Line::Row { row, .. } => Some(row.rule),
        _ => None,
    }
}

/// The atoms that occur, if they are few enough to try every pair.
fn few_atoms<'a>(formulas: &Formulas, sequents: impl IntoIterator<Item = &'a Sequent>) -> Option<Atoms> {
    let sides = sequents.into_iter().flat_map(|s| s.antecedent.iter().chain(&s.succedent));
    let atoms = formulas.atoms_of(sides);
    (atoms.count_ones() as usize <= MOST_TRIED).then_some(atoms)
}

fn used_records(table: &[u16], used: usize, width: usize) -> impl Iterator<Item = &[u16]> {
    table[..used].chunks(width)
}

/// The text that the tables of an accepted text stand for, in plain lists, with the model,
/// which they don't hold; the claim is the last row's.
fn rebuilt(text: &[u8], judgement: &Judgement, model: Option<Atoms>) -> Vec<u8> {
    const WORDS: [&str; 6] = ["bot", "atom", "not", "and", "or", "imp"];
    let Judgement { tables, used, .. } = judgement;
    let optional = |entry: u16| if entry == 65_535 { "-".into() } else { entry.to_string() };
    let side = |pool: &[u16], start: u16, length: u16| {
        let part = &pool[start as usize..][..length as usize];
        list(&part.iter().map(|&entry| entry as usize).collect::<Vec<_>>())
    };
    let mut lines: Vec<String> = vec![];
    for (k, record) in used_records(&tables.names, used.names, 2).enumerate() {
        let name = &text[record[0] as usize..][..record[1] as usize];
        lines.push(format!("A\t{k}\t{}", String::from_utf8_lossy(name)));
    }
    for (k, record) in used_records(&tables.formulas, used.formulas, 3).enumerate() {
        let word = WORDS[record[0] as usize];
        lines.push(format!("F\t{k}\t{word}\t{}\t{}", optional(record[1]), optional(record[2])));
    }
    let mut claim = String::new();
    for (k, record) in used_records(&tables.rows, used.rows, 8).enumerate() {
        let premises: Vec<usize> =
            record[2..4].iter().filter(|&&entry| entry != 65_535).map(|&entry| entry as usize).collect();
        claim = format!(
            "{}\t{}",
            side(&tables.left, record[4], record[5]),
            side(&tables.right, record[6], record[7])
        );
        let rule = ELK.rules[record[0] as usize].name;
        lines.push(format!("N\t{k}\t{rule}\t{}\t{}\t{claim}", optional(record[1]), list(&premises)));
    }
    lines.extend(model.map(|model| format!("M\t{}", atom_list(model))));
    lines.push(format!("C\t{claim}"));
    lines.into_iter().map(|line| line + "\n").collect::<String>().into_bytes()
}

impl fmt::Display for Report {
    fn fmt(&self, f: &mut fmt::Formatter) -> fmt::Result {
        writeln!(f, "number\ttexts")?;
        for (number, count) in self.judged() {
            writeln!(f, "{number}\t{count}")?;
        }
        writeln!(f, "rule\trows passed\trefused with 10\trefused with 11\trefused with 18")?;
        for (code, rule) in ELK.rules.iter().enumerate() {
            let RowCounts { passed, wrong_premises, wrong_step, too_many_atoms } =
                self.rules.get(&code).copied().unwrap_or_default();
            writeln!(f, "{}\t{passed}\t{wrong_premises}\t{wrong_step}\t{too_many_atoms}", rule.name)?;
        }
        writeln!(f, "{} rows decided alike by algebra and by search", self.rows_compared.get())?;
        writeln!(f, "{} rows of accepted texts are true by brute force", self.rows_valued)?;
        let (confirmed, shown) = (self.claims_confirmed, self.contradictions_shown);
        writeln!(
            f,
            "{confirmed} accepted claims hold by brute force and have the model beside them, \
            {shown} show a contradiction; {} have too many atoms for it",
            self.claims_too_large
        )?;
        let ConstraintCounts { joined, lost_a_model, lost_the_last, failed_with_the_fact } = self.constraints;
        writeln!(
            f,
            "{joined} constraints, each in both forms, leave accepted claims true by brute force and \
            exclude the models that they should, at least one in {lost_a_model} cases and the last in \
            {lost_the_last}; in {failed_with_the_fact} the claim fails with the fact in the constraint's \
            place"
        )?;
        let (read, different, too_long) = (self.words_read, self.rows_by_words.len(), self.words_too_long);
        writeln!(
            f,
            "{read} accepted texts have words that read back as their rows, {different} of them different; \
            {too_long} have words that are too long for it"
        )?;
        let (rewritten, accepted) = (self.rewritten, self.rewritten_accepted);
        writeln!(f, "{rewritten} texts are answered alike with other runs, {accepted} of them accepted")?;
        write!(f, "{} passed, {} failed", self.passed, self.failed)
    }
}

#[cfg(test)]
mod tests {
    use super::*;

    /// A run of thousands has no failure, and every number and every rule comes up.
    #[test]
    fn a_run_of_thousands() {
        let report = run(7, 6_000, |_, _, _| Ok(()));
        assert_eq!(report.failed, 0);
        assert!(report.words_read > 100 && report.words_too_long > 0, "{report}");
        assert!(report.rewritten > 1_000 && report.rewritten_accepted > 300, "{report}");
        assert!(report.judged().all(|(_, count)| count > 5), "{report}");
        assert!(report.claims_confirmed > 100 && report.contradictions_shown > 50, "{report}");
        let ConstraintCounts { joined, lost_a_model, lost_the_last, failed_with_the_fact } =
            report.constraints;
        assert!(joined > 1_000 && lost_a_model > 300 && lost_the_last > 100, "{report}");
        assert!(failed_with_the_fact > 10, "{report}");
        let common = |(&code, counts): (&usize, &RowCounts)| {
            let RowCounts { passed, wrong_premises, wrong_step, too_many_atoms } = *counts;
            let wide_in_swap_alone = match ELK.rules[code].name {
                "swap" => too_many_atoms > 5,
                _ => too_many_atoms == 0,
            };
            passed > 5 && wrong_premises > 0 && wrong_step > 0 && wide_in_swap_alone
        };
        assert!(report.rules.len() == ELK.rules.len() && report.rules.iter().all(common), "{report}");
    }
}
