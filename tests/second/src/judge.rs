//! The second checker: the judgement of a whole text, with the five tables.

use crate::checker::Checker;
use crate::formula::{Atoms, Formula, Formulas};
use crate::line;
use crate::sequent::{Kind, Sequent};
use std::cell::Cell;

pub const MOST_BYTES: usize = 65_536;
pub const MOST_ATOMS: usize = 64;
pub const MOST_FORMULAS: usize = 1_024;
pub const MOST_ROWS: usize = 2_048;
pub const MOST_ON_A_SIDE: usize = 64;
pub const MOST_IN_A_POOL: usize = 16_384;
pub const MOST_IN_A_MODEL: u32 = 16;

#[derive(Clone, Copy, Debug, Eq, PartialEq)]
pub enum Refusal {
    ShortTable = 1,
    TooLong = 2,
    BadLine = 3,
    OutOfOrder = 4,
    Full = 5,
    BadName = 6,
    NoSuchItem = 7,
    FormulaAgain = 8,
    BadSide = 9,
    WrongPremises = 10,
    WrongStep = 11,
    ClaimDiffers = 12,
    NoClaim = 13,
    NoRoom = 14,
    ModelMissingOrUnwanted = 15,
    ModelTooLarge = 16,
    NotInEquilibrium = 17,
    TooManyAtoms = 18,
}

/// One thing for each of the five tables.
#[derive(Clone, Debug, Default, Eq, PartialEq)]
pub struct Tables<T> {
    pub names: T,
    pub formulas: T,
    pub rows: T,
    pub left: T,
    pub right: T,
}

impl<T> Tables<T> {
    /// In the paper's order.
    pub fn map<U>(self, mut change: impl FnMut(T) -> U) -> Tables<U> {
        Tables {
            names: change(self.names),
            formulas: change(self.formulas),
            rows: change(self.rows),
            left: change(self.left),
            right: change(self.right),
        }
    }

    pub fn zip<U>(self, other: Tables<U>) -> Tables<(T, U)> {
        Tables {
            names: (self.names, other.names),
            formulas: (self.formulas, other.formulas),
            rows: (self.rows, other.rows),
            left: (self.left, other.left),
            right: (self.right, other.right),
        }
    }

    /// In the paper's order.
    pub fn listed(self) -> [(&'static str, T); 5] {
        [
            ("names", self.names),
            ("formulas", self.formulas),
            ("rows", self.rows),
            ("left", self.left),
            ("right", self.right),
        ]
    }
}

/// The least lengths of lent tables.
pub const LEAST: Tables<usize> =
    Tables { names: 128, formulas: 3_072, rows: 16_384, left: 16_384, right: 16_384 };

/// Whether the two ways of deciding instances are compared.
#[derive(Clone, Copy)]
pub enum Deciding<'a> {
    /// By set algebra alone.
    Fast,
    /// By set algebra, and by search wherever the sides are small; a disagreement
    /// panics. Counts the rows decided in both ways.
    Compared(&'a Cell<usize>),
}

/// The answer: number, line, each lent table to its end, and how far it is used.
#[derive(Debug, Eq, PartialEq)]
pub struct Judgement {
    pub number: u16,
    pub line: usize,
    pub tables: Tables<Vec<u16>>,
    pub used: Tables<usize>,
}

impl Judgement {
    pub fn all_zero(&self) -> bool {
        self.tables.clone().listed().iter().all(|(_, table)| table.iter().all(|&entry| entry == 0))
    }
}

/// An accepted derivation as formulas and sequents, and its rows as they stand in the
/// file.
pub struct Derivation {
    pub names: Vec<String>,
    pub formulas: Formulas,
    pub rows: Vec<(Kind, Sequent)>,
    pub written: Vec<WrittenRow>,
    pub model: Option<Atoms>,
    pub claim: Sequent,
}

/// A row with its lists in their order.
pub struct WrittenRow {
    pub rule: usize,
    pub principal: Option<Formula>,
    pub premises: Vec<usize>,
    pub left: Vec<Formula>,
    pub right: Vec<Formula>,
}

/// Judges a text with tables of these lengths lent.
pub fn judge(text: &[u8], lent: &Tables<usize>) -> Judgement {
    judge_closely(text, lent, Deciding::Fast).0
}

/// As [`judge`], with a choice of the deciding, and with the derivation if accepted.
pub fn judge_closely<'t>(
    text: &'t [u8],
    lent: &Tables<usize>,
    deciding: Deciding<'t>,
) -> (Judgement, Option<Derivation>) {
    match accepted(text, lent, deciding) {
        Ok((line, checker, claim)) => {
            let (content, derivation) = checker.finished(claim);
            let used = content.clone().map(|table| table.len());
            let tables = content.zip(lent.clone()).map(|(table, length)| filled(&table, length));
            (Judgement { number: 0, line, tables, used }, Some(derivation))
        }
        Err((refusal, line)) => {
            let tables = lent.clone().map(|length| vec![0; length]);
            (Judgement { number: refusal as u16, line, tables, used: Tables::default() }, None)
        }
    }
}

/// A lent table of this length that holds this, and zeros after it.
pub(crate) fn filled(content: &[u16], length: usize) -> Vec<u16> {
    let mut table = vec![0; length];
    for (entry, &held) in table.iter_mut().zip(content) {
        *entry = held;
    }
    table
}

type Accepted<'t> = (usize, Checker<'t>, Sequent);

fn accepted<'t>(
    text: &'t [u8],
    lent: &Tables<usize>,
    deciding: Deciding<'t>,
) -> Result<Accepted<'t>, (Refusal, usize)> {
    let Beginning { lines, checker, claim } = beginning(text, lent, deciding)?;
    let (line, claim) = claim.ok_or((Refusal::NoClaim, lines + 1))?;
    Ok((line, checker, claim))
}

/// The lines of a text, none of them refused: how many, what they hold, and the claim, with
/// its line, if there is one.
pub(crate) struct Beginning<'t> {
    pub lines: usize,
    pub checker: Checker<'t>,
    claim: Option<(usize, Sequent)>,
}

/// Judges the lines that there are; that a claim is missing is no matter here.
pub(crate) fn beginning<'t>(
    text: &'t [u8],
    lent: &Tables<usize>,
    deciding: Deciding<'t>,
) -> Result<Beginning<'t>, (Refusal, usize)> {
    if lent.clone().zip(LEAST).listed().iter().any(|(_, (length, least))| length < least) {
        return Err((Refusal::ShortTable, 0));
    }
    if text.len() > MOST_BYTES {
        return Err((Refusal::TooLong, 0));
    }
    let mut checker = Checker::new(text, deciding);
    let (mut claim, mut start, mut count) = (None, 0, 0);
    for line in line::lines(text) {
        count += 1;
        let at_line = |refusal| (refusal, count);
        let body = line.strip_suffix(b"\n").ok_or(at_line(Refusal::BadLine))?;
        let line_read = line::read(body, start).ok_or(at_line(Refusal::BadLine))?;
        let taken = checker.take(count, line_read).map_err(at_line)?;
        if let Some(claim) = &taken {
            checker.confirm(count, claim)?;
        }
        claim = taken.map(|claim| (count, claim));
        start += line.len();
    }
    Ok(Beginning { lines: count, checker, claim })
}

#[cfg(test)]
mod tests {
    use super::*;

    const WHOLE_FILE: &str = "A\t0\tp\nF\t0\tatom\t0\t-\nF\t1\tnot\t0\t-\nF\t2\timp\t1\t0\nF\t3\tbot\t-\t-\n\
        F\t4\tnot\t1\t-\nN\t0\tsame\t0\t-\t0\t0,3\nN\t1\tnotl\t1\t0\t0,1\t3\nN\t2\tnotr\t4\t1\t0\t3,4\n\
        N\t3\tdef\t1\t-\t-\t1,3\nN\t4\timpl\t2\t2,3\t2\t3\nC\t2\t3\n";

    fn answer(text: &[u8], lent: &Tables<usize>) -> (u16, usize) {
        let judgement = judge(text, lent);
        let lengths = judgement.tables.clone().map(|table| table.len());
        assert_eq!(lengths, *lent);
        assert!(judgement.number == 0 || judgement.all_zero());
        (judgement.number, judgement.line)
    }

    /// The paper's whole file, encoded by hand.
    #[test]
    fn tables_of_the_whole_file() {
        let judgement = judge(WHOLE_FILE.as_bytes(), &LEAST);
        let x = 65_535;
        let content = Tables {
            names: vec![4, 1],
            formulas: vec![1, 0, x, 2, 0, x, 5, 1, 0, 0, x, x, 2, 1, x],
            rows: [
                [1, 0, x, x, 0, 1, 0, 2],
                [8, 1, 0, x, 1, 2, 2, 1],
                [11, 4, 1, x, 3, 1, 3, 2],
                [0, 1, x, x, 4, 0, 5, 2],
                [10, 2, 2, 3, 4, 1, 7, 1],
            ]
            .concat(),
            left: vec![0, 0, 1, 0, 2],
            right: vec![0, 3, 3, 3, 4, 1, 3, 3],
        };
        assert_eq!(judgement.used, content.clone().map(|table| table.len()));
        for (name, ((table, content), length)) in judgement.tables.zip(content).zip(LEAST).listed() {
            assert_eq!(table.len(), length, "{name}");
            assert_eq!(table[..content.len()], content, "{name}");
            assert!(table[content.len()..].iter().all(|&entry| entry == 0), "{name}");
        }
    }

    #[test]
    fn a_table_one_short_is_refused_first() {
        for table in 0..5 {
            let mut lent = LEAST;
            let lengths =
                [&mut lent.names, &mut lent.formulas, &mut lent.rows, &mut lent.left, &mut lent.right];
            *lengths.into_iter().nth(table).unwrap() -= 1;
            assert_eq!(answer(WHOLE_FILE.as_bytes(), &lent), (1, 0));
            assert_eq!(answer(b"", &lent), (1, 0));
            assert_eq!(answer(&vec![b'x'; MOST_BYTES + 1], &lent), (1, 0));
        }
        assert_eq!(answer(WHOLE_FILE.as_bytes(), &Tables::default()), (1, 0));
    }

    #[test]
    fn longer_tables_raise_no_limit() {
        let longer = LEAST.map(|length| 2 * length + 1);
        assert_eq!(answer(WHOLE_FILE.as_bytes(), &longer), (0, 12));
        let atoms: String = (0..65).map(|k| format!("A\t{k}\ta{k}\n")).collect();
        assert_eq!(answer(atoms.as_bytes(), &longer), (5, 65));
    }

    #[test]
    fn too_long_is_refused_before_any_line() {
        assert_eq!(answer(&vec![b'\n'; MOST_BYTES + 1], &LEAST), (2, 0));
        assert_eq!(answer(&vec![b'\n'; MOST_BYTES], &LEAST), (3, 1));
    }
}
