//! An open file: tables filled by a beginning, with its counts, to which rows are added one
//! at a time.
//!
//! Tables that are handed in are trusted in nothing. They are read as lines, each line is
//! judged as if it stood in a text, and what would be stored of it all must be what was
//! handed in, to the last zero.

use crate::checker::{ABSENT, Checker, ensure};
use crate::judge::{
    Deciding, LEAST, MOST_ATOMS, MOST_BYTES, MOST_FORMULAS, MOST_IN_A_POOL, MOST_ROWS, Refusal, Tables,
    beginning, filled,
};
use crate::line::{self, Line, Number, Row, Word};
use crate::list::List;
use crate::rules::ELK;

/// How many items there are, and how many entries in each pool, laid out as C has them.
#[repr(C)]
#[derive(Clone, Copy, Debug, Default, Eq, PartialEq)]
pub struct Counts {
    pub atoms: usize,
    pub formulas: usize,
    pub rows: usize,
    pub left: usize,
    pub right: usize,
}

impl Counts {
    /// In the papers' order.
    pub fn listed(self) -> [usize; 5] {
        [self.atoms, self.formulas, self.rows, self.left, self.right]
    }

    fn of(checker: &Checker) -> Counts {
        let Tables { formulas, rows, left, right, .. } = checker.tables().map(|table| table.len());
        Counts { atoms: checker.atoms_held(), formulas: formulas / 3, rows: rows / 8, left, right }
    }

    fn within_limits(self) -> bool {
        self.atoms <= MOST_ATOMS
            && self.formulas <= MOST_FORMULAS
            && self.rows <= MOST_ROWS
            && self.left <= MOST_IN_A_POOL
            && self.right <= MOST_IN_A_POOL
    }
}

/// What opening answers: number and line, the counts, and each lent table to its end.
#[derive(Debug, Eq, PartialEq)]
pub struct Opening {
    pub number: u16,
    pub line: usize,
    pub counts: Counts,
    pub tables: Tables<Vec<u16>>,
}

/// Opens the text of a beginning, with tables of these lengths lent.
pub fn open(text: &[u8], lent: &Tables<usize>) -> Opening {
    match beginning(text, lent, Deciding::Fast) {
        Ok(read) => {
            let content = read.checker.tables();
            let tables = content.zip(lent.clone()).map(|(table, length)| filled(&table, length));
            Opening { number: 0, line: read.lines, counts: Counts::of(&read.checker), tables }
        }
        Err((refusal, line)) => {
            let tables = lent.clone().map(|length| vec![0; length]);
            Opening { number: refusal as u16, line, counts: Counts::default(), tables }
        }
    }
}

/// The four tables that rows are added to, each to its lent end, and the counts. The names
/// are not among them.
#[derive(Clone, Debug, Eq, PartialEq)]
pub struct OpenFile {
    pub counts: Counts,
    pub formulas: Vec<u16>,
    pub rows: Vec<u16>,
    pub left: Vec<u16>,
    pub right: Vec<u16>,
}

impl OpenFile {
    /// What an opening has left, but for the names.
    pub fn of(opening: Opening) -> OpenFile {
        let Tables { formulas, rows, left, right, .. } = opening.tables;
        OpenFile { counts: opening.counts, formulas, rows, left, right }
    }

    /// Adds the row that the text is; answers number and line. A refusal changes nothing.
    pub fn add(&mut self, text: &[u8]) -> (u16, usize) {
        match self.with_row(text) {
            Ok(file) => {
                *self = file;
                (0, 1)
            }
            Err((refusal, line)) => (refusal as u16, line),
        }
    }

    /// Answers as adding the row to a copy does.
    pub fn preview(&self, text: &[u8]) -> (u16, usize) {
        self.clone().add(text)
    }

    fn with_row(&self, text: &[u8]) -> Result<OpenFile, (Refusal, usize)> {
        let in_line = |line: usize| move |refusal: Refusal| (refusal, line);
        ensure(self.long_enough(), Refusal::ShortTable).map_err(in_line(0))?;
        let mut checker = self.judged_again().ok_or(Refusal::OutOfOrder).map_err(in_line(0))?;
        ensure(text.len() <= MOST_BYTES, Refusal::TooLong).map_err(in_line(0))?;
        let line = one_row(text).ok_or(Refusal::BadLine).map_err(in_line(1))?;
        checker.take(1, line).map_err(in_line(1))?;
        Ok(self.holding(&checker))
    }

    fn long_enough(&self) -> bool {
        self.formulas.len() >= LEAST.formulas
            && self.rows.len() >= LEAST.rows
            && self.left.len() >= LEAST.left
            && self.right.len() >= LEAST.right
    }

    /// What the tables hold, if it is a beginning that 01 allows, stored as it would be.
    fn judged_again(&self) -> Option<Checker<'static>> {
        if !self.counts.within_limits() {
            return None;
        }
        let mut checker = Checker::over_atoms(self.counts.atoms);
        for record in self.formulas.chunks(3).take(self.counts.formulas) {
            checker.take_formula(word(record)?).ok()?;
        }
        for record in self.rows.chunks(8).take(self.counts.rows) {
            checker.take_row(self.row(record)?).ok()?;
        }
        (self.holding(&checker) == *self).then_some(checker)
    }

    /// Tables of the same lengths with what the checker holds, and zeros after it.
    fn holding(&self, checker: &Checker) -> OpenFile {
        let tables = checker.tables();
        OpenFile {
            counts: Counts::of(checker),
            formulas: filled(&tables.formulas, self.formulas.len()),
            rows: filled(&tables.rows, self.rows.len()),
            left: filled(&tables.left, self.left.len()),
            right: filled(&tables.right, self.right.len()),
        }
    }

    /// The row of a record, if it has a rule and its sides lie in the pools. Where they lie,
    /// and which of its fields are absent, is seen when it is stored again.
    fn row(&self, record: &[u16]) -> Option<Row> {
        let &[rule, principal, first, second, left, left_length, right, right_length] = record else {
            return None;
        };
        let rule = usize::from(rule);
        let held = |field: &u16| *field != ABSENT;
        Some(Row {
            rule: (rule < ELK.rules.len()).then_some(rule)?,
            principal: Some(principal).filter(held).map(Number::from),
            premises: [first, second].into_iter().filter(held).map(Number::from).collect(),
            left: side(&self.left, left, left_length)?,
            right: side(&self.right, right, right_length)?,
        })
    }
}

/// The formula of a record, if it has a word. Which of its fields are absent is seen when
/// it is stored again.
fn word(record: &[u16]) -> Option<Word> {
    let &[word, first, second] = record else { return None };
    let [first, second] = [first, second].map(Number::from);
    Some(match word {
        0 => Word::Bot,
        1 => Word::Atom(first),
        2 => Word::Not(first),
        3 => Word::And(first, second),
        4 => Word::Or(first, second),
        5 => Word::Imp(first, second),
        _ => return None,
    })
}

/// The part of a pool, if it lies there.
fn side(pool: &[u16], start: u16, length: u16) -> Option<List> {
    let (start, length) = (usize::from(start), usize::from(length));
    let part = pool.get(start..start + length)?;
    Some(List::of(part.iter().copied().map(Number::from)))
}

/// The row of a text that is one N line, with its LF and nothing after it.
fn one_row(text: &[u8]) -> Option<Line> {
    let lines: Vec<&[u8]> = line::lines(text).collect();
    let [line] = lines[..] else { return None };
    match line::read(line.strip_suffix(b"\n")?, 0)? {
        row @ Line::Row { .. } => Some(row),
        _ => None,
    }
}

#[cfg(test)]
mod tests {
    use super::*;

    const BEGINNING: &str = "A\t0\tp\nF\t0\tatom\t0\t-\nF\t1\tnot\t0\t-\nN\t0\tdef\t1\t-\t-\t1\n";
    const ROW: &str = "N\t1\twr\t0\t0\t-\t0,1\n";

    fn opened(text: &str) -> OpenFile {
        let opening = open(text.as_bytes(), &LEAST);
        assert_eq!(opening.number, 0);
        OpenFile::of(opening)
    }

    #[test]
    fn a_beginning_is_opened() {
        let opening = open(BEGINNING.as_bytes(), &LEAST);
        assert_eq!((opening.number, opening.line), (0, 4));
        assert_eq!(opening.counts, Counts { atoms: 1, formulas: 2, rows: 1, left: 0, right: 1 });
        assert_eq!(opening.tables.names[..3], [4, 1, 0]);
        assert_eq!(opening.tables.rows[..9], [0, 1, 65_535, 65_535, 0, 0, 0, 1, 0]);
        let opening = open(b"", &LEAST);
        assert_eq!((opening.number, opening.line, opening.counts), (0, 0, Counts::default()));
    }

    #[test]
    fn a_beginning_that_is_refused_leaves_nothing() {
        for (text, lent, answer) in [
            (BEGINNING.trim_end(), LEAST, (3, 4)),
            ("A\t0\tp\nF", LEAST, (3, 2)),
            ("A\t0\tp\nN\t0\tsame\t0\t-\t0\t0\n", LEAST, (7, 2)),
            (BEGINNING, Tables { names: 127, ..LEAST }, (1, 0)),
            (&"\n".repeat(MOST_BYTES + 1), LEAST, (2, 0)),
        ] {
            let opening = open(text.as_bytes(), &lent);
            assert_eq!(
                (opening.number, opening.line, opening.counts),
                (answer.0, answer.1, Counts::default())
            );
            assert_eq!(opening.tables, lent.map(|length| vec![0; length]));
        }
    }

    #[test]
    fn a_row_that_is_added_stands_as_if_it_had_been_opened() {
        let mut file = opened(BEGINNING);
        assert_eq!(file.preview(ROW.as_bytes()), (0, 1));
        assert_eq!(file, opened(BEGINNING));
        assert_eq!(file.add(ROW.as_bytes()), (0, 1));
        assert_eq!(file, opened(&[BEGINNING, ROW].concat()));
        assert_eq!(file.add(ROW.as_bytes()), (4, 1));
        assert_eq!(file, opened(&[BEGINNING, ROW].concat()));
    }

    /// Of the tables too short, the file, the length of the text and the row, the first that is
    /// wrong decides.
    #[test]
    fn numbers_come_in_order() {
        let long = vec![b'x'; MOST_BYTES + 1];
        let mut file = opened(BEGINNING);
        assert_eq!(file.preview(&long), (2, 0));
        assert_eq!(file.preview(&long[1..]), (3, 1));
        file.counts.atoms = 0;
        assert_eq!(file.preview(&long), (4, 0));
        file.right.pop();
        assert_eq!(file.preview(&long), (1, 0));
    }

    /// 2 judges the row's text alone: a file may stand for more lines than a text can hold.
    #[test]
    fn a_file_may_be_longer_than_a_text() {
        let negations: String = (1..MOST_FORMULAS).map(|k| format!("F\t{k}\tnot\t{}\t-\n", k - 1)).collect();
        let row = |number: usize| format!("N\t{number}\tsame\t1023\t-\t1023\t1023\n").into_bytes();
        let held = MOST_ROWS - 1;
        assert!(negations.len() + (0..held).map(|k| row(k).len()).sum::<usize>() > MOST_BYTES);
        let mut file = opened(&format!("F\t0\tbot\t-\t-\n{negations}"));
        for (k, record) in (0..held as u16).zip(file.rows.chunks_exact_mut(8)) {
            record.copy_from_slice(&[1, 1_023, ABSENT, ABSENT, k, 1, k, 1]);
        }
        file.left[..held].fill(1_023);
        file.right[..held].fill(1_023);
        file.counts = Counts { rows: held, left: held, right: held, ..file.counts };
        assert_eq!(file.add(&row(held)), (0, 1));
        assert_eq!(file.preview(&row(MOST_ROWS)), (5, 1));
    }

    #[test]
    fn names_do_not_matter() {
        let mut file = opened(BEGINNING);
        file.counts.atoms = MOST_ATOMS;
        assert_eq!(file.add(ROW.as_bytes()), (0, 1));
        assert_eq!(file.counts.atoms, MOST_ATOMS);
        file.counts.atoms += 1;
        assert_eq!(file.preview(ROW.as_bytes()), (4, 0));
    }
}
