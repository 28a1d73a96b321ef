//! Open files: `elk_open`, `elk_add` and `elk_preview` against the second checker.

use crate::{Answer, GUARD, same_answer, same_tables, wrong_and_guarded};
use second::entering::{Entry, Trial, entry, trial};
use second::judge::{LEAST, Tables};
use second::open::{Counts, OpenFile, Opening, open};
use second::random::Random;

/// So many open files are tried with each text.
const TRIALS: usize = 3;

/// So many of the last rows of a text are entered one by one.
const MOST_ENTERED: usize = 12;

#[repr(C)]
struct Opened {
    answer: Answer,
    counts: Counts,
}

// As include/govelamuth.h declares them.
unsafe extern "C" {
    fn elk_open(
        text: *const u8,
        text_length: usize,
        names: *mut u16,
        names_length: usize,
        formulas: *mut u16,
        formulas_length: usize,
        rows: *mut u16,
        rows_length: usize,
        left: *mut u16,
        left_length: usize,
        right: *mut u16,
        right_length: usize,
    ) -> Opened;
    fn elk_add(
        text: *const u8,
        text_length: usize,
        formulas: *const u16,
        formulas_length: usize,
        rows: *mut u16,
        rows_length: usize,
        left: *mut u16,
        left_length: usize,
        right: *mut u16,
        right_length: usize,
        counts: Counts,
    ) -> Opened;
    fn elk_preview(
        text: *const u8,
        text_length: usize,
        formulas: *const u16,
        formulas_length: usize,
        rows: *const u16,
        rows_length: usize,
        left: *const u16,
        left_length: usize,
        right: *const u16,
        right_length: usize,
        counts: Counts,
    ) -> Answer;
}

/// Opens a text, and some beginning of it that may stop inside a line; enters its rows one by
/// one; and tries rows on open files that are changed at random.
pub fn same_open_files(random: &mut Random, text: &[u8], lent: &Tables<usize>) -> Result<(), String> {
    let opening = same_opening(text, lent)?;
    same_opening(&text[..random.below(text.len() + 1)], lent)?;
    entered(text, lent, &opening)?;
    for _ in 0..TRIALS {
        if let Some(Trial { file, text, .. }) = trial(random, text, lent, &opening) {
            same_trial(&file, &text)?;
        }
    }
    // The whole text in the place of a row, and a pool as it is lent, which may be too short.
    let nothing = OpenFile::of(open(b"", &LEAST));
    same_trial(&OpenFile { left: vec![0; lent.left], ..nothing }, text)
}

/// Compares `elk_open` in tables where every entry is wrong before the call.
fn same_opening(text: &[u8], lent: &Tables<usize>) -> Result<Opening, String> {
    let expected = open(text, lent);
    let mut memory = expected.tables.clone().map(|table| wrong_and_guarded(&table));
    let given = opened(text, lent, &mut memory);
    same_answer("elk_open", given.answer, expected.number, expected.line)?;
    same_counts("elk_open", given.counts, expected.counts)?;
    same_tables("elk_open", memory, &expected.tables)?;
    Ok(expected)
}

fn opened(text: &[u8], lent: &Tables<usize>, memory: &mut Tables<Vec<u16>>) -> Opened {
    let Tables { names, formulas, rows, left, right } = memory;
    // SAFETY: the bytes are readable, and each table has its length and a guard beyond.
    unsafe {
        elk_open(
            text.as_ptr(),
            text.len(),
            names.as_mut_ptr(),
            lent.names,
            formulas.as_mut_ptr(),
            lent.formulas,
            rows.as_mut_ptr(),
            lent.rows,
            left.as_mut_ptr(),
            lent.left,
            right.as_mut_ptr(),
            lent.right,
        )
    }
}

/// The tables of an open file in memory, each with a guard behind it, and its counts. The names
/// have no length: they are not lent.
struct Memory {
    tables: Tables<Vec<u16>>,
    lent: Tables<usize>,
    counts: Counts,
}

impl Memory {
    fn of(file: &OpenFile) -> Memory {
        let tables = tables(file);
        let lent = tables.clone().map(|table| table.len());
        Memory { tables: tables.map(|table| [&table[..], &GUARD].concat()), lent, counts: file.counts }
    }

    fn add(&mut self, text: &[u8]) -> Opened {
        let Tables { formulas, rows, left, right, .. } = &mut self.tables;
        // SAFETY: as above.
        unsafe {
            elk_add(
                text.as_ptr(),
                text.len(),
                formulas.as_ptr(),
                self.lent.formulas,
                rows.as_mut_ptr(),
                self.lent.rows,
                left.as_mut_ptr(),
                self.lent.left,
                right.as_mut_ptr(),
                self.lent.right,
                self.counts,
            )
        }
    }

    fn preview(&self, text: &[u8]) -> Answer {
        let Tables { formulas, rows, left, right, .. } = &self.tables;
        // SAFETY: as above.
        unsafe {
            elk_preview(
                text.as_ptr(),
                text.len(),
                formulas.as_ptr(),
                self.lent.formulas,
                rows.as_ptr(),
                self.lent.rows,
                left.as_ptr(),
                self.lent.left,
                right.as_ptr(),
                self.lent.right,
                self.counts,
            )
        }
    }
}

fn tables(file: &OpenFile) -> Tables<Vec<u16>> {
    let OpenFile { formulas, rows, left, right, .. } = file.clone();
    Tables { names: vec![], formulas, rows, left, right }
}

/// Compares what is answered for a row, previewed and added, and all that is left then.
fn same_trial(file: &OpenFile, text: &[u8]) -> Result<(), String> {
    let mut after = file.clone();
    let (number, line) = after.add(text);
    let mut memory = Memory::of(file);
    let told = |what: String| {
        let text = String::from_utf8_lossy(&text[..text.len().min(200)]);
        format!("{what}; the row is {text:?}, the counts are {:?}", file.counts)
    };
    same_answer("elk_preview", memory.preview(text), number, line).map_err(told)?;
    same_tables("elk_preview", memory.tables.clone(), &tables(file)).map_err(told)?;
    let given = memory.add(text);
    same_answer("elk_add", given.answer, number, line).map_err(told)?;
    same_counts("elk_add", given.counts, after.counts).map_err(told)?;
    same_tables("elk_add", memory.tables, &tables(&after)).map_err(told)
}

/// Enters the last rows of a text with `elk_add` alone, which hands back what is handed in next.
/// Each is answered as in its place, and at the end all is as if it had been opened.
fn entered(text: &[u8], lent: &Tables<usize>, opening: &Opening) -> Result<(), String> {
    let Some(Entry { head, rows, numbers }) = entry(text, opening, MOST_ENTERED) else { return Ok(()) };
    let mut memory = Memory::of(&OpenFile::of(open(head, lent)));
    let mut held = head.to_vec();
    for (row, number) in rows.iter().zip(numbers) {
        let given = memory.add(row);
        same_answer("elk_add of a row in its place", given.answer, number, 1)?;
        memory.counts = given.counts;
        if number == 0 {
            held.extend_from_slice(row);
        }
    }
    let mut whole = lent.clone().map(|length| wrong_and_guarded(&vec![0; length]));
    let Opened { answer, counts } = opened(&held, lent, &mut whole);
    let lines = held.iter().filter(|&&byte| byte == b'\n').count();
    same_answer("elk_open of rows that were added", answer, 0, lines)?;
    same_counts("rows that were added", memory.counts, counts)?;
    let whole = Tables { names: vec![], ..whole.map(|table| table[..table.len() - GUARD.len()].to_vec()) };
    same_tables("rows that were added", memory.tables, &whole)
}

fn same_counts(entry: &str, given: Counts, expected: Counts) -> Result<(), String> {
    match given == expected {
        true => Ok(()),
        false => Err(format!("{entry} hands back {given:?} for {expected:?}")),
    }
}
