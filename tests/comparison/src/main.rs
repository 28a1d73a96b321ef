//! `comparison SEED COUNT` judges random texts with the proved library, through its C
//! entries, and with the second checker. Number, line, every entry of every table and
//! every byte of the words must be the same; and so must they be where the lists of a text
//! are written with other runs. The same goes for beginnings that are opened, and for rows that
//! are previewed and added.

mod open;

use second::fuzz::MOST_READ;
use second::judge::{Derivation, Judgement, LEAST, Tables, judge};
use second::random::Random;
use second::sample::Sample;
use second::words::{self, Answer as Expected};
use std::process::ExitCode;

#[repr(C)]
struct Answer {
    number: u32,
    line: u32,
}

// As include/govelamuth.h declares them.
unsafe extern "C" {
    fn elk_check(text: *const u8, text_length: usize) -> Answer;
    fn elk_judge(
        text: *const u8,
        text_length: usize,
        names: *mut u16,
        names_length: usize,
        formulas: *mut u16,
        formulas_length: usize,
        rows: *mut u16,
        rows_length: usize,
        left: *mut u16,
        left_length: usize,
        right: *mut u16,
        right_length: usize,
    ) -> Answer;
    fn elk_words(
        text: *const u8,
        text_length: usize,
        names: *mut u16,
        names_length: usize,
        formulas: *mut u16,
        formulas_length: usize,
        rows: *mut u16,
        rows_length: usize,
        left: *mut u16,
        left_length: usize,
        right: *mut u16,
        right_length: usize,
        words: *mut u8,
        words_length: usize,
    ) -> Answer;
}

fn main() -> ExitCode {
    let mut random = Random::new(std::env::args().nth(1).and_then(|seed| seed.parse().ok()).unwrap_or(0));
    second::fuzz::command(|sample, judgement, derivation| {
        let Sample { text, rewritten, lent, .. } = sample;
        same_check(text, judgement)?;
        same_judgement(text, lent, judgement)?;
        let spaces = spaces(&mut random, derivation);
        for &space in &spaces {
            same_words(text, lent, &words::answer(judgement, derivation, space))
                .map_err(|what| format!("{what} where {space} bytes are lent"))?;
        }
        if let Some(rewritten) = rewritten {
            let space = random.pick(&spaces);
            same_check(rewritten, judgement)
                .and_then(|()| same_judgement(rewritten, lent, judgement))
                .and_then(|()| same_words(rewritten, lent, &words::answer(judgement, derivation, space)))
                .map_err(|what| format!("{what} in another writing"))?;
        }
        open::same_open_files(&mut random, text, lent)
    })
}

/// How many bytes to lend for the words: as many as they have, one less, none, one more,
/// and a random number; a few where the text is refused, or the words are too long.
fn spaces(random: &mut Random, derivation: Option<&Derivation>) -> Vec<usize> {
    match derivation.map(words::length) {
        Some(length) if length <= MOST_READ => {
            let length = length as usize;
            vec![length, length - 1, 0, length + 1, random.below(2 * length)]
        }
        Some(_) => vec![0, 1, random.below(MOST_READ as usize)],
        None => vec![random.pick(&[0, 1, 300, 5_000])],
    }
}

/// Compares `elk_check`, which has tables of its own: what is lent to the other entries is
/// no matter to it.
fn same_check(text: &[u8], judgement: &Judgement) -> Result<(), String> {
    // SAFETY: the bytes are readable.
    let answer = unsafe { elk_check(text.as_ptr(), text.len()) };
    match judgement.number {
        1 => {
            let judgement = judge(text, &LEAST);
            same_answer("elk_check", answer, judgement.number, judgement.line)
        }
        _ => same_answer("elk_check", answer, judgement.number, judgement.line),
    }
}

/// Compares `elk_judge` in tables where every entry is wrong before the call.
fn same_judgement(text: &[u8], lent: &Tables<usize>, judgement: &Judgement) -> Result<(), String> {
    let mut memory = judgement.tables.clone().map(|table| wrong_and_guarded(&table));
    let Tables { names, formulas, rows, left, right } = &mut memory;
    // SAFETY: the bytes are readable, and each table has its length and a guard beyond.
    let answer = unsafe {
        elk_judge(
            text.as_ptr(),
            text.len(),
            names.as_mut_ptr(),
            lent.names,
            formulas.as_mut_ptr(),
            lent.formulas,
            rows.as_mut_ptr(),
            lent.rows,
            left.as_mut_ptr(),
            lent.left,
            right.as_mut_ptr(),
            lent.right,
        )
    };
    same_answer("elk_judge", answer, judgement.number, judgement.line)?;
    same_tables("elk_judge", memory, &judgement.tables)
}

/// Compares `elk_words` in tables and a lent text where every entry is wrong before the
/// call.
fn same_words(text: &[u8], lent: &Tables<usize>, expected: &Expected) -> Result<(), String> {
    let mut memory = expected.tables.clone().map(|table| wrong_and_guarded(&table));
    let mut told: Vec<u8> = expected.words.iter().map(|&byte| !byte).chain(BYTE_GUARD).collect();
    let Tables { names, formulas, rows, left, right } = &mut memory;
    // SAFETY: the bytes are readable, and each table and the lent text has its length and a
    // guard beyond.
    let answer = unsafe {
        elk_words(
            text.as_ptr(),
            text.len(),
            names.as_mut_ptr(),
            lent.names,
            formulas.as_mut_ptr(),
            lent.formulas,
            rows.as_mut_ptr(),
            lent.rows,
            left.as_mut_ptr(),
            lent.left,
            right.as_mut_ptr(),
            lent.right,
            told.as_mut_ptr(),
            expected.words.len(),
        )
    };
    same_answer("elk_words", answer, expected.number, expected.line)?;
    same_tables("elk_words", memory, &expected.tables)?;
    let (words, guard) = told.split_at(expected.words.len());
    if let Some(place) = (0..words.len()).find(|&place| words[place] != expected.words[place]) {
        return Err(format!(
            "elk_words leaves byte {} for {} at {place}",
            words[place], expected.words[place]
        ));
    }
    if guard != BYTE_GUARD {
        return Err("elk_words writes past the end of the lent text".into());
    }
    Ok(())
}

fn same_answer(entry: &str, answer: Answer, number: u16, line: usize) -> Result<(), String> {
    let (given, expected) = ((answer.number, answer.line as usize), (u32::from(number), line));
    match given == expected {
        true => Ok(()),
        false => Err(format!("{entry} answers {given:?} for {expected:?}")),
    }
}

/// Compares tables, each with its guard, with what they should hold.
fn same_tables(entry: &str, memory: Tables<Vec<u16>>, tables: &Tables<Vec<u16>>) -> Result<(), String> {
    for (name, (memory, expected)) in memory.zip(tables.clone()).listed() {
        let (table, guard) = memory.split_at(expected.len());
        if let Some(place) = (0..table.len()).find(|&place| table[place] != expected[place]) {
            return Err(format!("{entry}: {name} holds {} for {} at {place}", table[place], expected[place]));
        }
        if guard != GUARD {
            return Err(format!("{entry}: {name} is written past its end"));
        }
    }
    Ok(())
}

/// What must stand behind each table before and after the call, and behind the lent text.
const GUARD: [u16; 4] = [0xA5A5; 4];
const BYTE_GUARD: [u8; 8] = [0xA5; 8];

/// A table in which every entry is wrong, with the guard behind it.
fn wrong_and_guarded(expected: &[u16]) -> Vec<u16> {
    expected.iter().map(|&entry| !entry).chain(GUARD).collect()
}
