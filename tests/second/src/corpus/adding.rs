//! Cases of adding a row to an open file, each with its answer and what is stored. How they
//! are written is said in `src/adding.rs`.

use super::opening::{counts, stored};
use super::{Case, by_hand, handed_in, row_texts};
use crate::draft::list;
use crate::line::lines;

/// A beginning, changes of what it has left, the text of a row as it is listed, and the
/// answer: number, line, and what is stored.
pub struct Adding {
    pub name: String,
    pub beginning: String,
    pub changes: String,
    pub row: String,
    pub answer: String,
}

impl Adding {
    /// Without the answer.
    pub fn asked(&self) -> String {
        let Adding { name, beginning, changes, row, .. } = self;
        format!("{name}\t{beginning}\t{changes}\t{row}")
    }
}

pub fn refused(name: &str, beginning: &str, changes: &str, row: &str, number: u16, line: usize) -> Adding {
    Adding {
        name: name.into(),
        beginning: beginning.into(),
        changes: changes.into(),
        row: row.into(),
        answer: format!("{number}\t{line}\t-\t-\t-"),
    }
}

/// What is stored is the record and the entries of either pool.
pub fn added(name: &str, beginning: &str, changes: &str, row: &str, stored: [&str; 3]) -> Adding {
    Adding { answer: format!("0\t1\t{}", stored.join("\t")), ..refused(name, beginning, changes, row, 0, 1) }
}

/// A row written with a space for each tab, as it is listed.
pub fn line(row: &str) -> String {
    row.replace(' ', "\\t") + "\\n"
}

/// All cases of adding; `texts` are those of the corpus.
pub fn cases(texts: &[Case]) -> Vec<Adding> {
    let mut cases = handed_in::cases();
    cases.extend(by_hand::cases());
    cases.extend(row_texts::cases());
    cases.extend(texts.iter().filter_map(in_its_place));
    cases.extend(texts.iter().filter_map(as_if_it_had_passed));
    cases
}

/// The lines before the row on which a text is refused, or before the last row of an accepted
/// text; and that row. None after a model or a claim: an open file has no stage, and what is out
/// of order after these is not so here.
fn last_row(case: &Case) -> Option<(Vec<&[u8]>, &[u8])> {
    let mut lines: Vec<&[u8]> = lines(&case.text).collect();
    let place = match case.number {
        0 => lines.iter().rposition(|line| line.starts_with(b"N"))?,
        3 | 4 | 5 | 7 | 9 | 10 | 11 | 18 => case.line.checked_sub(1)?,
        _ => return None,
    };
    let row = lines[place];
    lines.truncate(place);
    let staged = lines.iter().any(|line| line.starts_with(b"M") || line.starts_with(b"C"));
    (row.starts_with(b"N") && !staged).then_some((lines, row))
}

/// That row, added to the lines before it: it earns what it earns in its place.
fn in_its_place(case: &Case) -> Option<Adding> {
    let (before, row) = last_row(case)?;
    let name = format!("in_its_place/{}", case.name);
    let beginning = format!("{}:{}", case.name, before.len());
    let row_at = format!("@{}:{}", case.name, before.len() + 1);
    let [record, left, right] = match case.number {
        0 => stored(&before.concat(), row).map(|numbers| list(&numbers)),
        number => return Some(refused(&name, &beginning, "-", &row_at, number, 1)),
    };
    Some(added(&name, &beginning, "-", &row_at, [&record, &left, &right]))
}

/// That row handed in, in the groups that are about rows, and one more to be added: to what a row
/// that passes has left, or to tables that hold a refused one as if it had passed. These are no
/// open file.
fn as_if_it_had_passed(case: &Case) -> Option<Adding> {
    let about_rows = ["premises", "references", "sides", "look_sound"].contains(&case.group());
    if !about_rows && !case.group().starts_with("rule_") {
        return None;
    }
    let (lines, row) = last_row(case)?;
    let before = lines.concat();
    let name = format!("as_if_it_had_passed/{}", case.name);
    let [_, _, rows, left, right] = counts(&before);
    let next = line(&format!("N {} xini - - - -", rows + 1));
    match case.number {
        0 => {
            let [_, added_left, added_right] = stored(&before, row).map(|numbers| numbers.len());
            let record = format!("14,65535,65535,65535,{},0,{},0", left + added_left, right + added_right);
            let beginning = format!("{}:{}", case.name, lines.len() + 1);
            Some(added(&name, &beginning, "-", &next, [&record, "-", "-"]))
        }
        7.. if fits_a_record(row) => {
            let beginning = format!("{}:{}", case.name, lines.len());
            Some(refused(&name, &beginning, &storing(&before, row), &next, 4, 0))
        }
        _ => None,
    }
}

/// Has a well-written row two premises at most, and numbers that are not taken for absent ones?
fn fits_a_record(row: &[u8]) -> bool {
    let row = String::from_utf8_lossy(row);
    let premises = row.split('\t').nth(4).map_or(0, |premises| premises.split(',').count());
    let mut numbers = row.split(|sign: char| !sign.is_ascii_digit()).filter_map(|digits| digits.parse().ok());
    premises <= 2 && numbers.all(|number: usize| number < 65_535)
}

/// The changes that store a row after this text.
fn storing(text: &[u8], row: &[u8]) -> String {
    let [_, _, rows, left, right] = counts(text);
    let [record, added_left, added_right] = stored(text, row);
    let put = |table: &str, start: usize, numbers: &[usize]| -> String {
        let put = |(k, number): (usize, &usize)| format!("{table}:{}:{number} ", start + k);
        numbers.iter().enumerate().map(put).collect()
    };
    let entries = put("left", left, &added_left) + &put("right", right, &added_right);
    let counts = [rows + 1, left + added_left.len(), right + added_right.len()];
    put("rows", 8 * rows, &record)
        + &entries
        + &format!("count:rows:{} count:left:{} count:right:{}", counts[0], counts[1], counts[2])
}

/// The list of all cases.
pub fn listed(texts: &[Case]) -> String {
    cases(texts).iter().map(|case| format!("{}\t{}\n", case.asked(), case.answer)).collect()
}

#[cfg(test)]
mod tests {
    use super::*;
    use crate::adding;
    use std::collections::BTreeSet;
    use std::path::Path;

    #[test]
    fn names_are_used_once() {
        let cases = cases(&super::super::listed_and_in_files().1);
        let names: BTreeSet<&str> = cases.iter().map(|case| case.name.as_str()).collect();
        assert_eq!(names.len(), cases.len());
    }

    #[test]
    fn no_case_stands_under_two_names() {
        let cases = cases(&super::super::listed_and_in_files().1);
        let asked: BTreeSet<_> =
            cases.iter().map(|case| (&case.beginning, &case.changes, &case.row)).collect();
        assert_eq!(asked.len(), cases.len());
    }

    #[test]
    fn second_checker_answers_as_the_corpus_says() {
        let mut second = adding::Adding::new(&Path::new(env!("CARGO_MANIFEST_DIR")).join("../corpus"));
        let different: Vec<String> = cases(&super::super::listed_and_in_files().1)
            .iter()
            .map(|case| (case, second.answer(&case.asked()).unwrap_or("not read".into())))
            .filter(|(case, given)| *given != case.answer)
            .map(|(case, given)| format!("{} earns {given} for {}", case.asked(), case.answer))
            .collect();
        assert!(different.is_empty(), "{different:#?}");
    }

    #[test]
    fn every_number_of_adding_is_earned() {
        let number = |case: &Adding| case.answer.split('\t').next().unwrap().parse().unwrap();
        let earned: BTreeSet<u16> =
            cases(&super::super::listed_and_in_files().1).iter().map(number).collect();
        assert!(earned.into_iter().eq([0, 1, 2, 3, 4, 5, 7, 9, 10, 11, 18]));
    }
}
