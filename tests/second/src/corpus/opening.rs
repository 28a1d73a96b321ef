//! Beginnings to open, what every text of the corpus answers when it is opened, and what some
//! leave in the tables.

use super::limits::{atom_formulas, atoms, negations};
use super::{Case, plain, raw, tabbed};
use crate::rewrite::numbers_of;
use crate::rules::ELK;

/// Texts without a claim, to which rows are added. As whole files they lack it.
pub fn cases() -> Vec<Case> {
    let unclaimed =
        |name: &str, text: String| raw(&format!("beginnings/{name}"), 13, text.lines().count() + 1, text);
    vec![
        plain("beginnings/swap_and_refutations", 13, 11, SWAP_AND_REFUTATIONS),
        plain("beginnings/loose", 13, 10, LOOSE),
        plain("beginnings/twin_rows", 13, 7, TWIN_ROWS),
        plain("beginnings/empty_sides", 13, 7, EMPTY_SIDES),
        unclaimed("nine_atoms", nine_atoms()),
        unclaimed("64_on_the_left", negations(66) + "N\t0\tsame\t0\t-\t0-63\t0\n"),
    ]
}

/// An ELK row from a row by `swap`, and a refutation from an initial one.
const SWAP_AND_REFUTATIONS: &str = "A 0 p / A 1 q / F 0 atom 0 - / F 1 atom 1 - / F 2 and 0 1 / F 3 and 1 0 / \
    N 0 same 2 - 2 2 / N 1 swap 3 0 3 2 / N 2 xini - - 0 1 / N 3 xandr2 2 2 0 2";

/// Much can be changed here that leaves it right.
const LOOSE: &str = "A 0 p / A 1 q / A 2 r / F 0 atom 0 - / F 1 atom 1 - / F 2 or 0 1 / F 3 not 2 - / \
    N 0 same 0 - 0,1 0,1 / N 1 same 1 - 1 1";

/// Two rows that have all in common.
const TWIN_ROWS: &str =
    "A 0 p / A 1 q / F 0 atom 0 - / F 1 atom 1 - / N 0 same 0 - 0,1 0,1 / N 1 same 0 - 0,1 0,1";

/// A left pool with nothing in it, and a row with nothing on either side.
const EMPTY_SIDES: &str =
    "A 0 p / F 0 atom 0 - / F 1 not 0 - / N 0 def 1 - - 1 / N 1 xini - - - - / N 2 def 1 - - 1";

/// Formula 15 has 8 atoms and formula 16 has 9. Two rows have 16 on either side, the third
/// has 15.
fn nine_atoms() -> String {
    let conjunctions: String = (9..17).map(|k| format!("F\t{k}\tand\t{}\t{}\n", k - 1, k - 9)).collect();
    let rows = "N 0 same 16 - 16 16 / N 1 same 16 - 16 16 / N 2 same 15 - 15 15";
    atoms(9) + &atom_formulas(9) + &conjunctions + &tabbed(rows)
}

/// What opening answers, a line for each text: name, number, line and the five counts. A
/// beginning lacks no claim, and is answered by the count of its lines.
pub fn answers(cases: &[Case]) -> String {
    let answer = |case: &Case| {
        let (number, line) = match case.number {
            0 | 13 => (0, case.text.iter().filter(|&&byte| byte == b'\n').count()),
            number => (number, case.line),
        };
        let counts = if number == 0 { counts(&case.text) } else { [0; 5] };
        let counts = counts.map(|count| count.to_string()).join("\t");
        format!("{}\t{number}\t{line}\t{counts}\n", case.name)
    };
    cases.iter().map(answer).collect()
}

/// How many atoms, formulas and rows stand in a well-written text, and how many entries the
/// sides of its rows have.
pub fn counts(text: &[u8]) -> [usize; 5] {
    let mut counts = [0; 5];
    for line in String::from_utf8_lossy(text).lines() {
        let fields: Vec<&str> = line.split('\t').collect();
        match fields[0] {
            "A" => counts[0] += 1,
            "F" => counts[1] += 1,
            "N" => {
                counts[2] += 1;
                counts[3] += entries(fields[5]).len();
                counts[4] += entries(fields[6]).len();
            }
            _ => {}
        }
    }
    counts
}

/// The numbers of a well-written list, written out.
fn entries(field: &str) -> Vec<usize> {
    match field {
        "-" => vec![],
        _ => field.split(',').filter_map(numbers_of).flatten().collect(),
    }
}

/// What is stored of a well-written row that comes after this text, if it passes: its record and
/// its entries in either pool.
pub fn stored(text: &[u8], row: &[u8]) -> [Vec<usize>; 3] {
    let [_, _, _, left_start, right_start] = counts(text);
    let row = String::from_utf8_lossy(row);
    let fields: Vec<&str> = row.trim_end().split('\t').collect();
    let number = |field: &str| if field == "-" { 65_535 } else { field.parse().expect("a number") };
    let code = ELK.code(fields[2]).expect("a rule");
    let mut premises = fields[4].split(',').map(number).chain([65_535]);
    let [left, right] = [5, 6].map(|place| entries(fields[place]));
    let mut record = vec![code, number(fields[3])];
    record.extend([premises.next(), premises.next()].map(|premise| premise.unwrap_or(65_535)));
    record.extend([left_start, left.len(), right_start, right.len()]);
    [record, left, right]
}

/// What some texts leave in the five tables when they are opened, encoded by hand: names,
/// formulas, rows, left and right.
const TABLES: [(&str, [&str; 5]); 11] = [
    ("examples/empty_text", ["-", "-", "-", "-", "-"]),
    ("claims/absent_after_atoms", ["4,1,10,1", "-", "-", "-", "-"]),
    ("claims/absent_after_formulas", ["4,1", "1,0,65535", "-", "-", "-"]),
    ("claims/absent_after_rows", ["4,1", "1,0,65535", "1,0,65535,65535,0,1,0,1", "0", "0"]),
    ("models/without_a_claim", ["4,1", "1,0,65535", "1,0,65535,65535,0,1,0,1", "0", "0"]),
    ("examples/whole_file_without_claim", WHOLE_FILE),
    ("examples/whole_file", WHOLE_FILE),
    (
        "beginnings/swap_and_refutations",
        [
            "4,1,10,1",
            "1,0,65535,1,1,65535,3,0,1,3,1,0",
            "1,2,65535,65535,0,1,0,1,37,3,0,65535,1,1,1,1,\
            14,65535,65535,65535,2,1,2,1,19,2,2,65535,3,1,3,1",
            "2,3,0,0",
            "2,2,1,2",
        ],
    ),
    (
        "beginnings/twin_rows",
        [
            "4,1,10,1",
            "1,0,65535,1,1,65535",
            "1,0,65535,65535,0,2,0,2,1,0,65535,65535,2,2,2,2",
            "0,1,0,1",
            "0,1,0,1",
        ],
    ),
    (
        "beginnings/empty_sides",
        [
            "4,1",
            "1,0,65535,2,0,65535",
            "0,1,65535,65535,0,0,0,1,14,65535,65535,65535,0,0,1,0,0,1,65535,65535,0,0,1,1",
            "-",
            "1,1",
        ],
    ),
    (
        "runs/everywhere_one_run",
        [
            "4,1,10,1,16,1,22,1",
            "1,0,65535,1,1,65535,1,2,65535,1,3,65535",
            "1,1,65535,65535,0,4,0,4",
            "0,1,2,3",
            "0,1,2,3",
        ],
    ),
];

/// These tables, a line for each text.
pub fn tables() -> String {
    TABLES.map(|(name, tables)| format!("{name}\t{}\n", tables.join("\t"))).concat()
}

/// What a text leaves in the tables but for the names.
pub fn entries_left(name: &str) -> [Vec<u16>; 4] {
    let numbers = |table: &str| table.split(',').map(|number| number.parse().expect("a number")).collect();
    let (_, tables) = TABLES.into_iter().find(|(other, _)| *other == name).expect("a text with its tables");
    [1, 2, 3, 4].map(|table| numbers(tables[table]))
}

/// The file of paper 01.
const WHOLE_FILE: [&str; 5] = [
    "4,1",
    "1,0,65535,2,0,65535,5,1,0,0,65535,65535,2,1,65535",
    "1,0,65535,65535,0,1,0,2,8,1,0,65535,1,2,2,1,11,4,1,65535,3,1,3,2,\
    0,1,65535,65535,4,0,5,2,10,2,2,3,4,1,7,1",
    "0,0,1,0,2",
    "0,3,3,3,4,1,3,3",
];

#[cfg(test)]
mod tests {
    use super::*;
    use crate::adding::listed;
    use crate::judge::LEAST;
    use crate::open::open;

    #[test]
    fn every_text_opens_as_it_is_listed() {
        let cases = super::super::listed_and_in_files().1;
        let given = |case: &Case| {
            let opening = open(&case.text, &LEAST);
            let counts = opening.counts.listed().map(|count| count.to_string()).join("\t");
            format!("{}\t{}\t{}\t{counts}\n", case.name, opening.number, opening.line)
        };
        for (case, expected) in cases.iter().zip(answers(&cases).split_inclusive('\n')) {
            assert_eq!(given(case), expected);
        }
    }

    #[test]
    fn tables_hold_what_is_listed() {
        let cases = super::super::listed_and_in_files().1;
        for line in tables().lines() {
            let (name, expected) = line.split_once('\t').unwrap();
            let opening = open(&cases.iter().find(|case| case.name == name).unwrap().text, &LEAST);
            let [atoms, formulas, rows, left, right] = opening.counts.listed();
            let used = [2 * atoms, 3 * formulas, 8 * rows, left, right];
            let found: Vec<String> = opening
                .tables
                .listed()
                .iter()
                .zip(used)
                .map(|((name, table), used)| {
                    assert!(table[used..].iter().all(|&entry| entry == 0), "{name}");
                    listed(&table[..used])
                })
                .collect();
            assert_eq!(found.join("\t"), expected, "{name}");
        }
    }
}
