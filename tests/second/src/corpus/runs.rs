//! Runs: how they are written, where they may stand, and in what order the numbers of a
//! refusal apply to them.

use super::{Case, plain, raw, tabbed};

/// Before the row.
const HEAD: &str =
    "A 0 p / A 1 q / A 2 r / A 3 s / F 0 atom 0 - / F 1 atom 1 - / F 2 atom 2 - / F 3 atom 3 -";

const WHOLE: &str = "0,1,2,3";

/// Where a run may stand.
#[derive(Clone, Copy, PartialEq)]
enum Place {
    Left,
    Right,
    Model,
    ClaimLeft,
    ClaimRight,
}

const PLACES: [Place; 5] = [Place::Left, Place::Right, Place::Model, Place::ClaimLeft, Place::ClaimRight];

impl Place {
    fn name(self) -> &'static str {
        match self {
            Place::Left => "left",
            Place::Right => "right",
            Place::Model => "model",
            Place::ClaimLeft => "claim_left",
            Place::ClaimRight => "claim_right",
        }
    }

    fn in_row(self) -> bool {
        matches!(self, Place::Left | Place::Right)
    }

    /// The row, the model and the claim, with this list here and all formulas or atoms
    /// elsewhere.
    fn lines(self, list: &str) -> [String; 3] {
        let at = |place: Place| if place == self { list } else { WHOLE };
        let (left, right) = (at(Place::Left), at(Place::Right));
        [
            format!("N\t0\tsame\t1\t-\t{left}\t{right}\n"),
            format!("M\t{}\n", at(Place::Model)),
            format!("C\t{}\t{}\n", at(Place::ClaimLeft), at(Place::ClaimRight)),
        ]
    }

    /// A file of eleven lines, accepted if the list means all its formulas or atoms.
    fn file(self, list: &str) -> String {
        tabbed(HEAD) + &self.lines(list).concat()
    }

    /// The line of the list in that file.
    fn line(self) -> usize {
        match self {
            Place::Left | Place::Right => 9,
            Place::Model => 10,
            Place::ClaimLeft | Place::ClaimRight => 11,
        }
    }

    /// The file with the list in a line that comes once too often, and that line.
    fn out_of_order(self, list: &str) -> (String, usize) {
        let [row, model, claim] = self.lines(list);
        match self {
            Place::Left | Place::Right => (self.file(WHOLE).replacen("M\t", &(row + "M\t"), 1), 10),
            Place::Model => (self.file(WHOLE).replacen("C\t", &(model + "C\t"), 1), 11),
            Place::ClaimLeft | Place::ClaimRight => (self.file(WHOLE) + &claim, 12),
        }
    }
}

pub fn cases() -> Vec<Case> {
    let everywhere = |list: &str| {
        tabbed(HEAD) + &format!("N\t0\tsame\t1\t-\t{list}\t{list}\nM\t{list}\nC\t{list}\t{list}\n")
    };
    let same_as = |plain: &str, case: Case| Case { plain: Some(format!("runs/{plain}")), ..case };
    let gap = raw("runs/everywhere_a_run_before_a_gap", 0, 11, everywhere("0-1,3"));
    let mut cases = vec![
        raw("runs/none", 0, 11, everywhere(WHOLE)),
        raw("runs/none_with_a_gap", 0, 11, everywhere("0,1,3")),
        same_as("none_with_a_gap", gap),
    ];
    for (what, list) in WRITINGS {
        cases.push(same_as("none", raw(&format!("runs/everywhere_{what}"), 0, 11, everywhere(list))));
        let case = |place: Place| raw(&format!("runs/{}_{what}", place.name()), 0, 11, place.file(list));
        cases.extend(PLACES.map(|place| same_as("none", case(place))));
    }
    let badly_written = BADLY_WRITTEN.map(|(what, list)| (what, list, 3, 3));
    for (what, list, in_row, elsewhere) in badly_written.into_iter().chain(REFUSED) {
        for place in PLACES {
            let name = format!("runs/{}_{what}", place.name());
            let number = if place.in_row() { in_row } else { elsewhere };
            cases.push(raw(&name, number, place.line(), place.file(list)));
            let (text, line) = place.out_of_order(list);
            cases.push(raw(&format!("{name}_and_4"), number.min(4), line, text));
        }
    }
    for &(name, number, line, lines) in ELSEWHERE {
        cases.push(plain(&format!("runs/{name}"), number, line, lines));
    }
    for &(name, number, line, lines) in TWO_NUMBERS {
        cases.push(plain(&format!("runs/{name}"), number, line, &format!("{HEAD} / {lines}")));
    }
    let entries = vec!["0-3"; 4_097].join(",");
    cases.push(raw("runs/row_5_and_9", 5, 9, Place::Left.file(&entries)));
    cases
}

/// All four formulas or atoms.
const WRITINGS: [(&str, &str); 7] = [
    ("one_run", "0-3"),
    ("run_and_number", "0-2,3"),
    ("number_and_run", "0,1-3"),
    ("two_runs", "0-1,2-3"),
    ("run_between_numbers", "0,1-2,3"),
    ("run_before_numbers", "0-1,2,3"),
    ("run_after_numbers", "0,1,2-3"),
];

const BADLY_WRITTEN: [(&str, &str); 34] = [
    ("first_is_last_0", "0-0"),
    ("first_is_last_1", "1-1"),
    ("first_is_last_after_a_number", "0,1-1"),
    ("first_is_last_99999", "99999-99999"),
    ("falls", "2-0"),
    ("falls_by_one", "3-2"),
    ("falls_after_a_good_run", "0-1,3-2"),
    ("falls_by_length", "10-9"),
    ("last_with_a_leading_zero", "0-02"),
    ("first_with_a_leading_zero", "00-2"),
    ("last_of_zeros", "0-00"),
    ("three_numbers", "0-1-2"),
    ("three_numbers_that_fall", "3-2-1"),
    ("no_last", "0-"),
    ("no_last_before_a_comma", "0-,3"),
    ("no_first", "-2"),
    ("no_first_after_a_comma", "0,-2"),
    ("two_dashes", "0--1"),
    ("two_dashes_alone", "--"),
    ("dash_first", "-0-2"),
    ("dash_last", "0-2-"),
    ("dash_as_an_item", "0-2,-"),
    ("comma_last", "0-1,"),
    ("comma_first", ",0-1"),
    ("two_commas", "0-1,,2-3"),
    ("last_of_six_digits", "0-100000"),
    ("first_of_six_digits", "100000-100001"),
    ("last_of_four_zeros_and_a_digit", "0-00003"),
    ("space_after_the_dash", "0- 3"),
    ("letter_as_last", "0-s"),
    ("zero_byte_before_the_dash", "0\0-3"),
    ("cr_at_the_end", "0-3\r"),
    ("dash_that_is_no_hyphen", "0\u{2013}3"),
    ("two_dots", "0..3"),
];

/// What, a list, its number in a row, where a pool may pass its most, and elsewhere.
const REFUSED: [(&str, &str, u16, u16); 31] = [
    ("meeting_runs", "0-1,1-2", 9, 9),
    ("overlapping_runs", "0-2,1-3", 9, 9),
    ("run_again", "0-3,0-3", 9, 9),
    ("run_inside_a_run", "0-3,1-2", 9, 9),
    ("run_of_the_same_first", "0-1,0-3", 9, 9),
    ("last_number_again", "0-3,3", 9, 9),
    ("inner_number_again", "0-3,2", 9, 9),
    ("first_number_again", "0-1,0", 9, 9),
    ("run_from_the_number_before", "2,2-3", 9, 9),
    ("run_around_the_number_before", "1,0-3", 9, 9),
    ("run_after_a_larger_number", "3,0-2", 9, 9),
    ("run_after_a_larger_run", "2-3,0-1", 9, 9),
    ("last_is_one_over", "0-4", 7, 7),
    ("last_is_one_over_after_a_run", "0-1,2-4", 7, 7),
    ("last_is_one_over_before_a_run", "3-4,0-1", 7, 7),
    ("first_is_held", "3-4", 7, 7),
    ("first_is_one_over", "4-5", 7, 7),
    ("all_over_and_again", "4-5,4-5", 7, 7),
    ("last_is_1023", "0-1023", 7, 7),
    ("16383_entries", "0-16382", 7, 7),
    ("16384_entries", "0-16383", 7, 7),
    ("16385_entries", "0-16384", 5, 7),
    ("16385_entries_from_1", "1-16385", 5, 7),
    ("last_is_65535", "0-65535", 5, 7),
    ("last_is_65536", "0-65536", 5, 7),
    ("last_is_65539", "0-65539", 5, 7),
    ("last_is_99999", "0-99999", 5, 7),
    ("first_is_65534", "65534-65535", 7, 7),
    ("first_is_65535", "65535-65536", 7, 7),
    ("65536_to_65539", "65536-65539", 7, 7),
    ("99998_to_99999", "99998-99999", 7, 7),
];

type Table = &'static [(&'static str, u16, usize, &'static str)];

/// Where no run may stand.
#[rustfmt::skip]
const ELSEWHERE: Table = &[
    ("premises_plain", 0, 7, "A 0 p / F 0 atom 0 - / N 0 same 0 - 0 0 / N 1 same 0 - 0 0 / N 2 rcut 0 0,1 0 0 / M 0 / C 0 0"),
    ("premises_as_a_run", 3, 5, "A 0 p / F 0 atom 0 - / N 0 same 0 - 0 0 / N 1 same 0 - 0 0 / N 2 rcut 0 0-1 0 0 / M 0 / C 0 0"),
    ("premises_as_a_run_of_missing_rows", 3, 5, "A 0 p / F 0 atom 0 - / N 0 same 0 - 0 0 / N 1 same 0 - 0 0 / N 2 rcut 0 2-3 0 0"),
    ("premises_as_a_run_and_4", 3, 5, "A 0 p / F 0 atom 0 - / N 0 same 0 - 0 0 / N 1 same 0 - 0 0 / N 3 rcut 0 0-1 0 0"),
    ("premises_with_a_run_last", 3, 5, "A 0 p / F 0 atom 0 - / N 0 same 0 - 0 0 / N 1 same 0 - 0 0 / N 2 rcut 0 0,0-1 0 0"),
    ("premises_with_a_run_where_there_are_none", 3, 5, "A 0 p / F 0 atom 0 - / N 0 same 0 - 0 0 / N 1 same 0 - 0 0 / N 2 same 0 0-1 0 0"),
    ("principal_as_a_run", 3, 5, "A 0 p / A 1 q / F 0 atom 0 - / F 1 atom 1 - / N 0 same 0-1 - 0,1 0,1"),
    ("atom_as_a_run", 3, 3, "A 0 p / A 1 q / F 0 atom 0-1 -"),
    ("not_of_a_run", 3, 5, "A 0 p / A 1 q / F 0 atom 0 - / F 1 atom 1 - / F 2 not 0-1 -"),
    ("and_of_a_run_first", 3, 5, "A 0 p / A 1 q / F 0 atom 0 - / F 1 atom 1 - / F 2 and 0-1 1"),
    ("and_of_a_run_second", 3, 5, "A 0 p / A 1 q / F 0 atom 0 - / F 1 atom 1 - / F 2 and 0 0-1"),
    ("or_of_a_run_alone", 3, 5, "A 0 p / A 1 q / F 0 atom 0 - / F 1 atom 1 - / F 2 or 0-1 -"),
    ("imp_of_a_run_second", 3, 5, "A 0 p / A 1 q / F 0 atom 0 - / F 1 atom 1 - / F 2 imp 0 0-1"),
    ("own_number_of_an_atom", 3, 1, "A 0-1 p"),
    ("own_number_of_a_formula", 3, 1, "F 0-1 bot - -"),
    ("own_number_of_a_row", 3, 2, "F 0 bot - - / N 0-1 same 0 - 0 0"),
    ("name_as_a_run", 6, 1, "A 0 0-1"),
    ("premises_as_a_run_without_last", 3, 5, "A 0 p / F 0 atom 0 - / N 0 same 0 - 0 0 / N 1 same 0 - 0 0 / N 2 wr 0 0- 1 0"),
];

/// Lines to which two numbers apply or, by a number that a run leaves out, one.
#[rustfmt::skip]
const TWO_NUMBERS: Table = &[
    ("row_3_and_5", 3, 9, "N 0 same 1 - 0-99999,1-1 0-3"),
    ("row_3_and_5_on_two_sides", 3, 9, "N 0 same 1 - 0-99999 1-1"),
    ("row_3_and_7", 3, 9, "N 0 same 1 - 0-4 3-2"),
    ("row_3_and_9", 3, 9, "N 0 same 1 - 0-1,1-3 0-"),
    ("row_5_and_7_by_principal", 5, 9, "N 0 same 9 - 0-99999 0-3"),
    ("row_5_and_7_by_premise", 5, 9, "N 0 wr 1 0 0-3 0-99999"),
    ("row_5_and_7_on_two_sides", 5, 9, "N 0 same 1 - 0-4 0-99999"),
    ("row_5_and_9_on_two_sides", 5, 9, "N 0 same 1 - 0-1,1-3 0-99999"),
    ("row_7_and_9_on_two_sides", 7, 9, "N 0 same 1 - 0-1,1-3 0-4"),
    ("row_7_and_9_by_principal", 7, 9, "N 0 same 4 - 0-1,1-3 0-3"),
    ("row_9_and_10", 9, 10, "N 0 same 1 - 0-3 0-3 / N 1 same 1 0 0-1,1-3 0-3"),
    ("row_9_and_11", 9, 9, "N 0 same 1 - 2-3,2-3 0-3"),
    ("row_10_with_runs", 10, 10, "N 0 same 1 - 0-3 0-3 / N 1 same 1 0 0-3 0-3"),
    ("row_11_by_the_number_before_a_run", 11, 9, "N 0 same 0 - 1-3 0-3"),
    ("row_11_by_the_number_after_a_run", 11, 9, "N 0 same 3 - 0-2 0-3"),
    ("row_11_by_the_number_between_runs", 11, 9, "N 0 same 1 - 0-3 0,2-3"),
    ("row_by_the_first_number_of_a_run", 0, 11, "N 0 same 1 - 1-3 1-3 / M 1-3 / C 1-3 1-3"),
    ("row_by_the_last_number_of_a_run", 0, 11, "N 0 same 2 - 0-2 0-2 / M 0-2 / C 0-2 0-2"),
    ("row_from_a_row_in_runs", 0, 12, "N 0 same 1 - 0-3 0-2 / N 1 wr 3 0 0-3 0-3 / M 0-3 / C 0-3 0-3"),
    ("row_from_a_row_with_less_in_runs", 11, 10, "N 0 same 1 - 0-2 0-2 / N 1 wr 3 0 0-3 0-3"),
    ("claim_3_and_7", 3, 11, "N 0 same 1 - 0-3 0-3 / M 0-3 / C 0-4 1-1"),
    ("claim_3_and_9", 3, 11, "N 0 same 1 - 0-3 0-3 / M 0-3 / C 0-1,1-3 1-1"),
    ("claim_3_and_12", 3, 11, "N 0 same 1 - 0-3 0-3 / M 0-3 / C 0-2 0-"),
    ("claim_7_and_9_on_two_sides", 7, 11, "N 0 same 1 - 0-3 0-3 / M 0-3 / C 0-1,1-3 0-4"),
    ("claim_7_and_12", 7, 11, "N 0 same 1 - 0-3 0-3 / M 0-3 / C 0-3 1-4"),
    ("claim_9_and_12", 9, 11, "N 0 same 1 - 0-3 0-3 / M 0-3 / C 0-1,1-2 0-3"),
    ("claim_12_by_the_first_number", 12, 11, "N 0 same 1 - 0-3 0-3 / M 0-3 / C 1-3 0-3"),
    ("claim_12_by_the_last_number", 12, 11, "N 0 same 1 - 0-3 0-3 / M 0-3 / C 0-3 0-2"),
    ("claim_12_by_an_inner_number", 12, 11, "N 0 same 1 - 0-3 0-3 / M 0-3 / C 0-1,3 0-3"),
    ("claim_12_and_17", 12, 11, "N 0 same 1 - 0-3 0-3 / M 0-2 / C 0-3 0-2"),
    ("model_15_for_a_run", 15, 11, "F 4 bot - - / N 0 same 4 - 0-4 4 / M 0-3 / C 0-4 4"),
    ("model_17_by_the_first_number", 17, 10, "N 0 same 1 - 0-3 0-3 / M 1-3 / C 0-3 0-3"),
    ("model_17_by_the_last_number", 17, 10, "N 0 same 1 - 0-3 0-3 / M 0-2 / C 0-3 0-3"),
    ("model_17_by_a_number_more", 17, 10, "N 0 same 1 - 0-2 0-2 / M 0-3 / C 0-2 0-2"),
    ("model_without_a_claim", 13, 11, "N 0 same 1 - 0-3 0-3 / M 0-3"),
];
