//! The text of the row that is added: whatever is no N line, each number that a row earns,
//! and rows that pass, also after a model and a claim.

use super::adding::{Adding, added, line, refused};
use super::handed_in::{ROW, SMALL, STORED};
use super::{Case, raw};

/// Rows of the most bytes, and of one more: lists of premises, which no pool limits.
pub fn texts() -> Vec<Case> {
    let premises = vec!["0"; 32_761].join(",");
    let row = |rule: &str| format!("N\t5\t{rule}\t0\t{premises}\t0\t0\n");
    vec![
        raw("limits/65536_bytes_in_one_row", 4, 1, row("bot")),
        raw("limits/65537_bytes_in_one_row", 2, 0, row("andl")),
    ]
}

pub fn cases() -> Vec<Adding> {
    let mut cases = vec![];
    for &(what, text) in NO_ROW {
        cases.push(refused(&format!("no_row/{what}"), SMALL, "-", text, 3, 1));
    }
    for &(what, row) in BADLY_WRITTEN {
        cases.push(refused(&format!("badly_written/{what}"), SMALL, "-", &line(row), 3, 1));
    }
    for &(what, number, row) in REFUSED {
        cases.push(refused(&format!("refused/{what}"), SMALL, "-", &line(row), number, 1));
    }
    for &(what, beginning, row, number) in REFUSED_ELSEWHERE {
        cases.push(refused(&format!("refused/{what}"), beginning, "-", &line(row), number, 1));
    }
    for &(what, changes, text, number, at) in IN_ORDER {
        cases.push(refused(&format!("in_order/{what}"), SMALL, changes, text, number, at));
    }
    for &(what, beginning, row, stored) in ADDED {
        cases.push(added(&format!("added/{what}"), beginning, "-", &line(row), stored));
    }
    // As in 01 and 02, whatever stands in the text before.
    let row = line(ROW);
    cases.push(refused(
        "no_row/no_lf",
        SMALL,
        "-",
        row.strip_suffix("\\n").expect("a line ends in LF"),
        3,
        1,
    ));
    for (what, before, after) in [
        ("twice", "", ROW),
        ("and_the_next", "", "N 6 same 0 - 0 0"),
        ("and_a_claim", "", "C 0 0"),
        ("and_a_model", "", "M 0"),
        ("and_a_formula", "", "F 5 not 4 -"),
        ("after_a_formula", "F 5 not 4 -", ""),
        ("after_the_row_before", "N 5 wr 3 4 2 3", ""),
    ] {
        let text = [before, if before.is_empty() { ROW } else { "N 6 same 0 - 0 0" }, after];
        let text: String = text.into_iter().filter(|row| !row.is_empty()).map(line).collect();
        cases.push(refused(&format!("no_row/{what}"), SMALL, "-", &text, 3, 1));
    }
    for (what, before, after) in [
        ("and_an_lf", "", "\\n"),
        ("after_an_lf", "\\n", ""),
        ("and_a_byte", "", "N"),
        ("and_a_zero", "", "\\x00"),
        ("and_a_tab", "", "\\t"),
        ("after_a_tab", "\\t", ""),
        ("after_a_space", " ", ""),
        ("and_a_line_without_lf", "", "N\\t6\\tsame\\t0\\t-\\t0\\t0"),
    ] {
        cases.push(refused(&format!("no_row/{what}"), SMALL, "-", &format!("{before}{row}{after}"), 3, 1));
    }
    cases
}

const NO_ROW: &[(&str, &str)] = &[
    ("empty", "@examples/empty_text"),
    ("lf", "\\n"),
    ("two_lfs", "\\n\\n"),
    ("zero", "\\x00"),
    ("atom", "A\\t1\\tq\\n"),
    ("formula", "F\\t5\\tnot\\t4\\t-\\n"),
    ("model", "M\\t-\\n"),
    ("claim", "C\\t2\\t3\\n"),
    ("typed_formula", "T\\tp\\n"),
    ("difference", "D\\t5\\twr\\t3\\t4\\t-\\t-\\t-\\t-\\n"),
    ("sheet", "S\\t-\\n"),
    ("unknown_kind", "X\\t5\\tsame\\t0\\t-\\t0\\t0\\n"),
    ("small_kind", "n\\t5\\tsame\\t0\\t-\\t0\\t0\\n"),
    ("longer_kind", "NN\\t5\\tsame\\t0\\t-\\t0\\t0\\n"),
    ("no_kind", "\\t5\\tsame\\t0\\t-\\t0\\t0\\n"),
    ("kind_alone", "N\\n"),
    ("kind_alone_without_lf", "N"),
    ("cr_lf", "N\\t5\\tsame\\t0\\t-\\t0\\t0\\x0d\\n"),
    ("cr", "N\\t5\\tsame\\t0\\t-\\t0\\t0\\x0d"),
    ("spaces", "N 5 same 0 - 0 0\\n"),
    ("lf_within", "N\\t5\\tsame\\t0\\t-\\n\\t0\\t0\\n"),
    ("a_whole_file", "@examples/whole_file"),
    ("the_beginning_again", "@examples/whole_file_without_claim"),
    ("65536_bytes", "@limits/65536_bytes_in_one_line"),
    ("65536_bytes_of_a_file", "@limits/65536_bytes"),
    ("65536_bytes_of_lfs", "@limits/65536_empty_lines"),
];

const BADLY_WRITTEN: &[(&str, &str)] = &[
    ("a_field_more", "N 5 same 0 - 0 0 0"),
    ("a_field_less", "N 5 same 0 - 0"),
    ("number_with_a_leading_zero", "N 05 same 0 - 0 0"),
    ("number_of_six_digits", "N 100005 same 0 - 0 0"),
    ("number_absent", "N - same 0 - 0 0"),
    ("number_with_a_sign", "N +5 same 0 - 0 0"),
    ("number_and_4", "N 06 same 0 - 0 0"),
    ("unknown_rule", "N 5 sama 0 - 0 0"),
    ("unknown_rule_and_4", "N 6 sama 0 - 0 0"),
    ("rule_by_code", "N 5 1 0 - 0 0"),
    ("principal", "N 5 same 00 - 0 0"),
    ("principal_run", "N 5 same 0-1 - 0 0"),
    ("premise", "N 5 wr 3 04 2 3"),
    ("run_of_premises", "N 5 rcut 0 0-1 0 0"),
    ("left", "N 5 same 0 - 0,, 0"),
    ("right", "N 5 same 0 - 0 0,"),
    ("run_of_one", "N 5 same 0 - 0-0 0"),
    ("run_that_falls", "N 5 same 0 - 0 3-1"),
    ("run_without_its_last", "N 5 same 0 - 0 0-"),
    ("right_and_4", "N 4 same 0 - 0 x"),
    ("right_5_and_7", "N 5 same 9 - 0-99999 x"),
];

/// Over the file of paper 01, which has five formulas and five rows.
const REFUSED: &[(&str, u16, &str)] = &[
    ("number_0", 4, "N 0 same 0 - 0 0"),
    ("number_4", 4, "N 4 same 0 - 0 0"),
    ("number_6", 4, "N 6 same 0 - 0 0"),
    ("number_256_more", 4, "N 261 same 0 - 0 0"),
    ("number_65536_more", 4, "N 65541 same 0 - 0 0"),
    ("number_99999", 4, "N 99999 same 0 - 0 0"),
    ("4_and_5", 4, "N 6 same 0 - 0-99999 0"),
    ("4_and_7", 4, "N 6 same 5 5 5 5"),
    ("4_and_9", 4, "N 4 same 0 - 0,0 0"),
    ("4_and_10", 4, "N 4 same 0 0 0 0"),
    ("4_and_11", 4, "N 4 same 0 - 0 1"),
    ("most_entries_left", 5, "N 5 same 0 - 0-99999 0"),
    ("most_entries_right", 5, "N 5 same 0 - 0 0-99999"),
    ("16380_left_after_5", 5, "N 5 same 0 - 0-16379 0"),
    ("16379_left_after_5", 7, "N 5 same 0 - 0-16378 0"),
    ("16377_right_after_8", 5, "N 5 same 0 - 0 0-16376"),
    ("16376_right_after_8", 7, "N 5 same 0 - 0 0-16375"),
    ("principal_5", 7, "N 5 same 5 - 0 0"),
    ("principal_65535", 7, "N 5 same 65535 - 0 0"),
    ("principal_65536", 7, "N 5 same 65536 - 0 0"),
    ("premise_5", 7, "N 5 wr 3 5 2 3"),
    ("premise_6", 7, "N 5 wr 3 6 2 3"),
    ("premise_65535", 7, "N 5 wr 3 65535 2 3"),
    ("premise_65540", 7, "N 5 wr 3 65540 2 3"),
    ("second_premise_5", 7, "N 5 rcut 0 0,5 0 0"),
    ("third_premise_5", 7, "N 5 rcut 0 0,0,5 0 0"),
    ("left_5", 7, "N 5 same 0 - 0,5 0"),
    ("right_5", 7, "N 5 same 0 - 0 0,5"),
    ("right_65536", 7, "N 5 same 0 - 0 65536"),
    ("left_run_to_5", 7, "N 5 same 0 - 0-5 0"),
    ("7_and_9", 7, "N 5 same 0 - 0,0 5"),
    ("7_and_10", 7, "N 5 wr 5 - 0 0"),
    ("left_repeated", 9, "N 5 same 0 - 0,0 0"),
    ("left_falling", 9, "N 5 same 0 - 1,0 0"),
    ("right_repeated", 9, "N 5 same 0 - 0 0,0"),
    ("right_falling", 9, "N 5 same 0 - 0 1,0"),
    ("runs_that_meet", 9, "N 5 same 0 - 0-1,1-2 0"),
    ("9_and_10", 9, "N 5 same 0 0 0,0 0"),
    ("9_and_11", 9, "N 5 same 0 - 0 3,3"),
    ("premise_too_many", 10, "N 5 same 0 0 0 0"),
    ("premise_too_few", 10, "N 5 wr 3 - 2 3"),
    ("three_premises", 10, "N 5 rcut 0 0,0,0 0 0"),
    ("principal_missing", 10, "N 5 same - - 0 0"),
    ("principal_unwanted", 10, "N 5 xini 0 - - -"),
    ("sequent_for_a_refutation", 10, "N 5 xnnl 4 0 4 0"),
    ("10_and_11", 10, "N 5 same 0 0 0 3"),
    ("same_not_on_the_right", 11, "N 5 same 0 - 0 3"),
    ("same_not_on_the_left", 11, "N 5 same 0 - 3 0"),
    ("def_of_what_is_given", 11, "N 5 def 1 - 0 1"),
    ("premises_the_other_way_round", 11, "N 5 impl 2 3,2 2 3"),
    ("wr_from_another_row", 11, "N 5 wr 3 3 2 3"),
    ("xini_on_both_sides", 11, "N 5 xini - - 0 0"),
    ("swap_of_unequal_ones", 11, "N 5 swap 3 4 3 3"),
];

const REFUSED_ELSEWHERE: &[(&str, &str, &str, u16)] = &[
    ("formula_of_an_empty_file", "examples/empty_text", "N 0 same 0 - 0 0", 7),
    ("formula_of_atoms_alone", "claims/absent_after_atoms", "N 0 same 0 - 0 0", 7),
    ("second_row_of_an_empty_file", "examples/empty_text", "N 1 xini - - - -", 4),
    ("row_2048", "limits/2048_rows", "N 2048 same 0 - 0 0", 5),
    ("row_2048_that_is_empty", "limits/2048_rows", "N 2048 xini - - - -", 5),
    ("row_2048_5_and_7", "limits/2048_rows", "N 2048 same 9 9 9 9", 5),
    ("row_2048_4_and_5", "limits/2048_rows", "N 2047 same 0 - 0 0", 4),
    ("row_2049", "limits/2048_rows", "N 2049 same 0 - 0 0", 4),
    ("65_on_the_left", "beginnings/64_on_the_left", "N 1 same 0 - 0-64 0", 9),
    ("65_on_the_right", "beginnings/64_on_the_left", "N 1 same 0 - 0 0-64", 9),
    ("66_on_the_left_and_7", "beginnings/64_on_the_left", "N 1 same 0 - 0-66 0", 7),
    ("refutation_for_a_sequent", "beginnings/swap_and_refutations", "N 4 wr 0 2 0 0,1", 10),
    ("swap_from_a_refutation", "beginnings/swap_and_refutations", "N 4 swap 0 2 0 1", 10),
    ("swap_of_nine_atoms", "beginnings/nine_atoms", "N 3 swap 16 0 16 16", 18),
    ("swap_of_nine_atoms_with_8_given", "beginnings/nine_atoms", "N 3 swap 15 0 15 16", 18),
    ("swap_10_and_18", "beginnings/nine_atoms", "N 3 swap 16 0,0 16 16", 10),
    ("swap_9_and_18", "beginnings/nine_atoms", "N 3 swap 16 0 16,16 16", 9),
    ("swap_with_another_right", "beginnings/nine_atoms", "N 3 swap 16 0 16 15", 11),
];

/// Of what is wrong with the file and with the row, the first of 1, 4, 2 and the row's numbers
/// is given.
const IN_ORDER: &[(&str, &str, &str, u16, usize)] = &[
    ("2", "-", "@limits/65537_bytes", 2, 0),
    ("2_in_one_line", "-", "@limits/65537_bytes_in_one_line", 2, 0),
    ("2_and_3", "-", "@limits/65537_bytes_with_a_bad_first_line", 2, 0),
    ("2_and_10", "-", "@limits/65537_bytes_in_one_row", 2, 0),
    ("65536_bytes", "-", "@limits/65536_bytes_in_one_row", 10, 1),
    ("4_and_2_by_a_count", "count:rows:6", "@limits/65537_bytes", 4, 0),
    ("4_and_2_by_a_limit", "count:left:16385", "@limits/65537_bytes", 4, 0),
    ("4_and_2_by_a_formula", "formulas:0:6", "@limits/65537_bytes_in_one_row", 4, 0),
    ("4_and_2_by_a_step", "rows:34:3 rows:35:2", "@limits/65537_bytes", 4, 0),
    ("4_and_2_by_what_follows", "right:16383:1", "@limits/65537_bytes", 4, 0),
    ("4_and_3", "count:atoms:65", "@examples/empty_text", 4, 0),
    ("4_and_3_by_what_follows", "left:5:1", "\\n", 4, 0),
    ("4_and_4", "rows:34:3 rows:35:2", "N\\t6\\tsame\\t0\\t-\\t0\\t0\\n", 4, 0),
    ("4_and_11", "count:right:9", "N\\t5\\tsame\\t0\\t-\\t0\\t3\\n", 4, 0),
];

const ADDED: &[(&str, &str, &str, [&str; 3])] = &[
    ("to_the_whole_file", SMALL, ROW, STORED),
    ("after_a_claim", "examples/whole_file", ROW, STORED),
    ("after_a_model_and_a_claim", "runs/none", "N 1 same 0 - 0 0", ["1,0,65535,65535,4,1,4,1", "0", "0"]),
    ("after_a_model", "models/without_a_claim", "N 1 wr 0 0 0 0", ["4,0,0,65535,1,1,1,1", "0", "0"]),
    (
        "after_a_wrong_model",
        "models/wrong_without_a_claim",
        "N 1 wr 0 0 0 0",
        ["4,0,0,65535,1,1,1,1", "0", "0"],
    ),
    ("after_a_model_alone", "models/alone", "N 0 xini - - - -", ["14,65535,65535,65535,0,0,0,0", "-", "-"]),
    ("to_nothing", "examples/empty_text", "N 0 xini - - - -", ["14,65535,65535,65535,0,0,0,0", "-", "-"]),
    (
        "to_formulas",
        "claims/absent_after_formulas",
        "N 0 same 0 - 0 0",
        ["1,0,65535,65535,0,1,0,1", "0", "0"],
    ),
    ("from_the_last_row", SMALL, "N 5 wr 0 4 2 0,3", ["4,0,4,65535,5,1,8,2", "2", "0,3"]),
    ("from_two_rows", SMALL, "N 5 impl 2 2,3 2 3", ["10,2,2,3,5,1,8,1", "2", "3"]),
    ("from_one_row_twice", SMALL, "N 5 rcut 0 0,0 0 0,3", ["12,0,0,0,5,1,8,2", "0", "0,3"]),
    ("an_initial_refutation", SMALL, "N 5 xini - - 0 3", ["14,65535,65535,65535,5,1,8,1", "0", "3"]),
    ("nothing_on_the_left", SMALL, "N 5 def 1 - - 1", ["0,1,65535,65535,5,0,8,1", "-", "1"]),
    ("nothing_on_the_right", SMALL, "N 5 bot 3 4 2 -", ["5,3,4,65535,5,1,8,0", "2", "-"]),
    ("nothing_on_either_side", SMALL, "N 5 xini - - - -", ["14,65535,65535,65535,5,0,8,0", "-", "-"]),
    ("plain", SMALL, "N 5 same 0 - 0,1,2,3,4 0,1,3,4", ["1,0,65535,65535,5,5,8,4", "0,1,2,3,4", "0,1,3,4"]),
    ("runs", SMALL, "N 5 same 0 - 0-4 0-1,3-4", ["1,0,65535,65535,5,5,8,4", "0,1,2,3,4", "0,1,3,4"]),
    (
        "runs_and_numbers",
        SMALL,
        "N 5 same 0 - 0,1-3,4 0-1,3,4",
        ["1,0,65535,65535,5,5,8,4", "0,1,2,3,4", "0,1,3,4"],
    ),
    ("swap", "beginnings/swap_and_refutations", "N 4 swap 2 1 2 2", ["37,2,1,65535,4,1,4,1", "2", "2"]),
    ("from_swap", "beginnings/swap_and_refutations", "N 4 wr 0 1 3 0,2", ["4,0,1,65535,4,1,4,2", "3", "0,2"]),
    (
        "swap_of_eight_atoms",
        "beginnings/nine_atoms",
        "N 3 swap 15 2 15 15",
        ["37,15,2,65535,3,1,3,1", "15", "15"],
    ),
    (
        "from_a_refutation",
        "beginnings/swap_and_refutations",
        "N 4 xandr1 3 2 0 3",
        ["18,3,2,65535,4,1,4,1", "0", "3"],
    ),
];
