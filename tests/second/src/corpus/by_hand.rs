//! Files changed by hand in several places: some are right again, and some are wrong in one
//! way alone.

use super::adding::{Adding, added, line, refused};

const LOOSE: &str = "beginnings/loose";
const TWINS: &str = "beginnings/twin_rows";

/// What is expected of a file that was changed by hand: 4, or what is stored of the row.
enum Expected {
    Refused,
    Stored([&'static str; 3]),
}
use Expected::{Refused, Stored};

pub fn cases() -> Vec<Adding> {
    let of_group =
        |group: &str, beginning: &str, row: &str, changed: &[(&str, &str, Expected)]| -> Vec<Adding> {
            let case = |(what, changes, expected): &(&str, &str, Expected)| {
                let name = format!("{group}/{what}");
                match expected {
                    Refused => refused(&name, beginning, changes, &line(row), 4, 0),
                    Stored(stored) => added(&name, beginning, changes, &line(row), *stored),
                }
            };
            changed.iter().map(case).collect()
        };
    let third = "N 2 same 0 - 0 0";
    [
        of_group("formulas", LOOSE, third, FORMULAS),
        of_group("rows", LOOSE, third, ROWS),
        of_group("more_rows", LOOSE, "N 3 same 0 - 0 0", MORE_ROWS),
        of_group("fewer_rows", LOOSE, "N 1 same 0 - 0 0", FEWER_ROWS),
        of_group("starts", TWINS, third, STARTS),
        of_group("empty_sides", "beginnings/empty_sides", "N 3 xini - - - -", EMPTY_SIDES),
        of_group("too_many_atoms", "beginnings/nine_atoms", "N 3 same 0 - 0 0", NINE_ATOMS),
        of_group("eight_atoms", "beginnings/nine_atoms", "N 4 same 0 - 0 0", EIGHT_ATOMS),
        of_group("wide_left", "beginnings/64_on_the_left", "N 1 same 0 - 0 0", WIDE_LEFT),
        of_group("full_formulas", "limits/1024_formulas", "N 1 same 0 - 0 0", FULL_FORMULAS),
        of_group("full_rows", "limits/2048_rows", "N 2047 same 0 - 0 0", FULL_ROWS),
    ]
    .into_iter()
    .flatten()
    .collect()
}

/// The row p,q => p,q,p|q by `wr` after the two rows of the loose file.
macro_rules! with_wr {
    ($changes:literal) => {
        concat!(
            "rows:16:4 rows:17:2 rows:18:0 rows:19:65535 rows:20:3 rows:21:2 rows:22:3 rows:23:3 left:4:1 ",
            "right:4:1 right:5:2 count:rows:3 count:left:5 count:right:6",
            $changes
        )
    };
}

/// The second row of the loose file taken away.
macro_rules! without_the_last {
    ($changes:literal) => {
        concat!(
            "rows:8:0 rows:9:0 rows:10:0 rows:11:0 rows:12:0 rows:13:0 rows:14:0 rows:15:0 left:2:0 right:2:0 ",
            "count:rows:1 count:left:2 count:right:2",
            $changes
        )
    };
}

const THIRD: [&str; 3] = ["1,0,65535,65535,3,1,3,1", "0", "0"];

/// The formulas are p, q, p|q and ~(p|q), over p, q and r.
const FORMULAS: &[(&str, &str, Expected)] = &[
    ("unchanged", "-", Stored(THIRD)),
    ("and_for_or", "formulas:6:3", Stored(THIRD)),
    ("imp_for_or", "formulas:6:5", Stored(THIRD)),
    ("q_or_q", "formulas:7:1", Stored(THIRD)),
    ("p_or_p", "formulas:8:0", Stored(THIRD)),
    ("not_for_or", "formulas:6:2 formulas:8:65535", Stored(THIRD)),
    ("not_for_or_with_a_second_part", "formulas:6:2", Refused),
    ("bot_for_or", "formulas:6:0 formulas:7:65535 formulas:8:65535", Stored(THIRD)),
    ("bot_with_both_parts", "formulas:6:0", Refused),
    ("bot_with_a_first_part", "formulas:6:0 formulas:8:65535", Refused),
    ("bot_with_a_second_part", "formulas:6:0 formulas:7:65535", Refused),
    ("r_for_or", "formulas:6:1 formulas:7:2 formulas:8:65535", Stored(THIRD)),
    ("atom_with_a_second_part", "formulas:6:1 formulas:7:2", Refused),
    ("atom_without_a_number", "formulas:1:65535", Refused),
    ("r_for_p", "formulas:1:2", Stored(THIRD)),
    ("r_for_q", "formulas:4:2", Stored(THIRD)),
    ("r_for_q_and_no_r", "formulas:4:2 count:atoms:2", Refused),
    ("no_r", "count:atoms:2", Stored(THIRD)),
    ("no_q", "count:atoms:1", Refused),
    ("64_atoms", "count:atoms:64", Stored(THIRD)),
    ("65_atoms", "count:atoms:65", Refused),
    ("atom_63_of_64", "count:atoms:64 formulas:4:63", Stored(THIRD)),
    ("atom_63_of_63", "count:atoms:63 formulas:4:63", Refused),
    ("atom_64_of_64", "count:atoms:64 formulas:4:64", Refused),
    ("atom_64_of_65", "count:atoms:65 formulas:4:64", Refused),
    ("word_6", "formulas:6:6", Refused),
    ("word_65535", "formulas:6:65535", Refused),
    ("word_256_more", "formulas:6:260", Refused),
    ("of_itself", "formulas:7:2", Refused),
    ("of_itself_second", "formulas:8:2", Refused),
    ("of_a_later_one", "formulas:7:3", Refused),
    ("of_none", "formulas:8:4", Refused),
    ("without_a_second_part", "formulas:8:65535", Refused),
    ("not_p_for_the_last", "formulas:10:0", Stored(THIRD)),
    ("p_again", "formulas:4:0", Refused),
    ("or_again", "formulas:9:4 formulas:10:0 formulas:11:1", Refused),
    ("or_the_other_way_round", "formulas:9:4 formulas:10:1 formulas:11:0", Stored(THIRD)),
    ("last_taken_away", "formulas:9:0 formulas:10:0 formulas:11:0 count:formulas:3", Stored(THIRD)),
    ("last_not_counted", "count:formulas:3", Refused),
    ("one_that_is_used_not_counted", "count:formulas:1", Refused),
    (
        "all_taken_away",
        "formulas:0:0 formulas:2:0 formulas:3:0 formulas:4:0 formulas:5:0 formulas:6:0 formulas:8:0 \
        formulas:9:0 formulas:10:0 formulas:11:0 count:formulas:0",
        Refused,
    ),
    ("one_more", "formulas:12:2 formulas:13:3 formulas:14:65535 count:formulas:5", Stored(THIRD)),
    ("one_more_not_counted", "formulas:12:2 formulas:13:3 formulas:14:65535", Refused),
];

/// The rows are p,q => p,q about p, and q => q.
const ROWS: &[(&str, &str, Expected)] = &[
    ("about_q", "rows:1:1", Stored(THIRD)),
    ("about_a_formula_that_stands_nowhere", "rows:1:2", Refused),
    ("about_none", "rows:1:4", Refused),
    ("about_no_formula", "rows:1:65535", Refused),
    ("rule_38", "rows:0:38", Refused),
    ("rule_256_more", "rows:0:257", Refused),
    ("another_rule", "rows:0:0", Refused),
    ("first_premise_of_none", "rows:10:0", Refused),
    ("second_premise_of_none", "rows:11:0", Refused),
    ("more_on_the_right", "right:1:3", Stored(THIRD)),
    ("more_on_the_left", "left:1:2", Stored(THIRD)),
    ("repeated_on_the_left", "left:1:0", Refused),
    ("repeated_on_the_right", "right:1:0", Refused),
    ("falling_on_the_left", "left:0:1 left:1:0", Refused),
    ("falling_on_the_right", "right:0:1 right:1:0", Refused),
    ("no_such_formula_on_the_left", "left:1:4", Refused),
    ("no_such_formula_on_the_right", "right:1:4", Refused),
    ("wrong_step", "right:2:0", Refused),
    ("wrong_step_of_the_first", "right:0:1 right:1:2 rows:1:0", Refused),
    ("a_refutation", "rows:8:14 rows:9:65535 right:2:0", Stored(THIRD)),
    ("a_wrong_refutation", "rows:8:14 rows:9:65535", Refused),
    ("a_refutation_about_a_formula", "rows:8:14 right:2:0", Refused),
    (
        "swap_from_the_first",
        "rows:8:37 rows:10:0 rows:13:2 rows:15:2 left:2:0 left:3:1 right:2:0 right:3:1 \
        count:left:4 count:right:4",
        Stored(["1,0,65535,65535,4,1,4,1", "0", "0"]),
    ),
    ("swap_from_itself", "rows:8:37 rows:10:1", Refused),
    ("swap_without_a_premise", "rows:8:37", Refused),
    ("swap_of_others", "rows:8:37 rows:10:0", Refused),
    ("rows_not_counted", "count:rows:0", Refused),
    ("last_row_not_counted", "count:rows:1", Refused),
    ("one_entry_more_counted", "count:left:4", Refused),
    ("one_entry_fewer_counted", "count:right:2", Refused),
];

/// A third row, p,q => p,q,p|q by `wr` from the first.
const MORE_ROWS: &[(&str, &str, Expected)] = &[
    ("wr_from_the_first", with_wr!(""), Stored(["1,0,65535,65535,5,1,6,1", "0", "0"])),
    ("wr_from_the_second", with_wr!(" rows:18:1"), Refused),
    ("wr_from_itself", with_wr!(" rows:18:2"), Refused),
    ("wr_from_a_later_one", with_wr!(" rows:18:3"), Refused),
    ("wr_from_none", with_wr!(" rows:18:65535"), Refused),
    ("wr_from_two", with_wr!(" rows:19:0"), Refused),
    ("wr_from_a_second_alone", with_wr!(" rows:18:65535 rows:19:0"), Refused),
    (
        "wr_from_the_second_with_its_sides",
        "rows:16:4 rows:17:2 rows:18:1 rows:19:65535 rows:20:3 rows:21:1 rows:22:3 \
        rows:23:2 left:3:1 right:3:1 right:4:2 count:rows:3 count:left:4 count:right:5",
        Stored(["1,0,65535,65535,4,1,5,1", "0", "0"]),
    ),
    (
        "wr_from_a_refutation",
        "rows:8:14 rows:9:65535 right:2:0 rows:16:4 rows:17:2 rows:18:1 rows:19:65535 rows:20:3 \
        rows:21:1 rows:22:3 rows:23:2 left:3:1 right:4:2 count:rows:3 count:left:4 count:right:5",
        Refused,
    ),
    ("wr_of_a_formula_that_is_missing", with_wr!(" rows:17:3"), Refused),
    ("wr_with_one_formula_more", with_wr!(" rows:23:4 right:6:3 count:right:7"), Refused),
    ("wr_not_counted", with_wr!(" count:rows:2"), Refused),
    (
        "wr_without_its_entries",
        "rows:16:4 rows:17:2 rows:18:0 rows:19:65535 rows:20:3 rows:21:2 rows:22:3 \
        rows:23:3 count:rows:3",
        Refused,
    ),
    (
        "same_counted_in_zeros",
        "rows:16:1 rows:18:65535 rows:19:65535 rows:20:3 rows:21:1 rows:22:3 rows:23:1 \
        count:rows:3 count:left:4 count:right:4",
        Stored(["1,0,65535,65535,4,1,4,1", "0", "0"]),
    ),
    (
        "same_with_its_entries_not_counted",
        "rows:16:1 rows:18:65535 rows:19:65535 rows:20:3 rows:21:1 rows:22:3 \
        rows:23:1 count:rows:3",
        Refused,
    ),
    ("a_row_of_zeros", "count:rows:3", Refused),
];

/// Without the second row.
const FEWER_ROWS: &[(&str, &str, Expected)] = &[
    ("one", without_the_last!(""), Stored(["1,0,65535,65535,2,1,2,1", "0", "0"])),
    ("one_with_an_entry_left_over", without_the_last!(" left:2:1"), Refused),
    ("one_with_an_entry_right_over", without_the_last!(" right:2:1"), Refused),
    ("one_with_an_entry_counted", without_the_last!(" left:2:1 count:left:3"), Refused),
    ("one_with_a_rule_left_over", without_the_last!(" rows:8:1"), Refused),
];

/// Two rows that have both sides, p and q, in common.
const STARTS: &[(&str, &str, Expected)] = &[
    ("in_row_order", "-", Stored(["1,0,65535,65535,4,1,4,1", "0", "0"])),
    ("left_exchanged", "rows:4:2 rows:12:0", Refused),
    ("right_exchanged", "rows:6:2 rows:14:0", Refused),
    ("left_shared", "rows:12:0 left:2:0 left:3:0 count:left:2", Refused),
    ("right_shared", "rows:14:0 right:2:0 right:3:0 count:right:2", Refused),
    ("left_shared_and_counted", "rows:12:0", Refused),
    ("right_shared_and_counted", "rows:14:0", Refused),
    ("left_gap", "rows:12:3 left:2:0 left:3:0 left:4:1 count:left:5", Refused),
    ("right_gap", "rows:14:3 right:2:0 right:3:0 right:4:1 count:right:5", Refused),
    (
        "left_gap_before_the_first",
        "rows:4:1 rows:12:3 left:0:0 left:1:0 left:2:1 left:3:0 left:4:1 count:left:5",
        Refused,
    ),
    ("left_overlapping", "rows:9:1 rows:12:1 rows:13:1 left:2:0 left:3:0 count:left:2", Refused),
    ("left_past_the_table", "rows:12:16383", Refused),
    ("left_wrapping", "rows:12:65535 rows:13:3", Refused),
    ("left_shorter", "rows:13:1 left:3:0 count:left:3", Stored(["1,0,65535,65535,3,1,4,1", "0", "0"])),
    ("left_shorter_and_counted", "rows:13:1", Refused),
    ("right_shorter", "rows:15:1 right:3:0 count:right:3", Stored(["1,0,65535,65535,4,1,3,1", "0", "0"])),
    ("right_shorter_and_counted", "rows:15:1", Refused),
];

/// The rows are => ~p, nothing ; nothing, and => ~p: the left pool is empty.
const EMPTY_SIDES: &[(&str, &str, Expected)] = &[
    ("unchanged", "-", Stored(["14,65535,65535,65535,0,0,2,0", "-", "-"])),
    ("empty_right_starts_before", "rows:14:0", Refused),
    ("empty_right_starts_after", "rows:14:2", Refused),
    ("empty_left_starts_after", "rows:4:1", Refused),
    ("last_empty_left_starts_after", "rows:20:1", Refused),
    ("empty_left_starts_absent", "rows:12:65535", Refused),
    ("an_entry_in_the_left_pool", "left:0:1", Refused),
    ("an_entry_counted_in_the_left_pool", "count:left:1", Refused),
];

/// The second row as one by `swap` from the first, whose formula has 9 atoms: it would earn 18.
const NINE_ATOMS: &[(&str, &str, Expected)] = &[
    ("unchanged", "-", Stored(["1,0,65535,65535,3,1,3,1", "0", "0"])),
    ("swap", "rows:8:37 rows:10:0", Refused),
    ("swap_from_itself", "rows:8:37 rows:10:1", Refused),
];

/// A fourth row by `swap` from the third, whose formula has 8 atoms.
const EIGHT_ATOMS: &[(&str, &str, Expected)] = &[
    (
        "swap",
        "rows:24:37 rows:25:15 rows:26:2 rows:27:65535 rows:28:3 rows:29:1 rows:30:3 rows:31:1 left:3:15 \
        right:3:15 count:rows:4 count:left:4 count:right:4",
        Stored(["1,0,65535,65535,4,1,4,1", "0", "0"]),
    ),
    (
        "swap_from_nine",
        "rows:24:37 rows:25:15 rows:26:1 rows:27:65535 rows:28:3 rows:29:1 rows:30:3 rows:31:1 left:3:15 \
        right:3:15 count:rows:4 count:left:4 count:right:4",
        Refused,
    ),
];

/// A row with formulas 0 to 63 on the left.
const WIDE_LEFT: &[(&str, &str, Expected)] = &[
    ("64", "-", Stored(["1,0,65535,65535,64,1,1,1", "0", "0"])),
    ("65", "rows:5:65 left:64:64 count:left:65", Refused),
    ("63", "rows:5:63 left:63:0 count:left:63", Stored(["1,0,65535,65535,63,1,1,1", "0", "0"])),
    ("64_with_a_gap", "left:63:65", Stored(["1,0,65535,65535,64,1,1,1", "0", "0"])),
    ("64_with_a_repeat_at_the_end", "left:63:62", Refused),
];

const FULL_FORMULAS: &[(&str, &str, Expected)] = &[
    ("1024", "-", Stored(["1,0,65535,65535,1,1,1,1", "0", "0"])),
    (
        "1025",
        "length:formulas:3075 formulas:3072:2 formulas:3073:1023 formulas:3074:65535 count:formulas:1025",
        Refused,
    ),
    ("last_changed", "formulas:3069:3 formulas:3071:0", Stored(["1,0,65535,65535,1,1,1,1", "0", "0"])),
    ("last_as_the_first_not", "formulas:3070:0", Refused),
    ("last_of_itself", "formulas:3070:1023", Refused),
];

/// All rows are # => #.
const FULL_ROWS: &[(&str, &str, Expected)] = &[
    (
        "2047",
        "rows:16376:0 rows:16378:0 rows:16379:0 rows:16380:0 rows:16381:0 rows:16382:0 rows:16383:0 \
        count:rows:2047 count:left:2047 count:right:2047",
        Stored(["1,0,65535,65535,2047,1,2047,1", "0", "0"]),
    ),
    ("2047_with_the_last_left_over", "count:rows:2047", Refused),
    (
        "2049",
        "length:rows:16392 rows:16384:1 rows:16386:65535 rows:16387:65535 rows:16388:2048 rows:16389:1 \
        rows:16390:2048 rows:16391:1 count:rows:2049 count:left:2049 count:right:2049",
        Refused,
    ),
    ("2048_with_a_wrong_last_step", "rows:16376:0", Refused),
];
