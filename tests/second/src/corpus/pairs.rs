//! Lines to which two numbers apply: the one that is asked first is given, which is the
//! smaller in all pairs but 18 and 11. Every pair that can meet is here, but for that one,
//! which is in `rule_swap`; 7 and 8 can't, since what isn't there has no equal.

use super::limits::{
    atom_formulas, atoms, full_atoms, full_formulas, full_left_pool, full_right_pool, full_rows,
};
use super::{Case, raw, tabbed};
use crate::judge::MOST_ROWS;

/// A file that lacks its last line, in which formula 1 is ~# and row 0 a sequent and
/// row 1 a refutation.
const ROWS: &str = "A 0 p / F 0 bot - - / F 1 not 0 - / N 0 same 0 - 0 0 / N 1 xini - - 1 0";

const ATOMS: &str = "A 0 p / A 1 q";

const FORMULAS: &str = "A 0 p / F 0 bot - - / F 1 atom 0 -";

pub fn cases() -> Vec<Case> {
    let mut cases = vec![];
    let mut pair = |name: &str, before: &str, last: &str| {
        let numbers: Vec<u16> = name.split('_').filter_map(|word| word.parse().ok()).collect();
        let text = format!("{before}{}", tabbed(last));
        cases.push(raw(&format!("pairs/{name}"), numbers[0], text.lines().count(), text));
    };
    let some_atoms = tabbed(ATOMS);
    pair("atom_3_and_4", &tabbed(FORMULAS), "A 1 q q");
    pair("atom_3_and_4_by_number", &some_atoms, "A 7 r r");
    pair("atom_3_and_5", &full_atoms(), "A 64 r r");
    pair("atom_3_and_6", &some_atoms, "A 02 P");
    pair("atom_4_and_5", &full_atoms(), "A 65 r");
    pair("atom_4_and_6", &some_atoms, "A 3 p");
    pair("atom_4_and_6_by_kind", &tabbed(FORMULAS), "A 1 p");
    pair("atom_5_and_6", &full_atoms(), "A 64 P");
    pair("atom_5_and_6_by_use", &full_atoms(), "A 64 a0");

    let formulas = tabbed(FORMULAS);
    pair("formula_3_and_4", &formulas, "F 3 not 0 0");
    pair("formula_3_and_4_by_kind", &tabbed(ROWS), "F 2 nor 0 0");
    pair("formula_3_and_5", &full_formulas(), "F 1024 not 1023 0");
    pair("formula_3_and_7", &formulas, "F 2 not 9 0");
    pair("formula_3_and_8", &formulas, "F 2 atom 0 0");
    pair("formula_4_and_5", &full_formulas(), "F 1025 not 1023 -");
    pair("formula_4_and_7", &formulas, "F 3 not 2 -");
    pair("formula_4_and_7_by_kind", &tabbed(ROWS), "F 2 not 2 -");
    pair("formula_4_and_8", &formulas, "F 1 atom 0 -");
    pair("formula_5_and_7", &full_formulas(), "F 1024 not 1024 -");
    pair("formula_5_and_8", &full_formulas(), "F 1024 not 0 -");

    let rows = tabbed(ROWS);
    pair("row_3_and_4", &rows, "N 3 same 0 - 0 0,");
    pair("row_3_and_5", &full_rows(), "N 2048 same 0 - 0 00");
    pair("row_3_and_7", &rows, "N 2 same 9 - 0 0,");
    pair("row_3_and_9", &rows, "N 2 same 0 - 1,0 0,");
    pair("row_3_and_10", &rows, "N 2 same 0 0 0 0,");
    pair("row_3_and_11", &rows, "N 2 same 0 - 0 1,");
    pair("row_4_and_5", &full_rows(), "N 2049 same 0 - 0 0");
    pair("row_4_and_5_by_pool", &full_left_pool(), "N 258 same 0 - 0 0");
    pair("row_4_and_7", &rows, "N 3 same 2 - 0 0");
    pair("row_4_and_7_by_premise", &rows, "N 3 wr 0 2 0 0");
    pair("row_4_and_9", &rows, "N 1 same 0 - 0,0 0");
    pair("row_4_and_10", &rows, "N 3 same - - 0 0");
    pair("row_4_and_11", &rows, "N 3 same 0 - 1 0");
    pair("row_5_and_7", &full_rows(), "N 2048 same 9 - 0 0");
    pair("row_5_and_7_by_left_pool", &full_left_pool(), "N 257 same 0 - 99 0");
    pair("row_5_and_9", &full_rows(), "N 2048 same 0 - 0,0 0");
    pair("row_5_and_9_by_left_pool", &full_left_pool(), "N 257 same 0 - 0,0 0");
    pair("row_5_and_9_by_right_pool", &full_right_pool(), "N 257 same 0 - 0 0,0");
    pair("row_5_and_10", &full_rows(), "N 2048 same 0 0 0 0");
    pair("row_5_and_11", &full_rows(), "N 2048 same 0 - 0 -");
    pair("row_5_and_11_by_right_pool", &full_right_pool(), "N 257 same 0 - - 0");
    pair("row_7_and_9_on_one_side", &rows, "N 2 same 0 - 2,0 0");
    pair("row_7_and_9_on_two_sides", &rows, "N 2 same 0 - 0,0 2");
    pair("row_7_and_9_by_principal", &rows, "N 2 same 2 - 0,0 0");
    pair("row_7_and_9_by_premise", &rows, "N 2 wr 0 2 0,0 0");
    pair("row_7_and_10_by_count", &rows, "N 2 same 0 2 0 0");
    pair("row_7_and_10_by_kind", &rows, "N 2 rcut 0 1,2 0 0");
    pair("row_7_and_10_by_principal", &rows, "N 2 xini 2 - 1 0");
    pair("row_7_and_10_by_many_premises", &rows, "N 2 wr 0 0,0,0,0,0,0,0,0,0,2 0 0");
    pair("row_7_and_11", &rows, "N 2 same 0 - 1 2");
    pair("row_9_and_10_by_count", &rows, "N 2 same 0 0 0,0 0");
    pair("row_9_and_10_by_kind", &rows, "N 2 wr 0 1 1,0 0");
    pair("row_9_and_10_by_principal", &rows, "N 2 same - - 0 0,0");
    pair("row_9_and_11", &rows, "N 2 same 0 - 1,1 0");
    pair("row_10_and_11_by_count", &rows, "N 2 same 0 0 1 0");
    pair("row_10_and_11_by_kind", &rows, "N 2 wr 0 1 1 1");
    pair("row_10_and_11_by_principal", &rows, "N 2 xini 0 - 0 0");

    let wide = wide_formulas() + &tabbed("N 0 same 16 - 16 16 / N 1 xini - - 0 1 / N 2 same 16 - 16,17 16");
    let full: String = (0..MOST_ROWS).map(|k| format!("N\t{k}\tsame\t16\t-\t16\t16\n")).collect();
    pair("row_3_and_18", &wide, "N 3 swap 18 0 18 16,");
    pair("row_4_and_18", &wide, "N 4 swap 18 0 18 16");
    pair("row_5_and_18", &(wide_formulas() + &full), "N 2048 swap 18 0 18 16");
    pair("row_7_and_18_by_principal", &wide, "N 3 swap 19 0 18 16");
    pair("row_7_and_18_by_premise", &wide, "N 3 swap 18 3 18 16");
    pair("row_9_and_18_on_the_left", &wide, "N 3 swap 18 2 17,16,18 16");
    pair("row_9_and_18_on_the_right", &wide, "N 3 swap 18 0 18 16,16");
    pair("row_10_and_18_by_count", &wide, "N 3 swap 18 0,0 18 16");
    pair("row_10_and_18_by_kind", &wide, "N 3 swap 18 1 18 1");
    pair("row_10_and_18_by_principal", &wide, "N 3 swap - 0 18 16");

    let claimed = tabbed("A 0 p / F 0 bot - - / N 0 same 0 - 0 0 / C 0 0");
    pair("claim_3_and_4", &claimed, "C 0 0 0");
    pair("claim_3_and_7", &rows, "C 9 00");
    pair("claim_3_and_9", &rows, "C 0,0 00");
    pair("claim_3_and_12", &rows, "C - 0,");
    pair("claim_4_and_7", &claimed, "C 9 0");
    pair("claim_4_and_9", &claimed, "C 0,0 0");
    pair("claim_4_and_12", &claimed, "C - 0");
    pair("claim_7_and_9_on_one_side", &rows, "C 2,0 0");
    pair("claim_7_and_9_on_two_sides", &rows, "C 1,0 2");
    pair("claim_7_and_12", &rows, "C 0 2");
    pair("claim_9_and_12", &rows, "C 1,0 0");
    cases
}

/// Nine atoms, by the numbers of their formulas; 16 joins them all, and 17 and 18 say it twice.
fn wide_formulas() -> String {
    let joined = (10..=16).map(|k| format!("F\t{k}\tand\t{}\t{}\n", k - 1, k - 8));
    let joined = "F\t9\tand\t0\t1\n".to_owned() + &joined.collect::<String>();
    atoms(9) + &atom_formulas(9) + &joined + &tabbed("F 17 and 16 16 / F 18 or 16 16")
}
