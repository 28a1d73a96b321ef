//! Models beside claims: how an M line is written, where it stands, when it is wanted, and
//! which sets are in equilibrium.

use super::limits::{atom_formulas, atoms};
use super::{Case, plain, raw, rows, tabbed};
use crate::draft::list;
use crate::formula::{rising, subsets};
use crate::judge::MOST_IN_A_POOL;
use std::ops::Range;

pub fn cases() -> Vec<Case> {
    let wrong = tabbed("A 0 p / F 0 atom 0 - / N 0 same 0 - 0 0 / M - / C 0 0");
    let mut cases = vec![
        raw("models/no_lf_after_the_model", 3, 2, "A\t0\tp\nM\t0"),
        raw("models/no_lf_after_a_claim_with_a_wrong_model", 3, 5, wrong.trim_end()),
        raw("models/wrong_before_a_line_without_lf", 17, 4, wrong.clone() + "M"),
        raw("models/cr_before_lf", 3, 2, "A\t0\tp\nM\t0\r\n"),
        raw("models/space_before_lf", 3, 2, "A\t0\tp\nM\t0 \n"),
        raw("models/zero_byte_after_kind", 3, 2, "A\t0\tp\nM\0\t0\n"),
        raw("models/zero_byte_in_number", 3, 2, "A\t0\tp\nM\t0\0\n"),
        raw("models/byte_over_127", 3, 2, b"A\t0\tp\nM\t\xB0\n".to_vec()),
    ];
    for table in [FORM, ORDER, LISTS, WANTED, AFTER_THE_CLAIM] {
        let case = |&(name, number, line, text): &_| plain(&format!("models/{name}"), number, line, text);
        cases.extend(table.iter().map(case));
    }
    cases.extend(SHEETS.iter().flat_map(sheet));
    cases.extend(rows::group("models", EQUILIBRIUM));
    cases.extend(large());
    cases
}

type Table = &'static [(&'static str, u16, usize, &'static str)];

/// In these, two spaces make an empty field.
#[rustfmt::skip]
const FORM: Table = &[
    ("kind_alone", 3, 2, "A 0 p / M"),
    ("kind_in_small_letters", 3, 2, "A 0 p / m 0"),
    ("kind_of_two_letters", 3, 2, "A 0 p / MM 0"),
    ("three_fields", 3, 3, "A 0 p / A 1 q / M 0 1"),
    ("numbered_as_other_lines_are", 3, 2, "A 0 p / M 0 0"),
    ("tab_at_the_end", 3, 2, "A 0 p / M 0 "),
    ("tab_first", 3, 2, "A 0 p /  M 0"),
    ("list_empty", 3, 2, "A 0 p / M "),
    ("list_of_one_comma", 3, 2, "A 0 p / M ,"),
    ("list_ends_in_comma", 3, 2, "A 0 p / M 0,"),
    ("list_starts_with_comma", 3, 2, "A 0 p / M ,0"),
    ("list_with_two_commas", 3, 3, "A 0 p / A 1 q / M 0,,1"),
    ("list_with_dash_first", 3, 2, "A 0 p / M -,0"),
    ("list_with_dash_last", 3, 2, "A 0 p / M 0,-"),
    ("list_of_two_dashes", 3, 2, "A 0 p / M --"),
    ("list_with_semicolon", 3, 3, "A 0 p / A 1 q / M 0;1"),
    ("list_of_names", 3, 2, "A 0 p / M p"),
    ("badly_written_and_unwanted", 3, 3, "F 0 bot - - / N 0 same 0 - 0 0 / M 00 / C 0 0"),
];

#[rustfmt::skip]
const ORDER: Table = &[
    ("first_of_all", 4, 2, "M - / A 0 p"),
    ("atom_after_model", 4, 3, "A 0 p / M 0 / A 1 q"),
    ("formula_after_model", 4, 3, "A 0 p / M 0 / F 0 atom 0 -"),
    ("row_after_model", 4, 4, "A 0 p / F 0 atom 0 - / M 0 / N 0 same 0 - 0 0"),
    ("between_rows", 4, 5, "A 0 p / F 0 atom 0 - / N 0 same 0 - 0 0 / M 0 / N 1 same 0 - 0 0"),
    ("a_second_model", 4, 5, "A 0 p / F 0 atom 0 - / N 0 same 0 - 0 0 / M 0 / M 0 / C 0 0"),
    ("another_second_model", 4, 5, "A 0 p / F 0 atom 0 - / N 0 same 0 - 0 0 / M - / M 0 / C 0 0"),
    ("a_second_model_unwanted", 4, 4, "F 0 bot - - / N 0 same 0 - 0 0 / M - / M - / C 0 0"),
    ("after_the_claim", 4, 4, "F 0 bot - - / N 0 same 0 - 0 0 / C 0 0 / M -"),
    ("a_second_one_after_the_claim", 4, 6, "A 0 p / F 0 atom 0 - / N 0 same 0 - 0 0 / M 0 / C 0 0 / M 0"),
    ("before_an_empty_claim", 12, 2, "M - / C - -"),
    ("without_formulas", 12, 3, "A 0 p / M 0 / C - -"),
    ("without_rows", 12, 4, "A 0 p / F 0 atom 0 - / M 0 / C 0 0"),
    ("alone", 13, 2, "M -"),
    ("without_a_claim", 13, 5, "A 0 p / F 0 atom 0 - / N 0 same 0 - 0 0 / M 0"),
    ("wrong_without_a_claim", 13, 5, "A 0 p / F 0 atom 0 - / N 0 same 0 - 0 0 / M -"),
    ("3_and_4", 3, 3, "A 0 p / M 0 / M 0,"),
    ("3_and_7", 3, 2, "A 0 p / M 1,"),
    ("3_and_9", 3, 2, "A 0 p / M 0,0,"),
    ("4_and_7", 4, 3, "A 0 p / M 0 / M 1"),
    ("4_and_7_after_the_claim", 4, 4, "F 0 bot - - / N 0 same 0 - 0 0 / C 0 0 / M 0"),
    ("4_and_9", 4, 3, "A 0 p / M 0 / M 0,0"),
    ("7_and_9_by_a_repeat", 7, 2, "A 0 p / M 1,1"),
    ("7_and_9_by_a_fall", 7, 2, "A 0 p / M 1,0"),
];

#[rustfmt::skip]
const LISTS: Table = &[
    ("no_atoms", 7, 1, "M 0"),
    ("one_over", 7, 2, "A 0 p / M 1"),
    ("last_one_over", 7, 3, "A 0 p / A 1 q / M 0,1,2"),
    ("number_of_a_formula", 7, 5, "A 0 p / F 0 bot - - / F 1 atom 0 - / N 0 same 1 - 1 1 / M 1 / C 1 1"),
    ("one_over_and_unwanted", 7, 4, "A 0 p / F 0 bot - - / N 0 same 0 - 0 0 / M 1 / C 0 0"),
    ("repeats", 9, 2, "A 0 p / M 0,0"),
    ("falls", 9, 3, "A 0 p / A 1 q / M 1,0"),
    ("falls_at_the_end", 9, 4, "A 0 p / A 1 q / A 2 r / M 0,2,1"),
    ("falls_and_unwanted", 9, 5, "A 0 p / A 1 q / F 0 bot - - / N 0 same 0 - 0 0 / M 1,0 / C 0 0"),
];

/// 15, and the numbers that come before it and after it. The M line is the last but one.
#[rustfmt::skip]
const WANTED: Table = &[
    ("missing", 15, 4, "A 0 p / F 0 atom 0 - / N 0 same 0 - 0 0 / C 0 0"),
    ("missing_for_an_empty_left", 15, 5, "A 0 p / F 0 atom 0 - / F 1 not 0 - / N 0 def 1 - - 1 / C - 1"),
    ("missing_beside_falsum", 15, 5, "A 0 p / F 0 atom 0 - / F 1 bot - - / N 0 same 0 - 0 0,1 / C 0 0,1"),
    ("missing_where_there_is_none", 15, 5, "A 0 p / F 0 bot - - / F 1 atom 0 - / N 0 same 0 - 0 0,1 / C 0 0,1"),
    ("missing_for_falsum_and_falsum", 15, 4, "F 0 bot - - / F 1 and 0 0 / N 0 same 1 - 1 1 / C 1 1"),
    ("missing_for_falsum_or_falsum", 15, 4, "F 0 bot - - / F 1 or 0 0 / N 0 same 1 - 1 1 / C 1 1"),
    ("missing_for_falsum_twice_negated", 15, 5, "F 0 bot - - / F 1 not 0 - / F 2 not 1 - / N 0 same 2 - 2 2 / C 2 2"),
    ("missing_for_falsum_beside_its_like", 15, 4, "F 0 bot - - / F 1 and 0 0 / N 0 same 0 - 0 0,1 / C 0 0,1"),
    ("unwanted_for_falsum", 15, 3, "F 0 bot - - / N 0 same 0 - 0 0 / M - / C 0 0"),
    ("unwanted_for_falsum_of_another_number", 15, 5, "A 0 p / F 0 atom 0 - / F 1 bot - - / N 0 same 1 - 0,1 1 / M 0 / C 0,1 1"),
    ("unwanted_for_nothing", 15, 4, "F 0 bot - - / N 0 same 0 - 0 0 / N 1 bot 0 0 0 - / M - / C 0 -"),
    ("unwanted_and_too_large", 15, 20, "A 0 a / A 1 b / A 2 c / A 3 d / A 4 e / A 5 f / A 6 g / A 7 h / A 8 i / A 9 j / A 10 k / A 11 l / \
        A 12 m / A 13 n / A 14 o / A 15 p / A 16 q / F 0 bot - - / N 0 same 0 - 0 0 / M 0,1,2,3,4,5,6,7,8,9,10,11,12,13,14,15,16 / C 0 0"),
    ("falsum_and_falsum_has_none", 17, 4, "F 0 bot - - / F 1 and 0 0 / N 0 same 1 - 1 1 / M - / C 1 1"),
    ("falsum_twice_negated_has_none", 17, 5, "F 0 bot - - / F 1 not 0 - / F 2 not 1 - / N 0 same 2 - 2 2 / M - / C 2 2"),
    ("falsum_beside_its_like_has_none", 17, 4, "F 0 bot - - / F 1 and 0 0 / N 0 same 0 - 0 0,1 / M - / C 0 0,1"),
    ("negated_falsum_has_the_empty_one", 0, 5, "F 0 bot - - / F 1 not 0 - / N 0 same 1 - 1 1 / M - / C 1 1"),
    ("beside_falsum", 0, 6, "A 0 p / F 0 atom 0 - / F 1 bot - - / N 0 same 0 - 0 0,1 / M 0 / C 0 0,1"),
    ("claim_3_and_15", 3, 4, "A 0 p / F 0 atom 0 - / N 0 same 0 - 0 0 / C 0 00"),
    ("claim_3_and_17", 3, 5, "A 0 p / F 0 atom 0 - / N 0 same 0 - 0 0 / M - / C 0 0,"),
    ("claim_7_and_15", 7, 4, "A 0 p / F 0 atom 0 - / N 0 same 0 - 0 0 / C 0 1"),
    ("claim_7_and_17", 7, 5, "A 0 p / F 0 atom 0 - / N 0 same 0 - 0 0 / M - / C 1 0"),
    ("claim_9_and_15", 9, 4, "A 0 p / F 0 atom 0 - / N 0 same 0 - 0 0 / C 0 0,0"),
    ("claim_9_and_17", 9, 5, "A 0 p / F 0 atom 0 - / N 0 same 0 - 0 0 / M - / C 0,0 0"),
    ("claim_12_and_15", 12, 5, "A 0 p / F 0 atom 0 - / F 1 not 0 - / N 0 same 0 - 0 0 / C 0 1"),
    ("claim_12_and_15_by_an_unwanted_one", 12, 5, "A 0 p / F 0 atom 0 - / N 0 same 0 - 0 0 / M 0 / C 0 -"),
    ("claim_12_and_17", 12, 6, "A 0 p / F 0 atom 0 - / F 1 not 0 - / N 0 same 0 - 0 0 / M - / C 0 1"),
    ("claim_of_a_refutation_with_a_model", 12, 6, "A 0 p / F 0 atom 0 - / N 0 same 0 - 0 0 / N 1 xini - - - 0 / M - / C - 0"),
];

/// 15 and 17 are judged before any later line is looked at.
#[rustfmt::skip]
const AFTER_THE_CLAIM: Table = &[
    ("missing_before_a_bad_line", 15, 4, "A 0 p / F 0 atom 0 - / N 0 same 0 - 0 0 / C 0 0 / B"),
    ("missing_before_a_second_claim", 15, 4, "A 0 p / F 0 atom 0 - / N 0 same 0 - 0 0 / C 0 0 / C 0 0"),
    ("missing_before_a_model_after_the_claim", 15, 4, "A 0 p / F 0 atom 0 - / N 0 same 0 - 0 0 / C 0 0 / M 0"),
    ("unwanted_before_a_bad_line", 15, 3, "F 0 bot - - / N 0 same 0 - 0 0 / M - / C 0 0 / B"),
    ("wrong_before_a_bad_line", 17, 4, "A 0 p / F 0 atom 0 - / N 0 same 0 - 0 0 / M - / C 0 0 / B"),
    ("wrong_before_a_second_model", 17, 4, "A 0 p / F 0 atom 0 - / N 0 same 0 - 0 0 / M - / C 0 0 / M 0"),
    ("right_before_a_bad_line", 3, 6, "A 0 p / F 0 atom 0 - / N 0 same 0 - 0 0 / M 0 / C 0 0 / B"),
];

/// The sheets of the third condition of acceptance: name, a row with the sheet on its left,
/// and the equilibrium models, each with a letter for an atom.
const SHEETS: [(&str, &str, &[&str]); 11] = [
    ("empty_sheet", "def ~a - - => ~a,b", &[""]),
    ("falsum", "same # - # => #,a", &[]),
    ("double_negation", "same ~~p - ~~p => ~~p", &[]),
    ("odd_negative_cycle", "same ~p->p - ~p->p => ~p->p", &[]),
    ("disjunction", "same a|b - a|b => a|b", &["a", "b"]),
    ("excluded_middle", "same a|~a - a|~a => a|~a", &["", "a"]),
    ("excluded_disjunct", "same (a|b)&(b->a) - (a|b)&(b->a) => (a|b)&(b->a)", &["a"]),
    ("positive_loop", "same a->b - a->b,b->a => a->b", &[""]),
    ("positive_loop_with_a_disjunction", "same a|b - a|b,a->b,b->a => a|b", &["ab"]),
    ("even_negative_cycle", "same a->c - ~a->b,~b->a,a->c => a->c", &["ac", "b"]),
    ("infeasible_sheet", "same d - ~c->(a|b),~(a&d),~b,d => d", &[]),
];

/// A sheet with every set of its atoms beside it. Where no set is a model, that is shown,
/// too, as falsum and as nothing.
fn sheet(&(name, row, models): &(&str, &str, &[&str])) -> Vec<Case> {
    let mut letters: Vec<char> =
        row.split_once(" - ").unwrap().1.chars().filter(char::is_ascii_lowercase).collect();
    letters.sort();
    letters.dedup();
    let mut cases = vec![];
    for set in subsets((1 << letters.len()) - 1) {
        let chosen: Vec<String> = rising(set).map(|k| letters[k as usize].to_string()).collect();
        let written =
            |none: &str, between: &str| if chosen.is_empty() { none.into() } else { chosen.join(between) };
        let case = format!("models/{name}_with_{}", written("nothing", "_"));
        let rows = format!("model {}\n{row}", written("-", ","));
        cases.extend(match models.contains(&chosen.concat().as_str()) {
            true => rows::accepted(&case, &rows),
            false => rows::refused(&case, 17, &rows),
        });
    }
    if models.is_empty() {
        let left = row.split(' ').nth(3).unwrap();
        let falsum = format!("prove {left} => -\nwr # 0 {left} => #");
        let nothing = format!("prove {left} => #\nwr # 0 {left} => #\nbot # 1 {left} => -");
        cases.extend(rows::accepted(&format!("models/{name}_shown_by_falsum"), &falsum));
        cases.extend(rows::accepted(&format!("models/{name}_shown_by_nothing"), &nothing));
        for (what, shown) in [("falsum", falsum), ("nothing", nothing)] {
            let rows = format!("model -\n{shown}");
            cases.extend(rows::refused(&format!("models/{name}_shown_by_{what}_with_a_model"), 15, &rows));
        }
    }
    cases
}

/// Sets that come near to a model, or are one against what classical logic says.
const EQUILIBRIUM: &str = "
accepted facts
    model p,q,r
    same p - p,q,r => p
refused 17 a_fact_left_out
    model p
    same p - p,q => p
refused 17 an_atom_that_the_sheet_lacks
    model p,q
    same p - p => p
refused 17 an_atom_before_the_fact
    model o,p
    same p - p => p
refused 17 an_atom_of_the_claim_alone
    model p,q
    same p - p => p,q
accepted an_atom_that_may_be_left_out
    model p,q
    same p - p,q|~q => p
accepted an_atom_that_may_be_taken
    model p
    same p - p,q|~q => p
refused 17 an_atom_without_a_ground
    model p,q
    same p - p,q->q => p
refused 17 an_atom_twice_negated
    model p,q
    same p - p,~~q => p
accepted a_default
    model q
    same ~p->q - ~p->q => ~p->q
refused 17 a_default_against_its_order
    model p
    same ~p->q - ~p->q => ~p->q
refused 17 a_default_and_its_exception
    model p,q
    same ~p->q - ~p->q => ~p->q
accepted a_default_and_its_exception_as_a_fact
    model p
    same ~p->q - p,~p->q => ~p->q
refused 17 an_implication_that_fails_there
    model p
    same p - p,p->q => p
accepted an_implication_followed
    model p,q
    same p - p,p->q => p
accepted an_implication_as_a_condition
    model r
    same (p->q)->r - (p->q)->r => (p->q)->r
refused 17 an_implication_as_a_condition_that_fails_there
    model p
    same (p->q)->r - (p->q)->r => (p->q)->r
accepted an_implication_in_an_implication
    model p,q
    same p->q - p->q,(p->q)->p => p->q
refused 17 only_the_empty_part_upsets
    model p,q,r
    same p->q - p->q,q->r,r->p => p->q
refused 17 only_the_part_without_the_first_upsets
    model p,q,r
    same q - q,r => q
refused 17 only_the_part_without_the_last_upsets
    model p,q,r
    same p - p,q => p
refused 17 only_the_part_of_the_first_upsets
    model p,q,r
    same p - p,q->r,r->q => p
refused 17 only_the_part_of_the_middle_one_upsets
    model p,q,r
    same q - q,p->r,r->p => q
accepted atoms_of_the_file_that_occur_nowhere
    atoms o,p,q,r
    model p,r
    same p - p,r => p
accepted an_alternative_that_does_not_hold_in_it
    model p
    same p - p => p,q&r
";

/// A file of 64 atoms whose sheet is some of them, with a set of them as the model.
pub fn facts(sheet: Range<usize>, model: Range<usize>) -> String {
    let [first, sheet, model] =
        [list(&[sheet.start]), list(&sheet.collect::<Vec<_>>()), list(&model.collect::<Vec<_>>())];
    let rest = format!("N 0 same {first} - {sheet} {first} / M {model} / C {sheet} {first}");
    atoms(64) + &atom_formulas(64) + &tabbed(&rest)
}

/// A file whose sheet is a circle of 16 implications, 16 to 31, each formula 0 to 15 an atom,
/// with more lines and formulas; its claim is formula 16.
fn circle(more_formulas: &str, sheet: &str, model: &str) -> String {
    let implications = (0..16).map(|k| format!("F\t{}\timp\t{k}\t{}\n", 16 + k, (k + 1) % 16));
    let rest = format!("N 0 same 16 - {sheet} 16 / M {model} / C {sheet} 16");
    atoms(16)
        + &atom_formulas(16)
        + &implications.collect::<String>()
        + &tabbed(&format!("{more_formulas}{rest}"))
}

/// Sets of 15 to 64 atoms.
fn large() -> Vec<Case> {
    let mut cases = vec![];
    let mut case = |name: &str, number: u16, text: String| {
        let lines = text.lines().count();
        let line = if number == 0 { lines } else { lines - 1 };
        cases.push(raw(&format!("models/{name}"), number, line, text));
    };
    case("15_atoms", 0, facts(0..15, 0..15));
    case("16_atoms", 0, facts(0..16, 0..16));
    case("16_last_atoms", 0, facts(48..64, 48..64));
    case("17_atoms", 16, facts(0..17, 0..17));
    case("17_last_atoms", 16, facts(47..64, 47..64));
    case("64_atoms", 16, facts(0..64, 0..64));
    case("63_atoms", 16, facts(0..63, 0..63));
    case("16_and_17_by_one_atom_more", 16, facts(0..16, 0..17));
    case("16_and_17_by_a_fact_left_out", 16, facts(0..18, 0..17));
    case("16_and_17_by_one_fact_of_64", 16, facts(63..64, 0..64));
    case("16_of_17_atoms", 17, facts(0..17, 0..16));
    case("16_atoms_without_the_first_fact", 17, facts(1..16, 0..16));
    case("16_atoms_without_the_last_fact", 17, facts(0..15, 0..16));
    case("atom_63_without_its_fact", 17, facts(48..63, 48..64));
    case("64_atoms_in_a_falling_list", 9, {
        let falling = list(&(0..64).rev().collect::<Vec<_>>());
        facts(63..64, 63..64).replace("M\t63\n", &format!("M\t{falling}\n"))
    });
    case("65_numbers_with_a_repeat", 9, {
        let repeating = format!("0,{}", list(&(0..64).collect::<Vec<_>>()));
        facts(63..64, 63..64).replace("M\t63\n", &format!("M\t{repeating}\n"))
    });
    case("65_numbers_with_one_over", 7, facts(63..64, 0..65));
    // Nothing is stored, so that no list is too long for a pool.
    let entries = vec!["0"; MOST_IN_A_POOL].join(",");
    for (name, number, last) in [("repeated", 9, "0"), ("one_over", 7, "64"), ("badly_written", 3, "00")] {
        let text = facts(63..64, 63..64).replace("M\t63\n", &format!("M\t{entries},{last}\n"));
        case(&format!("16385_numbers_the_last_{name}"), number, text);
    }

    let (round, all) = (list(&(16..32).collect::<Vec<_>>()), list(&(0..16).collect::<Vec<_>>()));
    case("circle_of_16_with_none", 0, circle("", &round, "-"));
    case("circle_of_16_with_all", 17, circle("", &round, &all));
    case("circle_of_16_with_all_but_the_last", 17, circle("", &round, &list(&(0..15).collect::<Vec<_>>())));
    case("circle_of_16_with_a_disjunction", 0, circle("F 32 or 3 11 / ", &format!("{round},32"), &all));
    case("circle_of_16_with_a_fact", 0, circle("", &format!("9,{round}"), &all));
    cases
}
