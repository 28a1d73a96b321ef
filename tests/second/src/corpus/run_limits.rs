//! Runs at the limits: sides, pools, models, and lines that mean millions of entries. And
//! texts of the other groups, written with runs.

use super::limits::{Pool, full_atoms, full_formulas, full_left_pool, full_right_pool, negations, up_to};
use super::models::facts;
use super::{Case, raw, tabbed};
use crate::draft::list;
use crate::judge::{MOST_BYTES, MOST_IN_A_POOL, MOST_ON_A_SIDE};
use crate::rewrite::in_runs;
use std::collections::HashSet;
use std::ops::Range;

const POOLS: [Pool; 2] = [Pool::Left, Pool::Right];

pub fn cases() -> Vec<Case> {
    let mut cases = vec![];
    let mut case = |name: &str, number: u16, text: String| {
        cases.push(raw(&format!("runs/{name}"), number, text.lines().count(), text));
    };
    for pool in POOLS {
        let side = pool.name();
        for (what, all, one_more) in [
            ("one_run", "0-63", "0-64"),
            ("two_runs", "0-31,32-63", "0-31,32-64"),
            ("number_and_run", "0,1-63", "0,1-64"),
            ("run_and_number", "0-62,63", "0-63,64"),
        ] {
            case(&format!("64_on_the_{side}_by_{what}"), 0, wide(pool, all));
            case(&format!("65_on_the_{side}_by_{what}"), 9, wide_row(pool, one_more));
            case(&format!("65_on_the_{side}_of_the_claim_by_{what}"), 9, wide_claim(pool, one_more));
        }
        for (count, list) in [(256, "0-255"), (320, "0-319"), (1_024, "0-1023")] {
            let row = full_formulas() + &pool.row(0, list, "0");
            case(&format!("{count}_on_the_{side}"), 9, row);
            let claim = tabbed("N 0 same 0 - 0 0") + "C\t" + &pool.sides(list, "0");
            case(&format!("{count}_on_the_{side}_of_the_claim"), 9, full_formulas() + &claim);
        }
        case(&format!("missing_65th_on_the_{side}"), 7, wide_row(pool, "0-65"));
        case(&format!("missing_65th_on_the_{side}_of_the_claim"), 7, wide_claim(pool, "0-65"));
        // Powers of 2, where a count may wrap: up to the greatest that a line can mean.
        for entries in (16..30).map(|bits| 1 << bits) {
            case(
                &format!("{entries}_entries_{side}"),
                5,
                negations(1) + &pool.row(0, &meaning(entries), "0"),
            );
        }
        let most = |list: &str| pool.row(0, list, "-");
        case(&format!("most_entries_{side}"), 5, filled("", most, "0-99999"));
        let claim = |list: &str| "C\t".to_string() + &pool.sides(list, "-");
        case(&format!("most_entries_{side}_of_the_claim"), 7, filled("", claim, "0-99999"));
        case(&format!("most_held_entries_{side}_of_the_claim"), 9, filled(&full_formulas(), claim, "0-1023"));
    }
    let model = |list: &str| format!("M\t{list}\n");
    case("most_entries_of_the_model", 7, filled("", model, "0-99999"));
    case("most_held_entries_of_the_model", 9, filled(&full_atoms(), model, "0-63"));

    let both = both_pools();
    case("both_pools_full", 0, both.clone());
    case(
        "both_pools_full_and_one_more_on_the_left",
        5,
        both.replace("C\t0\t0\n", "N\t257\tbot\t0\t256\t0\t-\n"),
    );
    cases.push(raw(
        "runs/both_pools_full_in_plain_lists",
        2,
        0,
        both.replace("0-63", &up_to(MOST_ON_A_SIDE)),
    ));
    cases.extend(POOLS.into_iter().flat_map(pools_that_end));
    cases.extend(models());
    cases
}

/// So many entries, in as few runs as there can be.
fn meaning(entries: u64) -> String {
    let mut runs = vec!["0-99999".to_string(); (entries / 100_000) as usize];
    runs.push(format!("0-{}", entries % 100_000 - 1));
    runs.join(",")
}

/// A text of these lines and a last one with so many repeats of a run as there is room
/// for.
fn filled(before: &str, line: impl Fn(&str) -> String, run: &str) -> String {
    let room = MOST_BYTES - before.len() - line("").len();
    before.to_string() + &line(&vec![run; (room + 1) / (run.len() + 1)].join(","))
}

/// An accepted file with a list of all 64 formulas on this side of its row and its claim.
/// The other side holds # on the right, which wants no model, or ~# on the left, which has
/// one.
fn wide(pool: Pool, list: &str) -> String {
    let (principal, across, model) = match pool {
        Pool::Left => (0, "0", ""),
        Pool::Right => (1, "1", "M\t-\n"),
    };
    let sides = pool.sides(list, across);
    negations(MOST_ON_A_SIDE) + &format!("N\t0\tsame\t{principal}\t-\t{sides}{model}C\t{sides}")
}

fn wide_row(pool: Pool, list: &str) -> String {
    negations(MOST_ON_A_SIDE + 1) + &pool.row(0, list, "0")
}

fn wide_claim(pool: Pool, list: &str) -> String {
    negations(MOST_ON_A_SIDE + 1) + &pool.row(0, "0", "0") + "C\t" + &pool.sides(list, "0")
}

/// A file that fills both pools, which plain lists can't do in the bytes of a text: rows
/// with 64 on both sides, one with 63, and # => #.
fn both_pools() -> String {
    let wide = (MOST_IN_A_POOL - 1) / MOST_ON_A_SIDE;
    let rows = (0..wide).map(|k| format!("N\t{k}\tsame\t0\t-\t0-63\t0-63\n"));
    let rest = format!("N {wide} same 0 - 0-62 0-62 / N {} same 0 - 0 0 / C 0 0", wide + 1);
    negations(MOST_ON_A_SIDE) + &rows.collect::<String>() + &tabbed(&rest)
}

/// Pools filled by runs, and a run where they end. 5 counts the entries that it means,
/// before 7 and 9 are asked.
fn pools_that_end(pool: Pool) -> Vec<Case> {
    let side = pool.name();
    let formulas = negations(MOST_ON_A_SIDE + 1);
    let mut cases = vec![];
    let mut last_row = |what: &str, number: u16, held: usize, last: &str| {
        let (rows, count) = pool.filled(held);
        let mut text = formulas.clone() + &shortest(&rows) + &pool.row(count, last, "0");
        if number == 0 {
            text += &(pool.row(count + 1, "0", "0") + "C\t0\t0\n");
        }
        cases.push(raw(&format!("runs/pool_{side}_{what}"), number, text.lines().count(), text));
    };
    let most = MOST_IN_A_POOL;
    last_row("filled_by_a_run_of_64", 0, most - 65, "0-63");
    last_row("filled_by_a_run_of_2", 0, most - 3, "0-1");
    last_row("passed_by_the_last_of_63", 5, most - 62, "0-62");
    last_row("passed_by_the_last_of_2", 5, most - 1, "0-1");
    last_row("passed_by_all_of_a_run", 5, most, "0-1");
    last_row("passed_by_a_number_after_a_run", 5, most - 2, "0-1,2");
    last_row("passed_by_a_65th", 5, most - 64, "0-64");
    last_row("passed_by_a_missing_65th", 5, most - 64, "0-63,65");
    last_row("passed_by_a_repeat", 5, most - 64, "0-63,0");
    last_row("passed_by_99999", 5, most - 64, "0-99999");
    last_row("filled_by_a_65th", 9, most - 65, "0-64");
    last_row("filled_by_a_missing_65th", 7, most - 65, "0-63,65");
    last_row("filled_by_a_repeat", 9, most - 65, "0-63,0");
    last_row("filled_by_a_run_of_missing_ones", 7, most - 2, "65-66");

    let repeats = vec!["0-63"; most / MOST_ON_A_SIDE].join(",");
    for (what, number, list) in [("filled", 9, repeats.clone()), ("passed", 5, repeats + ",0")] {
        let text = formulas.clone() + &pool.row(0, &list, "0");
        cases.push(raw(&format!("runs/pool_{side}_{what}_by_repeats"), number, text.lines().count(), text));
    }
    let full = match pool {
        Pool::Left => full_left_pool(),
        Pool::Right => full_right_pool(),
    };
    let across = shortest(&full) + &pool.row(257, "-", "0-64");
    cases.push(raw(&format!("runs/pool_{side}_full_and_one_over_across"), 7, across.lines().count(), across));
    cases
}

/// Models of some of 64 atoms.
fn models() -> Vec<Case> {
    let of = |sheet: Range<usize>, model: &str| {
        let plain = list(&sheet.clone().collect::<Vec<_>>());
        facts(sheet.clone(), sheet).replace(&format!("M\t{plain}\n"), &format!("M\t{model}\n"))
    };
    let models = [
        ("16_atoms_by_two_runs", 0, of(0..16, "0-7,8-15")),
        ("17_atoms", 16, of(0..17, "0-16")),
        ("17_last_atoms", 16, of(47..64, "47-63")),
        ("64_atoms", 16, of(63..64, "0-63")),
        ("atoms_62_and_63", 0, of(62..64, "62-63")),
        ("atoms_63_and_64", 7, of(62..64, "63-64")),
        ("atoms_64_and_65", 7, of(62..64, "64-65")),
        ("65_atoms", 7, of(62..64, "0-64")),
        ("64_atoms_twice", 9, of(62..64, "0-63,0-63")),
        ("atom_61_too", 17, of(62..64, "61-63")),
    ];
    let case = |(what, number, text): (&str, u16, String)| {
        let lines = text.lines().count();
        raw(&format!("runs/model_of_{what}"), number, if number == 0 { lines } else { lines - 1 }, text)
    };
    models.into_iter().map(case).collect()
}

fn shortest(text: &str) -> String {
    String::from_utf8(in_runs(text.as_bytes()).expect("no text grows by it")).expect("a text of ASCII")
}

/// The accepted texts of other groups that have lists to be written in runs, so written,
/// unless they stand there: nothing is answered, stored or told otherwise.
pub fn rewritten(cases: &[Case]) -> Vec<Case> {
    const GROUPS: [&str; 6] = ["examples", "look_sound", "limits", "models", "sides", "words"];
    let held: HashSet<&[u8]> = cases.iter().map(|case| case.text.as_slice()).collect();
    let rewritten = |case: &Case| {
        let text = in_runs(&case.text).filter(|text| !held.contains(text.as_slice()))?;
        let name = format!("runs/{}", case.name.replace('/', "_"));
        Some(Case { name, text, plain: Some(case.name.clone()), ..case.clone() })
    };
    let accepted = |case: &&Case| GROUPS.contains(&case.group()) && case.number == 0;
    cases.iter().filter(accepted).filter_map(rewritten).collect()
}
