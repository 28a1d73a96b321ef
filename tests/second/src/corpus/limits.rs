//! Every limit, reached and passed by one; and formulas that share their parts a
//! thousand deep.

use super::{Case, raw, tabbed, untold};
use crate::draft::list;
use crate::judge::{MOST_ATOMS, MOST_BYTES, MOST_FORMULAS, MOST_IN_A_POOL, MOST_ON_A_SIDE, MOST_ROWS};

/// So many atoms a0, a1, ...
pub fn atoms(count: usize) -> String {
    (0..count).map(|k| format!("A\t{k}\ta{k}\n")).collect()
}

/// A formula for each of so many atoms, by the same number.
pub fn atom_formulas(count: usize) -> String {
    (0..count).map(|k| format!("F\t{k}\tatom\t{k}\t-\n")).collect()
}

/// # and so many of its negations: formula k is k times ~ before #.
pub fn negations(count: usize) -> String {
    (1..count).fold("F\t0\tbot\t-\t-\n".into(), |text, k| text + &format!("F\t{k}\tnot\t{}\t-\n", k - 1))
}

pub fn up_to(count: usize) -> String {
    list(&(0..count).collect::<Vec<_>>())
}

/// Formula 0 on both sides, so often.
pub fn same_rows(count: usize) -> String {
    (0..count).map(|k| format!("N\t{k}\tsame\t0\t-\t0\t0\n")).collect()
}

pub fn full_atoms() -> String {
    atoms(MOST_ATOMS)
}

pub fn full_formulas() -> String {
    negations(MOST_FORMULAS)
}

pub fn full_rows() -> String {
    negations(1) + &same_rows(MOST_ROWS)
}

/// A pool, and the side of a row that goes into it.
#[derive(Clone, Copy)]
pub enum Pool {
    Left,
    Right,
}

impl Pool {
    pub fn name(self) -> &'static str {
        match self {
            Pool::Left => "left",
            Pool::Right => "right",
        }
    }

    /// A list on this side and another across, as the last two fields of a line.
    pub fn sides(self, here: &str, across: &str) -> String {
        match self {
            Pool::Left => format!("{here}\t{across}\n"),
            Pool::Right => format!("{across}\t{here}\n"),
        }
    }

    pub fn row(self, number: usize, here: &str, across: &str) -> String {
        format!("N\t{number}\tsame\t0\t-\t{}", self.sides(here, across))
    }

    /// Rows that hold so many entries here, and the count of rows: rows with 64, one with
    /// the rest, and # => #, which can be claimed without a model.
    pub fn filled(self, entries: usize) -> (String, usize) {
        let (wide, rest) = ((entries - 1) / MOST_ON_A_SIDE, (entries - 1) % MOST_ON_A_SIDE);
        let lengths = [vec![MOST_ON_A_SIDE; wide], vec![rest], vec![1]].concat();
        let rows = lengths.iter().enumerate().map(|(k, &length)| self.row(k, &up_to(length), "0"));
        (rows.collect(), lengths.len())
    }
}

pub fn full_left_pool() -> String {
    negations(MOST_ON_A_SIDE) + &Pool::Left.filled(MOST_IN_A_POOL).0
}

pub fn full_right_pool() -> String {
    negations(MOST_ON_A_SIDE) + &Pool::Right.filled(MOST_IN_A_POOL).0
}

pub fn cases() -> Vec<Case> {
    let mut cases = vec![];
    let mut limit = |name: &str, number: u16, text: String| {
        cases.push(raw(&format!("limits/{name}"), number, text.lines().count(), text));
    };
    let claim = "C\t0\t0\n";

    limit("64_atoms", 0, full_atoms() + &atom_formulas(64) + &tabbed("N 0 same 63 - 63 63 / M 63 / C 63 63"));
    limit("65_atoms", 5, full_atoms() + "A\t64\ta64\n");
    limit("atom_63_in_unst", 0, full_atoms() + &tabbed(UNST_ON_ATOM_63));
    limit("unst_over_64_atoms", 0, unst_over_all_atoms());
    limit("1024_formulas", 0, full_formulas() + &tabbed("N 0 same 1023 - 1023 1023 / M - / C 1023 1023"));
    limit("1025_formulas", 5, full_formulas() + "F\t1024\tnot\t1023\t-\n");
    limit("2048_rows", 0, full_rows() + claim);
    limit("2049_rows", 5, full_rows() + "N\t2048\tsame\t0\t-\t0\t0\n");
    limit("2048_rows_with_the_last_from_the_last_but_one", 0, {
        negations(1) + &same_rows(MOST_ROWS - 1) + "N\t2047\twr\t0\t2046\t0\t0\n" + claim
    });

    let formulas = negations(MOST_ON_A_SIDE + 1);
    let over = up_to(MOST_ON_A_SIDE + 1);
    limit("64_on_each_side", 0, {
        // An odd number of ~ before # makes a truth.
        let truths = list(&(0..MOST_ON_A_SIDE).map(|k| 2 * k + 1).collect::<Vec<_>>());
        negations(2 * MOST_ON_A_SIDE)
            + &tabbed(&format!("N 0 same 1 - {truths} {truths} / M - / C {truths} {truths}"))
    });
    limit("65_on_the_left", 9, formulas.clone() + &tabbed(&format!("N 0 same 0 - {over} 0")));
    limit("65_on_the_right", 9, formulas.clone() + &tabbed(&format!("N 0 same 0 - 0 {over}")));
    limit(
        "65_on_the_left_of_the_claim",
        9,
        formulas.clone() + &tabbed(&format!("N 0 same 0 - 0 0 / C {over} 0")),
    );
    limit(
        "65_on_the_right_of_the_claim",
        9,
        formulas.clone() + &tabbed(&format!("N 0 same 0 - 0 0 / C 0 {over}")),
    );
    limit("65_premises_are_counted_only", 10, {
        let premises = vec!["0"; 65].join(",");
        negations(1) + &tabbed(&format!("N 0 same 0 - 0 0 / N 1 wr 0 {premises} 0 0"))
    });

    limit("16384_entries_left", 0, full_left_pool() + claim);
    limit("16385_entries_left", 5, full_left_pool() + "N\t257\tsame\t0\t-\t0\t0\n");
    limit("16384_entries_left_and_a_row_without_left", 0, {
        full_left_pool() + &tabbed("N 257 notr 1 256 - 0,1 / M - / C - 0,1")
    });
    limit("16384_entries_right", 0, full_right_pool() + claim);
    limit("16385_entries_right", 5, full_right_pool() + "N\t257\tsame\t0\t-\t0\t0\n");
    limit("16384_entries_right_and_a_row_without_right", 0, {
        full_right_pool() + &tabbed("N 257 bot 0 256 0 - / C 0 -")
    });

    cases.extend([Pool::Left, Pool::Right].into_iter().flat_map(long_sides));
    cases.extend(long_texts());
    cases.extend(deep_formulas());
    cases
}

/// Sides that are too long, or not rising, where their pool ends. 5 counts every entry
/// as it is written, past the 64th and repeats too, before 7 and 9 are asked.
fn long_sides(pool: Pool) -> Vec<Case> {
    let mut cases = vec![];
    let mut case = |name: String, number: u16, text: String| {
        cases.push(raw(&format!("limits/{name}"), number, text.lines().count(), text));
    };
    let side = pool.name();
    let formulas = negations(MOST_ON_A_SIDE + 1);
    let over = up_to(MOST_ON_A_SIDE + 1);
    let missing = up_to(MOST_ON_A_SIDE) + ",65";
    let badly_written = up_to(MOST_ON_A_SIDE) + ",064";

    let mut last_row = |what: &str, number: u16, held: usize, last: &str| {
        let (rows, count) = pool.filled(held);
        let entries = held + last.split(',').count();
        let text = formulas.clone() + &rows + &pool.row(count, last, "0");
        case(format!("{entries}_entries_{side}_{what}"), number, text);
    };
    let room_for_64 = MOST_IN_A_POOL - MOST_ON_A_SIDE;
    last_row("by_a_65th_in_a_row", 5, room_for_64, &over);
    last_row("by_a_missing_65th", 5, room_for_64, &missing);
    last_row("by_a_repeat", 5, room_for_64, &format!("0,{}", up_to(MOST_ON_A_SIDE)));
    last_row("with_a_repeat", 9, room_for_64, &format!("0,{}", up_to(MOST_ON_A_SIDE - 1)));
    last_row("with_65_in_a_row", 9, room_for_64 - 1, &over);
    last_row("with_a_missing_65th", 7, room_for_64 - 1, &missing);

    for (entries, number) in [(MOST_IN_A_POOL, 9), (MOST_IN_A_POOL + 1, 5)] {
        let row = pool.row(0, &vec!["0"; entries].join(","), "0");
        case(format!("{entries}_entries_{side}_in_one_row"), number, negations(1) + &row);
    }
    let (full, count) = pool.filled(MOST_IN_A_POOL);
    let across = formulas.clone() + &full + &pool.row(count, "-", &over);
    case(format!("16384_entries_{side}_and_65_across"), 9, across);

    let after_a_row = |last: &str| formulas.clone() + &pool.row(0, "0", "0") + last;
    let claim = |list: &str| format!("C\t{}", pool.sides(list, "0"));
    case(format!("badly_written_65th_{side}"), 3, after_a_row(&pool.row(1, &badly_written, "0")));
    case(format!("badly_written_65th_{side}_in_the_claim"), 3, after_a_row(&claim(&badly_written)));
    case(format!("missing_65th_{side}_in_the_claim"), 7, after_a_row(&claim(&missing)));
    cases
}

/// V is atom 63 alone, the last bit of the word.
const UNST_ON_ATOM_63: &str = "F 0 atom 63 - / F 1 not 0 - / F 2 not 1 - / F 3 or 0 1 / \
    N 0 same 0 - 0 0 / N 1 notr 1 0 - 0,1 / N 2 notl 2 1 2 0 / \
    N 3 xini - - - 0,1 / N 4 xnnl 2 3 2 0,1 / N 5 xorr 3 4 2 3 / N 6 unst - 2,5 2 - / C 2 -";

/// S is the last of 64 atoms, and every other is of the rest. Formula 2k is atom k and
/// 2k+1 its negation; 128 is ~~ of the last; K grows from 129 to 191; 192 is E.
fn unst_over_all_atoms() -> String {
    let mut text = full_atoms();
    for k in 0..MOST_ATOMS {
        text += &tabbed(&format!("F {0} atom {k} - / F {1} not {0} -", 2 * k, 2 * k + 1));
    }
    text += &tabbed("F 128 not 127 - / F 129 and 125 126");
    for k in 130..=191 {
        text += &tabbed(&format!("F {k} and {} {}", 383 - 2 * k, k - 1));
    }
    text += &tabbed("F 192 or 126 127");
    let rest = list(&(0..MOST_ATOMS - 1).map(|k| 2 * k + 1).collect::<Vec<_>>());
    let left = format!("{rest},128");
    text += &tabbed(&format!("N 0 same 126 - {rest},126 126 / N 1 notr 127 0 {rest} 126,127"));
    text += &tabbed(&format!("N 2 notl 128 1 {left} 126"));
    for k in 129..=191 {
        let (literal, row) = (383 - 2 * k, 2 * (k - 129) + 3);
        text += &tabbed(&format!("N {row} same {literal} - {left} {literal}"));
        text += &tabbed(&format!("N {} andr {k} {row},{} {left} {k}", row + 1, row - 1));
    }
    text += &tabbed(&format!("N 129 xini - - {rest} 126,127 / N 130 xnnl 128 129 {left} 126,127"));
    text += &tabbed(&format!("N 131 xorr 192 130 {left} 192 / N 132 unst - 128,131 {left} - / C {left} -"));
    text
}

/// Texts of the most bytes, and of one more.
fn long_texts() -> Vec<Case> {
    let over = accepted_text_of(MOST_BYTES + 1);
    let full = accepted_text_of(MOST_BYTES);
    let lines = |text: &str| text.lines().count();
    vec![
        raw("limits/65536_bytes", 0, lines(&full), full.clone()),
        untold(raw("limits/65537_bytes", 2, 0, over.clone())),
        raw("limits/65537_bytes_with_a_bad_first_line", 2, 0, over.replacen('A', "B", 1)),
        raw("limits/65536_bytes_without_the_last_lf", 3, lines(&over), over.trim_end()),
        raw("limits/65536_bytes_in_one_line", 3, 1, "x".repeat(MOST_BYTES)),
        raw("limits/65537_bytes_in_one_line", 2, 0, "x".repeat(MOST_BYTES + 1)),
        raw(
            "limits/65536_bytes_in_one_rule_word",
            3,
            1,
            format!("N\t0\tsame{}same\t-\t-\t-\t-\n", "x".repeat(MOST_BYTES - 21)),
        ),
        raw("limits/65536_empty_lines", 3, 1, "\n".repeat(MOST_BYTES)),
    ]
}

/// An accepted text of exactly so many bytes: as many rows as fit, and names as long
/// as it takes.
fn accepted_text_of(bytes: usize) -> String {
    let mut rows = String::new();
    let fixed = tabbed("A 0 p / A 1 q").len() + negations(MOST_ON_A_SIDE).len() + "C\t0\t0\n".len();
    let mut number = 0;
    loop {
        let wide = if number < 255 { MOST_ON_A_SIDE } else { 1 };
        let row = match number % 2 {
            0 => format!("N\t{number}\tsame\t0\t-\t{}\t0\n", up_to(wide)),
            _ => format!("N\t{number}\tsame\t0\t-\t0\t{}\n", up_to(wide)),
        };
        if fixed + rows.len() + row.len() > bytes {
            break;
        }
        rows += &row;
        number += 1;
    }
    let missing = bytes - fixed - rows.len();
    let names = ["p".repeat(1 + missing / 2), "q".repeat(1 + missing - missing / 2)];
    format!("A\t0\t{}\nA\t1\t{}\n{}{rows}C\t0\t0\n", names[0], names[1], negations(MOST_ON_A_SIDE))
}

/// Formula 1022 repeats p&q a thousand deep; 1023 is ~~p or that.
fn shared_conjunctions() -> String {
    let first = "A 0 p / A 1 q / F 0 atom 0 - / F 1 atom 1 - / F 2 not 0 - / F 3 not 1 - / F 4 not 2 - / \
        F 5 not 3 - / F 6 and 0 1 / F 7 or 0 2 / F 8 or 1 3 / F 9 and 7 8 / F 10 and 0 3 / F 11 bot - - / F 12 and 6 6";
    let deeper = (13..=1022).map(|k| format!("F\t{k}\tand\t{0}\t{0}\n", k - 1));
    tabbed(first) + &deeper.collect::<String>() + "F\t1023\tor\t4\t1022\n"
}

/// L is ~~p and 1023, in which q occurs at the bottom alone. First L,~~q => ~q by
/// `unst` with S = {p,q}, hence L => p&~q, then `unst` with S = {p}.
const UNST_OVER_SHARED: &str = "N 0 same 0 - 0,1023 0 / N 1 notr 2 0 1023 0,2 / N 2 notl 4 1 4,1023 0 / \
    N 3 same 3 - 3,4,1023 3 / N 4 notr 5 3 4,1023 3,5 / \
    N 5 same 0 - 0,5,1023 0 / N 6 notr 2 5 5,1023 0,2 / N 7 notl 4 6 4,5,1023 0 / \
    N 8 same 1 - 1,4,1023 1 / N 9 notr 3 8 4,1023 1,3 / N 10 notl 5 9 4,5,1023 1 / \
    N 11 andr 6 7,10 4,5,1023 6 / \
    N 12 xini - - - 0,2,3 / N 13 xnnl 5 12 5 0,2 / N 14 xnnl 4 13 4,5 0,2 / N 15 xorl1 1023 14 4,5,1023 0,2 / \
    N 16 xorr 7 15 4,5,1023 7 / N 17 xandr1 9 16 4,5,1023 9 / N 18 unst - 11,17 4,5,1023 3 / \
    N 19 rcut 5 4,18 4,1023 3 / N 20 andr 10 2,19 4,1023 10 / \
    N 21 xini - - 3 0,2 / N 22 xnnl 4 21 3,4 0,2 / N 23 xorl1 1023 22 3,4,1023 0,2 / N 24 xorr 7 23 3,4,1023 7 / \
    N 25 unst - 20,24 4,1023 11 / C 4,1023 11";

/// As if q did not occur.
const Q_OVERLOOKED: &str = "N 0 same 0 - 0,1023 0 / N 1 notr 2 0 1023 0,2 / N 2 notl 4 1 4,1023 0 / \
    N 3 xini - - - 0,2 / N 4 xnnl 4 3 4 0,2 / N 5 xorl1 1023 4 4,1023 0,2 / N 6 xorr 7 5 4,1023 7 / \
    N 7 unst - 2,6 4,1023 11";

fn deep_formulas() -> Vec<Case> {
    let mut cases = vec![];
    let mut deep = |name: &str, number: u16, rows: &str| {
        let text = shared_conjunctions() + rows;
        cases.push(raw(&format!("limits/{name}"), number, text.lines().count(), text));
    };
    deep("unst_over_a_thousand_shared_conjunctions", 0, &tabbed(UNST_OVER_SHARED));
    deep("unst_overlooks_an_atom_a_thousand_deep", 11, &tabbed(Q_OVERLOOKED));
    let down = (12..=1022).map(|k| format!("N\t{}\tandl\t{k}\t{}\t{k}\t6\n", k - 11, k - 12));
    let down: String = down.collect();
    deep("andl_a_thousand_times", 0, &format!("N\t0\tsame\t6\t-\t6\t6\n{down}M\t0,1\nC\t1022\t6\n"));
    cases
}
