//! Numbers in every position where one can stand: too wide for 16 bits, and badly
//! written.

use super::{Case, raw, tabbed};

/// An accepted file; each `{name}` after a number marks that number's position.
const MARKED: &str = "A 0{first_atom} p / A 1{second_atom} q / F 0{first_formula} atom 0{atom_0} - / \
    F 1{second_formula} atom 1{atom_1} - / F 2 not 0{not_0} - / F 3 not 1{not_1} - / \
    F 4 and 0{and_first_0} 1{and_second_1} / F 5 or 1{or_first_1} 0{or_second_0} / \
    F 6 imp 0{imp_first_0} 1{imp_second_1} / F 7 and 1{and_first_1} 0{and_second_0} / \
    N 0{first_row} same 0{principal_0} - 0{left_0} 0{right_0} / \
    N 1{second_row} wr 1{principal_1} 0{premise_0} 0 0,1{right_last} / \
    N 2 same 1 - 0,1{left_last} 1{right_1} / N 3 same 0 - 0 0,1 / \
    N 4 rcut 0 3{premise_first},1{premise_second} 0 0,1 / N 5 same 1 - 0,1 0,1 / \
    M 0{model_0},1{model_last} / C 0,1{claim_left} 0,1{claim_right}";

/// Own numbers earn 4 where they are well written, references 7.
const OWN: [&str; 6] =
    ["first_atom", "second_atom", "first_formula", "second_formula", "first_row", "second_row"];

const WIDE: [&str; 6] = ["65535", "65536", "65537", "65539", "99999", "100000"];

const BADLY_WRITTEN: [(&str, &str); 5] = [
    ("00", "two_zeros"),
    ("01", "leading_zero"),
    ("-0", "minus_sign"),
    ("0 ", "space_after"),
    ("1a", "letter_after"),
];

pub fn cases() -> Vec<Case> {
    let mut cases = vec![raw("numbers/all_in_range", 0, tabbed(MARKED).lines().count(), text("", ""))];
    for position in positions() {
        let line = 1 + tabbed(MARKED).lines().position(|line| line.contains(&mark(position))).unwrap();
        let well_written = if OWN.contains(&position) { 4 } else { 7 };
        for number in WIDE {
            let earned = if number.len() > 5 { 3 } else { well_written };
            let name = format!("numbers/{position}_is_{number}");
            cases.push(raw(&name, earned, line, text(position, number)));
        }
        for (number, name) in BADLY_WRITTEN {
            let name = format!("numbers/{position}_with_{name}");
            cases.push(raw(&name, 3, line, text(position, number)));
        }
    }
    cases
}

fn mark(position: &str) -> String {
    format!("{{{position}}}")
}

fn positions() -> Vec<&'static str> {
    MARKED.split('{').skip(1).map(|rest| rest.split_once('}').unwrap().0).collect()
}

/// The file with another number in one position; the number before the mark, one
/// digit, goes.
fn text(position: &str, number: &str) -> String {
    let mut text = tabbed(MARKED);
    if let Some(at) = text.find(&mark(position)) {
        text.replace_range(at - 1..at + mark(position).len(), number);
    }
    for other in positions() {
        text = text.replace(&mark(other), "");
    }
    text
}
