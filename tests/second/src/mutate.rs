//! Damage to texts: to bytes, lines, fields, numbers, runs, sides, premises, rules, rule
//! words and models, and growth up to the limits and beyond. Most of it leaves the text
//! nearly right.

use crate::draft::list;
use crate::judge::{MOST_ATOMS, MOST_BYTES, MOST_FORMULAS, MOST_IN_A_MODEL, MOST_ROWS};
use crate::random::Random;
use crate::rewrite::{lists_of, numbers_of};
use crate::rules::ELK;
use std::collections::BTreeSet;

/// A text as lines of fields, without the last LF.
type Fields = Vec<Vec<String>>;

/// The text, damaged once or twice.
pub fn mutate(random: &mut Random, text: &[u8]) -> Vec<u8> {
    let mut text = text.to_vec();
    for _ in 0..1 + random.below(2) {
        text = match random.below(10) {
            0 => change_bytes(random, text),
            _ => change_fields(random, &text),
        };
    }
    text
}

fn change_bytes(random: &mut Random, mut text: Vec<u8>) -> Vec<u8> {
    let at = random.below(text.len() + 1);
    let byte = match random.below(3) {
        0 => random.pick(b"\t\n\r,-019 apANFMC\0\xFF"),
        _ => random.word() as u8,
    };
    match random.below(4) {
        0 => text.insert(at, byte),
        1 => text.truncate(at),
        2 if at < text.len() => drop(text.remove(at)),
        _ if at < text.len() => text[at] = byte,
        _ => drop(text.pop()),
    }
    text
}

fn change_fields(random: &mut Random, text: &[u8]) -> Vec<u8> {
    let Ok(written) = str::from_utf8(text) else { return text.to_vec() };
    let mut lines: Fields =
        written.lines().map(|line| line.split('\t').map(String::from).collect()).collect();
    if lines.is_empty() {
        return b"C\t-\t-\n".to_vec();
    }
    match random.below(74) {
        0 => grow(random, &mut lines),
        1 => lengthen(random, &mut lines),
        2..8 => change_lines(random, &mut lines),
        8..12 => change_any_field(random, &mut lines),
        12..16 => repeat_formula(random, &mut lines),
        16..24 => change_row(random, &mut lines, change_rule),
        24..32 => change_row(random, &mut lines, change_premises),
        32..36 => change_row(random, &mut lines, change_principal),
        36..44 => change_last_row_and_claim(random, &mut lines),
        44..52 => change_model(random, &mut lines),
        52..56 => change_item(random, &mut lines),
        56..62 => change_row(random, &mut lines, damage_rule),
        _ => change_row(random, &mut lines, change_side),
    }
    lines.iter().map(|fields| fields.join("\t") + "\n").collect::<String>().into_bytes()
}

fn change_lines(random: &mut Random, lines: &mut Fields) {
    let (at, other) = (random.below(lines.len()), random.below(lines.len()));
    match random.below(5) {
        0 => drop(lines.remove(at)),
        1 => lines.swap(at, other),
        2 => lines.insert(other, lines[at].clone()),
        3 => lines.truncate(at),
        _ => lines.push(lines[at].clone()),
    }
}

/// Gives one formula the word and operands of another.
fn repeat_formula(random: &mut Random, lines: &mut Fields) {
    let is_formula = |fields: &[String]| fields[0] == "F" && fields.len() == 5;
    let formulas: Vec<usize> = (0..lines.len()).filter(|&k| is_formula(&lines[k])).collect();
    if !formulas.is_empty() {
        let (from, to) = (random.pick(&formulas), random.pick(&formulas));
        let content = lines[from][2..].to_vec();
        lines[to].splice(2.., content);
    }
}

fn change_any_field(random: &mut Random, lines: &mut Fields) {
    let line = random.below(lines.len());
    let fields = &mut lines[line];
    let at = random.below(fields.len());
    match random.below(5) {
        0 => drop(fields.remove(at)),
        1 => fields.insert(at, "-".into()),
        2 => {
            let next = (at + 1) % fields.len();
            fields.swap(at, next);
        }
        _ => fields[at] = number(random),
    }
}

fn number(random: &mut Random) -> String {
    let special =
        ["0", "1", "2", "-", "00", "01", "63", "64", "65535", "65536", "65537", "99999", "100000", "p", ""];
    match random.below(2) {
        0 => special[random.below(special.len())].into(),
        _ => random.below(30).to_string(),
    }
}

/// Puts a run, often a bad one, in the place of an item of a list, or after it; now and
/// then of another field.
fn change_item(random: &mut Random, lines: &mut Fields) {
    let line = random.below(lines.len());
    let fields = &mut lines[line];
    let field = match lists_of(fields) {
        lists if lists.is_empty() || random.once_in(10) => random.below(fields.len()),
        lists => lists.start + random.below(lists.len()),
    };
    let mut items: Vec<String> = fields[field].split(',').map(String::from).collect();
    let at = random.below(items.len());
    let held = numbers_of(&items[at]).map_or(0, |numbers| numbers.end - 1);
    let first = random.pick(&[held, held, held + 1, 0]);
    let last = random.pick(&[first + 1, first + 2, first, 0, 63, 64, 1_023, 16_384, 65_536, 99_999, 100_000]);
    let run = match random.below(12) {
        0 => format!("{first}-0{last}"),
        1 => format!("{first}-{last}-{}", last + 1),
        2 => format!("{first}-"),
        3 => format!("-{last}"),
        4 => format!("{first}--{last}"),
        5 => format!("{first}-{last},"),
        _ => format!("{first}-{last}"),
    };
    if random.once_in(2) {
        items[at] = run;
    } else {
        items.insert(at + 1, run);
    }
    fields[field] = items.join(",");
}

/// Changes one row, of seven fields, if there is one: one of the last, on which no
/// other rows rest, or one of any rule that the text has.
fn change_row(random: &mut Random, lines: &mut Fields, change: fn(&mut Random, &mut [String], usize)) {
    let formulas = lines.iter().filter(|fields| fields[0] == "F").count();
    let mut rows: Vec<usize> = (0..lines.len()).rev().filter(|&k| is_row(&lines[k])).collect();
    if rows.is_empty() {
        return;
    }
    if random.once_in(2) {
        rows.truncate(4);
    } else {
        let rules: BTreeSet<&str> = rows.iter().map(|&k| lines[k][2].as_str()).collect();
        let rule = random.pick(&Vec::from_iter(rules));
        rows.retain(|&k| lines[k][2] == rule);
    }
    let row = random.pick(&rows);
    change(random, &mut lines[row], formulas);
}

fn is_row(fields: &[String]) -> bool {
    fields[0] == "N" && fields.len() == 7
}

fn change_rule(random: &mut Random, row: &mut [String], _: usize) {
    row[2] = ELK.rules[random.below(ELK.rules.len())].name.into();
}

/// Leaves a rule's word nearly right: glued to another, cut, or one byte more, less or
/// changed; or puts a piece of all words end to end in its place.
fn damage_rule(random: &mut Random, row: &mut [String], _: usize) {
    let joined: Vec<char> = ELK.rules.iter().flat_map(|rule| rule.name.chars()).collect();
    let mut word: Vec<char> = row[2].chars().collect();
    let at = random.below(word.len() + 1);
    let sign = match random.below(3) {
        0 => char::from(random.word() as u8),
        _ => random.pick(&joined),
    };
    match random.below(9) {
        0 => word.extend(ELK.rules[random.below(ELK.rules.len())].name.chars()),
        1 => word.truncate(at),
        2 => drop(word.drain(..at)),
        3 => word.insert(at, sign),
        4 if at < word.len() => drop(word.remove(at)),
        5 if at < word.len() => word[at] = sign,
        6 if at < word.len() => word[at].make_ascii_uppercase(),
        _ => {
            let start = random.below(joined.len());
            word = joined[start..].iter().copied().take(1 + random.below(8)).collect();
        }
    }
    row[2] = word.into_iter().collect();
}

fn change_principal(random: &mut Random, row: &mut [String], formulas: usize) {
    row[3] = if random.once_in(4) { "-".into() } else { random.below(formulas + 1).to_string() };
}

fn change_premises(random: &mut Random, row: &mut [String], _: usize) {
    let mut premises = numbers(&row[4]);
    let some_row = random.below(row[1].parse::<usize>().unwrap_or(0) + 1);
    match random.below(4) {
        0 => premises.reverse(),
        1 => premises.push(some_row),
        2 => drop(premises.pop()),
        _ => {
            let count = premises.len().max(1);
            premises.resize(count, some_row);
            premises[random.below(count)] = some_row;
        }
    }
    row[4] = list(&premises);
}

fn change_side(random: &mut Random, row: &mut [String], formulas: usize) {
    let at = row.len() - 1 - random.below(2);
    toggle(random, &mut row[at], formulas);
}

/// Puts a number below `held` into a list, or takes it out; now and then one that isn't
/// below, or out of order.
fn toggle(random: &mut Random, field: &mut String, held: usize) {
    let mut members = numbers(field);
    let beyond = usize::from(random.once_in(20));
    let number = random.below(held.max(1) + beyond);
    match members.iter().position(|&member| member == number) {
        Some(place) => drop(members.remove(place)),
        None => members.push(number),
    }
    if !random.once_in(20) {
        members.sort();
    }
    *field = list(&members);
}

/// Changes a side of the last row and claims what it then says.
fn change_last_row_and_claim(random: &mut Random, lines: &mut Fields) {
    let formulas = lines.iter().filter(|fields| fields[0] == "F").count();
    let (row, claim) = match &mut lines[..] {
        [.., row, model, claim] if is_model(model) => (row, claim),
        [.., row, claim] => (row, claim),
        _ => return,
    };
    if is_row(row) {
        change_side(random, row, formulas);
        *claim = vec!["C".into(), row[5].clone(), row[6].clone()];
    }
}

fn is_model(fields: &[String]) -> bool {
    fields[0] == "M" && fields.len() == 2
}

/// Changes the model or its place, or puts one before the last line if there is none.
fn change_model(random: &mut Random, lines: &mut Fields) {
    let atoms = lines.iter().filter(|fields| fields[0] == "A").count();
    let Some(at) = lines.iter().position(|fields| is_model(fields)) else {
        let few: Vec<usize> = random.some_of(0..atoms.min(3));
        lines.insert(lines.len() - 1, vec!["M".into(), list(&few)]);
        return;
    };
    let most = MOST_IN_A_MODEL as usize;
    if atoms > most && random.once_in(2) {
        lines[at][1] = list(&(0..most + random.below(2)).collect::<Vec<_>>());
        return;
    }
    let after = (at + 1) % lines.len();
    match random.below(8) {
        0 => drop(lines.remove(at)),
        1 => lines.insert(at, lines[at].clone()),
        2 => lines.swap(at, after),
        3 => lines.swap(at, at.saturating_sub(1)),
        _ => toggle(random, &mut lines[at][1], atoms),
    }
}

/// The numbers of a list, as many as a plain one has room for.
fn numbers(list: &str) -> Vec<usize> {
    list.split(',').filter_map(numbers_of).flatten().take(MOST_BYTES).collect()
}

/// More lines of one kind, up to a limit, and often one over it.
fn grow(random: &mut Random, lines: &mut Fields) {
    let (kind, most) = random.pick(&[("A", MOST_ATOMS), ("F", MOST_FORMULAS), ("N", MOST_ROWS)]);
    let most = most + random.below(2);
    let Some(last) = lines.iter().rposition(|fields| fields[0] == kind) else { return };
    let held = lines.iter().filter(|fields| fields[0] == kind).count();
    let more: Fields = (held..most)
        .map(|k| match kind {
            "A" => vec![kind.into(), k.to_string(), format!("more_{k}")],
            "F" => vec![kind.into(), k.to_string(), "not".into(), (k - 1).to_string(), "-".into()],
            _ => renumbered(&lines[last], k),
        })
        .collect();
    lines.splice(last + 1..last + 1, more);
}

/// Copies of the longest row, then one of the last, and longer names, until the text
/// has the most bytes or one more.
fn lengthen(random: &mut Random, lines: &mut Fields) {
    let length = |fields: &Vec<String>| fields.iter().map(|field| field.len() + 1).sum::<usize>();
    let rows: Vec<usize> = (0..lines.len()).filter(|&k| is_row(&lines[k])).collect();
    let Some(longest) = rows.iter().copied().max_by_key(|&k| length(&lines[k])) else { return };
    let last = rows[rows.len() - 1];
    let held: usize = lines.iter().map(length).sum();
    let mut missing = (MOST_BYTES + random.below(2)).saturating_sub(held);
    let mut more = vec![];
    for number in rows.len()..MOST_ROWS {
        let copy = renumbered(&lines[longest], number);
        // As much again is left for the copy of the last row.
        if 2 * length(&copy) >= missing {
            break;
        }
        missing -= length(&copy);
        more.push(copy);
    }
    let closing = renumbered(&lines[last], rows.len() + more.len());
    missing = missing.saturating_sub(length(&closing));
    more.push(closing);
    lines.splice(last + 1..last + 1, more);
    for name in lines.iter_mut().filter(|fields| fields[0] == "A").filter_map(|fields| fields.get_mut(2)) {
        let longer = missing.min(24usize.saturating_sub(name.len()));
        name.push_str(&"_".repeat(longer));
        missing -= longer;
    }
}

fn renumbered(fields: &[String], number: usize) -> Vec<String> {
    let mut copy = fields.to_vec();
    if let Some(own) = copy.get_mut(1) {
        *own = number.to_string();
    }
    copy
}
