//! One line of a text, read. What the paper calls a bad line reads as None.

use crate::list::List;
use crate::rules::ELK;
use std::ops::Range;

/// A number as written: at most 99,999.
pub type Number = u32;

#[derive(Debug)]
pub enum Line {
    Atom { number: Number, name: Range<usize> },
    Formula { number: Number, word: Word },
    Row { number: Number, row: Row },
    Model { atoms: List },
    Claim { left: List, right: List },
}

#[derive(Clone, Copy, Debug)]
pub enum Word {
    Bot,
    Atom(Number),
    Not(Number),
    And(Number, Number),
    Or(Number, Number),
    Imp(Number, Number),
}

#[derive(Debug)]
pub struct Row {
    pub rule: usize,
    pub principal: Option<Number>,
    pub premises: Vec<Number>,
    pub left: List,
    pub right: List,
}

/// The lines of a text, each with its LF; the last may lack it.
pub fn lines(text: &[u8]) -> impl Iterator<Item = &[u8]> {
    text.split_inclusive(|&byte| byte == b'\n')
}

/// Reads a line that starts at byte `start` of the text; the LF is taken off.
pub fn read(line: &[u8], start: usize) -> Option<Line> {
    let fields: Vec<&[u8]> = line.split(|&byte| byte == b'\t').collect();
    match fields[..] {
        [b"A", own, name] => {
            let end = start + line.len();
            Some(Line::Atom { number: number(own)?, name: end - name.len()..end })
        }
        [b"F", own, word, first, second] => {
            Some(Line::Formula { number: number(own)?, word: read_word(word, first, second)? })
        }
        [b"N", own, rule, principal, premises, left, right] => {
            let row = Row {
                rule: ELK.code(std::str::from_utf8(rule).ok()?)?,
                principal: if principal == b"-" { None } else { Some(number(principal)?) },
                premises: read_premises(premises)?,
                left: List::read(left)?,
                right: List::read(right)?,
            };
            Some(Line::Row { number: number(own)?, row })
        }
        [b"M", atoms] => Some(Line::Model { atoms: List::read(atoms)? }),
        [b"C", left, right] => Some(Line::Claim { left: List::read(left)?, right: List::read(right)? }),
        _ => None,
    }
}

fn read_word(word: &[u8], first: &[u8], second: &[u8]) -> Option<Word> {
    Some(match (word, first, second) {
        (b"bot", b"-", b"-") => Word::Bot,
        (b"atom", k, b"-") => Word::Atom(number(k)?),
        (b"not", i, b"-") => Word::Not(number(i)?),
        (b"and", i, j) => Word::And(number(i)?, number(j)?),
        (b"or", i, j) => Word::Or(number(i)?, number(j)?),
        (b"imp", i, j) => Word::Imp(number(i)?, number(j)?),
        _ => return None,
    })
}

/// A list without runs.
fn read_premises(field: &[u8]) -> Option<Vec<Number>> {
    match field {
        b"-" => Some(vec![]),
        _ => field.split(|&byte| byte == b',').map(number).collect(),
    }
}

pub fn number(field: &[u8]) -> Option<Number> {
    let well_written = matches!(field.len(), 1..=5)
        && field.iter().all(u8::is_ascii_digit)
        && (field[0] != b'0' || field.len() == 1);
    let value = |digits: &[u8]| digits.iter().fold(0, |n, digit| 10 * n + Number::from(digit - b'0'));
    well_written.then(|| value(field))
}
