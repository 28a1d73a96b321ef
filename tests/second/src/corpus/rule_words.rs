//! Rule words: every piece of 1 to 8 bytes of all words end to end, words damaged, glued or
//! lengthened, and fields that a sum of length and bytes can't tell from a word. A field that
//! isn't a word, whole and byte for byte, earns 3.
//!
//! The texts are thousands of single lines, which stand in one file. They have no names but
//! themselves.

use super::{Case, raw};
use crate::escapes::escaped;
use crate::random::Random;
use std::collections::BTreeSet;

pub const GROUP: &str = "rule_words";

/// In the order of paper 01, and then of paper 02.
#[rustfmt::skip]
const WORDS: [&str; 38] = [
    "def", "same", "andl", "andr", "wr", "bot", "orr", "orl", "notl", "impr", "impl", "notr", "rcut", "unst",
    "xini", "xnnl", "xnnr", "xandl", "xandr1", "xandr2", "xorr", "xorl1", "xorl2", "ximpl1", "ximpl2", "ximpl3",
    "ximpr1", "ximpr2", "xnimpl", "xnimpr1", "xnimpr2", "xnandl1", "xnandl2", "xnandr", "xnorl", "xnorr1", "xnorr2",
    "swap",
];

/// The words of F lines, one of which is a rule's too.
const FORMULA_WORDS: [&str; 6] = ["bot", "atom", "not", "and", "or", "imp"];

type Field = Vec<u8>;

pub fn cases() -> Vec<Case> {
    let mut fields = BTreeSet::from_iter(pieces());
    fields.insert(vec![]);
    fields.extend(bytes_of_a_field().map(|byte| vec![byte]));
    fields.extend(FORMULA_WORDS.map(Field::from));
    let next = WORDS.iter().cycle().skip(1);
    fields.extend(WORDS.iter().zip(next).map(|(word, next)| format!("{word}{next}").into()));
    let mut random = Random::new(103);
    for word in WORDS.map(str::as_bytes) {
        fields.extend(disguised(word));
        fields.extend(damaged(word));
        fields.extend(lengthened(word));
        fields.extend(alike_in_one_byte(word));
        fields.extend(alike_in_two_bytes(word));
        fields.extend(alike_at_other_lengths(word));
        fields.extend(alike_and_far(word, &mut random));
    }
    let rows = fields.iter().map(|field| row(field));
    let others = WORDS.iter().filter(|word| !FORMULA_WORDS.contains(word));
    let formulas = others.flat_map(|word| ["-\t-", "0\t-", "0\t0"].map(|parts| formula(word, parts)));
    rows.chain(formulas).collect()
}

/// A row with the field for its rule's word, and a premise that isn't earlier.
fn row(field: &[u8]) -> Case {
    let known = WORDS.iter().any(|word| word.as_bytes() == field);
    listed(if known { 7 } else { 3 }, [b"N\t0\t", field, b"\t-\t0\t-\t-\n"].concat())
}

/// A formula with a rule's word for its own.
fn formula(word: &str, parts: &str) -> Case {
    listed(3, format!("F\t0\t{word}\t{parts}\n"))
}

fn listed(number: u16, text: impl Into<Vec<u8>>) -> Case {
    let text = text.into();
    raw(&format!("{GROUP}/{}", escaped(&text)), number, 1, text)
}

/// The pieces of 1 to 8 bytes of all words end to end.
fn pieces() -> Vec<Field> {
    let joined = WORDS.concat().into_bytes();
    (1..=8).flat_map(|length| joined.windows(length)).map(Field::from).collect()
}

/// The bytes that may stand in a field: they end neither it nor its line.
fn bytes_of_a_field() -> impl Iterator<Item = u8> {
    (0..=255).filter(|byte| !b"\t\n".contains(byte))
}

/// The bytes that the words are made of.
fn letters() -> Vec<u8> {
    Vec::from_iter(BTreeSet::from_iter(WORDS.concat().bytes()))
}

/// The word changed as a whole, or with zeros that a place of fixed length would have.
fn disguised(word: &[u8]) -> Vec<Field> {
    let padded = |length: usize| word.iter().copied().chain([0; 16]).take(length).collect();
    vec![
        word.to_ascii_uppercase(),
        word.iter().map(|byte| byte | 128).collect(),
        word.iter().rev().copied().collect(),
        word.repeat(2),
        padded(8),
        padded(16),
    ]
}

/// The word with a byte more, less or changed, or with two neighbours exchanged.
fn damaged(word: &[u8]) -> Vec<Field> {
    let mut fields = vec![];
    for at in 0..=word.len() {
        let (front, behind) = word.split_at(at);
        fields.extend(b"x1\0 -\r".map(|more| [front, &[more], behind].concat()));
        let [byte, rest @ ..] = behind else { continue };
        fields.push([front, rest].concat());
        fields.push([front, &[*byte], behind].concat());
        let mut others = letters();
        others.extend([byte - 1, byte + 1, byte ^ 32, byte ^ 64, byte ^ 128]);
        fields.extend(others.into_iter().map(|other| [front, &[other], rest].concat()));
        if let [next, rest @ ..] = rest {
            fields.push([front, &[*next, *byte], rest].concat());
        }
    }
    fields
}

/// Long fields that begin or end with the word, or both begin and end as it does. The length
/// of some is the word's again in one byte, or in the sum below.
fn lengthened(word: &[u8]) -> Vec<Field> {
    let length = word.len();
    let totals = [8, 9, 255, 256, 257, length + 64, length + 256, length + 512];
    let of_total = |total: usize| {
        let more = vec![b'x'; total - length];
        [0, length / 2, length].map(|at| [&word[..at], &more, &word[at..]].concat())
    };
    totals.into_iter().flat_map(of_total).collect()
}

/// A sum that is another for each word. Whoever looks for a word by it, as the proved code
/// does, has one candidate, and must still compare every byte.
fn sum(field: &[u8]) -> usize {
    let length = field.len();
    let [second, last_but_one, last] = [1, length - 2, length - 1].map(|at| usize::from(field[at]));
    (17 * length + 2 * second + 3 * last_but_one / 2 + last) % 64
}

/// The word with one of the bytes in the sum changed so that the sum is as it was.
fn alike_in_one_byte(word: &[u8]) -> Vec<Field> {
    let mut fields = vec![];
    for at in [1, word.len() - 2, word.len() - 1] {
        let changed = bytes_of_a_field().map(|byte| [&word[..at], &[byte], &word[at + 1..]].concat());
        fields.extend(changed.filter(|field| sum(field) == sum(word)));
    }
    fields
}

/// The word with two bytes changed to the nearest ones that leave the sum as it is.
fn alike_in_two_bytes(word: &[u8]) -> Vec<Field> {
    let mut fields = vec![];
    for (i, j) in (0..word.len()).flat_map(|j| (0..j).map(move |i| (i, j))) {
        let change = |a: u8, b: u8| {
            let mut field = word.to_vec();
            (field[i], field[j]) = (a, b);
            field
        };
        let distance =
            |field: &Field| u16::from(field[i].abs_diff(word[i])) + u16::from(field[j].abs_diff(word[j]));
        let alike = |field: &Field| field[i] != word[i] && field[j] != word[j] && sum(field) == sum(word);
        let changed = letters().into_iter().flat_map(|a| letters().into_iter().map(move |b| (a, b)));
        fields.extend(changed.map(|(a, b)| change(a, b)).filter(alike).min_by_key(distance));
    }
    fields
}

/// As much of the word as there is room for, its last byte again and again, and one that
/// makes the sum the word's.
fn alike_at_other_lengths(word: &[u8]) -> Vec<Field> {
    let last = word[word.len() - 1];
    let stem = |length: usize| word.iter().copied().chain([last; 8]).take(length).collect();
    (1..=8).flat_map(|length| alike(stem(length), word)).collect()
}

/// Any letters and digits, and a byte that makes the sum the word's.
fn alike_and_far(word: &[u8], random: &mut Random) -> Vec<Field> {
    let mut stem =
        |length: usize| (0..length).map(|_| random.pick(b"abcdefghijklmnopqrstuvwxyz0123456789")).collect();
    (1..=8).flat_map(|length| alike(stem(length), word)).collect()
}

/// The fields of the word's sum that begin so and have one more byte, a printable one.
fn alike(stem: Field, word: &[u8]) -> Vec<Field> {
    let fields = (b'!'..=b'~').map(|last| [&stem[..], &[last]].concat());
    fields.filter(|field| sum(field) == sum(word)).collect()
}

#[cfg(test)]
mod tests {
    use super::*;
    use crate::rules::ELK;

    #[test]
    fn the_words_are_the_rules() {
        assert_eq!(Vec::from(WORDS), Vec::from_iter(ELK.rules.iter().map(|rule| rule.name)));
    }

    #[test]
    fn the_words_are_184_bytes_with_38_sums() {
        assert_eq!(WORDS.concat().len(), 184);
        assert_eq!(BTreeSet::from_iter(WORDS.map(|word| sum(word.as_bytes()))).len(), 38);
    }

    #[test]
    fn every_text_is_one_line_with_all_its_fields() {
        for case in cases() {
            let tabs = case.text.iter().filter(|&&byte| byte == b'\t').count();
            let lfs = case.text.iter().filter(|&&byte| byte == b'\n').count();
            assert_eq!((tabs, lfs), (if case.text[0] == b'N' { 6 } else { 4 }, 1), "{}", case.name);
        }
    }

    #[test]
    fn every_word_is_among_the_fields() {
        assert_eq!(cases().iter().filter(|case| case.number != 3).count(), WORDS.len());
    }
}
