//! `first_difference FOLDER` judges the texts of a corpus, light ones first, as far as the first
//! that earns another answer than answers.tsv or rule_words.tsv says, other tables than the
//! text that plain.tsv names, or other words than stand beside it; then it opens them, and adds
//! rows, as far as the first that is answered otherwise than opening.tsv or adding.tsv says, or
//! leaves other tables than opened.tsv or the judgement; it prints that one and fails.
//! `first_difference FOLDER open` adds and opens first.

use second::adding::{Adding, listed};
use second::escapes::unescaped;
use second::judge::{Judgement, LEAST, judge};
use second::open::{Opening, open};
use second::words::{Answer, words};
use std::collections::HashMap;
use std::io::Result;
use std::path::Path;
use std::process::ExitCode;

/// What the command lends for words.
const LENT: usize = 1 << 20;

fn main() -> Result<ExitCode> {
    let folder = std::env::args().nth(1).expect("usage: first_difference FOLDER [open]");
    let mut differences = [in_one_file, judged, opened, added];
    if std::env::args().nth(2).is_some_and(|word| word == "open") {
        differences.reverse();
    }
    for difference in differences {
        if let Some(what) = difference(Path::new(&folder))? {
            println!("{what}");
            return Ok(ExitCode::FAILURE);
        }
    }
    Ok(ExitCode::SUCCESS)
}

fn text_of(folder: &Path, name: &str) -> Result<Vec<u8>> {
    std::fs::read(folder.join(format!("{name}.txt")))
}

fn list(folder: &Path, name: &str) -> Result<String> {
    std::fs::read_to_string(folder.join(name))
}

/// The lines of a list, each with the text that is named in this field, those with light texts
/// first.
fn light_first(folder: &Path, name: &str, field: usize) -> Result<Vec<(String, Vec<u8>)>> {
    let list = list(folder, name)?;
    let with_text = |line: &str| Ok((line.into(), text_of(folder, name_in(line, field))?));
    let mut texts = list.lines().map(with_text).collect::<Result<Vec<(String, Vec<u8>)>>>()?;
    texts.sort_by_cached_key(|(_, text)| weight(text));
    Ok(texts)
}

/// The name in a field of a line, without the count of lines that may follow it.
fn name_in(line: &str, field: usize) -> &str {
    let named = line.split('\t').nth(field).expect("a line has this field");
    named.split(':').next().unwrap_or_default()
}

/// About how long a text takes: its bytes, and the parts of its model, all of which may be
/// tried. A checker that takes models that are too large meets the smallest of them first.
fn weight(text: &[u8]) -> u64 {
    let models = text.split(|&byte| byte == b'\n').filter_map(|line| line.strip_prefix(b"M\t"));
    let atoms = models.map(|list| String::from_utf8_lossy(list).split(',').map(meant).sum()).max();
    text.len() as u64 + (1 << atoms.unwrap_or(0).min(62))
}

/// How many atoms an item of a model's list means; one where it is badly written.
fn meant(item: &str) -> u64 {
    let ends = item.split_once('-').and_then(|(first, last)| first.parse().ok().zip(last.parse().ok()));
    ends.map_or(1, |(first, last): (u32, u32)| u64::from(last.saturating_sub(first)) + 1)
}

/// The first text that is judged or told otherwise.
fn judged(folder: &Path) -> Result<Option<String>> {
    let pairs = list(folder, "plain.tsv")?;
    let plain: HashMap<&str, &str> = pairs.lines().filter_map(|pair| pair.split_once('\t')).collect();
    for (expected, text) in light_first(folder, "answers.tsv", 0)? {
        let name = name_in(&expected, 0);
        let judgement = judge(&text, &LEAST);
        let given = format!("{name}\t{}\t{}", judgement.number, judgement.line);
        if given != expected {
            return Ok(Some(given));
        }
        if let Some(plain) = plain.get(name)
            && judge(&text_of(folder, plain)?, &LEAST) != judgement
        {
            return Ok(Some(format!("{name}\tother tables than {plain}")));
        }
        let printed = folder.join(format!("{name}.words"));
        if printed.exists()
            && let Some(difference) = told_otherwise(&text, &judgement, &std::fs::read(printed)?)
        {
            return Ok(Some(format!("{name}\t{difference}")));
        }
    }
    Ok(None)
}

/// The first of the texts that stand in one file.
fn in_one_file(folder: &Path) -> Result<Option<String>> {
    for expected in list(folder, "rule_words.tsv")?.lines() {
        let written = expected.split('\t').next().expect("a line starts with a text");
        let judgement = judge(&unescaped(written).expect("a text as it is listed"), &LEAST);
        let given = format!("{written}\t{}\t{}", judgement.number, judgement.line);
        if given != expected {
            return Ok(Some(given));
        }
    }
    Ok(None)
}

/// The first text that is opened otherwise.
fn opened(folder: &Path) -> Result<Option<String>> {
    let tables = list(folder, "opened.tsv")?;
    let tables: HashMap<&str, &str> = tables.lines().filter_map(|line| line.split_once('\t')).collect();
    for (expected, text) in light_first(folder, "opening.tsv", 0)? {
        let name = name_in(&expected, 0);
        let opening = open(&text, &LEAST);
        let counts = opening.counts.listed().map(|count| count.to_string()).join("\t");
        let given = format!("{name}\t{}\t{}\t{counts}", opening.number, opening.line);
        if given != expected {
            return Ok(Some(given));
        }
        let judgement = judge(&text, &LEAST);
        let as_judged = judgement.number == 13 || judgement.tables == opening.tables;
        let as_listed = tables.get(name).is_none_or(|expected| used(&opening).as_deref() == Some(expected));
        if !as_judged || !as_listed {
            return Ok(Some(format!("{name}\tother tables when it is opened")));
        }
    }
    Ok(None)
}

/// The used part of each table, if zeros follow it.
fn used(opening: &Opening) -> Option<String> {
    let [atoms, formulas, rows, left, right] = opening.counts.listed();
    let lengths = [2 * atoms, 3 * formulas, 8 * rows, left, right];
    let used = opening.tables.clone().listed().into_iter().zip(lengths).map(|((_, table), length)| {
        let (used, rest) = table.split_at(length);
        rest.iter().all(|&entry| entry == 0).then(|| listed(used))
    });
    used.collect::<Option<Vec<String>>>().map(|tables| tables.join("\t"))
}

/// The first row that is added otherwise.
fn added(folder: &Path) -> Result<Option<String>> {
    let mut adding = Adding::new(folder);
    for (line, _) in light_first(folder, "adding.tsv", 1)? {
        let (fields, expected) =
            line.match_indices('\t').nth(3).map(|(at, _)| line.split_at(at)).expect("nine fields");
        let given = adding.answer(fields).unwrap_or("a beginning that does not open".into());
        if given != expected[1..] {
            return Ok(Some(format!("{}\t{given}", name_in(fields, 0))));
        }
    }
    Ok(None)
}

/// What is told otherwise than expected, if anything is: in a lent text that the words
/// fill, in longer ones, and in shorter ones.
fn told_otherwise(text: &[u8], judgement: &Judgement, printed: &[u8]) -> Option<String> {
    let length = printed.len();
    let spaces = match printed.starts_with(b"Row ") {
        true => vec![length, length + 1, LENT, length - 1, 1, 0],
        false => vec![LENT, 0],
    };
    let differs = |&space: &usize| words(text, &LEAST, space) != expected(judgement, printed, space);
    let space = spaces.into_iter().find(differs)?;
    let answer = words(text, &LEAST, space);
    Some(format!("{}\t{}\tin {space} bytes", answer.number, answer.line))
}

/// The whole answer where so many bytes are lent.
fn expected(judgement: &Judgement, printed: &[u8], space: usize) -> Answer {
    let (number, line) = (judgement.number, judgement.line);
    if printed.starts_with(b"Row ") && printed.len() <= space {
        let words = [printed, &vec![0; space - printed.len()]].concat();
        return Answer { number, line, tables: judgement.tables.clone(), words };
    }
    let (number, line) = if number == 0 { (14, 0) } else { (number, line) };
    Answer { number, line, tables: LEAST.map(|length| vec![0; length]), words: vec![0; space] }
}
