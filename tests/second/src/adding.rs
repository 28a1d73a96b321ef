//! Cases of adding a row, as the corpus lists them, and what the second checker answers.
//!
//! A case is four fields, parted by tabs: its name; the beginning to open, which is a text of
//! the corpus, or its first lines (`NAME:COUNT`); changes of what is then handed in; and the
//! text of the row, written as in `rule_words.tsv`, or, after `@`, a text of the corpus, or
//! one line of it (`@NAME:LINE`). Changes are parted by spaces, or `-` for none:
//! `length:TABLE:LENGTH` lends a shorter or a longer table, zeros after the others, and comes
//! first; `count:COUNT:NUMBER` hands in another count; `TABLE:PLACE:NUMBER` changes an entry.
//!
//! The answer is five fields: number, line, and what is stored of the row: its record and its
//! entries in either pool, parted by commas, or `-` for nothing.

use crate::escapes::unescaped;
use crate::judge::LEAST;
use crate::line::lines;
use crate::open::{OpenFile, open};
use std::collections::HashMap;
use std::path::{Path, PathBuf};

/// The second checker over a corpus folder. What has been opened is kept: a beginning comes
/// with many changes.
pub struct Adding {
    folder: PathBuf,
    opened: HashMap<String, OpenFile>,
}

impl Adding {
    pub fn new(folder: &Path) -> Adding {
        Adding { folder: folder.into(), opened: HashMap::new() }
    }

    /// Answers a case; None if it is not written as above, or names a beginning that does
    /// not open.
    pub fn answer(&mut self, case: &str) -> Option<String> {
        let fields: Vec<&str> = case.split('\t').collect();
        let [_, beginning, changes, text] = fields[..] else { return None };
        let mut file = self.opened(beginning)?;
        for change in changes.split(' ').filter(|&change| change != "-") {
            make(&mut file, change)?;
        }
        let text = self.row(text)?;
        let before = file.clone();
        let previewed = file.preview(&text);
        if file != before {
            return Some("changed by the preview".into());
        }
        let (number, line) = file.add(&text);
        if previewed != (number, line) {
            return Some("answered otherwise by the preview".into());
        }
        Some(format!("{number}\t{line}\t{}", stored(&before, &file)))
    }

    fn opened(&mut self, beginning: &str) -> Option<OpenFile> {
        if let Some(file) = self.opened.get(beginning) {
            return Some(file.clone());
        }
        let text = match beginning.split_once(':') {
            None => self.text(beginning)?,
            Some((name, count)) => {
                lines(&self.text(name)?).take(count.parse().ok()?).collect::<Vec<_>>().concat()
            }
        };
        let opening = open(&text, &LEAST);
        let file = (opening.number == 0).then(|| OpenFile::of(opening))?;
        self.opened.insert(beginning.into(), file.clone());
        Some(file)
    }

    fn row(&self, written: &str) -> Option<Vec<u8>> {
        let Some(name) = written.strip_prefix('@') else { return unescaped(written) };
        match name.split_once(':') {
            None => self.text(name),
            Some((name, line)) => {
                let place = line.parse::<usize>().ok()?.checked_sub(1)?;
                lines(&self.text(name)?).nth(place).map(<[u8]>::to_vec)
            }
        }
    }

    fn text(&self, name: &str) -> Option<Vec<u8>> {
        std::fs::read(self.folder.join(format!("{name}.txt"))).ok()
    }
}

fn make(file: &mut OpenFile, change: &str) -> Option<()> {
    let fields: Vec<&str> = change.split(':').collect();
    match fields[..] {
        ["count", count, number] => *count_of(file, count)? = number.parse().ok()?,
        ["length", table, length] => table_of(file, table)?.resize(length.parse().ok()?, 0),
        [table, place, number] => {
            let place: usize = place.parse().ok()?;
            *table_of(file, table)?.get_mut(place)? = number.parse().ok()?;
        }
        _ => return None,
    }
    Some(())
}

fn count_of<'a>(file: &'a mut OpenFile, name: &str) -> Option<&'a mut usize> {
    Some(match name {
        "atoms" => &mut file.counts.atoms,
        "formulas" => &mut file.counts.formulas,
        "rows" => &mut file.counts.rows,
        "left" => &mut file.counts.left,
        "right" => &mut file.counts.right,
        _ => return None,
    })
}

fn table_of<'a>(file: &'a mut OpenFile, name: &str) -> Option<&'a mut Vec<u16>> {
    Some(match name {
        "formulas" => &mut file.formulas,
        "rows" => &mut file.rows,
        "left" => &mut file.left,
        "right" => &mut file.right,
        _ => return None,
    })
}

/// What adding has stored: a record, and entries of the pools; nothing else may differ.
fn stored(before: &OpenFile, after: &OpenFile) -> String {
    if after == before {
        return "-\t-\t-".into();
    }
    let mut expected = before.clone();
    let (was, is) = (before.counts, after.counts);
    let record = put(&mut expected.rows, &after.rows, 8 * was.rows, 8 * (was.rows + 1));
    let left = put(&mut expected.left, &after.left, was.left, is.left);
    let right = put(&mut expected.right, &after.right, was.right, is.right);
    expected.counts.rows += 1;
    (expected.counts.left, expected.counts.right) = (is.left, is.right);
    match (expected == *after, record, left, right) {
        (true, Some(record), Some(left), Some(right)) => format!("{record}\t{left}\t{right}"),
        _ => "changed elsewhere".into(),
    }
}

/// Puts a part of one table into another, and lists it.
fn put(table: &mut [u16], from: &[u16], start: usize, end: usize) -> Option<String> {
    let part = from.get(start..end)?;
    table.get_mut(start..end)?.copy_from_slice(part);
    Some(listed(part))
}

/// Numbers parted by commas, or `-`.
pub fn listed(numbers: &[u16]) -> String {
    match numbers {
        [] => "-".into(),
        _ => numbers.iter().map(u16::to_string).collect::<Vec<_>>().join(","),
    }
}
