//! Random open files and rows to add, and what must hold of rows that are entered one by one.

use crate::judge::{Judgement, MOST_BYTES, MOST_FORMULAS, MOST_IN_A_POOL, MOST_ROWS, Tables};
use crate::line::lines;
use crate::mutate::mutate;
use crate::open::{OpenFile, Opening, open};
use crate::random::Random;

/// What is handed in, what it was before it was changed, and the text of a row.
pub struct Trial {
    pub file: OpenFile,
    pub before: OpenFile,
    pub text: Vec<u8>,
}

/// A text as far as it opens, cut into the lines before the first row to be entered, and these
/// rows: as many of the last ones as asked. A row that the text is refused for comes last, if it
/// is one.
pub struct Entry<'t> {
    pub head: &'t [u8],
    pub rows: Vec<&'t [u8]>,
    /// The number of each row in its place.
    pub numbers: Vec<u16>,
}

/// The first lines of a text, so many.
fn first_lines(text: &[u8], count: usize) -> &[u8] {
    &text[..lines(text).take(count).map(<[u8]>::len).sum()]
}

/// The rows to enter, by what the text answers when it is opened. None if nothing of it is judged,
/// or it has no rows.
pub fn entry<'t>(text: &'t [u8], opening: &Opening, most: usize) -> Option<Entry<'t>> {
    if matches!(opening.number, 1 | 2) {
        return None;
    }
    let lines: Vec<&[u8]> = lines(text).collect();
    // The refused line is the last to be entered.
    let judged = opening.line.min(lines.len());
    let is_row = |line: &&[u8]| line.starts_with(b"N\t");
    let first = lines[..judged].iter().position(is_row)?;
    // An open file has no stage: a row after a model or a claim is out of order in a text alone.
    if lines[..first].iter().any(|line| line.starts_with(b"M") || line.starts_with(b"C")) {
        return None;
    }
    let end = first + lines[first..judged].iter().take_while(|line| is_row(line)).count();
    let start = first.max(end.saturating_sub(most));
    let refused = opening.number != 0 && end == opening.line;
    let numbers = (start..end).map(|place| if refused && place + 1 == end { opening.number } else { 0 });
    Some(Entry {
        head: first_lines(text, start),
        rows: lines[start..end].to_vec(),
        numbers: numbers.collect(),
    })
}

/// Asks of a text whether it opens as it is judged, and of its last rows whether they are
/// answered, one by one, as in their places, and leave what opening them leaves.
pub fn check(text: &[u8], lent: &Tables<usize>, judgement: &Judgement, most: usize) -> Result<(), String> {
    let opening = open(text, lent);
    let expected = match judgement.number {
        13 => (0, judgement.line - 1),
        number => (number, judgement.line),
    };
    if (opening.number, opening.line) != expected {
        return Err(format!("opened with {:?} for {expected:?}", (opening.number, opening.line)));
    }
    if judgement.number != 13 && opening.tables != judgement.tables {
        return Err("other tables when it is opened".into());
    }
    let Some(Entry { head, rows, numbers }) = entry(text, &opening, most) else { return Ok(()) };
    let mut file = OpenFile::of(open(head, lent));
    let mut held = head.to_vec();
    for (row, number) in rows.iter().zip(numbers) {
        let answer = file.add(row);
        if answer != (number, 1) {
            return Err(format!("a row is answered {answer:?}, and in its place {number}"));
        }
        if number == 0 {
            held.extend_from_slice(row);
        }
    }
    match file == OpenFile::of(open(&held, lent)) {
        true => Ok(()),
        false => Err("other tables when rows are entered one by one".into()),
    }
}

/// Some beginning of a text, opened, changed or not, and some text for a row.
pub fn trial(random: &mut Random, text: &[u8], lent: &Tables<usize>, opening: &Opening) -> Option<Trial> {
    let lines: Vec<&[u8]> = lines(text).collect();
    let good = match opening.number {
        0 => lines.len(),
        1 | 2 => return None,
        _ => opening.line - 1,
    };
    let count = if random.once_in(3) { random.below(good + 1) } else { good };
    let before = OpenFile::of(open(first_lines(text, count), lent));
    let mut file = before.clone();
    for _ in 0..random.pick(&[0, 0, 1, 1, 1, 2]) {
        change(random, &mut file);
    }
    // A number has five digits at most, whatever the count.
    let text = row_text(random, &lines, count, file.counts.rows.min(99_999));
    Some(Trial { file, before, text })
}

/// A text to be added: in most cases the next row, or one of those before it, damaged or not.
fn row_text(random: &mut Random, lines: &[&[u8]], count: usize, number: usize) -> Vec<u8> {
    let known = &lines[..lines.len().min(count + 1)];
    let rows: Vec<&[u8]> = known.iter().copied().filter(|line| line.starts_with(b"N\t")).collect();
    let some_row = |random: &mut Random| match rows.last() {
        Some(last) if random.once_in(3) => last.to_vec(),
        Some(_) => random.pick(&rows).to_vec(),
        None => b"N\t0\txini\t-\t-\t-\t-\n".to_vec(),
    };
    let row = numbered(&some_row(random), number);
    match random.below(24) {
        0 => some_row(random),
        1 => [row, numbered(&some_row(random), number + 1)].concat(),
        2 => row[..random.below(row.len() + 1)].to_vec(),
        3 => [&row[..], &[random.pick(b"\n\t\0N\r")]].concat(),
        4 if !lines.is_empty() => random.pick(lines).to_vec(),
        5 if random.once_in(4) => vec![random.pick(b"N\n\t0"); MOST_BYTES + random.below(2)],
        5..14 => mutate(random, &row),
        14 | 15 => format!("N\t{number}\tsame\t0\t-\t0\t0\n").into_bytes(),
        _ => row,
    }
}

/// The row with another number.
fn numbered(row: &[u8], number: usize) -> Vec<u8> {
    let mut fields: Vec<&[u8]> = row.split(|&byte| byte == b'\t').collect();
    let number = number.to_string();
    if fields.len() > 2 {
        fields[1] = number.as_bytes();
    }
    fields.join(&b'\t')
}

/// Changes a file that is handed in: often so that one thing in it is wrong, and now and then so
/// that it is right again.
fn change(random: &mut Random, file: &mut OpenFile) {
    match random.below(16) {
        0..6 => change_entry(random, file),
        6..8 => change_count(random, file),
        8 => put_after(random, file),
        9 => exchange_records(random, file),
        10 => take_last_row(random, file),
        11 | 12 => repeat_row(random, file),
        13 => file.counts.atoms = random.below(66),
        14 => change_length(random, file),
        _ => {
            let rows = file.counts.rows.min(file.rows.len() / 8);
            if rows > 0 {
                file.rows[8 * random.below(rows)] = random.below(40) as u16;
            }
        }
    }
}

/// The tables with what the counts say is used of each.
fn used(file: &mut OpenFile) -> [(&mut Vec<u16>, usize); 4] {
    let counts = file.counts;
    [
        (&mut file.formulas, counts.formulas.saturating_mul(3)),
        (&mut file.rows, counts.rows.saturating_mul(8)),
        (&mut file.left, counts.left),
        (&mut file.right, counts.right),
    ]
}

fn change_entry(random: &mut Random, file: &mut OpenFile) {
    let mut tables = used(file);
    let (table, used) = &mut tables[random.below(4)];
    let used = (*used).min(table.len());
    if used == 0 {
        return;
    }
    let (place, other) = (random.below(used), random.below(used));
    table[place] = match random.below(6) {
        0 => table[place].wrapping_add(1),
        1 => table[place].wrapping_sub(1),
        2 => random.pick(&[0, 65_535, 65_534, 38, 6, 64, 1_024, 2_048, 16_384]),
        3 => random.word() as u16,
        _ => table[other],
    };
}

fn change_count(random: &mut Random, file: &mut OpenFile) {
    let counts = &mut file.counts;
    let all =
        [&mut counts.atoms, &mut counts.formulas, &mut counts.rows, &mut counts.left, &mut counts.right];
    let Some(count) = all.into_iter().nth(random.below(5)) else { return };
    *count = match random.below(6) {
        0 | 1 => count.wrapping_add(1),
        2 | 3 => count.saturating_sub(1),
        4 => {
            random.pick(&[0, 64, 65, 1_024, 1_025, 2_048, 2_049, 16_384, 16_385, 65_536, 1 << 61, usize::MAX])
        }
        _ => random.word() as usize >> random.below(64),
    };
}

fn put_after(random: &mut Random, file: &mut OpenFile) {
    let mut tables = used(file);
    let (table, used) = &mut tables[random.below(4)];
    if *used < table.len() {
        let somewhere = *used + random.below(table.len() - *used);
        let place = random.pick(&[*used, table.len() - 1, somewhere]);
        table[place] = random.pick(&[1, 65_535]);
    }
}

fn exchange_records(random: &mut Random, file: &mut OpenFile) {
    let (table, count, width) = match random.below(2) {
        0 => (&mut file.formulas, file.counts.formulas.min(MOST_FORMULAS), 3),
        _ => (&mut file.rows, file.counts.rows.min(MOST_ROWS), 8),
    };
    if count > 0 && width * count <= table.len() {
        let (one, other) = (random.below(count), random.below(count));
        (0..width).for_each(|k| table.swap(width * one + k, width * other + k));
    }
}

/// Takes the last row away, and now and then forgets something.
fn take_last_row(random: &mut Random, file: &mut OpenFile) {
    let Some(last) = file.counts.rows.checked_sub(1) else { return };
    if last >= MOST_ROWS {
        return;
    }
    let Some(record) = file.rows.get_mut(8 * last..8 * last + 8) else { return };
    let (left, right) = (record[4] as usize, record[6] as usize);
    let forgotten = random.below(12);
    if forgotten != 0 {
        record.fill(0);
    }
    if forgotten != 1 && left <= file.left.len() {
        file.left[left..].fill(0);
    }
    if forgotten != 2 && right <= file.right.len() {
        file.right[right..].fill(0);
    }
    file.counts.rows = last;
    file.counts.left = if forgotten == 3 { file.counts.left } else { left };
    file.counts.right = if forgotten == 4 { file.counts.right } else { right };
}

/// Stores a row once more after the last, and now and then forgets something.
fn repeat_row(random: &mut Random, file: &mut OpenFile) {
    let counts = file.counts;
    if counts.rows == 0 || counts.rows >= MOST_ROWS || counts.left.max(counts.right) > MOST_IN_A_POOL {
        return;
    }
    let forgotten = random.below(12);
    let Some(mut record) = file.rows.chunks_exact(8).nth(random.below(counts.rows)).map(<[u16]>::to_vec)
    else {
        return;
    };
    for (pool, count, place) in
        [(&mut file.left, &mut file.counts.left, 4), (&mut file.right, &mut file.counts.right, 6)]
    {
        let (start, length) = (record[place] as usize, record[place + 1] as usize);
        if start + length > pool.len() || *count + length > pool.len() {
            return;
        }
        if forgotten != place {
            pool.copy_within(start..start + length, *count);
        }
        if forgotten != place + 1 {
            record[place] = *count as u16;
        }
        *count += length;
    }
    if let Some(place) = file.rows.get_mut(8 * counts.rows..8 * counts.rows + 8) {
        place.copy_from_slice(&record);
        file.counts.rows += usize::from(forgotten != 0);
    }
}

fn change_length(random: &mut Random, file: &mut OpenFile) {
    let mut tables = used(file);
    let (table, _) = &mut tables[random.below(4)];
    if table.is_empty() {
        return;
    }
    let length = match random.below(3) {
        0 => table.len() - 1,
        1 => random.below(table.len()),
        _ => table.len() + random.below(300),
    };
    table.resize(length, 0);
}

#[cfg(test)]
mod tests {
    use super::*;
    use crate::judge::LEAST;
    use crate::sample::samples;
    use std::collections::{BTreeMap, BTreeSet};

    /// A file can be changed whatever was changed before, and is no open file after so many changes.
    #[test]
    fn changes_upon_changes() {
        let mut random = Random::new(5);
        let mut numbers = BTreeSet::new();
        for _ in 0..2_000 {
            let mut file = OpenFile::of(open(b"F\t0\tbot\t-\t-\nN\t0\tsame\t0\t-\t0\t0\n", &LEAST));
            for _ in 0..100 {
                change(&mut random, &mut file);
            }
            numbers.insert(file.preview(b"N\t1\tsame\t0\t-\t0\t0\n"));
        }
        assert!(numbers.iter().eq(&[(1, 0), (4, 0)]), "{numbers:?}");
    }

    /// Every number comes up, and rows are added to files that were changed and are right again.
    #[test]
    fn trials_of_thousands() {
        let mut random = Random::new(5);
        let mut numbers: BTreeMap<u16, usize> = BTreeMap::new();
        let mut right_again = 0;
        for sample in samples(5).take(3_000) {
            let opening = open(&sample.text, &sample.lent);
            for _ in 0..2 {
                let Some(Trial { file, before, text }) =
                    trial(&mut random, &sample.text, &sample.lent, &opening)
                else {
                    continue;
                };
                let (number, _) = file.preview(&text);
                *numbers.entry(number).or_default() += 1;
                right_again += usize::from(number == 0 && file != before);
            }
        }
        assert!(numbers.keys().eq(&[0, 1, 2, 3, 4, 5, 7, 9, 10, 11, 18]), "{numbers:?}");
        assert!(numbers.values().all(|&count| count > 5) && right_again > 150, "{numbers:?} {right_again}");
        assert!(numbers[&0] > 1_000 && numbers[&4] > 1_000, "{numbers:?}");
    }
}
