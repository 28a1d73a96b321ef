//! Lists written in another way: the same numbers, with other runs.

use crate::judge::MOST_BYTES;
use crate::line::lines;
use crate::random::Random;
use std::ops::Range;

/// With every number by itself.
pub fn plain(text: &[u8]) -> Option<Vec<u8>> {
    rewritten(text, |_| 1)
}

/// With the longest runs there are. No text grows by it, and a set has one writing.
pub fn in_runs(text: &[u8]) -> Option<Vec<u8>> {
    rewritten(text, |count| count)
}

/// In one of these ways, or with runs here and there.
pub fn at_random(random: &mut Random, text: &[u8]) -> Option<Vec<u8>> {
    match random.below(4) {
        0 => plain(text),
        1 => in_runs(text),
        _ => rewritten(text, |count| match random.below(3) {
            0 => 1,
            1 => count,
            _ => 1 + random.below(count),
        }),
    }
}

/// The text with its lists split anew, unless it is over the most bytes then. Of so many
/// numbers that rise by one, `together` says how many of the first make an item. Fields
/// that are no list stay as they are.
fn rewritten(text: &[u8], mut together: impl FnMut(usize) -> usize) -> Option<Vec<u8>> {
    let mut written = vec![];
    for line in lines(text) {
        let body = line.strip_suffix(b"\n").unwrap_or(line);
        let fields: Vec<&[u8]> = body.split(|&byte| byte == b'\t').collect();
        let lists = lists_of(&fields);
        for (k, field) in fields.iter().enumerate() {
            if k > 0 {
                written.push(b'\t');
            }
            match stretches(field).filter(|_| lists.contains(&k)) {
                Some(stretches) => put(&mut written, stretches, &mut together)?,
                None => written.extend_from_slice(field),
            }
        }
        written.extend_from_slice(&line[body.len()..]);
    }
    (written.len() <= MOST_BYTES).then_some(written)
}

/// Where the lists of a line stand that may hold runs.
pub fn lists_of<T: AsRef<[u8]>>(fields: &[T]) -> Range<usize> {
    match (fields[0].as_ref(), fields.len()) {
        (b"N", 7) => 5..7,
        (b"M", 2) => 1..2,
        (b"C", 3) => 1..3,
        _ => 0..0,
    }
}

/// The numbers of a list, as stretches that rise by one; None if it is badly written or
/// empty.
fn stretches(list: &[u8]) -> Option<Vec<Range<usize>>> {
    let mut stretches: Vec<Range<usize>> = vec![];
    for item in str::from_utf8(list).ok()?.split(',') {
        let next = numbers_of(item)?;
        match stretches.last_mut() {
            Some(before) if before.end == next.start => before.end = next.end,
            _ => stretches.push(next),
        }
    }
    Some(stretches)
}

/// The numbers of a well-written item.
pub fn numbers_of(item: &str) -> Option<Range<usize>> {
    let (first, last) = item.split_once('-').unwrap_or((item, item));
    let numbers = first.parse().ok()?..last.parse::<usize>().ok()?.checked_add(1)?;
    (!numbers.is_empty() && numbers.end <= 100_000 && written(&numbers) == item).then_some(numbers)
}

fn written(numbers: &Range<usize>) -> String {
    match numbers.len() {
        1 => numbers.start.to_string(),
        _ => format!("{}-{}", numbers.start, numbers.end - 1),
    }
}

/// None if the text is over the most bytes then: a list can mean millions of numbers.
fn put(
    text: &mut Vec<u8>,
    stretches: Vec<Range<usize>>,
    together: &mut impl FnMut(usize) -> usize,
) -> Option<()> {
    let start = text.len();
    for mut rest in stretches {
        while !rest.is_empty() {
            if text.len() > start {
                text.push(b',');
            }
            let end = rest.start + together(rest.len());
            text.extend_from_slice(written(&(rest.start..end)).as_bytes());
            rest.start = end;
            if text.len() > MOST_BYTES {
                return None;
            }
        }
    }
    Some(())
}

#[cfg(test)]
mod tests {
    use super::*;

    fn rewrite(list: &str, way: fn(&[u8]) -> Option<Vec<u8>>) -> String {
        let line = String::from_utf8(way(format!("M\t{list}\n").as_bytes()).unwrap()).unwrap();
        line["M\t".len()..line.len() - 1].into()
    }

    #[test]
    fn lists_are_split_anew() {
        for (list, plainly, runs) in [
            ("-", "-", "-"),
            ("7", "7", "7"),
            ("0,1", "0,1", "0-1"),
            ("0-3", "0,1,2,3", "0-3"),
            ("0-1,2,3-4,6", "0,1,2,3,4,6", "0-4,6"),
            ("2-3,0-1,1", "2,3,0,1,1", "2-3,0-1,1"),
            ("99998,99999", "99998,99999", "99998-99999"),
        ] {
            assert_eq!((rewrite(list, plain), rewrite(list, in_runs)), (plainly.into(), runs.into()));
        }
    }

    #[test]
    fn what_is_no_list_stays() {
        for list in ["", ",", "0,", "0-0", "2-0", "0-02", "00-2", "0-1-2", "0-", "-2", "99999-100000", "+1"] {
            let line = format!("M\t{list},5,6\n");
            assert_eq!(in_runs(line.as_bytes()), Some(line.into_bytes()));
        }
        let row = "N\t0\trcut\t0\t0,1\t0,1\t2,3\n";
        assert_eq!(in_runs(row.as_bytes()), Some("N\t0\trcut\t0\t0,1\t0-1\t2-3\n".into()));
    }

    #[test]
    fn nothing_over_the_most_bytes() {
        assert_eq!(plain(b"M\t0-99999,0-99999\n"), None);
    }
}
