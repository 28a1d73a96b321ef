//! A list of formula or atom numbers: numbers, and runs of numbers. It is judged as it is
//! written, and written out only once it has passed: a line can mean 800 million numbers.

use crate::line::{Number, number};

#[derive(Debug)]
pub struct List(Vec<Item>);

/// All numbers from the first to the last, which are equal in a number that stands alone.
#[derive(Debug)]
struct Item {
    first: Number,
    last: Number,
}

impl List {
    /// None if it is badly written.
    pub fn read(field: &[u8]) -> Option<List> {
        match field {
            b"-" => Some(List(vec![])),
            _ => field.split(|&byte| byte == b',').map(Item::read).collect::<Option<_>>().map(List),
        }
    }

    /// A list of numbers that each stand alone.
    pub fn of(numbers: impl Iterator<Item = Number>) -> List {
        List(numbers.map(|number| Item { first: number, last: number }).collect())
    }

    /// How many numbers it means, repeats in full.
    pub fn count(&self) -> u64 {
        self.0.iter().map(Item::count).sum()
    }

    /// Are all numbers that it means below this one?
    pub fn below(&self, held: usize) -> bool {
        self.0.iter().all(|item| (item.last as usize) < held)
    }

    /// Do the numbers that it means rise strictly? Within a run they do.
    pub fn rises(&self) -> bool {
        self.0.is_sorted_by(|a, b| a.last < b.first)
    }

    /// The numbers that it means.
    pub fn numbers(&self) -> impl Iterator<Item = Number> {
        self.0.iter().flat_map(|item| item.first..=item.last)
    }
}

impl Item {
    fn read(item: &[u8]) -> Option<Item> {
        let Some(dash) = item.iter().position(|&byte| byte == b'-') else {
            let alone = number(item)?;
            return Some(Item { first: alone, last: alone });
        };
        let (first, last) = (number(&item[..dash])?, number(&item[dash + 1..])?);
        (first < last).then_some(Item { first, last })
    }

    fn count(&self) -> u64 {
        u64::from(self.last - self.first) + 1
    }
}
