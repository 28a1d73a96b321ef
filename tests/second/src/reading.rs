//! Words read back: what the sentences of a file say, row by row.
//!
//! That every accepted text's words read back as its rows shows, of these texts, that
//! equal words come from equal rows.

use crate::formula::{Formula, Node};
use crate::judge::Derivation;
use crate::rules::ELK;
use crate::words::{Listing, MEANINGS, PREMISES, left_listing, right_listing};

/// A row with formulas in the place of their numbers and names in that of atoms'. A
/// formula is in prefix notation, a full stop after each name.
#[derive(Clone, Debug, Eq, Hash, PartialEq)]
pub struct Told {
    pub rule: usize,
    pub principal: Option<String>,
    pub premises: Vec<usize>,
    pub left: Vec<String>,
    pub right: Vec<String>,
}

/// The rows of a file. A formula is as long as its words here: ask first how long these
/// are.
pub fn told(derivation: &Derivation) -> Vec<Told> {
    let prefix = |formula: &Formula| {
        let mut signs = String::new();
        put_prefix(derivation, *formula, &mut signs);
        signs
    };
    let rows = derivation.written.iter().map(|row| Told {
        rule: row.rule,
        principal: row.principal.as_ref().map(prefix),
        premises: row.premises.clone(),
        left: row.left.iter().map(prefix).collect(),
        right: row.right.iter().map(prefix).collect(),
    });
    rows.collect()
}

fn put_prefix(derivation: &Derivation, formula: Formula, signs: &mut String) {
    let node = derivation.formulas.node(formula);
    match node {
        Node::Falsum => *signs += "#",
        Node::Atom(k) => *signs += &format!("{}.", derivation.names[k as usize]),
        Node::Not(_) => *signs += "~",
        Node::And(..) => *signs += "&",
        Node::Or(..) => *signs += "|",
        Node::Implies(..) => *signs += ">",
    }
    for part in node.parts() {
        put_prefix(derivation, part, signs);
    }
}

/// Reads the sentences of all rows; None if these are not the words of any.
pub fn read(words: &[u8]) -> Option<Vec<Told>> {
    let mut reader = Reader { rest: std::str::from_utf8(words).ok()? };
    let mut rows = vec![];
    while !reader.rest.is_empty() {
        rows.push(reader.sentence(rows.len())?);
    }
    Some(rows)
}

struct Reader<'a> {
    rest: &'a str,
}

impl<'a> Reader<'a> {
    fn takes(&mut self, words: &str) -> Option<()> {
        self.rest = self.rest.strip_prefix(words)?;
        Some(())
    }

    /// What stands before a sign, which is passed.
    fn until(&mut self, sign: &str) -> Option<&'a str> {
        let (before, rest) = self.rest.split_once(sign)?;
        self.rest = rest;
        Some(before)
    }

    fn sentence(&mut self, number: usize) -> Option<Told> {
        self.takes("Row ")?;
        self.takes(&number.to_string())?;
        self.takes(": ")?;
        let phrase = self.until("; ")?;
        let rule = MEANINGS.iter().position(|&(_, meaning)| meaning == phrase)?;
        let kind = ELK.rules[rule].conclusion.kind;
        let principal = match self.takes("about no single formula") {
            Some(()) => None,
            None => {
                self.takes("about the formula ")?;
                Some(self.formula()?)
            }
        };
        self.takes("; ")?;
        let premises = self.list(PREMISES, Self::number)?;
        self.takes("; ")?;
        let left = self.list(left_listing(kind), Self::formula)?;
        self.takes("; ")?;
        let right = self.list(right_listing(kind), Self::formula)?;
        self.takes(".\n")?;
        Some(Told { rule, principal, premises, left, right })
    }

    fn list<T>(&mut self, listing: Listing, item: fn(&mut Self) -> Option<T>) -> Option<Vec<T>> {
        let mut items = vec![];
        if self.takes(listing.empty).is_some() {
            return Some(items);
        }
        self.takes(listing.opening)?;
        items.push(item(self)?);
        while self.takes(listing.between).is_some() {
            items.push(item(self)?);
        }
        Some(items)
    }

    fn number(&mut self) -> Option<usize> {
        let end = self.rest.find(|c: char| !c.is_ascii_digit())?;
        let (digits, rest) = self.rest.split_at(end);
        self.rest = rest;
        digits.parse().ok()
    }

    fn formula(&mut self) -> Option<String> {
        if self.takes("contradiction").is_some() {
            return Some("#".into());
        }
        if self.takes("not ").is_some() {
            return Some(format!("~{}", self.formula()?));
        }
        if self.takes("\"").is_some() {
            return Some(format!("{}.", self.until("\"")?));
        }
        self.takes("(")?;
        let implies = self.takes("if ").is_some();
        let first = self.formula()?;
        let sign = match implies {
            true => self.takes(" then ").map(|()| ">")?,
            false => match self.takes(" and ") {
                Some(()) => "&",
                None => self.takes(" or ").map(|()| "|")?,
            },
        };
        let second = self.formula()?;
        self.takes(")")?;
        Some(format!("{sign}{first}{second}"))
    }
}
