//! The rows of an accepted file in words, as docs/FORMAT.md has them.
//!
//! Formulas share parts, so that the words of a file can be longer than any text that
//! can be lent. They are written piece by piece, and no further than the lent text.

use crate::formula::{Formula, Node};
use crate::judge::{Deciding, Derivation, Judgement, Refusal, Tables, WrittenRow, judge_closely};
use crate::rules::ELK;
use crate::sequent::Kind;

/// What each rule means, by its code.
#[rustfmt::skip]
pub const MEANINGS: [(&str, &str); 38] = [
    ("def", "only atoms are given, so the negation of an atom that is not given holds by default"),
    ("same", "a given formula is itself one of the alternatives"),
    ("andl", "two given parts are given together as their conjunction"),
    ("andr", "each of two parts is shown as an alternative, so their conjunction is one"),
    ("wr", "one more alternative is added to those already shown"),
    ("bot", "contradiction is dropped from the alternatives, as it never holds"),
    ("orr", "two alternatives are put together as their disjunction"),
    ("orl", "each part of a given disjunction is taken in turn, the second with the first as one more alternative"),
    ("notl", "an alternative is dropped, as its negation is given"),
    ("impr", "an implication takes the place of its second part among the alternatives, and its first part is no longer given"),
    ("impl", "an implication is given, as the first row has its second part given and shows its first part negated, the second its first part"),
    ("notr", "a formula is no longer given, and its negation is one more alternative"),
    ("rcut", "a formula that the first row has as an alternative and the second row as given is cut out, and the rest is joined"),
    ("unst", "the one set of atoms that is left as a model is not stable, as the second row shows, so any alternatives may stand"),
    ("xini", "the counter-case can be read off, as there are only atoms, contradiction and negations of these"),
    ("xnnl", "a double negation holds in the counter-case, as the single negation does not"),
    ("xnnr", "a double negation does not hold in the counter-case, as the single negation does"),
    ("xandl", "a conjunction holds in the counter-case, as both its parts do"),
    ("xandr1", "a conjunction does not hold in the counter-case, as its first part does not"),
    ("xandr2", "a conjunction does not hold in the counter-case, as its second part does not"),
    ("xorr", "a disjunction does not hold in the counter-case, as neither of its parts does"),
    ("xorl1", "a disjunction holds in the counter-case, as its first part does"),
    ("xorl2", "a disjunction holds in the counter-case, as its second part does"),
    ("ximpl1", "an implication holds in the counter-case, as neither its first part nor the negation of its second part does"),
    ("ximpl2", "an implication holds in the counter-case, as its second part does"),
    ("ximpl3", "an implication holds in the counter-case, as the negation of its first part does"),
    ("ximpr1", "an implication does not hold in the counter-case, as its first part does and its second part does not"),
    ("ximpr2", "an implication does not hold in the counter-case, as the negation of its second part does and that of its first part does not"),
    ("xnimpl", "a negated implication holds in the counter-case, as the negation of its second part does and that of its first part does not"),
    ("xnimpr1", "a negated implication does not hold in the counter-case, as the negation of its first part does"),
    ("xnimpr2", "a negated implication does not hold in the counter-case, as the negation of its second part does not"),
    ("xnandl1", "a negated conjunction holds in the counter-case, as the negation of its first part does"),
    ("xnandl2", "a negated conjunction holds in the counter-case, as the negation of its second part does"),
    ("xnandr", "a negated conjunction does not hold in the counter-case, as the negation of neither part does"),
    ("xnorl", "a negated disjunction holds in the counter-case, as the negations of both its parts do"),
    ("xnorr1", "a negated disjunction does not hold in the counter-case, as the negation of its first part does not"),
    ("xnorr2", "a negated disjunction does not hold in the counter-case, as the negation of its second part does not"),
    ("swap", "a formula takes the place of a given one that holds in the same cases of here-and-there"),
];

/// The words of a list: before it, between its items, and in its place if it is empty.
pub struct Listing {
    pub opening: &'static str,
    pub between: &'static str,
    pub empty: &'static str,
}

pub const PREMISES: Listing =
    Listing { opening: "from row ", between: " and row ", empty: "from no other row" };

/// The words of the left side.
pub fn left_listing(kind: Kind) -> Listing {
    match kind {
        Kind::Elk => Listing {
            opening: "if these are all that is given: ",
            between: ", ",
            empty: "if nothing is given",
        },
        Kind::Refutation => Listing {
            opening: "there is a counter-case in here-and-there where all of these hold: ",
            between: ", ",
            empty: "there is a counter-case in here-and-there where nothing need hold",
        },
    }
}

/// The words of the right side.
pub fn right_listing(kind: Kind) -> Listing {
    match kind {
        Kind::Elk => Listing {
            opening: "then in every equilibrium model at least one of these alternatives holds: ",
            between: ", ",
            empty: "then there is no equilibrium model",
        },
        Kind::Refutation => {
            Listing { opening: "and none of these holds: ", between: ", ", empty: "and nothing need fail" }
        }
    }
}

/// What the call answers and leaves: number, line, and each lent table and the lent text
/// to its end.
#[derive(Debug, Eq, PartialEq)]
pub struct Answer {
    pub number: u16,
    pub line: usize,
    pub tables: Tables<Vec<u16>>,
    pub words: Vec<u8>,
}

/// Judges a text with tables of these lengths and so many bytes lent, and tells it.
pub fn words(text: &[u8], lent: &Tables<usize>, space: usize) -> Answer {
    let (judgement, derivation) = judge_closely(text, lent, Deciding::Fast);
    answer(&judgement, derivation.as_ref(), space)
}

/// The answer to a text that has been judged.
pub fn answer(judgement: &Judgement, derivation: Option<&Derivation>, space: usize) -> Answer {
    let tables = judgement.tables.clone();
    let refused = |number, line| Answer {
        number,
        line,
        tables: tables.clone().map(|table| vec![0; table.len()]),
        words: vec![0; space],
    };
    let Some(derivation) = derivation else { return refused(judgement.number, judgement.line) };
    let Some(mut words) = written(derivation, space) else { return refused(Refusal::NoRoom as u16, 0) };
    words.resize(space, 0);
    Answer { number: judgement.number, line: judgement.line, tables, words }
}

/// The sentences of all rows, if they fit into so many bytes.
pub fn written(derivation: &Derivation, space: usize) -> Option<Vec<u8>> {
    let mut writer = Writer { derivation, space, written: vec![] };
    for (number, row) in derivation.written.iter().enumerate() {
        for piece in sentence(number, row) {
            writer.put(&piece)?;
        }
    }
    Some(writer.written)
}

/// The length of the sentences, each formula counted once; the largest number stands for
/// all that are larger.
pub fn length(derivation: &Derivation) -> u64 {
    let formulas = &derivation.formulas;
    let mut lengths: Vec<u64> = vec![];
    let sum = |lengths: &[u64], pieces: &[Piece]| {
        let length = |piece: &Piece| match piece {
            Piece::Words(words) => words.len() as u64,
            Piece::Formula(formula) => lengths[formulas.place(*formula)],
        };
        pieces.iter().map(length).fold(0, u64::saturating_add)
    };
    for &node in formulas.nodes() {
        lengths.push(sum(&lengths, &spelled(&derivation.names, node)));
    }
    let rows = derivation.written.iter().enumerate();
    rows.map(|(number, row)| sum(&lengths, &sentence(number, row))).fold(0, u64::saturating_add)
}

/// A part of a sentence.
enum Piece<'a> {
    Words(std::borrow::Cow<'a, str>),
    Formula(Formula),
}

fn fixed(words: &str) -> Piece<'_> {
    Piece::Words(words.into())
}

/// A sentence has the row number, the meaning, the principal, the premises and both
/// sides.
fn sentence(number: usize, row: &WrittenRow) -> Vec<Piece<'static>> {
    let kind = ELK.rules[row.rule].conclusion.kind;
    let mut pieces = vec![fixed("Row "), decimal(number), fixed(": "), fixed(MEANINGS[row.rule].1)];
    pieces.push(fixed("; "));
    match row.principal {
        Some(formula) => pieces.extend([fixed("about the formula "), Piece::Formula(formula)]),
        None => pieces.push(fixed("about no single formula")),
    }
    pieces.push(fixed("; "));
    pieces.extend(listed(PREMISES, row.premises.iter().map(|&premise| decimal(premise))));
    pieces.push(fixed("; "));
    pieces.extend(listed(left_listing(kind), row.left.iter().map(|&formula| Piece::Formula(formula))));
    pieces.push(fixed("; "));
    pieces.extend(listed(right_listing(kind), row.right.iter().map(|&formula| Piece::Formula(formula))));
    pieces.push(fixed(".\n"));
    pieces
}

fn decimal(number: usize) -> Piece<'static> {
    Piece::Words(number.to_string().into())
}

fn listed(listing: Listing, items: impl ExactSizeIterator<Item = Piece<'static>>) -> Vec<Piece<'static>> {
    if items.len() == 0 {
        return vec![fixed(listing.empty)];
    }
    let mut pieces = vec![];
    for (place, item) in items.enumerate() {
        pieces.push(fixed(if place == 0 { listing.opening } else { listing.between }));
        pieces.push(item);
    }
    pieces
}

/// A formula in full brackets, and names in quotes.
fn spelled(names: &[String], node: Node) -> Vec<Piece<'_>> {
    let part = Piece::Formula;
    match node {
        Node::Falsum => vec![fixed("contradiction")],
        Node::Atom(k) => vec![fixed("\""), fixed(&names[k as usize]), fixed("\"")],
        Node::Not(a) => vec![fixed("not "), part(a)],
        Node::And(a, b) => vec![fixed("("), part(a), fixed(" and "), part(b), fixed(")")],
        Node::Or(a, b) => vec![fixed("("), part(a), fixed(" or "), part(b), fixed(")")],
        Node::Implies(a, b) => vec![fixed("(if "), part(a), fixed(" then "), part(b), fixed(")")],
    }
}

struct Writer<'a> {
    derivation: &'a Derivation,
    space: usize,
    written: Vec<u8>,
}

impl Writer<'_> {
    /// None if there is no room. Every formula has words of its own before those of its
    /// parts, so that the calls are no more than the bytes.
    fn put(&mut self, piece: &Piece) -> Option<()> {
        match piece {
            Piece::Words(words) => {
                if self.written.len() + words.len() > self.space {
                    return None;
                }
                self.written.extend(words.as_bytes());
            }
            Piece::Formula(formula) => {
                let node = self.derivation.formulas.node(*formula);
                for piece in spelled(&self.derivation.names, node) {
                    self.put(&piece)?;
                }
            }
        }
        Some(())
    }
}
