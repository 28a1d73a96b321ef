//! What the accepted beginning of a text holds, and the tests of the line that comes next.

use crate::formula::{Atoms, Formula, Formulas, Node};
use crate::instance::{self, Step, Verdict};
use crate::judge::{
    Deciding, Derivation, MOST_ATOMS, MOST_FORMULAS, MOST_IN_A_MODEL, MOST_IN_A_POOL, MOST_ON_A_SIDE,
    MOST_ROWS, Refusal, Tables, WrittenRow,
};
use crate::line::{Line, Number, Row, Word};
use crate::list::List;
use crate::rules::ELK;
use crate::semantics::in_equilibrium;
use crate::sequent::{Kind, Sequent};

/// What an absent field holds in a table.
pub const ABSENT: u16 = 65_535;

/// How far the kinds of lines have come.
#[derive(Clone, Copy, Eq, Ord, PartialEq, PartialOrd)]
enum Stage {
    Atoms,
    Formulas,
    Rows,
    Modelled,
    Claimed,
}

/// What an M line says, and where it stands.
struct Model {
    line: usize,
    atoms: Atoms,
}

struct StoredRow {
    kind: Kind,
    sequent: Sequent,
    record: [u16; 8],
    written: WrittenRow,
}

/// What the accepted beginning of a text holds.
pub struct Checker<'t> {
    text: &'t [u8],
    deciding: Deciding<'t>,
    stage: Stage,
    names: Vec<&'t [u8]>,
    formulas: Formulas,
    numbered: Vec<Formula>,
    rows: Vec<StoredRow>,
    model: Option<Model>,
    tables: Tables<Vec<u16>>,
}

impl<'t> Checker<'t> {
    pub fn new(text: &'t [u8], deciding: Deciding<'t>) -> Self {
        Checker {
            text,
            deciding,
            stage: Stage::Atoms,
            names: vec![],
            formulas: Formulas::default(),
            numbered: vec![],
            rows: vec![],
            model: None,
            tables: Tables::default(),
        }
    }

    /// Over so many atoms, of whose names nothing is known: no A line is to come.
    pub fn over_atoms(count: usize) -> Self {
        Checker { names: vec![b""; count], ..Checker::new(b"", Deciding::Fast) }
    }

    /// Judges one line that is well written, in its place in the text, and takes it in;
    /// gives the claim if the line is one. In each kind of line the tests stand in the
    /// order of the papers, which is that of their numbers but for 18, and the first that
    /// applies is given.
    pub fn take(&mut self, place: usize, line: Line) -> Result<Option<Sequent>, Refusal> {
        match line {
            Line::Atom { number, name } => {
                self.next_in_order(Stage::Atoms, number, self.names.len())?;
                self.take_atom(name.start, &self.text[name])?;
                Ok(None)
            }
            Line::Formula { number, word } => {
                self.next_in_order(Stage::Formulas, number, self.numbered.len())?;
                self.take_formula(word)?;
                Ok(None)
            }
            Line::Row { number, row } => {
                self.next_in_order(Stage::Rows, number, self.rows.len())?;
                self.take_row(row)?;
                Ok(None)
            }
            Line::Model { atoms } => {
                self.in_order(Stage::Modelled)?;
                self.model = Some(Model { line: place, atoms: self.atoms(&atoms)? });
                Ok(None)
            }
            Line::Claim { left, right } => {
                self.in_order(Stage::Claimed)?;
                Ok(Some(self.claim(&left, &right)?))
            }
        }
    }

    /// A model and a claim come once.
    fn in_order(&mut self, stage: Stage) -> Result<(), Refusal> {
        let again = self.stage == stage && stage < Stage::Modelled;
        ensure(self.stage < stage || again, Refusal::OutOfOrder)?;
        self.stage = stage;
        Ok(())
    }

    fn next_in_order(&mut self, stage: Stage, number: Number, held: usize) -> Result<(), Refusal> {
        self.in_order(stage)?;
        ensure(number as usize == held, Refusal::OutOfOrder)
    }

    fn take_atom(&mut self, start: usize, name: &'t [u8]) -> Result<(), Refusal> {
        ensure(self.names.len() < MOST_ATOMS, Refusal::Full)?;
        ensure(well_formed(name) && !self.names.contains(&name), Refusal::BadName)?;
        self.names.push(name);
        self.tables.names.extend([start as u16, name.len() as u16]);
        Ok(())
    }

    pub fn take_formula(&mut self, word: Word) -> Result<(), Refusal> {
        ensure(self.numbered.len() < MOST_FORMULAS, Refusal::Full)?;
        let node = self.node(word)?;
        ensure(self.formulas.find(node).is_none(), Refusal::FormulaAgain)?;
        self.numbered.push(self.formulas.keep(node));
        self.tables.formulas.extend(formula_record(word));
        Ok(())
    }

    fn node(&self, word: Word) -> Result<Node, Refusal> {
        Ok(match word {
            Word::Bot => Node::Falsum,
            Word::Atom(k) => {
                ensure((k as usize) < self.names.len(), Refusal::NoSuchItem)?;
                Node::Atom(k as u16)
            }
            Word::Not(i) => Node::Not(self.formula(i)?),
            Word::And(i, j) => Node::And(self.formula(i)?, self.formula(j)?),
            Word::Or(i, j) => Node::Or(self.formula(i)?, self.formula(j)?),
            Word::Imp(i, j) => Node::Implies(self.formula(i)?, self.formula(j)?),
        })
    }

    fn formula(&self, number: Number) -> Result<Formula, Refusal> {
        self.numbered.get(number as usize).copied().ok_or(Refusal::NoSuchItem)
    }

    pub fn take_row(&mut self, row: Row) -> Result<(), Refusal> {
        let room = |pool: &[u16], side: &List| pool.len() as u64 + side.count() <= MOST_IN_A_POOL as u64;
        ensure(self.rows.len() < MOST_ROWS, Refusal::Full)?;
        ensure(room(&self.tables.left, &row.left) && room(&self.tables.right, &row.right), Refusal::Full)?;
        let principal = row.principal.map(|number| self.formula(number)).transpose()?;
        let missing = |&number: &Number| number as usize >= self.rows.len();
        ensure(!row.premises.iter().any(missing), Refusal::NoSuchItem)?;
        let sequent = self.sequent(&row.left, &row.right)?;
        self.premises_fit(&row)?;
        match self.decide(&row, principal, &sequent) {
            Verdict::Instance => self.store(row, sequent),
            Verdict::TooManyAtoms => return Err(Refusal::TooManyAtoms),
            Verdict::NoInstance => return Err(Refusal::WrongStep),
        }
        Ok(())
    }

    /// The sequent of two sides, if all their formulas exist (7) and both are in
    /// order (9).
    fn sequent(&self, left: &List, right: &List) -> Result<Sequent, Refusal> {
        let held = self.numbered.len();
        ensure(left.below(held) && right.below(held), Refusal::NoSuchItem)?;
        ensure(well_ordered(left) && well_ordered(right), Refusal::BadSide)?;
        let set = |side: &List| side.numbers().map(|number| self.numbered[number as usize]).collect();
        Ok(Sequent { antecedent: set(left), succedent: set(right) })
    }

    /// The set of a list of atoms, if they all exist (7) and are in order (9).
    fn atoms(&self, list: &List) -> Result<Atoms, Refusal> {
        ensure(list.below(self.names.len()), Refusal::NoSuchItem)?;
        ensure(well_ordered(list), Refusal::BadSide)?;
        Ok(list.numbers().map(|number| 1 << number).sum())
    }

    fn premises_fit(&self, row: &Row) -> Result<(), Refusal> {
        let rule = &ELK.rules[row.rule];
        let kinds = row.premises.iter().map(|&premise| self.rows[premise as usize].kind);
        let fit = kinds.eq(rule.premises.iter().map(|premise| premise.kind))
            && row.principal.is_some() == rule.principal.is_some();
        ensure(fit, Refusal::WrongPremises)
    }

    fn decide(&mut self, row: &Row, principal: Option<Formula>, conclusion: &Sequent) -> Verdict {
        let premises = row.premises.iter().map(|&premise| &self.rows[premise as usize].sequent);
        let rule = &ELK.rules[row.rule];
        let step = Step { rule, principal, premises: premises.collect(), conclusion };
        let decided = instance::by_algebra(&ELK, &mut self.formulas, &step);
        if let Deciding::Compared(count) = self.deciding
            && let Some(searched) = instance::by_search(&ELK, &mut self.formulas, &step)
        {
            assert_eq!(decided, searched, "{} by algebra and by search", rule.name);
            count.set(count.get() + 1);
        }
        decided
    }

    fn store(&mut self, row: Row, sequent: Sequent) {
        let place = |pool: &mut Vec<u16>, side: &List| {
            let start = pool.len() as u16;
            pool.extend(side.numbers().map(|number| number as u16));
            [start, side.count() as u16]
        };
        let [left_start, left_length] = place(&mut self.tables.left, &row.left);
        let [right_start, right_length] = place(&mut self.tables.right, &row.right);
        let field = |number: Option<&Number>| number.map_or(ABSENT, |&number| number as u16);
        let record = [
            row.rule as u16,
            field(row.principal.as_ref()),
            field(row.premises.first()),
            field(row.premises.get(1)),
            left_start,
            left_length,
            right_start,
            right_length,
        ];
        let kind = ELK.rules[row.rule].conclusion.kind;
        self.rows.push(StoredRow { kind, sequent, record, written: self.written(&row) });
    }

    /// A row whose items all exist.
    fn written(&self, row: &Row) -> WrittenRow {
        let formula = |number: Number| self.numbered[number as usize];
        WrittenRow {
            rule: row.rule,
            principal: row.principal.map(formula),
            premises: row.premises.iter().map(|&number| number as usize).collect(),
            left: row.left.numbers().map(formula).collect(),
            right: row.right.numbers().map(formula).collect(),
        }
    }

    fn claim(&self, left: &List, right: &List) -> Result<Sequent, Refusal> {
        let claim = self.sequent(left, right)?;
        let derived = self.rows.last().is_some_and(|row| row.kind == Kind::Elk && row.sequent == claim);
        ensure(derived, Refusal::ClaimDiffers)?;
        Ok(claim)
    }

    /// Asks of a claim that the last row derives whether it has the model that it wants:
    /// else the number, with the model's line, or the claim's if there is none.
    pub fn confirm(&self, line: usize, claim: &Sequent) -> Result<(), (Refusal, usize)> {
        let line = self.model.as_ref().map_or(line, |model| model.line);
        let require = |holds, otherwise| ensure(holds, otherwise).map_err(|refusal| (refusal, line));
        require(claim.wants_model(&self.formulas) == self.model.is_some(), Refusal::ModelMissingOrUnwanted)?;
        let Some(Model { atoms, .. }) = self.model else { return Ok(()) };
        require(atoms.count_ones() <= MOST_IN_A_MODEL, Refusal::ModelTooLarge)?;
        require(in_equilibrium(&self.formulas, atoms, &claim.antecedent), Refusal::NotInEquilibrium)
    }

    /// How many atoms there are.
    pub fn atoms_held(&self) -> usize {
        self.names.len()
    }

    /// The used part of each table.
    pub fn tables(&self) -> Tables<Vec<u16>> {
        let records = self.rows.iter().flat_map(|row| row.record).collect();
        Tables { rows: records, ..self.tables.clone() }
    }

    /// The used part of each table, and the derivation.
    pub fn finished(self, claim: Sequent) -> (Tables<Vec<u16>>, Derivation) {
        let tables = self.tables();
        let name = |name: &&[u8]| String::from_utf8_lossy(name).into_owned();
        let names = self.names.iter().map(name).collect();
        let split = |row: StoredRow| ((row.kind, row.sequent), row.written);
        let (rows, written) = self.rows.into_iter().map(split).unzip();
        let model = self.model.map(|model| model.atoms);
        (tables, Derivation { names, formulas: self.formulas, rows, written, model, claim })
    }
}

pub fn ensure(holds: bool, otherwise: Refusal) -> Result<(), Refusal> {
    if holds { Ok(()) } else { Err(otherwise) }
}

/// Strictly rising, and not over the most.
fn well_ordered(list: &List) -> bool {
    list.rises() && list.count() <= MOST_ON_A_SIDE as u64
}

fn well_formed(name: &[u8]) -> bool {
    let allowed = |byte: &u8| matches!(byte, b'a'..=b'z' | b'0'..=b'9' | b'_');
    matches!(name.len(), 1..=24) && name[0].is_ascii_lowercase() && name.iter().all(allowed)
}

fn formula_record(word: Word) -> [u16; 3] {
    let (code, first, second) = match word {
        Word::Bot => (0, None, None),
        Word::Atom(k) => (1, Some(k), None),
        Word::Not(i) => (2, Some(i), None),
        Word::And(i, j) => (3, Some(i), Some(j)),
        Word::Or(i, j) => (4, Some(i), Some(j)),
        Word::Imp(i, j) => (5, Some(i), Some(j)),
    };
    let field = |number: Option<Number>| number.map_or(ABSENT, |number| number as u16);
    [code, field(first), field(second)]
}
