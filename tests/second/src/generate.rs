//! Random derivations that must be accepted: of entailed claims by the proof of
//! completeness, of single rules in general position, by walking forward from whatever
//! rows there are, and of equal formulas swapped one after the other. A model stands beside
//! the claim where it wants one; what no model confirms is followed by a row that one does.
//! Beside these, rows of `swap` that need not pass.

use crate::draft::{Draft, DraftRow, names};
use crate::formula::{Atoms, Formula, FormulaSet, Formulas, Node, rising};
use crate::instance::{MOST_SWAPPED, Step, Verdict, by_algebra, stability};
use crate::judge::{MOST_BYTES, MOST_FORMULAS, MOST_IN_A_POOL, MOST_ON_A_SIDE, MOST_ROWS};
use crate::laws::{EQUALITIES, NEAR_EQUALITIES};
use crate::prove::Prover;
use crate::random::Random;
use crate::rules::{ATOM, B, Bindings, ELK, Rule, SetName, Sets, SideScheme};
use crate::semantics::{Pair, equilibrium_models};
use crate::sequent::{Kind, Sequent};

/// The most atoms used in a derivation; and in swaps, where A and B may have too many.
const FEW: usize = 3;
const MANY: usize = MOST_SWAPPED as usize + 2;

/// The most atoms of which every pair is tried for a model.
pub const MOST_TRIED: usize = 6;

/// A derivation of one of the four sorts.
pub fn any(random: &mut Random) -> Draft {
    match random.below(4) {
        0 => derivation(random),
        1 => {
            let rule = random.below(ELK.rules.len());
            instance(random, &ELK.rules[rule])
        }
        2 => walk(random),
        _ => swaps(random),
    }
}

/// A derivation of an entailed claim over a few atoms. A left without models is made to
/// show that, half of the time.
pub fn derivation(random: &mut Random) -> Draft {
    attempt(random, FEW, |random, atoms| {
        let mut formulas = Formulas::default();
        let mut side = |most: usize| {
            let count = random.below(most + 1);
            (0..count).map(|_| formula(random, &mut formulas, atoms, 3)).collect()
        };
        let mut goal = Sequent { antecedent: side(3), succedent: side(2) };
        if random.once_in(2) && equilibrium_models(&formulas, &goal.antecedent).is_empty() {
            goal.succedent = random.some_of([formulas.falsum()]);
        }
        let mut prover = Prover::new(formulas, Random::new(random.word()));
        let unstable = if random.once_in(2) { prover.prove_unstable(&goal) } else { None };
        let last = unstable.or_else(|| prover.prove(&goal))?;
        prover.rows.truncate(last + 1);
        Some(prover)
    })
}

/// A row of the given rule, with whatever rows it needs before it.
pub fn instance(random: &mut Random, rule: &Rule) -> Draft {
    attempt(random, FEW, |random, atoms| match rule.name {
        "unst" => unstable(random, atoms),
        _ => general(random, atoms, rule),
    })
}

fn unstable(random: &mut Random, atoms: &[u16]) -> Option<Prover> {
    let mut formulas = Formulas::default();
    let count = 1 + random.below(3);
    let antecedent = (0..count).map(|_| formula(random, &mut formulas, atoms, 2)).collect();
    let succedent = (0..random.below(2)).map(|_| formula(random, &mut formulas, atoms, 2)).collect();
    let mut prover = Prover::new(formulas, Random::new(random.word()));
    let last = prover.prove_unstable(&Sequent { antecedent, succedent })?;
    prover.rows.truncate(last + 1);
    Some(prover)
}

/// Arbitrary sets, which may hold the principal and its parts. ELK premises are
/// initial by a common formula; refutations have a common countermodel.
fn general(random: &mut Random, atoms: &[u16], rule: &Rule) -> Option<Prover> {
    let mut formulas = Formulas::default();
    let (bindings, principal, pool) = material(random, &mut formulas, atoms, rule);
    let common = formula(random, &mut formulas, atoms, 2);
    let there = some_atoms(random, atoms);
    let here = some_atoms(random, &rising(there).collect::<Vec<_>>());
    let mut pair = Pair::new(here, there);
    let mut sets = Sets::new();
    for name in [SetName::L, SetName::R, SetName::Q] {
        let mut set: FormulaSet = random.some_of(pool.iter().copied());
        match (rule.conclusion.kind, name, rule.name) {
            (_, SetName::L, "def") => set.retain(|&f| formulas.is_atom(f) && Some(f) != bindings[ATOM]),
            (_, _, "def") => {}
            (Kind::Elk, ..) => drop(set.insert(common)),
            (Kind::Refutation, SetName::L, _) => set.retain(|&f| pair.holds(&formulas, f)),
            (Kind::Refutation, ..) => set.retain(|&f| !pair.holds(&formulas, f)),
        }
        sets.insert(name, set);
    }
    let mut prover = Prover::new(formulas, Random::new(random.word()));
    let mut premises = vec![];
    for scheme in &rule.premises {
        let sequent = ELK.sequent(&mut prover.formulas, scheme, &bindings, &sets);
        premises.push(match scheme.kind {
            Kind::Elk => prover.push(same(common, sequent)),
            Kind::Refutation if pair.refutes(&prover.formulas, &sequent) => {
                prover.refute_at(&sequent, &mut pair)
            }
            Kind::Refutation => return None,
        });
    }
    let sequent = ELK.sequent(&mut prover.formulas, &rule.conclusion, &bindings, &sets);
    prover.push(DraftRow::new(rule.name, principal, &premises, sequent));
    Some(prover)
}

/// Random parts, the principal they make, and formulas to choose the sets from: the
/// principal, its parts, their negations and others, or literals where the rule
/// allows no other.
fn material(
    random: &mut Random,
    formulas: &mut Formulas,
    atoms: &[u16],
    rule: &Rule,
) -> (Bindings, Option<Formula>, Vec<Formula>) {
    let first = formula(random, formulas, atoms, 2);
    let second = match rule.name {
        "swap" => equal_to(random, formulas, atoms, first),
        _ => formula(random, formulas, atoms, 2),
    };
    let bindings: Bindings = [Some(first), Some(second), Some(formulas.atom(random.pick(atoms)))];
    let principal = rule.principal.map(|form| ELK.forms.instantiate(formulas, form, &bindings));
    if matches!(rule.name, "xini" | "def") {
        return (bindings, principal, literals(formulas, atoms));
    }
    let bound: Vec<Formula> = bindings.iter().flatten().copied().chain(principal).collect();
    let mut pool = bound.clone();
    pool.extend(bound.iter().map(|&f| formulas.not(f)));
    pool.extend((0..4).map(|_| formula(random, formulas, atoms, 2)));
    (bindings, principal, pool)
}

/// A row with its premises, of which it isn't asked whether they can be derived.
pub struct LooseStep {
    pub formulas: Formulas,
    pub principal: Option<Formula>,
    pub premises: Vec<Sequent>,
    pub conclusion: Sequent,
    pool: Vec<Formula>,
}

/// A row of a rule for random sets; in `def` and `xini` the sets need not meet the
/// conditions. None if `unst` has no atoms to choose from.
pub fn loose_step(random: &mut Random, rule: &Rule) -> Option<LooseStep> {
    let mut formulas = Formulas::default();
    let (bindings, principal, pool) = material(random, &mut formulas, &[0, 1], rule);
    let mut few = || (0..random.below(4)).map(|_| random.pick(&pool)).collect::<FormulaSet>();
    let mut sets = Sets::from([(SetName::L, few()), (SetName::R, few()), (SetName::Q, few())]);
    if rule.name == "unst" {
        let atoms = formulas.atoms_of(&sets[&SetName::L]);
        let chosen = some_atoms(random, &rising(atoms).collect::<Vec<_>>());
        if chosen == 0 {
            return None;
        }
        sets.extend(stability(&mut formulas, atoms, chosen));
    }
    let mut sequent = |scheme| ELK.sequent(&mut formulas, scheme, &bindings, &sets);
    let premises = rule.premises.iter().map(&mut sequent).collect();
    let conclusion = sequent(&rule.conclusion);
    Some(LooseStep { formulas, principal, premises, conclusion, pool })
}

impl LooseStep {
    pub fn step<'a>(&'a self, rule: &'a Rule) -> Step<'a> {
        let premises = self.premises.iter().collect();
        Step { rule, principal: self.principal, premises, conclusion: &self.conclusion }
    }

    /// Puts a formula into one side, or takes it out.
    pub fn disturb(&mut self, random: &mut Random) {
        let place = random.below(self.premises.len() + 1);
        let sequent = self.premises.get_mut(place).unwrap_or(&mut self.conclusion);
        let side = if random.once_in(2) { &mut sequent.antecedent } else { &mut sequent.succedent };
        let formula = match side.is_empty() || random.once_in(2) {
            true => random.pick(&self.pool),
            false => pick_of(random, side),
        };
        toggle(side, formula);
    }
}

/// Takes a formula out of a set, or puts it in.
fn toggle(set: &mut FormulaSet, formula: Formula) {
    if !set.remove(&formula) {
        set.insert(formula);
    }
}

fn some_atoms(random: &mut Random, atoms: &[u16]) -> Atoms {
    random.some_of::<_, Vec<u16>>(atoms.iter().copied()).iter().map(|k| 1 << k).sum()
}

fn same(common: Formula, sequent: Sequent) -> DraftRow {
    DraftRow::new("same", Some(common), &[], sequent)
}

/// What `xini` allows, on one side or the other.
fn literals(formulas: &mut Formulas, atoms: &[u16]) -> Vec<Formula> {
    let mut pool = vec![formulas.falsum()];
    pool.extend(atoms.iter().map(|&k| formulas.atom(k)));
    let negated: Vec<Formula> = pool.iter().map(|&f| formulas.not(f)).collect();
    [pool, negated].concat()
}

/// Rows found forward: rules at random on rows at random, kept where they apply.
pub fn walk(random: &mut Random) -> Draft {
    attempt(random, FEW, |random, atoms| {
        let mut formulas = Formulas::default();
        let mut pool = literals(&mut formulas, &atoms[..atoms.len().min(2)]);
        pool.extend((0..6).map(|_| formula(random, &mut formulas, atoms, 2)));
        let mut prover = Prover::new(formulas, Random::new(random.word()));
        for _ in 0..400 {
            let rule = random.below(ELK.rules.len());
            if let Some(row) = forward(random, &mut prover, &pool, &ELK.rules[rule]) {
                prover.push(row);
            }
        }
        let last = prover.rows.iter().rposition(|row| row.kind() == Kind::Elk)?;
        prover.rows.truncate(last + 1);
        Some(prover)
    })
}

/// A row by this rule from premises picked at random, if it is an instance.
fn forward(random: &mut Random, prover: &mut Prover, pool: &[Formula], rule: &Rule) -> Option<DraftRow> {
    let mut premises = vec![];
    for scheme in &rule.premises {
        let fit: Vec<usize> =
            (0..prover.rows.len()).filter(|&k| prover.rows[k].kind() == scheme.kind).collect();
        premises.push(*fit.get(random.below(fit.len().max(1)))?);
    }
    let principal = rule.principal.map(|_| random.pick(pool));
    let mut bindings = ELK.bind(&prover.formulas, rule, principal)?;
    if rule.name == "swap" {
        let given = &prover.rows[premises[0]].sequent.antecedent;
        bindings[B] = (!given.is_empty()).then(|| pick_of(random, given));
        bindings[B]?;
    }
    let sets = sets_between(random, prover, pool, rule, &bindings, &premises);
    let sequent = ELK.sequent(&mut prover.formulas, &rule.conclusion, &bindings, &sets);
    let sequents = premises.iter().map(|&k| &prover.rows[k].sequent).collect();
    let step = Step { rule, principal, premises: sequents, conclusion: &sequent };
    let verdict = by_algebra(&ELK, &mut prover.formulas, &step);
    (verdict == Verdict::Instance).then(|| DraftRow::new(rule.name, principal, &premises, sequent))
}

/// For each set of a rule: what all premises with it have in common, less some of the
/// formulas that the rule adds; or a part of the pool where no premise has it.
fn sets_between(
    random: &mut Random,
    prover: &mut Prover,
    pool: &[Formula],
    rule: &Rule,
    bindings: &Bindings,
    premises: &[usize],
) -> Sets {
    let mut sets = Sets::new();
    let mut narrow =
        |formulas: &mut Formulas, random: &mut Random, scheme: &SideScheme, side: &FormulaSet| {
            let added = ELK.named(formulas, scheme, bindings);
            let dropped: FormulaSet = random.some_of(added);
            for &name in &scheme.sets {
                let set = sets.entry(name).or_insert_with(|| side.clone());
                set.retain(|f| side.contains(f) && !dropped.contains(f));
            }
        };
    for (scheme, &k) in rule.premises.iter().zip(premises) {
        let Sequent { antecedent, succedent } = prover.rows[k].sequent.clone();
        narrow(&mut prover.formulas, random, &scheme.antecedent, &antecedent);
        narrow(&mut prover.formulas, random, &scheme.succedent, &succedent);
    }
    for name in [SetName::L, SetName::R, SetName::Q] {
        let few = random.below(4);
        sets.entry(name).or_insert_with(|| (0..few).map(|_| random.pick(pool)).collect());
    }
    sets
}

/// Equal formulas put in the place of each other on the left, over up to 10 atoms.
pub fn swaps(random: &mut Random) -> Draft {
    attempt(random, MANY, |random, atoms| {
        let mut formulas = Formulas::default();
        let mut left: FormulaSet =
            (0..1 + random.below(4)).map(|_| over_some(random, &mut formulas, atoms)).collect();
        let common = pick_of(random, &left);
        let right: FormulaSet = [common, over_some(random, &mut formulas, atoms)].into();
        let mut prover = Prover::new(formulas, Random::new(random.word()));
        let mut last =
            prover.push(same(common, Sequent { antecedent: left.clone(), succedent: right.clone() }));
        for _ in 0..1 + random.below(3) {
            let old = pick_of(random, &left);
            let new = equal_to(random, &mut prover.formulas, atoms, old);
            if prover.formulas.atoms_of(&[old, new]).count_ones() > MOST_SWAPPED {
                continue;
            }
            if !random.once_in(3) {
                left.remove(&old);
            }
            left.insert(new);
            let sequent = Sequent { antecedent: left.clone(), succedent: right.clone() };
            last = prover.push(swap(new, last, sequent));
        }
        Some(prover)
    })
}

/// A row of `swap` that may be none: the formula put in is equal to the one that goes, or
/// comes near, or is another; others beside them may do in its place, or have too many
/// atoms; and the sides may be wrong.
pub fn swap_or_none(random: &mut Random) -> Draft {
    attempt(random, MANY, |random, atoms| {
        let mut formulas = Formulas::default();
        let old = over_some(random, &mut formulas, atoms);
        let new = other_of(random, &mut formulas, atoms, old);
        let mut pool = vec![old, new];
        for _ in 0..random.below(4) {
            pool.push(other_of(random, &mut formulas, atoms, new));
        }
        let kept: FormulaSet = random.some_of(pool.iter().copied());
        let with = |formula| kept.iter().copied().chain([formula]).collect::<FormulaSet>();
        let (premise, mut left) = (with(old), with(new));
        let common = pick_of(random, &premise);
        let mut right = FormulaSet::from([common]);
        let mut prover = Prover::new(formulas, Random::new(random.word()));
        let premise = prover.push(same(common, Sequent { antecedent: premise, succedent: right.clone() }));
        if random.once_in(5) {
            toggle(if random.once_in(4) { &mut right } else { &mut left }, random.pick(&pool));
        }
        prover.push(swap(new, premise, Sequent { antecedent: left, succedent: right }));
        Some(prover)
    })
}

fn swap(new: Formula, premise: usize, sequent: Sequent) -> DraftRow {
    DraftRow::new("swap", Some(new), &[premise], sequent)
}

/// A formula that is equal to another, comes near it, is it, or is any.
fn other_of(random: &mut Random, formulas: &mut Formulas, atoms: &[u16], formula: Formula) -> Formula {
    match random.below(8) {
        0..4 => equal_to(random, formulas, atoms, formula),
        4..6 => {
            let equal = equal_to(random, formulas, atoms, formula);
            NEAR_EQUALITIES.apply(random, formulas, atoms, equal)
        }
        6 => formula,
        _ => over_some(random, formulas, atoms),
    }
}

/// The formula made over by one to three laws into another that holds in the same pairs.
fn equal_to(random: &mut Random, formulas: &mut Formulas, atoms: &[u16], formula: Formula) -> Formula {
    (0..1 + random.below(3)).fold(formula, |made, _| EQUALITIES.apply(random, formulas, atoms, made))
}

/// A small formula, or one in which all atoms occur.
fn over_some(random: &mut Random, formulas: &mut Formulas, atoms: &[u16]) -> Formula {
    if random.once_in(4) {
        return formula(random, formulas, atoms, 2);
    }
    let first = formulas.atom(atoms[0]);
    atoms[1..].iter().fold(first, |whole, &k| {
        let p = formulas.atom(k);
        let literal = if random.once_in(4) { formulas.not(p) } else { p };
        let (a, b) = if random.once_in(2) { (whole, literal) } else { (literal, whole) };
        joined(random, formulas, a, b)
    })
}

pub fn pick_of(random: &mut Random, set: &FormulaSet) -> Formula {
    *set.iter().nth(random.below(set.len())).expect("within the set")
}

/// Tries until a derivation comes about that fits into a file. The atoms used are a few
/// of those that the file names, no more than `most`.
fn attempt(random: &mut Random, most: usize, make: impl Fn(&mut Random, &[u16]) -> Option<Prover>) -> Draft {
    loop {
        // All that a file may name, or a few more than a model may hold, or a few.
        let named = match random.below(8) {
            0 => 64,
            1 | 2 => 17 + random.below(3),
            _ => 3 + random.below(3),
        };
        let used = 1 + random.below(most);
        let named = named.max(used);
        let mut atoms: Vec<u16> = (0..named as u16).collect();
        random.shuffle(&mut atoms);
        let Some(prover) = make(random, &atoms[..used]) else { continue };
        let mut draft = Draft::new(names(named), prover.formulas, &[], prover.rows);
        if used > MOST_TRIED || !draft.confirm(|models| random.pick(models)) {
            draft.close(random.pick(&atoms));
        }
        draft.shuffle(random);
        if fits_a_file(&draft) {
            return draft;
        }
    }
}

pub fn fits_a_file(draft: &Draft) -> bool {
    let sides = |side: fn(&Sequent) -> &FormulaSet| {
        let lengths = draft.rows.iter().map(move |row| side(&row.sequent).len());
        lengths.clone().all(|length| length <= MOST_ON_A_SIDE) && lengths.sum::<usize>() <= MOST_IN_A_POOL
    };
    draft.listed.len() <= MOST_FORMULAS
        && draft.rows.len() <= MOST_ROWS
        && sides(|sequent| &sequent.antecedent)
        && sides(|sequent| &sequent.succedent)
        && draft.text().len() <= MOST_BYTES
}

/// A formula over these atoms, at most so deep.
pub fn formula(random: &mut Random, formulas: &mut Formulas, atoms: &[u16], depth: usize) -> Formula {
    if depth == 0 || random.once_in(4) {
        return match random.once_in(8) {
            true => formulas.falsum(),
            false => formulas.atom(random.pick(atoms)),
        };
    }
    let a = formula(random, formulas, atoms, depth - 1);
    if random.once_in(3) {
        return formulas.not(a);
    }
    let b = formula(random, formulas, atoms, depth - 1);
    joined(random, formulas, a, b)
}

fn joined(random: &mut Random, formulas: &mut Formulas, a: Formula, b: Formula) -> Formula {
    formulas.keep(match random.below(3) {
        0 => Node::And(a, b),
        1 => Node::Or(a, b),
        _ => Node::Implies(a, b),
    })
}
