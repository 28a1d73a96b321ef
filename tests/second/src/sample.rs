//! Random texts to judge, with the lengths of the tables to lend.

use crate::constraint::join;
use crate::corpus::{self, Case};
use crate::draft::{Draft, DraftRow};
use crate::formula::{Formula, Node, rising};
use crate::generate::{self, MOST_TRIED, fits_a_file, formula, pick_of};
use crate::judge::{LEAST, MOST_BYTES, Tables};
use crate::mutate::mutate;
use crate::prove::sequent;
use crate::random::Random;
use crate::rewrite;
use crate::sequent::Sequent;

/// A text, the lengths of the tables lent with it, and its number and line where they
/// are known. The same text with its lists in another writing, where there is one and both
/// are within the most bytes: it has the same answer and the same tables.
pub struct Sample {
    pub text: Vec<u8>,
    pub rewritten: Option<Vec<u8>>,
    pub lent: Tables<usize>,
    pub answer: Option<(u16, usize)>,
}

/// So many damaged copies follow each text.
const DAMAGED_COPIES: usize = 6;

/// Samples without end; the same seed gives the same ones.
pub fn samples(seed: u64) -> impl Iterator<Item = Sample> {
    let mut random = Random::new(seed);
    let cases = corpus::cases();
    let groups: Vec<Vec<Case>> =
        cases.chunk_by(|a, b| a.group() == b.group()).map(<[Case]>::to_vec).collect();
    std::iter::repeat_with(move || batch(&mut random, &groups)).flatten()
}

/// A text, in most cases one whose answer is known, and its damaged copies.
fn batch(random: &mut Random, groups: &[Vec<Case>]) -> Vec<Sample> {
    let (text, answer) = match random.below(16) {
        0..4 => {
            let group = &groups[random.below(groups.len())];
            let case = &group[random.below(group.len())];
            (case.text.clone(), Some((case.number, case.line)))
        }
        4..7 => (generate::swap_or_none(random).text(), None),
        _ => {
            let draft = generate::any(random);
            let (text, answer) = sharpened(random, draft);
            (text, Some(answer))
        }
    };
    let mut samples = vec![lend(random, text.clone(), answer)];
    for _ in 0..DAMAGED_COPIES {
        let damaged = mutate(random, &text);
        samples.push(lend(random, damaged, None));
    }
    samples
}

/// The text of an accepted derivation, or of one whose sheet some constraints have joined since,
/// one after the other; and its answer.
fn sharpened(random: &mut Random, mut draft: Draft) -> (Vec<u8>, (u16, usize)) {
    let mut confirmed = true;
    while random.once_in(3) {
        let mut sharper = draft.clone();
        let open = random.once_in(3) && leave_open(random, &mut sharper);
        let still = sharpen(random, &mut sharper, confirmed || open);
        if random.once_in(2) {
            sharper.shuffle(random);
        }
        if fits_a_file(&sharper) {
            (draft, confirmed) = (sharper, still);
        }
    }
    answered(&draft, confirmed)
}

/// Lets a constraint join the sheet. A model that is none any more is left beside the claim, or
/// gives way to one of the new sheet, or goes where that has none. Gives whether the claim is
/// confirmed now, from whether it was before.
fn sharpen(random: &mut Random, draft: &mut Draft, confirmed: bool) -> bool {
    let forbidden = forbidden(random, draft);
    let stays = join(draft, forbidden, |forms| random.pick(forms)) && confirmed;
    if stays || random.once_in(2) || sheet_atoms(draft).len() > MOST_TRIED {
        return stays;
    }
    let old = draft.model;
    let renewed = draft.confirm(|models| random.pick(models));
    if !renewed && random.once_in(2) {
        draft.model = old;
    }
    renewed
}

/// The text of a derivation, and its answer: all is right, but for the model if the claim is not
/// confirmed.
fn answered(draft: &Draft, confirmed: bool) -> (Vec<u8>, (u16, usize)) {
    let text = draft.text();
    let lines = text.iter().filter(|&&byte| byte == b'\n').count();
    let answer = match draft.model {
        _ if confirmed => (0, lines),
        Some(_) => (17, lines - 1),
        None => (15, lines),
    };
    (text, answer)
}

/// Adds a row whose left is p|q and r|~r, so that it has several models, and one of these. Most
/// other claims have a single one, and no other is left when it goes.
fn leave_open(random: &mut Random, draft: &mut Draft) -> bool {
    let formulas = &mut draft.formulas;
    let [p, q, r] = [(); 3].map(|()| formulas.atom(random.below(draft.names.len()) as u16));
    let not_r = formulas.not(r);
    let [either, choice] = [Node::Or(p, q), Node::Or(r, not_r)].map(|node| formulas.keep(node));
    let claim = sequent(&[either, choice].into(), &[either].into());
    draft.push(DraftRow::new("same", Some(either), &[], claim));
    draft.confirm(|models| random.pick(models))
}

/// A formula over some of the sheet's atoms and one of the file, which the sheet may lack; or
/// one that is claimed or stands in the sheet.
fn forbidden(random: &mut Random, draft: &mut Draft) -> Formula {
    let Sequent { antecedent, succedent } = claim(draft);
    let held = antecedent | succedent;
    if !held.is_empty() && random.once_in(6) {
        return pick_of(random, &held);
    }
    let mut atoms = sheet_atoms(draft);
    random.shuffle(&mut atoms);
    atoms.truncate(2);
    atoms.push(random.below(draft.names.len()) as u16);
    formula(random, &mut draft.formulas, &atoms, 2)
}

fn claim(draft: &Draft) -> &Sequent {
    &draft.rows.last().expect("a row to claim").sequent
}

fn sheet_atoms(draft: &Draft) -> Vec<u16> {
    rising(draft.formulas.atoms_of(&claim(draft).antecedent)).collect()
}

/// The text in some writing of its lists, and tables of the least lengths or with room to
/// spare; now and then one is too short.
fn lend(random: &mut Random, mut text: Vec<u8>, answer: Option<(u16, usize)>) -> Sample {
    let mut rewritten = None;
    if text.len() <= MOST_BYTES {
        text = rewrite::at_random(random, &text).unwrap_or(text);
        rewritten = rewrite::at_random(random, &text).filter(|other| *other != text);
    }
    let most_to_spare = random.pick(&[0, 1, 99]);
    let short = random.once_in(40).then(|| random.below(5));
    let mut tables = 0..5;
    let lent = LEAST.map(|least| match tables.next() == short {
        true if random.once_in(2) => random.below(least),
        true => least - 1,
        false => least + random.below(most_to_spare + 1),
    });
    let answer = if short.is_some() { Some((1, 0)) } else { answer };
    Sample { text, rewritten, lent, answer }
}

#[cfg(test)]
mod tests {
    use super::*;
    use crate::judge::judge;

    /// Models that stay, that give way to others, that are missing where none is left, and that
    /// are none any more.
    #[test]
    fn constraints_join_with_every_answer() {
        let mut random = Random::new(106);
        let mut counts = [0; 4];
        for _ in 0..400 {
            let mut draft = generate::any(&mut random);
            if random.once_in(3) {
                leave_open(&mut random, &mut draft);
            }
            let old = draft.model;
            let confirmed = sharpen(&mut random, &mut draft, true);
            let (text, answer) = answered(&draft, confirmed);
            let judgement = judge(&text, &LEAST);
            assert_eq!((judgement.number, judgement.line), answer);
            counts[match answer.0 {
                0 if draft.model == old => 0,
                0 => 1,
                15 => 2,
                _ => 3,
            }] += 1;
        }
        assert!(counts.iter().all(|&count| count > 10), "{counts:?}");
    }
}
