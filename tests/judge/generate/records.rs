//! Records that fit a draft's symbols, and such as do not.

use super::damage::{damaged, odd_byte};
use super::draft::Draft;
use super::terms::{term, variables};
use crate::random::Random;
use crate::record::{record_bytes, MOST_NODES};
use crate::run::{replaced, Match};
use crate::term::Term;

const HOLES: [u8; 16] = [0, 1, 2, 3, 4, 5, 6, 7, 8, 9, 10, 11, 12, 13, 14, 15];

pub fn record(random: &mut Random, draft: &Draft) -> Vec<u8> {
    let whole = match random.below(10) {
        0..=5 => fitting(random, draft),
        _ => sized(random, draft),
    };
    let bytes = match whole {
        Some(term) => record_bytes(&term),
        None => return (0..random.below(12)).map(|_| odd_byte(random)).collect(),
    };
    match random.below(100) {
        0..=7 => damaged(random, &bytes),
        8..=9 => with_variable(random, bytes),
        _ => bytes,
    }
}

/// A variable-free term over the draft's symbols. Its size may be just below or above the limit.
fn sized(random: &mut Random, draft: &Draft) -> Option<Term> {
    let nodes = match random.below(20) {
        0..=1 => random.between(MOST_NODES - 1, MOST_NODES + 1),
        2 => random.between(100, 2 * MOST_NODES),
        3..=6 => random.between(10, 60),
        _ => random.between(1, 12),
    };
    term(random, &draft.book.arities, &[], nodes)
}

/// A term in which some rule fits: a tower of left sides, put into a context.
fn fitting(random: &mut Random, draft: &Draft) -> Option<Term> {
    if draft.book.rules.is_empty() {
        return sized(random, draft);
    }
    let nodes = random.between(1, 8);
    let context = term(random, &draft.book.arities, &HOLES, nodes)?;
    let mut fillings = small_terms(random, draft)?;
    let height = random.between(1, 14);
    for hole in variables(&context) {
        fillings[usize::from(hole)] = tower(random, draft, height)?;
    }
    Some(replaced(&context, &table(&fillings)))
}

/// A left side whose variables are filled, one of them with such a term again, so that steps follow
/// steps. It may come out above the limit of a record, though not far.
fn tower(random: &mut Random, draft: &Draft, height: usize) -> Option<Term> {
    let mut tower = small_terms(random, draft)?.remove(0);
    for _ in 0..height {
        let left = &random.pick(&draft.book.rules).left;
        let mut fillings = small_terms(random, draft)?;
        let holes = variables(left);
        if !holes.is_empty() {
            fillings[usize::from(*random.pick(&holes))] = tower;
        }
        tower = replaced(left, &table(&fillings));
        if tower.nodes() > MOST_NODES {
            break;
        }
    }
    Some(tower)
}

/// A variable-free term for each variable.
fn small_terms(random: &mut Random, draft: &Draft) -> Option<Vec<Term>> {
    let nodes = random.between(1, 4);
    HOLES.iter().map(|_| term(random, &draft.book.arities, &[], nodes)).collect()
}

fn table(fillings: &[Term]) -> Match<'_> {
    let mut table = [None; 16];
    for (place, filling) in table.iter_mut().zip(fillings) {
        *place = Some(filling);
    }
    table
}

/// A variable node in the place of some node.
fn with_variable(random: &mut Random, mut bytes: Vec<u8>) -> Vec<u8> {
    let node = random.below(bytes.len() / 2);
    bytes[2 * node] = 4;
    bytes
}
