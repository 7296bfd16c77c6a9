//! Tables of ranks for a draft: such as clear it, random ones, and tables of a wrong length.

use super::draft::Draft;
use crate::random::Random;

pub fn ranks(random: &mut Random, draft: &Draft) -> Vec<u8> {
    let n = draft.book.symbols();
    match (random.below(100), draft.clearing()) {
        (0..=59, Some(clearing)) => good(random, clearing),
        (60..=69, Some(mut clearing)) if n > 0 => {
            clearing[random.below(n)] = random.below(n) as u8;
            clearing
        }
        (70..=75, _) => {
            let length = wrong_length(random, n);
            (0..length).map(|_| random.below(n + 1) as u8).collect()
        }
        (76..=82, _) => (0..n).map(|_| random.byte()).collect(),
        _ => (0..n).map(|_| random.below(n) as u8).collect(),
    }
}

/// Ranks that clear the draft wherever such are known.
pub fn clearing_or_random(random: &mut Random, draft: &Draft) -> Vec<u8> {
    match draft.clearing() {
        Some(clearing) => good(random, clearing),
        None => ranks(random, draft),
    }
}

fn good(random: &mut Random, clearing: Vec<u8>) -> Vec<u8> {
    if random.in_1000(300) {
        spread(random, &clearing)
    } else {
        clearing
    }
}

/// Other numbers in the same order, up to 255.
fn spread(random: &mut Random, ranks: &[u8]) -> Vec<u8> {
    let most = ranks.iter().max().map_or(0, |most| usize::from(*most));
    let mut values: Vec<u8> = (0..=255).collect();
    while values.len() > most + 1 {
        values.remove(random.below(values.len()));
    }
    ranks.iter().map(|rank| values[usize::from(*rank)]).collect()
}

fn wrong_length(random: &mut Random, n: usize) -> usize {
    *random.pick(&[0, n + 1, n + 2, n.saturating_sub(1), n / 2, 16, 17, 300])
}
