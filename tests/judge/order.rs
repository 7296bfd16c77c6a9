//! "The order": when one term exceeds another under ranks, case by case as document 01 has it.

use crate::book::Book;
use crate::refusal::{refuse, Taken};
use crate::term::Term;

/// A variable exceeds nothing: s must be f(s1..sm).
pub fn exceeds(ranks: &[u8], s: &Term, t: &Term) -> bool {
    match s {
        Term::Variable(_) => false,
        Term::Symbol(..) => by_an_argument(ranks, s, t) || by_rank(ranks, s, t) || by_a_part(ranks, s, t),
    }
}

/// Case (1).
fn by_an_argument(ranks: &[u8], s: &Term, t: &Term) -> bool {
    let (ss, ts) = match (s, t) {
        (Term::Symbol(f, ss), Term::Symbol(g, ts)) if f == g => (ss, ts),
        _ => return false,
    };
    (0..ss.len()).any(|i| {
        ss[..i] == ts[..i]
            && exceeds(ranks, &ss[i], &ts[i])
            && ts[i + 1..].iter().all(|tj| exceeds(ranks, s, tj))
    })
}

/// Case (2).
fn by_rank(ranks: &[u8], s: &Term, t: &Term) -> bool {
    match (s, t) {
        (Term::Symbol(f, _), Term::Symbol(g, ts)) => {
            ranks[usize::from(*f)] > ranks[usize::from(*g)] && ts.iter().all(|tj| exceeds(ranks, s, tj))
        }
        _ => false,
    }
}

/// Case (3), with "identical or exceeds".
fn by_a_part(ranks: &[u8], s: &Term, t: &Term) -> bool {
    s.arguments().iter().any(|si| si == t || exceeds(ranks, si, t))
}

pub fn check_ranks(book: &Book, ranks: &[u8]) -> Taken<()> {
    if ranks.len() != book.symbols() {
        return refuse(7, 0);
    }
    match book.rules.iter().position(|rule| !exceeds(ranks, &rule.left, &rule.right)) {
        Some(rule) => refuse(8, rule),
        None => Ok(()),
    }
}

/// The first table of ranks 0 to n - 1 that clears the book, all n^n tried in turn.
pub fn clearing_ranks(book: &Book) -> Option<Vec<u8>> {
    let mut ranks = vec![0; book.symbols()];
    while check_ranks(book, &ranks).is_err() {
        if !count_up(&mut ranks) {
            return None;
        }
    }
    Some(ranks)
}

/// The next table, read as a number with n digits of base n; false after the last.
fn count_up(ranks: &mut [u8]) -> bool {
    let n = ranks.len();
    for rank in ranks {
        *rank += 1;
        if usize::from(*rank) < n {
            return true;
        }
        *rank = 0;
    }
    false
}
