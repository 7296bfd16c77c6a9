//! "A run": matching, one step, and steps against a budget.

use crate::book::Rule;
use crate::record::MOST_NODES;
use crate::term::Term;

/// What each of the 16 variables stands for, if anything.
pub type Match<'a> = [Option<&'a Term>; 16];

#[derive(Clone, Copy, Debug, PartialEq)]
pub enum Outcome {
    Done = 1,
    Spent = 2,
    TooLarge = 3,
}

pub struct Ran {
    pub outcome: Outcome,
    pub steps: u64,
    pub term: Term,
}

/// Whether `left` fits `term` under a replacement that agrees with `table`, which is filled on the way.
fn fits<'a>(left: &Term, term: &'a Term, table: &mut Match<'a>) -> bool {
    match (left, term) {
        (Term::Variable(x), _) => *table[usize::from(*x)].get_or_insert(term) == term,
        (Term::Symbol(f, ls), Term::Symbol(g, ts)) => {
            f == g && ls.iter().zip(ts).all(|(l, t)| fits(l, t, table))
        }
        (Term::Symbol(..), Term::Variable(_)) => false,
    }
}

/// `term` with each variable replaced. A variable that stands for nothing stays; under a cleared
/// book a right side has none such.
pub fn replaced(term: &Term, table: &Match) -> Term {
    match term {
        Term::Variable(x) => table[usize::from(*x)].unwrap_or(term).clone(),
        Term::Symbol(f, arguments) => {
            Term::Symbol(*f, arguments.iter().map(|argument| replaced(argument, table)).collect())
        }
    }
}

fn step_at_root(rules: &[Rule], term: &Term) -> Option<Term> {
    rules.iter().find_map(|rule| {
        let mut table = [None; 16];
        let fit = fits(&rule.left, term, &mut table);
        fit.then(|| replaced(&rule.right, &table))
    })
}

/// The first place in postorder at which some rule fits, as the argument numbers that lead there
/// (last first), and what the lowest such rule puts there.
fn first_fit(rules: &[Rule], term: &Term) -> Option<(Vec<usize>, Term)> {
    for (i, argument) in term.arguments().iter().enumerate() {
        if let Some((mut place, new)) = first_fit(rules, argument) {
            place.push(i);
            return Some((place, new));
        }
    }
    step_at_root(rules, term).map(|new| (Vec::new(), new))
}

fn put(term: &mut Term, mut place: Vec<usize>, new: Term) {
    match (place.pop(), term) {
        (Some(i), Term::Symbol(_, arguments)) => put(&mut arguments[i], place, new),
        (_, here) => *here = new,
    }
}

/// The next term, if some rule fits.
fn step(rules: &[Rule], term: &Term) -> Option<Term> {
    let (place, new) = first_fit(rules, term)?;
    let mut next = term.clone();
    put(&mut next, place, new);
    Some(next)
}

pub fn run(rules: &[Rule], record: Term, budget: u64) -> Ran {
    let mut term = record;
    let mut steps = 0;
    loop {
        let outcome = match step(rules, &term) {
            None => Outcome::Done,
            Some(_) if steps == budget => Outcome::Spent,
            Some(next) if next.nodes() > MOST_NODES => Outcome::TooLarge,
            Some(next) => {
                term = next;
                steps += 1;
                continue;
            }
        };
        return Ran { outcome, steps, term };
    }
}
