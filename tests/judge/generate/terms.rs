//! Random terms of a wanted size.

use crate::random::Random;
use crate::term::Term;

/// A term of so many nodes, or fewer where the arities do not allow that number; none if there is
/// no leaf at all.
pub fn term(random: &mut Random, arities: &[u8], variables: &[u8], nodes: usize) -> Option<Term> {
    let fitting: Vec<usize> =
        (0..arities.len()).filter(|f| (1..nodes).contains(&usize::from(arities[*f]))).collect();
    if fitting.is_empty() {
        return leaf(random, arities, variables);
    }
    let f = *random.pick(&fitting);
    let mut arguments = Vec::new();
    for part in shares(random, nodes - 1, usize::from(arities[f])) {
        arguments.push(term(random, arities, variables, part)?);
    }
    Some(Term::Symbol(f as u8, arguments))
}

fn leaf(random: &mut Random, arities: &[u8], variables: &[u8]) -> Option<Term> {
    let constants: Vec<usize> = (0..arities.len()).filter(|f| arities[*f] == 0).collect();
    let leaves = constants.len() + variables.len();
    if leaves == 0 {
        return None;
    }
    let chosen = random.below(leaves);
    Some(match constants.get(chosen) {
        Some(f) => Term::Symbol(*f as u8, Vec::new()),
        None => Term::Variable(variables[chosen - constants.len()]),
    })
}

/// `whole` in so many parts, each at least 1. Half of the time one part takes all that is left, so
/// that terms are deep as well as wide.
fn shares(random: &mut Random, whole: usize, parts: usize) -> Vec<usize> {
    let mut shares = vec![1; parts];
    let left = whole - parts;
    if random.in_1000(500) {
        shares[random.below(parts)] += left;
    } else {
        (0..left).for_each(|_| shares[random.below(parts)] += 1);
    }
    shares
}

/// The variables that occur in a term, each once.
pub fn variables(term: &Term) -> Vec<u8> {
    let mut found = Vec::new();
    collect(term, &mut found);
    found
}

fn collect(term: &Term, found: &mut Vec<u8>) {
    if let Term::Variable(x) = term {
        if !found.contains(x) {
            found.push(*x);
        }
    }
    term.arguments().iter().for_each(|argument| collect(argument, found));
}
