//! Random books: any rules, rules that given ranks clear, books at the limits and beyond one.

use super::draft::Draft;
use super::terms::{term, variables};
use crate::book::{Book, Rule, MOST_NODES, MOST_RULES, MOST_SYMBOLS};
use crate::order::exceeds;
use crate::random::Random;
use crate::term::Term;

const TRIES: usize = 12;

/// Small numbers are the usual ones; the limit comes up too.
fn size(random: &mut Random, usual: usize, most: usize) -> usize {
    match random.below(10) {
        0 => random.between(0, most),
        1 => random.between(0, most / 2),
        _ => random.between(0, usual),
    }
}

/// Mostly of arity 0 to 2.
fn arities(random: &mut Random, n: usize) -> Vec<u8> {
    let arity = |random: &mut Random| match random.below(10) {
        0..=2 => 0,
        3..=5 => 1,
        6..=7 => 2,
        _ => random.below(7) as u8,
    };
    (0..n).map(|_| arity(random)).collect()
}

fn pool(random: &mut Random) -> Vec<u8> {
    let all: Vec<u8> = (0..16).collect();
    let first = random.below(14);
    if random.in_1000(100) {
        all
    } else {
        all[first..first + random.between(1, 2)].to_vec()
    }
}

fn side(random: &mut Random, arities: &[u8], variables: &[u8]) -> Option<Term> {
    let nodes = match random.below(4) {
        0 => random.between(1, MOST_NODES),
        _ => random.between(1, 5),
    };
    term(random, arities, variables, nodes)
}

/// Any rules: a left side may be a variable, a right side may hold variables that the left lacks.
pub fn any(random: &mut Random) -> Draft {
    let n = size(random, 6, MOST_SYMBOLS);
    let arities = arities(random, n);
    let mut rules = Vec::new();
    for _ in 0..size(random, 4, MOST_RULES) {
        let variables = pool(random);
        let left = side(random, &arities, &variables);
        let right = side(random, &arities, &variables);
        if let (Some(left), Some(right)) = (left, right) {
            rules.push(Rule { left, right });
        }
    }
    Draft { book: Book { arities, rules }, ranks: None }
}

/// Rules that decrease under ranks chosen before them.
pub fn clearable(random: &mut Random) -> Draft {
    let n = 1 + size(random, 5, MOST_SYMBOLS - 1);
    let mut arities = arities(random, n);
    if random.in_1000(900) {
        arities[random.below(n)] = 0;
    }
    let ranks: Vec<u8> = (0..n).map(|_| random.below(n) as u8).collect();
    let count = size(random, 5, MOST_RULES);
    let rules = (0..count).filter_map(|_| decreasing(random, &arities, &ranks)).collect();
    Draft { book: Book { arities, rules }, ranks: Some(ranks) }
}

/// Two random terms in whichever direction decreases; after some tries a term and one of its parts.
fn decreasing(random: &mut Random, arities: &[u8], ranks: &[u8]) -> Option<Rule> {
    let pool = pool(random);
    for _ in 0..TRIES {
        let left = side(random, arities, &pool)?;
        let right = match side(random, arities, &variables(&left)) {
            Some(right) => right,
            None => continue,
        };
        if exceeds(ranks, &left, &right) {
            return Some(Rule { left, right });
        }
        if exceeds(ranks, &right, &left) {
            return Some(Rule { left: right, right: left });
        }
    }
    let left = side(random, arities, &pool)?;
    match left.arguments() {
        [] => None,
        parts => {
            let right = random.pick(parts).clone();
            Some(Rule { left, right })
        }
    }
}

/// 16 symbols, 32 rules, 10 nodes on every side. A symbol of arity 1 makes every size possible.
pub fn full(random: &mut Random) -> Draft {
    let mut arities = arities(random, MOST_SYMBOLS);
    arities[0] = 1;
    let rules = (0..MOST_RULES).map(|_| rule_of(random, &arities, MOST_NODES, MOST_NODES)).collect();
    Draft { book: Book { arities, rules }, ranks: None }
}

fn rule_of(random: &mut Random, arities: &[u8], left: usize, right: usize) -> Rule {
    let pool = pool(random);
    let mut side = |nodes| term(random, arities, &pool, nodes).expect("a variable is a leaf");
    Rule { left: side(left), right: side(right) }
}

/// One symbol, rule or node more than a book may have.
pub fn overfull(random: &mut Random) -> Draft {
    let mut draft = if random.in_1000(100) { full(random) } else { any(random) };
    let book = &mut draft.book;
    match random.below(4) {
        0 => {
            let missing = (MOST_SYMBOLS + 1).saturating_sub(book.symbols());
            book.arities.extend(arities(random, missing));
        }
        1 => {
            let (left, right) = (Term::Variable(0), Term::Variable(random.below(16) as u8));
            book.rules.resize(MOST_RULES + 1, Rule { left, right });
        }
        place => {
            book.arities.resize(book.symbols().max(1), 0);
            book.arities[0] = 1;
            let over = random.between(MOST_NODES + 1, MOST_NODES + 4);
            let small = random.between(1, MOST_NODES);
            let (left, right) = if place == 2 { (over, small) } else { (small, over) };
            book.rules.retain(|rule| rule.left.nodes() <= 3);
            book.rules.truncate(random.below(MOST_RULES));
            book.rules.push(rule_of(random, &book.arities, left, right));
        }
    }
    draft
}
