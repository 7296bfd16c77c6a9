//! A book to be asked about, with ranks that clear it where they are known; and the same book told
//! differently: symbols and variables renumbered, rules in another order, symbols that no rule uses.

use crate::book::{Book, Rule, MOST_RULES, MOST_SYMBOLS};
use crate::order::clearing_ranks;
use crate::random::Random;
use crate::term::Term;

/// All n^n tables are tried up to this n, 256 of them.
const MOST_SEARCHED: usize = 4;

#[derive(Clone)]
pub struct Draft {
    pub book: Book,
    pub ranks: Option<Vec<u8>>,
}

impl Draft {
    /// Ranks that clear the book: the known ones, or those found where all tables can be tried.
    pub fn clearing(&self) -> Option<Vec<u8>> {
        match &self.ranks {
            None if self.book.symbols() <= MOST_SEARCHED => clearing_ranks(&self.book),
            known => known.clone(),
        }
    }

    pub fn varied(&self, random: &mut Random) -> Draft {
        let mut draft = self.clone();
        if random.in_1000(200) {
            draft.add_symbols(random);
        }
        if random.in_1000(500) {
            draft.renumber_symbols(random);
        }
        if random.in_1000(500) {
            draft.renumber_variables(random);
        }
        draft.change_rules(random);
        draft
    }

    fn add_symbols(&mut self, random: &mut Random) {
        let room = MOST_SYMBOLS - self.book.symbols();
        for _ in 0..random.below(room + 1) {
            self.book.arities.push(random.below(7) as u8);
            if let Some(ranks) = &mut self.ranks {
                ranks.push(random.below(MOST_SYMBOLS) as u8);
            }
        }
    }

    fn renumber_symbols(&mut self, random: &mut Random) {
        let mut old: Vec<usize> = (0..self.book.symbols()).collect();
        random.shuffle(&mut old);
        let mut new = vec![0; old.len()];
        for (number, old) in old.iter().enumerate() {
            new[*old] = number as u8;
        }
        self.book.arities = old.iter().map(|old| self.book.arities[*old]).collect();
        self.ranks = self.ranks.as_ref().map(|ranks| old.iter().map(|old| ranks[*old]).collect());
        let same: Vec<u8> = (0..16).collect();
        for rule in &mut self.book.rules {
            *rule = renumbered(rule, &new, &same);
        }
    }

    fn renumber_variables(&mut self, random: &mut Random) {
        let same: Vec<u8> = (0..self.book.symbols() as u8).collect();
        for rule in &mut self.book.rules {
            let mut new: Vec<u8> = (0..16).collect();
            random.shuffle(&mut new);
            *rule = renumbered(rule, &same, &new);
        }
    }

    /// Ranks that clear a book clear any part of it, in any order.
    fn change_rules(&mut self, random: &mut Random) {
        let rules = &mut self.book.rules;
        if random.in_1000(300) {
            random.shuffle(rules);
        }
        if random.in_1000(200) && !rules.is_empty() {
            rules.remove(random.below(rules.len()));
        }
        if random.in_1000(100) && !rules.is_empty() && rules.len() < MOST_RULES {
            let again = random.pick(rules).clone();
            rules.push(again);
        }
    }
}

fn renumbered(rule: &Rule, symbols: &[u8], variables: &[u8]) -> Rule {
    let side = |term| renumbered_term(term, symbols, variables);
    Rule { left: side(&rule.left), right: side(&rule.right) }
}

fn renumbered_term(term: &Term, symbols: &[u8], variables: &[u8]) -> Term {
    match term {
        Term::Variable(x) => Term::Variable(variables[usize::from(*x)]),
        Term::Symbol(f, arguments) => {
            let argument = |argument| renumbered_term(argument, symbols, variables);
            Term::Symbol(symbols[usize::from(*f)], arguments.iter().map(argument).collect())
        }
    }
}
