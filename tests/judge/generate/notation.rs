//! Books as a person writes them: `z/0 s/1 a/2` for the symbols, `a(s(x),y) -> s(a(x,y))` for a rule.
//! A name that is no symbol is a variable; a rule's variables are numbered as they first occur.

use crate::book::{Book, Rule};
use crate::term::Term;

/// The notation is the generator's own table, so a fault in it is a fault of the program.
pub fn book(symbols: &str, rules: &[&str]) -> Book {
    let declared: Vec<(&str, u8)> = symbols
        .split_whitespace()
        .map(|symbol| {
            let (name, arity) = symbol.split_once('/').expect("name/arity");
            (name, arity.parse().expect("an arity"))
        })
        .collect();
    let arities = declared.iter().map(|symbol| symbol.1).collect();
    let rules = rules.iter().map(|text| rule(&declared, text)).collect();
    Book { arities, rules }
}

fn rule(declared: &[(&str, u8)], text: &str) -> Rule {
    let (left, right) = text.split_once(" -> ").expect("left -> right");
    let mut variables = Vec::new();
    let mut side = |text| term(declared, &mut variables, &mut words(text));
    Rule { left: side(left), right: side(right) }
}

/// Names and opening marks, last first. Arities say where a term ends, so closing marks and commas
/// carry nothing.
fn words(text: &str) -> Vec<&str> {
    text.split(|mark| "(),".contains(mark)).filter(|word| !word.is_empty()).rev().collect()
}

fn term<'a>(declared: &[(&str, u8)], variables: &mut Vec<&'a str>, words: &mut Vec<&'a str>) -> Term {
    let name = words.pop().expect("a name");
    if let Some(number) = declared.iter().position(|symbol| symbol.0 == name) {
        let arity = declared[number].1;
        let arguments = (0..arity).map(|_| term(declared, variables, words)).collect();
        return Term::Symbol(number as u8, arguments);
    }
    if !variables.contains(&name) {
        variables.push(name);
    }
    let number = variables.iter().position(|variable| *variable == name);
    Term::Variable(number.expect("a known variable") as u8)
}
