//! "A solver's answer": the text, line by line; then the ranks that it names.

use crate::book::Book;
use crate::clauses::{rank_bits, File};
use crate::refusal::{refuse, Taken};

pub const MOST_BYTES: usize = 65_536;

#[derive(PartialEq)]
enum Claim {
    Satisfiable,
    Other,
}

/// What the lines up to here have said.
struct Reading {
    claim: Option<Claim>,
    closed: bool,
    /// One entry for each rank variable, in the order of their numbers.
    named: Vec<Option<bool>>,
    /// V: a literal's number is at most this.
    variables: usize,
}

/// The ranks of a text that claims SATISFIABLE; 12, 13 and 14 otherwise.
pub fn read_answer(book: &Book, text: &[u8]) -> Taken<Vec<u8>> {
    if text.len() > MOST_BYTES {
        return refuse(12, 0);
    }
    let k = rank_bits(book.symbols());
    let named = vec![None; book.symbols() * k];
    let variables = File::of(book).variables();
    let mut reading = Reading { claim: None, closed: false, named, variables };
    for (start, line) in lines(text) {
        if !reading.take(line) {
            return refuse(13, start);
        }
    }
    match reading.claim {
        None => refuse(13, text.len()),
        Some(Claim::Satisfiable) if !reading.closed => refuse(13, text.len()),
        Some(Claim::Satisfiable) => Ok(ranks(&reading.named, book.symbols(), k)),
        Some(Claim::Other) => refuse(14, 0),
    }
}

/// Each line's start and bytes. The last newline is optional, so nothing stands after it.
fn lines(text: &[u8]) -> Vec<(usize, &[u8])> {
    let mut lines = Vec::new();
    let mut start = 0;
    while start < text.len() {
        let length = text[start..].iter().position(|byte| *byte == b'\n');
        let end = length.map_or(text.len(), |length| start + length);
        lines.push((start, &text[start..end]));
        start = end + 1;
    }
    lines
}

fn ranks(named: &[Option<bool>], n: usize, k: usize) -> Vec<u8> {
    let bit = |f: usize, b: usize| u8::from(named[f * k + b] == Some(true)) << b;
    (0..n).map(|f| (0..k).map(|b| bit(f, b)).sum()).collect()
}

impl Reading {
    /// Whether the line can stand here; if so, what it says is kept.
    fn take(&mut self, line: &[u8]) -> bool {
        match line {
            [b'c', ..] => true,
            b"s SATISFIABLE" => self.take_claim(Claim::Satisfiable),
            b"s UNSATISFIABLE" | b"s UNKNOWN" => self.take_claim(Claim::Other),
            [b'v', items @ ..] => self.take_values(items),
            _ => false,
        }
    }

    fn take_claim(&mut self, claim: Claim) -> bool {
        let first = self.claim.is_none();
        self.claim = Some(claim);
        first
    }

    /// The rest of a v line: one or more items, each after spaces, and perhaps spaces at the end.
    fn take_values(&mut self, rest: &[u8]) -> bool {
        if self.claim != Some(Claim::Satisfiable) || !rest.starts_with(b" ") {
            return false;
        }
        let mut items = rest.split(|byte| *byte == b' ').filter(|item| !item.is_empty()).peekable();
        items.peek().is_some() && items.all(|item| self.take_item(item))
    }

    fn take_item(&mut self, item: &[u8]) -> bool {
        if self.closed {
            return false;
        }
        if item == b"0" {
            self.closed = true;
            return true;
        }
        let (digits, value) = match item {
            [b'-', digits @ ..] => (digits, false),
            digits => (digits, true),
        };
        match number(digits, self.variables) {
            Some(variable) => self.take_literal(variable, value),
            None => false,
        }
    }

    /// Variables other than the ranks' are read for form only.
    fn take_literal(&mut self, variable: usize, value: bool) -> bool {
        match self.named.get_mut(variable - 1) {
            Some(Some(_)) => false,
            Some(place) => {
                *place = Some(value);
                true
            }
            None => true,
        }
    }
}

/// A number from 1 to `most` without leading zeros.
fn number(digits: &[u8], most: usize) -> Option<usize> {
    if digits.is_empty() || digits[0] == b'0' || !digits.iter().all(u8::is_ascii_digit) {
        return None;
    }
    let mut number = 0;
    for digit in digits {
        number = 10 * number + usize::from(digit - b'0');
        if number > most {
            return None;
        }
    }
    Some(number)
}
