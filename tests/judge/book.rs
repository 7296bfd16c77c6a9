//! "Bytes of a book", read from left to right by a reader that follows the grammar: symbols, rules
//! of two sides each, the end. In one record the refusals are tried in the order 2, 1, 3, 4, 5.

use crate::refusal::{refuse, Taken};
use crate::term::{Term, SYMBOL_NODE, VARIABLE_NODE};

pub const SYMBOL: u8 = 1;
pub const RULE: u8 = 2;
pub const END: u8 = 5;

pub const MOST_SYMBOLS: usize = 16;
pub const MOST_RULES: usize = 32;
pub const MOST_NODES: usize = 10;
pub const MOST_ARITY: u8 = 6;
pub const MOST_VARIABLE: u8 = 15;

#[derive(Clone, Debug)]
pub struct Rule {
    pub left: Term,
    pub right: Term,
}

#[derive(Clone, Debug)]
pub struct Book {
    pub arities: Vec<u8>,
    pub rules: Vec<Rule>,
}

/// One record of a book; the body is 0 where the kind has none.
struct Record {
    kind: u8,
    body: u8,
    at: usize,
}

struct Reader<'a> {
    bytes: &'a [u8],
    at: usize,
}

pub fn read_book(bytes: &[u8]) -> Taken<Book> {
    let mut reader = Reader { bytes, at: 0 };
    let mut book = Book { arities: Vec::new(), rules: Vec::new() };
    loop {
        let record = reader.record()?;
        match record.kind {
            SYMBOL => add_symbol(&mut book, &record)?,
            RULE => {
                let rule = reader.rule(&record, &book)?;
                book.rules.push(rule);
            }
            END if reader.at < bytes.len() => return refuse(6, reader.at),
            END => return Ok(book),
            _ => return refuse(3, record.at),
        }
    }
}

fn add_symbol(book: &mut Book, record: &Record) -> Taken<()> {
    if !book.rules.is_empty() {
        return refuse(3, record.at);
    }
    if record.body > MOST_ARITY {
        return refuse(4, record.at + 1);
    }
    if book.arities.len() == MOST_SYMBOLS {
        return refuse(5, record.at);
    }
    book.arities.push(record.body);
    Ok(())
}

impl Reader<'_> {
    fn record(&mut self) -> Taken<Record> {
        let at = self.at;
        let kind = match self.bytes.get(at) {
            Some(kind) => *kind,
            None => return refuse(1, self.bytes.len()),
        };
        let has_body = match kind {
            SYMBOL | SYMBOL_NODE | VARIABLE_NODE => true,
            RULE | END => false,
            _ => return refuse(2, at),
        };
        if has_body && at + 1 == self.bytes.len() {
            return refuse(1, self.bytes.len());
        }
        let body = if has_body { self.bytes[at + 1] } else { 0 };
        self.at = at + 1 + usize::from(has_body);
        Ok(Record { kind, body, at })
    }

    fn rule(&mut self, start: &Record, book: &Book) -> Taken<Rule> {
        if book.rules.len() == MOST_RULES {
            return refuse(5, start.at);
        }
        let left = self.node(&book.arities, &mut 0)?;
        let right = self.node(&book.arities, &mut 0)?;
        Ok(Rule { left, right })
    }

    /// The subterm that starts here; `nodes` counts the nodes of its side up to here.
    fn node(&mut self, arities: &[u8], nodes: &mut usize) -> Taken<Term> {
        let record = self.record()?;
        let known = match record.kind {
            SYMBOL_NODE => usize::from(record.body) < arities.len(),
            VARIABLE_NODE => record.body <= MOST_VARIABLE,
            _ => return refuse(3, record.at),
        };
        if !known {
            return refuse(4, record.at + 1);
        }
        if *nodes == MOST_NODES {
            return refuse(5, record.at);
        }
        *nodes += 1;
        if record.kind == VARIABLE_NODE {
            return Ok(Term::Variable(record.body));
        }
        let mut arguments = Vec::new();
        for _ in 0..arities[usize::from(record.body)] {
            arguments.push(self.node(arities, nodes)?);
        }
        Ok(Term::Symbol(record.body, arguments))
    }
}

impl Book {
    pub fn symbols(&self) -> usize {
        self.arities.len()
    }

    /// The bytes that read as this book. No limit is looked at: a generator writes books that
    /// break one.
    pub fn bytes(&self) -> Vec<u8> {
        let mut bytes = Vec::new();
        for arity in &self.arities {
            bytes.extend([SYMBOL, *arity]);
        }
        for rule in &self.rules {
            bytes.push(RULE);
            bytes.extend(rule.left.bytes());
            bytes.extend(rule.right.bytes());
        }
        bytes.push(END);
        bytes
    }
}
