//! Document 01's calls over bytes. The book is read first in each; what comes afterwards is tried in
//! the order that the document lists. A lent buffer is written only where nothing was refused.

use crate::answer::read_answer;
use crate::argument::argument_part;
use crate::book::read_book;
use crate::clauses::{block, whole_file, File};
use crate::order;
use crate::record::{read_record, record_bytes};
use crate::refusal::{refuse, Taken};
use crate::run;

const BLOCK_ROOM: usize = 512;
const RUN_ROOM: usize = 513;

pub struct BookSizes {
    pub symbols: usize,
    pub rules: usize,
    pub blocks: usize,
}

pub struct Ran {
    pub outcome: run::Outcome,
    pub steps: u64,
    pub length: usize,
}

pub fn book_sizes(book: &[u8]) -> Taken<BookSizes> {
    let book = read_book(book)?;
    let blocks = File::of(&book).blocks().len();
    Ok(BookSizes { symbols: book.symbols(), rules: book.rules.len(), blocks })
}

pub fn check_ranks(book: &[u8], ranks: &[u8]) -> Taken<()> {
    order::check_ranks(&read_book(book)?, ranks)
}

pub fn write_block(book: &[u8], number: u64, lent: &mut [u8]) -> Taken<usize> {
    let text = block(&read_book(book)?, number)?;
    if lent.len() < BLOCK_ROOM {
        return refuse(9, 0);
    }
    Ok(lay(lent, text.as_bytes()))
}

pub fn ranks_from_answer(book: &[u8], answer: &[u8], lent: &mut [u8]) -> Taken<usize> {
    let book = read_book(book)?;
    let ranks = read_answer(&book, answer)?;
    if lent.len() < book.symbols() {
        return refuse(9, 0);
    }
    order::check_ranks(&book, &ranks)?;
    Ok(lay(lent, &ranks))
}

pub fn run(book: &[u8], ranks: &[u8], record: &[u8], budget: u64, lent: &mut [u8]) -> Taken<Ran> {
    let book = read_book(book)?;
    order::check_ranks(&book, ranks)?;
    let record = read_record(&book.arities, record)?;
    if lent.len() < RUN_ROOM {
        return refuse(9, 0);
    }
    let ran = run::run(&book.rules, record, budget);
    let length = lay(lent, &record_bytes(&ran.term));
    Ok(Ran { outcome: ran.outcome, steps: ran.steps, length })
}

/// Start and length of the part.
pub fn argument(book: &[u8], record: &[u8], number: u64) -> Taken<(usize, usize)> {
    let book = read_book(book)?;
    argument_part(&read_record(&book.arities, record)?, number)
}

/// What the clause program prints.
pub fn clause_program(book: &[u8]) -> String {
    match read_book(book) {
        Ok(book) => whole_file(&book),
        Err(refusal) => format!("refused {} at {}\n", refusal.number, refusal.place),
    }
}

/// Lays the bytes at the buffer's start; later bytes keep their values.
fn lay(lent: &mut [u8], bytes: &[u8]) -> usize {
    lent[..bytes.len()].copy_from_slice(bytes);
    bytes.len()
}
