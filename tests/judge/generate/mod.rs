//! Requests by seed: a draft of a book, then a call about it, with good bytes and damaged ones.

mod answers;
mod damage;
mod draft;
mod known_books;
mod notation;
mod random_books;
mod ranks;
mod records;
mod terms;

use crate::book::{read_book, Book};
use crate::calls;
use crate::clauses::File;
use crate::order::clearing_ranks;
use crate::random::Random;
use crate::request::{pattern, Request};
use crate::run::Outcome;
use draft::Draft;

/// With a budget above this, only a run that ends within it is asked for, so that every reply comes
/// in reasonable time.
const LONGEST_RUN: u64 = 300;

const LARGE_BUDGETS: [u64; 5] = [LONGEST_RUN + 1, 1 << 32, 1 << 63, u64::MAX - 1, u64::MAX];

pub struct Generator {
    random: Random,
    known: Vec<Draft>,
}

impl Generator {
    pub fn new(seed: u64) -> Generator {
        Generator { random: Random::new(seed), known: known_books::drafts() }
    }

    pub fn request(&mut self) -> Request {
        match self.random.below(100) {
            0..=19 => Request::ReadBook { book: self.any_bytes() },
            20..=36 => self.check_ranks(),
            37..=51 => self.write_block(),
            52..=69 => self.ranks_from_answer(),
            70..=88 => self.run(),
            89..=98 => self.argument(),
            _ => Request::ClauseProgram { book: self.any_bytes() },
        }
    }

    fn draft(&mut self) -> Draft {
        match self.random.below(1000) {
            0..=499 => self.known_draft(),
            500..=819 => random_books::clearable(&mut self.random),
            820..=989 => random_books::any(&mut self.random),
            _ => random_books::full(&mut self.random),
        }
    }

    fn known_draft(&mut self) -> Draft {
        self.random.pick(&self.known).varied(&mut self.random)
    }

    /// For the call that only reads: good and bad books, half and half.
    fn any_bytes(&mut self) -> Vec<u8> {
        let draft = self.draft();
        let random = &mut self.random;
        let bytes = match random.below(100) {
            0..=44 => draft.book.bytes(),
            45..=72 => damage::damaged(random, &draft.book.bytes()),
            73..=79 => damage::overstepped(random, draft.book.bytes(), draft.book.symbols()),
            80..=91 => random_books::overfull(random).book.bytes(),
            _ => damage::scrambled(random),
        };
        if random.in_1000(150) {
            damage::refused_twice(random, bytes)
        } else {
            bytes
        }
    }

    /// For the other calls: mostly as drafted, so that they come to their own refusals.
    fn bytes(&mut self, book: &Book) -> Vec<u8> {
        let random = &mut self.random;
        match random.below(100) {
            0..=5 => damage::damaged(random, &book.bytes()),
            6 => random_books::overfull(random).book.bytes(),
            _ => book.bytes(),
        }
    }

    fn check_ranks(&mut self) -> Request {
        let draft = self.draft();
        let ranks = ranks::ranks(&mut self.random, &draft);
        Request::CheckRanks { book: self.bytes(&draft.book), ranks }
    }

    fn write_block(&mut self) -> Request {
        let draft = self.draft();
        let blocks = File::of(&draft.book).blocks().len();
        let random = &mut self.random;
        let number = match random.below(20) {
            0..=2 => 0,
            3 => blocks as u64 - 1,
            4 => blocks as u64,
            5 => *random.pick(&[blocks as u64 + 1, 1 << 32, u64::MAX]),
            _ => random.below(blocks) as u64,
        };
        let room = *random.pick(&[0, 511, 512, 512, 512, 512, 513, 513, 600, 1024]);
        Request::WriteBlock { book: self.bytes(&draft.book), number, lent: pattern(room) }
    }

    fn ranks_from_answer(&mut self) -> Request {
        let draft = self.draft();
        let n = draft.book.symbols();
        let random = &mut self.random;
        let answer = answers::answer(random, &draft);
        let room = *random.pick(&[n, n, n, n, n + 1, n.saturating_sub(1), 0, 16, 64, 65, 600]);
        Request::RanksFromAnswer { book: self.bytes(&draft.book), answer, lent: pattern(room) }
    }

    /// Known books more often than elsewhere: a random one seldom makes many steps or grows.
    fn run(&mut self) -> Request {
        let draft = if self.random.in_1000(500) { self.known_draft() } else { self.draft() };
        let random = &mut self.random;
        let ranks = match random.below(5) {
            0 => ranks::ranks(random, &draft),
            _ => ranks::clearing_or_random(random, &draft),
        };
        let record = records::record(random, &draft);
        let room = *random.pick(&[512, 513, 513, 513, 513, 513, 514, 600, 1000]);
        let room = if random.in_1000(20) { random.below(512) } else { room };
        let book = self.bytes(&draft.book);
        let budget = self.budget(&book, &ranks, &record);
        Request::Run { book, ranks, record, budget, lent: pattern(room) }
    }

    fn budget(&mut self, book: &[u8], ranks: &[u8], record: &[u8]) -> u64 {
        let random = &mut self.random;
        if random.in_1000(500) {
            if let Some(steps) = steps_to_the_end(book, ranks, record) {
                let around = [steps.saturating_sub(1), steps, steps + 1];
                let budgets = if random.in_1000(500) { &around[..] } else { &LARGE_BUDGETS };
                return *random.pick(budgets);
            }
        }
        match random.below(10) {
            0 => 0,
            1 => 1,
            2..=5 => random.between(2, 12) as u64,
            _ => random.between(10, LONGEST_RUN as usize) as u64,
        }
    }

    fn argument(&mut self) -> Request {
        let draft = self.draft();
        let random = &mut self.random;
        let record = records::record(random, &draft);
        let root = record.get(1).and_then(|root| draft.book.arities.get(usize::from(*root)));
        let arity = root.map_or(0, |arity| u64::from(*arity));
        let number = match random.below(20) {
            0 => *random.pick(&[6, 7, 255, 256, 1 << 32, u64::MAX]),
            1..=2 => arity,
            _ => random.below(arity.max(1) as usize) as u64,
        };
        Request::Argument { book: self.bytes(&draft.book), record, number }
    }

    /// A readable book of at most `most` symbols, and ranks that clear it if any do.
    pub fn small_book(&mut self, most: usize) -> (Vec<u8>, Option<Vec<u8>>) {
        loop {
            let bytes = self.draft().book.bytes();
            match read_book(&bytes) {
                Ok(book) if book.symbols() <= most => return (bytes, clearing_ranks(&book)),
                _ => continue,
            }
        }
    }
}

/// The steps of a run that comes soon to its end, whatever the budget; a refused one makes none.
fn steps_to_the_end(book: &[u8], ranks: &[u8], record: &[u8]) -> Option<u64> {
    match calls::run(book, ranks, record, LONGEST_RUN, &mut pattern(600)) {
        Ok(ran) if ran.outcome == Outcome::Spent => None,
        Ok(ran) => Some(ran.steps),
        Err(_) => Some(0),
    }
}
