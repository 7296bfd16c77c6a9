//! A reply and its line: refusal, place, the call's results, then the lent buffer's content.

use crate::calls;
use crate::hex::to_hex;
use crate::refusal::Taken;
use crate::request::Request;

#[derive(Debug, PartialEq)]
pub struct Reply {
    pub refusal: u64,
    pub place: u64,
    /// The other fields of the call's reply, in order; all 0 on a refusal.
    pub results: Vec<u64>,
    /// The lent buffer afterwards, or the text that the clause program prints.
    pub bytes: Option<Vec<u8>>,
}

/// Longer content is written as its hash.
const LONGEST_SHOWN: usize = 64;

impl Reply {
    /// `count` is how many results the call has.
    pub fn of(taken: Taken<Vec<u64>>, count: usize, bytes: Option<Vec<u8>>) -> Reply {
        match taken {
            Ok(results) => Reply { refusal: 0, place: 0, results, bytes },
            Err(refusal) => {
                let results = vec![0; count];
                Reply { refusal: refusal.number, place: refusal.place, results, bytes }
            }
        }
    }

    pub fn line(&self) -> String {
        let mut line = format!("{} {}", self.refusal, self.place);
        for result in &self.results {
            line += &format!(" {}", result);
        }
        if let Some(bytes) = &self.bytes {
            line += &format!(" {}", shown(bytes));
        }
        line
    }
}

fn shown(bytes: &[u8]) -> String {
    if bytes.len() > LONGEST_SHOWN {
        format!("#{:016x}", fnv1a(bytes))
    } else {
        to_hex(bytes)
    }
}

fn fnv1a(bytes: &[u8]) -> u64 {
    bytes.iter().fold(0xcbf2_9ce4_8422_2325, |hash: u64, byte| {
        (hash ^ u64::from(*byte)).wrapping_mul(0x0000_0100_0000_01b3)
    })
}

pub fn reply_to(request: Request) -> Reply {
    match request {
        Request::ReadBook { book } => {
            let sizes = calls::book_sizes(&book);
            Reply::of(sizes.map(|s| numbers(&[s.symbols, s.rules, s.blocks])), 3, None)
        }
        Request::CheckRanks { book, ranks } => {
            Reply::of(calls::check_ranks(&book, &ranks).map(|()| Vec::new()), 0, None)
        }
        Request::WriteBlock { book, number, mut lent } => {
            let length = calls::write_block(&book, number, &mut lent);
            Reply::of(length.map(|length| numbers(&[length])), 1, Some(lent))
        }
        Request::RanksFromAnswer { book, answer, mut lent } => {
            let length = calls::ranks_from_answer(&book, &answer, &mut lent);
            Reply::of(length.map(|length| numbers(&[length])), 1, Some(lent))
        }
        Request::Run { book, ranks, record, budget, mut lent } => {
            let ran = calls::run(&book, &ranks, &record, budget, &mut lent);
            let results = ran.map(|ran| vec![ran.outcome as u64, ran.steps, ran.length as u64]);
            Reply::of(results, 3, Some(lent))
        }
        Request::Argument { book, record, number } => {
            let part = calls::argument(&book, &record, number);
            Reply::of(part.map(|(start, length)| numbers(&[start, length])), 2, None)
        }
        Request::ClauseProgram { book } => {
            let printed = calls::clause_program(&book).into_bytes();
            let taken = calls::book_sizes(&book).map(|_| numbers(&[printed.len()]));
            Reply::of(taken, 1, Some(printed))
        }
    }
}

fn numbers(sizes: &[usize]) -> Vec<u64> {
    sizes.iter().map(|size| *size as u64).collect()
}
