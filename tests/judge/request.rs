//! A request and its line: the call's name, then its arguments.

use crate::hex::{from_hex, to_hex};

pub enum Request {
    ReadBook { book: Vec<u8> },
    CheckRanks { book: Vec<u8>, ranks: Vec<u8> },
    WriteBlock { book: Vec<u8>, number: u64, lent: Vec<u8> },
    RanksFromAnswer { book: Vec<u8>, answer: Vec<u8>, lent: Vec<u8> },
    Run { book: Vec<u8>, ranks: Vec<u8>, record: Vec<u8>, budget: u64, lent: Vec<u8> },
    Argument { book: Vec<u8>, record: Vec<u8>, number: u64 },
    ClauseProgram { book: Vec<u8> },
}

/// A lent buffer's content before the call, where the line does not give it.
pub fn pattern(room: usize) -> Vec<u8> {
    (0..room).map(|i| (i * 37 + 11) as u8).collect()
}

impl Request {
    pub fn line(&self) -> String {
        match self {
            Request::ReadBook { book } => format!("read_book {}", to_hex(book)),
            Request::CheckRanks { book, ranks } => {
                format!("check_ranks {} {}", to_hex(book), to_hex(ranks))
            }
            Request::WriteBlock { book, number, lent } => {
                format!("write_block {} {} {}", to_hex(book), number, room(lent))
            }
            Request::RanksFromAnswer { book, answer, lent } => {
                format!("ranks_from_answer {} {} {}", to_hex(book), to_hex(answer), room(lent))
            }
            Request::Run { book, ranks, record, budget, lent } => {
                let bytes = [to_hex(book), to_hex(ranks), to_hex(record)];
                format!("run {} {} {}", bytes.join(" "), budget, room(lent))
            }
            Request::Argument { book, record, number } => {
                format!("argument {} {} {}", to_hex(book), to_hex(record), number)
            }
            Request::ClauseProgram { book } => format!("clause_program {}", to_hex(book)),
        }
    }

    pub fn read(line: &str) -> Result<Request, String> {
        let mut fields = Fields { rest: line.split(' ').collect() };
        let request = match fields.next()? {
            "read_book" => Request::ReadBook { book: fields.bytes()? },
            "check_ranks" => Request::CheckRanks { book: fields.bytes()?, ranks: fields.bytes()? },
            "write_block" => {
                Request::WriteBlock { book: fields.bytes()?, number: fields.number()?, lent: fields.lent()? }
            }
            "ranks_from_answer" => Request::RanksFromAnswer {
                book: fields.bytes()?,
                answer: fields.bytes()?,
                lent: fields.lent()?,
            },
            "run" => Request::Run {
                book: fields.bytes()?,
                ranks: fields.bytes()?,
                record: fields.bytes()?,
                budget: fields.number()?,
                lent: fields.lent()?,
            },
            "argument" => {
                Request::Argument { book: fields.bytes()?, record: fields.bytes()?, number: fields.number()? }
            }
            "clause_program" => Request::ClauseProgram { book: fields.bytes()? },
            other => return Err(format!("unknown call: {}", other)),
        };
        if fields.rest.is_empty() {
            Ok(request)
        } else {
            Err("too many fields".to_string())
        }
    }
}

/// ROOM, and the content where it is not the pattern.
fn room(lent: &[u8]) -> String {
    if lent == pattern(lent.len()) {
        lent.len().to_string()
    } else {
        format!("{} ={}", lent.len(), to_hex(lent))
    }
}

struct Fields<'a> {
    rest: Vec<&'a str>,
}

impl<'a> Fields<'a> {
    fn next(&mut self) -> Result<&'a str, String> {
        if self.rest.is_empty() {
            Err("too few fields".to_string())
        } else {
            Ok(self.rest.remove(0))
        }
    }

    fn bytes(&mut self) -> Result<Vec<u8>, String> {
        from_hex(self.next()?)
    }

    fn number(&mut self) -> Result<u64, String> {
        let text = self.next()?;
        text.parse().map_err(|_| format!("not a number: {}", text))
    }

    fn lent(&mut self) -> Result<Vec<u8>, String> {
        let room = self.number()? as usize;
        if self.rest.is_empty() {
            return Ok(pattern(room));
        }
        match self.next()?.strip_prefix('=').map(from_hex) {
            Some(Ok(content)) if content.len() == room => Ok(content),
            _ => Err("the content does not fill the room".to_string()),
        }
    }
}
