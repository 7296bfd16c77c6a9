//! The outside vectors: each case as a request, the reply that it expects, and what more it says of
//! the book or the run than a reply line holds.

use crate::book::{read_book, Book};
use crate::clauses::{rank_bits, File};
use crate::hex::from_hex;
use crate::json::{parse, Json};
use crate::reply::{reply_to, Reply};
use crate::request::Request;
use std::collections::BTreeMap;

pub struct Case {
    pub request: Request,
    pub expected: Reply,
    call: String,
    value: Json,
}

pub fn read_cases(text: &str) -> Result<Vec<Case>, String> {
    let numbered = text.lines().enumerate();
    numbered
        .map(|(i, line)| case(parse(line)?).map_err(|fault| format!("line {}: {}", i + 1, fault)))
        .collect()
}

fn case(value: Json) -> Result<Case, String> {
    let call = text(&value, "call")?.to_string();
    let args = member(&value, "args")?;
    let reply = member(&value, "reply")?;
    Ok(Case { request: request(&call, args)?, expected: expected(&call, reply)?, call, value })
}

fn request(call: &str, args: &Json) -> Result<Request, String> {
    let book = bytes(args, "book")?;
    let ranks = || bytes(args, "ranks");
    let record = || bytes(args, "record");
    let lent = || bytes(args, "buffer");
    Ok(match call {
        "read_book" => Request::ReadBook { book },
        "check_ranks" => Request::CheckRanks { book, ranks: ranks()? },
        "block" => Request::WriteBlock { book, number: number(args, "number")?, lent: lent()? },
        "read_answer" => Request::RanksFromAnswer { book, answer: bytes(args, "text")?, lent: lent()? },
        "run" => {
            let (ranks, record) = (ranks()?, record()?);
            Request::Run { book, ranks, record, budget: number(args, "budget")?, lent: lent()? }
        }
        "argument" => Request::Argument { book, record: record()?, number: number(args, "i")? },
        "clause_program" => Request::ClauseProgram { book },
        other => return Err(format!("unknown call: {}", other)),
    })
}

fn expected(call: &str, reply: &Json) -> Result<Reply, String> {
    if call == "clause_program" {
        return expected_print(bytes(reply, "printed")?);
    }
    let buffer = match reply.get("buffer") {
        Some(_) => Some(bytes(reply, "buffer")?),
        None => None,
    };
    let count = result_count(call);
    if let Some(refusal) = member(reply, "refusal")?.number() {
        let place = number(reply, "place")?;
        return Ok(Reply { refusal, place, results: vec![0; count], bytes: buffer });
    }
    Ok(Reply { refusal: 0, place: 0, results: results(call, reply)?, bytes: buffer })
}

fn result_count(call: &str) -> usize {
    match call {
        "read_book" | "run" => 3,
        "argument" => 2,
        "check_ranks" => 0,
        _ => 1,
    }
}

fn results(call: &str, reply: &Json) -> Result<Vec<u64>, String> {
    let count = |name: &str| list(reply, name).map(|values| values.len() as u64);
    Ok(match call {
        "read_book" => vec![count("arities")?, count("rules")?, number(reply, "blocks")?],
        "block" => vec![number(reply, "length")?],
        "read_answer" => vec![count("ranks")?],
        "run" => {
            let outcome = match text(reply, "outcome")? {
                "done" => 1,
                "spent" => 2,
                "large" => 3,
                other => return Err(format!("unknown outcome: {}", other)),
            };
            vec![outcome, number(reply, "steps")?, bytes(reply, "term")?.len() as u64]
        }
        "argument" => {
            let part = numbers(reply, "part")?;
            vec![part[0], part[1] - part[0]]
        }
        _ => Vec::new(),
    })
}

/// A refusal is read off the line `refused N at P`.
fn expected_print(printed: Vec<u8>) -> Result<Reply, String> {
    let line = String::from_utf8_lossy(&printed).into_owned();
    let words: Vec<&str> = line.split_whitespace().collect();
    if let ["refused", refusal, "at", place] = words[..] {
        let value = |word: &str| word.parse().map_err(|_| format!("not a number: {}", word));
        let (refusal, place) = (value(refusal)?, value(place)?);
        return Ok(Reply { refusal, place, results: vec![0], bytes: Some(printed) });
    }
    let results = vec![printed.len() as u64];
    Ok(Reply { refusal: 0, place: 0, results, bytes: Some(printed) })
}

/// Prints how many cases of each call agree, and the first that do not; the reply is whether all do.
pub fn check(cases: Vec<Case>) -> Result<bool, String> {
    let mut figures: BTreeMap<String, (u64, u64)> = BTreeMap::new();
    for case in cases {
        let details = details_agree(&case)?;
        let line = case.request.line();
        let replied = reply_to(case.request);
        let agrees = details && replied == case.expected;
        let figure = figures.entry(case.call).or_default();
        figure.0 += 1;
        if !agrees {
            figure.1 += 1;
            println!("{}\n  expected {}\n  judge    {}", line, case.expected.line(), replied.line());
        }
    }
    for (call, (cases, differ)) in &figures {
        println!("{:<18}{:>6} cases, {} differ", call, cases, differ);
    }
    let (cases, differ) = figures.values().fold((0, 0), |sum, f| (sum.0 + f.0, sum.1 + f.1));
    println!("{} vectors, {} differ", cases, differ);
    Ok(differ == 0)
}

/// What a case says beyond its reply line.
fn details_agree(case: &Case) -> Result<bool, String> {
    let reply = member(&case.value, "reply")?;
    match &case.request {
        Request::ReadBook { book } if case.expected.refusal == 0 => match read_book(book) {
            Ok(book) => book_agrees(&book, reply),
            Err(_) => Ok(false),
        },
        Request::Run { .. } if case.expected.refusal == 0 => {
            let term = bytes(reply, "term")?;
            let buffer = bytes(reply, "buffer")?;
            let nodes = number(reply, "nodes")? as usize;
            Ok(term.len() == 2 * nodes + 1 && buffer.starts_with(&term))
        }
        Request::RanksFromAnswer { .. } if case.expected.refusal == 0 => {
            let ranks: Vec<u8> = numbers(reply, "ranks")?.iter().map(|rank| *rank as u8).collect();
            Ok(bytes(reply, "buffer")?.starts_with(&ranks))
        }
        _ => Ok(true),
    }
}

fn book_agrees(book: &Book, reply: &Json) -> Result<bool, String> {
    let file = File::of(book);
    let arities: Vec<u64> = book.arities.iter().map(|arity| u64::from(*arity)).collect();
    let mut sides = Vec::new();
    for rule in list(reply, "rules")? {
        for side in rule.list().ok_or("a rule is no list")? {
            sides.push(from_hex(side.text().ok_or("a side is no text")?)?);
        }
    }
    let own_sides: Vec<Vec<u8>> =
        book.rules.iter().flat_map(|rule| [rule.left.bytes(), rule.right.bytes()]).collect();
    Ok(arities == numbers(reply, "arities")?
        && own_sides == sides
        && rank_bits(book.symbols()) as u64 == number(reply, "k")?
        && file.variables() as u64 == number(reply, "V")?
        && file.clause_count() as u64 == number(reply, "M")?)
}

fn member<'a>(value: &'a Json, name: &str) -> Result<&'a Json, String> {
    value.get(name).ok_or_else(|| format!("no member {}", name))
}

fn text<'a>(value: &'a Json, name: &str) -> Result<&'a str, String> {
    member(value, name)?.text().ok_or_else(|| format!("{} is no text", name))
}

fn number(value: &Json, name: &str) -> Result<u64, String> {
    member(value, name)?.number().ok_or_else(|| format!("{} is no number", name))
}

fn list<'a>(value: &'a Json, name: &str) -> Result<&'a [Json], String> {
    member(value, name)?.list().ok_or_else(|| format!("{} is no list", name))
}

fn numbers(value: &Json, name: &str) -> Result<Vec<u64>, String> {
    let values: Option<Vec<u64>> = list(value, name)?.iter().map(Json::number).collect();
    values.ok_or_else(|| format!("{} holds something that is no number", name))
}

fn bytes(value: &Json, name: &str) -> Result<Vec<u8>, String> {
    from_hex(text(value, name)?)
}
