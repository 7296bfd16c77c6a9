//! The judge: document 01's six calls, written from that document alone, and what it takes to hold
//! the library against them. README.md beside this file says what each mode reads and prints.

#![forbid(unsafe_code)]

mod answer;
mod argument;
mod book;
mod calls;
mod clauses;
mod compare;
mod generate;
mod hex;
mod json;
mod order;
mod random;
mod record;
mod refusal;
mod reply;
mod request;
mod run;
mod term;
mod vectors;

use request::{pattern, Request};
use std::io::{self, BufRead, BufWriter, Read, Write};
use std::{env, fs, process};

const USAGE: &str = "usage:
  judge generate [--seed S] [--count N] > REQUESTS
  judge replies < REQUESTS > REPLIES
  judge compare REQUESTS REPLIES REPLIES
  judge vectors VECTORS
  judge vectors-requests VECTORS > REQUESTS
  judge vectors-replies VECTORS > REPLIES
  judge small-books [--seed S] [--count N]
  judge clause-file BOOK
  judge answer-request BOOK < TEXT";

/// The most symbols of a small book: all 5^5 tables of ranks are tried for it.
const SMALL: usize = 5;

type Done = Result<bool, String>;

fn main() {
    let args: Vec<String> = env::args().skip(1).collect();
    let words: Vec<&str> = args.iter().map(String::as_str).collect();
    let done = match words[..] {
        ["generate", ref options @ ..] => generate(options),
        ["replies"] => replies(),
        ["compare", requests, first, second] => compare(requests, first, second),
        ["vectors", file] => read_cases(file).and_then(vectors::check),
        ["vectors-requests", file] => print_cases(file, |case| case.request.line()),
        ["vectors-replies", file] => print_cases(file, |case| case.expected.line()),
        ["small-books", ref options @ ..] => small_books(options),
        ["clause-file", book] => clause_file(book),
        ["answer-request", book] => answer_request(book),
        _ => Err(USAGE.to_string()),
    };
    match done {
        Ok(true) => {}
        Ok(false) => process::exit(1),
        Err(fault) => {
            eprintln!("judge: {}", fault);
            process::exit(2);
        }
    }
}

fn read_file(name: &str) -> Result<String, String> {
    fs::read_to_string(name).map_err(|fault| format!("{}: {}", name, fault))
}

/// Prints lines until there are no more. A closed pipe ends it too.
fn print_lines(lines: impl Iterator<Item = Result<String, String>>) -> Done {
    let mut out = BufWriter::new(io::stdout());
    for line in lines {
        writeln!(out, "{}", line?).map_err(|fault| fault.to_string())?;
    }
    out.flush().map_err(|fault| fault.to_string())?;
    Ok(true)
}

/// The numbers after --seed and --count.
fn seed_and_count(options: &[&str], usual_count: u64) -> Result<(u64, u64), String> {
    let (mut seed, mut count) = (1, usual_count);
    for option in options.chunks(2) {
        let place = match option[0] {
            "--seed" => &mut seed,
            "--count" => &mut count,
            other => return Err(format!("unknown option {}\n{}", other, USAGE)),
        };
        let number = option.get(1).and_then(|text| text.parse().ok());
        *place = number.ok_or_else(|| format!("{} needs a number", option[0]))?;
    }
    Ok((seed, count))
}

fn generate(options: &[&str]) -> Done {
    let (seed, count) = seed_and_count(options, 200_000)?;
    let mut generator = generate::Generator::new(seed);
    print_lines((0..count).map(|_| Ok(generator.request().line())))
}

fn replies() -> Done {
    print_lines(io::stdin().lock().lines().enumerate().map(|(i, line)| {
        let request = line.map_err(|fault| fault.to_string()).and_then(|line| Request::read(&line));
        match request {
            Ok(request) => Ok(reply::reply_to(request).line()),
            Err(fault) => Err(format!("request {}: {}", i + 1, fault)),
        }
    }))
}

fn compare(requests: &str, first: &str, second: &str) -> Done {
    Ok(compare::compare(&read_file(requests)?, &read_file(first)?, &read_file(second)?))
}

fn read_cases(file: &str) -> Result<Vec<vectors::Case>, String> {
    vectors::read_cases(&read_file(file)?)
}

fn print_cases(file: &str, line: fn(&vectors::Case) -> String) -> Done {
    print_lines(read_cases(file)?.iter().map(|case| Ok(line(case))))
}

/// Each line: the book, then ranks that clear it, or `none`.
fn small_books(options: &[&str]) -> Done {
    let (seed, count) = seed_and_count(options, 100)?;
    let mut generator = generate::Generator::new(seed);
    print_lines((0..count).map(|_| {
        let (book, ranks) = generator.small_book(SMALL);
        let ranks = ranks.map_or("none".to_string(), |ranks| hex::to_hex(&ranks));
        Ok(format!("{} {}", hex::to_hex(&book), ranks))
    }))
}

fn clause_file(book: &str) -> Done {
    print!("{}", calls::clause_program(&hex::from_hex(book)?));
    Ok(true)
}

/// The request that asks for the ranks of the text, with room for any book's.
fn answer_request(book: &str) -> Done {
    let mut answer = Vec::new();
    io::stdin().read_to_end(&mut answer).map_err(|fault| fault.to_string())?;
    let (book, lent) = (hex::from_hex(book)?, pattern(book::MOST_SYMBOLS));
    println!("{}", Request::RanksFromAnswer { book, answer, lent }.line());
    Ok(true)
}
