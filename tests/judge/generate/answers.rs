//! A solver's answer about a draft, well formed in many spellings or with one fault.

use super::damage::damaged;
use super::draft::Draft;
use super::ranks::ranks;
use crate::answer::MOST_BYTES;
use crate::clauses::{rank_bits, File};
use crate::random::Random;

/// A full list of values is written only for files of at most so many variables.
const MOST_WRITTEN: usize = 300;

/// Lines that cannot stand in an answer, or only at some places.
const STRAY_LINES: &[&str] = &[
    "",
    " ",
    "v",
    "v ",
    "v1 0",
    "V 1 0",
    "v 0",
    "v 1 0",
    "v  0  ",
    "s",
    "s ",
    "s SATISFIABLE",
    "s SATISFIABLE ",
    "s  SATISFIABLE",
    "s satisfiable",
    "S SATISFIABLE",
    "sSATISFIABLE",
    "s SATISFIABLE\r",
    "s UNSATISFIABLE",
    "s UNKNOWN",
    "s UNSAT",
    " s SATISFIABLE",
    " c",
    "C",
    "x",
    "0",
    "-1 0",
    "p cnf 1 1",
    "\r",
    "\t",
    "v\t1 0",
];

/// Items that are no literal of any file.
const STRAY_ITEMS: &[&str] = &[
    "00",
    "01",
    "-0",
    "-01",
    "+1",
    "-",
    "--1",
    "1-",
    "1x",
    "x",
    "1\r",
    "1\t",
    "0\r",
    "1.0",
    "0x1",
    "-00",
    "18446744073709551617",
    "99999999999999999999999999",
    "-4294967297",
];

const COMMENTS: &[&str] = &["c", "c a comment", "cnf", "c\r", "c v 1 0", "c s SATISFIABLE", "c  "];

type Lines = Vec<Vec<u8>>;

pub fn answer(random: &mut Random, draft: &Draft) -> Vec<u8> {
    let mut lines = match random.below(10) {
        0 => vec![random.pick(&[&b"s UNSATISFIABLE"[..], b"s UNKNOWN"]).to_vec()],
        _ => satisfiable(random, draft),
    };
    if random.in_1000(400) {
        break_lines(random, draft, &mut lines);
    }
    while random.in_1000(300) {
        let place = random.below(lines.len() + 1);
        lines.insert(place, random.pick(COMMENTS).as_bytes().to_vec());
    }
    let mut text = lines.join(&b'\n');
    (0..last_newlines(random)).for_each(|_| text.push(b'\n'));
    if random.in_1000(50) {
        text = damaged(random, &text);
    }
    if random.in_1000(7) {
        lengthened(random, text)
    } else {
        text
    }
}

fn last_newlines(random: &mut Random) -> usize {
    match random.below(40) {
        0 => 2,
        1..=10 => 0,
        _ => 1,
    }
}

/// The same text with a comment before it that brings it to the limit or above.
fn lengthened(random: &mut Random, text: Vec<u8>) -> Vec<u8> {
    let wanted = *random.pick(&[MOST_BYTES, MOST_BYTES + 1, MOST_BYTES + 1, MOST_BYTES + 90]);
    let mut whole = vec![b'c'; wanted.saturating_sub(text.len() + 1).max(1)];
    whole.push(b'\n');
    whole.extend(text);
    whole
}

fn satisfiable(random: &mut Random, draft: &Draft) -> Lines {
    let mut lines = vec![b"s SATISFIABLE".to_vec()];
    let mut line = b"v".to_vec();
    let per_line = random.between(1, 12);
    let wide = random.in_1000(100);
    let literals = literals(random, draft).into_iter().map(|literal| literal.to_string());
    for (i, item) in literals.chain(["0".to_string()]).enumerate() {
        if i > 0 && i % per_line == 0 {
            lines.push(std::mem::replace(&mut line, b"v".to_vec()));
        }
        let spaces = if wide { random.between(1, 3) } else { 1 };
        line.extend(vec![b' '; spaces]);
        line.extend(item.bytes());
    }
    if random.in_1000(150) {
        line.extend(b"  ");
    }
    lines.push(line);
    lines
}

/// The rank bits of a table, false ones named or not, and values of other variables.
fn literals(random: &mut Random, draft: &Draft) -> Vec<i64> {
    let n = draft.book.symbols();
    let k = rank_bits(n);
    let mut ranks = ranks(random, draft);
    ranks.resize(n, 0);
    let name_false = random.in_1000(500);
    let mut literals = Vec::new();
    for (f, rank) in ranks.iter().enumerate() {
        for b in 0..k {
            let variable = (f * k + b + 1) as i64;
            if rank >> b & 1 == 1 {
                literals.push(variable);
            } else if name_false {
                literals.push(-variable);
            }
        }
    }
    let others = (n * k + 1) as i64..=File::of(&draft.book).variables() as i64;
    add_others(random, others.collect(), &mut literals);
    if random.in_1000(300) {
        random.shuffle(&mut literals);
    }
    literals
}

/// All values of a small file, as a solver prints them; otherwise a few, which may contradict.
fn add_others(random: &mut Random, others: Vec<i64>, literals: &mut Vec<i64>) {
    let mut add = |random: &mut Random, other: i64| {
        literals.push(if random.in_1000(500) { other } else { -other });
    };
    if others.len() <= MOST_WRITTEN && random.in_1000(300) {
        others.iter().for_each(|other| add(random, *other));
    } else if !others.is_empty() {
        (0..random.below(6)).for_each(|_| {
            let other = *random.pick(&others);
            add(random, other);
        });
    }
}

fn break_lines(random: &mut Random, draft: &Draft, lines: &mut Lines) {
    let place = random.below(lines.len());
    let last = lines.len() - 1;
    match random.below(12) {
        0 => drop(lines.remove(place)),
        1 => lines.swap(place, 0),
        2 => lines[place].push(b'\r'),
        3 => lines.insert(place, random.pick(STRAY_LINES).as_bytes().to_vec()),
        4..=5 => lines.push(random.pick(STRAY_LINES).as_bytes().to_vec()),
        6 => lines[place] = random.pick(STRAY_LINES).as_bytes().to_vec(),
        7 => put_item(random, &mut lines[place]),
        8..=9 => put_item(random, &mut lines[last]),
        10 => drop_closing(lines),
        _ => name_again(random, draft, lines),
    }
}

/// Puts an item before the first, between two, or after the last of a line.
fn put_item(random: &mut Random, line: &mut Vec<u8>) {
    let mut words: Vec<Vec<u8>> = line.split(|byte| *byte == b' ').map(<[u8]>::to_vec).collect();
    let place = random.between(1, words.len());
    words.insert(place, random.pick(STRAY_ITEMS).as_bytes().to_vec());
    *line = words.join(&b' ');
}

fn drop_closing(lines: &mut Lines) {
    if let Some(line) = lines.last_mut() {
        let end = line.iter().rposition(|byte| *byte == b'0').unwrap_or(0);
        line.truncate(end);
    }
}

/// A literal at the end of the first v line: V + 1, or a variable that may be named already.
fn name_again(random: &mut Random, draft: &Draft, lines: &mut Lines) {
    let most = File::of(&draft.book).variables();
    let ranks = draft.book.symbols() * rank_bits(draft.book.symbols());
    let variable = match random.below(4) {
        0 => most + 1,
        1 => most.max(1),
        _ => 1 + random.below(ranks.max(1)),
    };
    let sign = if random.in_1000(500) { "-" } else { "" };
    let place = lines.len().min(2) - 1;
    lines[place].splice(1..1, format!(" {}{}", sign, variable).into_bytes());
}
