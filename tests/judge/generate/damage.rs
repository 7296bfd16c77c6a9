//! Bytes that were good once: cut, changed, with bytes put in, taken out or added.

use crate::book::{read_book, MOST_ARITY, MOST_VARIABLE, SYMBOL};
use crate::random::Random;
use crate::term::{SYMBOL_NODE, VARIABLE_NODE};

pub fn damaged(random: &mut Random, bytes: &[u8]) -> Vec<u8> {
    let mut bytes = bytes.to_vec();
    let wounds = if random.in_1000(800) { 1 } else { random.between(2, 4) };
    (0..wounds).for_each(|_| wound(random, &mut bytes));
    bytes
}

fn wound(random: &mut Random, bytes: &mut Vec<u8>) {
    let place = random.below(bytes.len() + 1);
    let inside = place < bytes.len();
    match random.below(8) {
        0 => bytes.truncate(place),
        1 if inside => bytes[place] ^= 1 << random.below(8),
        2 | 3 if inside => bytes[place] = odd_byte(random),
        4 if inside => drop(bytes.remove(place)),
        5 => bytes.insert(place, odd_byte(random)),
        6 if inside => {
            let copy = bytes[place..].iter().take(random.between(1, 4)).copied().collect::<Vec<u8>>();
            bytes.splice(place..place, copy);
        }
        _ => (0..random.between(1, 3)).for_each(|_| bytes.push(odd_byte(random))),
    }
}

/// The book with one body changed to the least value that is too large.
pub fn overstepped(random: &mut Random, mut book: Vec<u8>, symbols: usize) -> Vec<u8> {
    let bodies = bodies(&book);
    if !bodies.is_empty() {
        let at = *random.pick(&bodies);
        book[at] = match book[at - 1] {
            SYMBOL => MOST_ARITY + 1,
            VARIABLE_NODE => MOST_VARIABLE + 1,
            _ => symbols as u8,
        };
    }
    book
}

/// Where the bodies of a book's records stand.
fn bodies(book: &[u8]) -> Vec<usize> {
    let mut bodies = Vec::new();
    let mut at = 0;
    while at < book.len() {
        if matches!(book[at], SYMBOL | SYMBOL_NODE | VARIABLE_NODE) {
            at += 1;
            bodies.push(at);
        }
        at += 1;
    }
    bodies
}

/// A second fault in the record that is refused: of two, the order of refusals decides.
pub fn refused_twice(random: &mut Random, mut book: Vec<u8>) -> Vec<u8> {
    let place = match read_book(&book) {
        Err(refusal) if (refusal.place as usize) < book.len() => refusal.place as usize,
        _ => return book,
    };
    match random.below(4) {
        0 => book.truncate(place + 1),
        1 => book[place] = odd_byte(random),
        _ if place + 1 < book.len() => book[place + 1] = *random.pick(&[7, 15, 16, 255]),
        _ => book.push(odd_byte(random)),
    }
    book
}

/// Mostly the kinds, their neighbours and the limits of bodies.
pub fn odd_byte(random: &mut Random) -> u8 {
    match random.below(4) {
        0 => random.byte(),
        1 => *random.pick(&[15, 16, 17, 31, 32, 127, 128, 255]),
        _ => random.below(8) as u8,
    }
}

/// A few bytes that were never a book.
pub fn scrambled(random: &mut Random) -> Vec<u8> {
    let length = random.below(16);
    (0..length).map(|_| odd_byte(random)).collect()
}
