//! A record to be run: one term of symbol nodes in prefix order, then the end, and nothing more.

use crate::book::END;
use crate::refusal::{refuse, Taken};
use crate::term::{Term, SYMBOL_NODE};

pub const MOST_NODES: usize = 256;

/// Whatever is wrong with a record is 11 at 0.
pub fn read_record(arities: &[u8], bytes: &[u8]) -> Taken<Term> {
    let mut rest = bytes;
    match node(arities, &mut rest, &mut 0) {
        Some(term) if rest == [END] => Ok(term),
        _ => refuse(11, 0),
    }
}

/// The subterm at the start of `rest`, which is moved behind it. The count stops a record above the
/// limit early, so the depth of the call is bounded too.
fn node(arities: &[u8], rest: &mut &[u8], nodes: &mut usize) -> Option<Term> {
    let (symbol, behind) = match *rest {
        [SYMBOL_NODE, symbol, behind @ ..] => (*symbol, behind),
        _ => return None,
    };
    let arity = *arities.get(usize::from(symbol))?;
    if *nodes == MOST_NODES {
        return None;
    }
    *nodes += 1;
    *rest = behind;
    let arguments: Option<Vec<Term>> = (0..arity).map(|_| node(arities, rest, nodes)).collect();
    Some(Term::Symbol(symbol, arguments?))
}

/// The term as a record: its nodes, then the end record.
pub fn record_bytes(term: &Term) -> Vec<u8> {
    let mut bytes = term.bytes();
    bytes.push(END);
    bytes
}
