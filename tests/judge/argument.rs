//! The argument question: which part of a record's bytes is argument i of its root.

use crate::refusal::{refuse, Taken};
use crate::term::Term;

/// Two bytes for each node, the root's own first.
pub fn argument_part(record: &Term, number: u64) -> Taken<(usize, usize)> {
    let arguments = record.arguments();
    let i = match usize::try_from(number) {
        Ok(i) if i < arguments.len() => i,
        _ => return refuse(15, 0),
    };
    let before: usize = arguments[..i].iter().map(Term::nodes).sum();
    Ok((2 * (1 + before), 2 * arguments[i].nodes()))
}
