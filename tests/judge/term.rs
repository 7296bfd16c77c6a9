//! Terms are trees. Equality of terms is identity, so the derived `==` is the document's.

pub const SYMBOL_NODE: u8 = 3;
pub const VARIABLE_NODE: u8 = 4;

#[derive(Clone, Debug, PartialEq)]
pub enum Term {
    Variable(u8),
    Symbol(u8, Vec<Term>),
}

impl Term {
    /// s1..sm of f(s1..sm); a variable has none.
    pub fn arguments(&self) -> &[Term] {
        match self {
            Term::Variable(_) => &[],
            Term::Symbol(_, arguments) => arguments,
        }
    }

    pub fn nodes(&self) -> usize {
        1 + self.arguments().iter().map(Term::nodes).sum::<usize>()
    }

    /// The node records in prefix order.
    pub fn bytes(&self) -> Vec<u8> {
        let mut bytes = Vec::new();
        self.write(&mut bytes);
        bytes
    }

    fn write(&self, bytes: &mut Vec<u8>) {
        match self {
            Term::Variable(number) => bytes.extend([VARIABLE_NODE, *number]),
            Term::Symbol(number, _) => bytes.extend([SYMBOL_NODE, *number]),
        }
        for argument in self.arguments() {
            argument.write(bytes);
        }
    }
}
