//! "The clause file": its variables' numbers, its blocks in order, each block's clauses and text.

use crate::book::Book;
use crate::refusal::{refuse, Taken};
use crate::term::Term;

/// A literal is a variable's number, negative for "not".
type Clause = Vec<i64>;

/// A node of a side with the node numbers of its arguments.
struct Node<'a> {
    term: &'a Term,
    arguments: Vec<usize>,
}

struct NumberedRule<'a> {
    left: Vec<Node<'a>>,
    right: Vec<Node<'a>>,
    base: i64,
}

pub enum Block {
    Header,
    Pair(usize, usize),
    Rule(usize),
    Nodes(usize, usize, usize),
}

pub struct File<'a> {
    n: i64,
    k: i64,
    rules: Vec<NumberedRule<'a>>,
    variables: i64,
}

/// The least k with 2^k at least n.
pub fn rank_bits(n: usize) -> usize {
    let mut k = 0;
    while 1 << k < n {
        k += 1;
    }
    k
}

/// All nodes of a side, in prefix order.
fn numbered(term: &Term) -> Vec<Node<'_>> {
    let mut nodes = Vec::new();
    number(term, &mut nodes);
    nodes
}

fn number<'a>(term: &'a Term, nodes: &mut Vec<Node<'a>>) {
    let own = nodes.len();
    nodes.push(Node { term, arguments: Vec::new() });
    for argument in term.arguments() {
        let place = nodes.len();
        nodes[own].arguments.push(place);
        number(argument, nodes);
    }
}

impl<'a> File<'a> {
    pub fn of(book: &'a Book) -> File<'a> {
        let n = book.symbols() as i64;
        let k = rank_bits(book.symbols()) as i64;
        let mut base = n * n * k;
        let mut rules = Vec::new();
        for rule in &book.rules {
            let (left, right) = (numbered(&rule.left), numbered(&rule.right));
            let pairs = (left.len() * right.len()) as i64;
            rules.push(NumberedRule { left, right, base });
            base += 2 * pairs;
        }
        File { n, k, rules, variables: base }
    }

    /// V, the base after the last rule.
    pub fn variables(&self) -> usize {
        self.variables as usize
    }

    /// M.
    pub fn clause_count(&self) -> usize {
        self.blocks().iter().map(|block| self.clauses(block).len()).sum()
    }

    pub fn blocks(&self) -> Vec<Block> {
        let mut blocks = vec![Block::Header];
        for f in 0..self.n as usize {
            for g in (0..self.n as usize).filter(|g| *g != f) {
                blocks.push(Block::Pair(f, g));
            }
        }
        for (r, rule) in self.rules.iter().enumerate() {
            blocks.push(Block::Rule(r));
            for u in 0..rule.left.len() {
                for v in 0..rule.right.len() {
                    blocks.push(Block::Nodes(r, u, v));
                }
            }
        }
        blocks
    }

    pub fn text(&self, block: &Block) -> String {
        if let Block::Header = block {
            return format!("p cnf {} {}\n", self.variables, self.clause_count());
        }
        let mut text = String::new();
        for clause in self.clauses(block) {
            for literal in clause {
                text += &format!("{} ", literal);
            }
            text += "0\n";
        }
        text
    }

    fn clauses(&self, block: &Block) -> Vec<Clause> {
        match block {
            Block::Header => Vec::new(),
            Block::Pair(f, g) => (1..=self.k).flat_map(|j| self.comparison(*f, *g, j)).collect(),
            Block::Rule(r) => vec![vec![self.c(*r, 0, 0)]],
            Block::Nodes(r, u, v) => {
                let mut clauses = self.d_clauses(*r, *u, *v);
                clauses.extend(self.c_clauses(*r, *u, *v));
                clauses
            }
        }
    }

    fn bit(&self, f: usize, b: i64) -> i64 {
        f as i64 * self.k + b + 1
    }

    /// G(f,g,j): the low j bits of f are the larger number.
    fn g(&self, f: usize, g: usize, j: i64) -> i64 {
        let (f, g) = (f as i64, g as i64);
        let p = if g < f { f * (self.n - 1) + g } else { f * (self.n - 1) + g - 1 };
        self.n * self.k + p * self.k + j
    }

    fn c(&self, r: usize, u: usize, v: usize) -> i64 {
        let rule = &self.rules[r];
        rule.base + 2 * (u * rule.right.len() + v) as i64 + 1
    }

    fn comparison(&self, f: usize, g: usize, j: i64) -> Vec<Clause> {
        let whole = self.g(f, g, j);
        let (a, b) = (self.bit(f, j - 1), self.bit(g, j - 1));
        if j == 1 {
            return vec![vec![-whole, a], vec![-whole, -b], vec![whole, -a, b]];
        }
        let q = self.g(f, g, j - 1);
        vec![
            vec![whole, -a, b],
            vec![whole, -a, -q],
            vec![whole, b, -q],
            vec![-whole, a, -b],
            vec![-whole, a, q],
            vec![-whole, -b, q],
        ]
    }

    /// D's parts; none where D can only be false.
    fn d_parts(&self, r: usize, u: usize, v: usize) -> Vec<i64> {
        let (s, t) = (&self.rules[r].left[u], &self.rules[r].right[v]);
        let (f, g) = match (s.term, t.term) {
            (Term::Symbol(f, _), Term::Symbol(g, _)) => (usize::from(*f), usize::from(*g)),
            _ => return Vec::new(),
        };
        let (first, later) = if f == g {
            let (ss, ts) = (s.term.arguments(), t.term.arguments());
            match (0..ss.len()).find(|i| ss[*i] != ts[*i]) {
                Some(i) => (self.c(r, s.arguments[i], t.arguments[i]), &t.arguments[i + 1..]),
                None => return Vec::new(),
            }
        } else {
            (self.g(f, g, self.k), &t.arguments[..])
        };
        let mut parts = vec![first];
        parts.extend(later.iter().map(|tj| self.c(r, u, *tj)));
        parts
    }

    fn d_clauses(&self, r: usize, u: usize, v: usize) -> Vec<Clause> {
        let d = self.c(r, u, v) + 1;
        let parts = self.d_parts(r, u, v);
        if parts.is_empty() {
            return vec![vec![-d]];
        }
        let mut clauses: Vec<Clause> = parts.iter().map(|q| vec![-d, *q]).collect();
        let mut closing = vec![d];
        closing.extend(parts.iter().map(|q| -q));
        clauses.push(closing);
        clauses
    }

    fn c_clauses(&self, r: usize, u: usize, v: usize) -> Vec<Clause> {
        let c = self.c(r, u, v);
        let (s, t) = (&self.rules[r].left[u], &self.rules[r].right[v]);
        if s.term.arguments().contains(t.term) {
            return vec![vec![c]];
        }
        let mut parts: Vec<i64> = s.arguments.iter().map(|si| self.c(r, *si, v)).collect();
        parts.push(c + 1);
        let mut clauses: Vec<Clause> = parts.iter().map(|part| vec![c, -part]).collect();
        let mut closing = vec![-c];
        closing.extend(parts);
        clauses.push(closing);
        clauses
    }
}

/// The block of that number, as text.
pub fn block(book: &Book, number: u64) -> Taken<String> {
    let file = File::of(book);
    let blocks = file.blocks();
    match usize::try_from(number).ok().and_then(|number| blocks.get(number)) {
        Some(block) => Ok(file.text(block)),
        None => refuse(10, 0),
    }
}

/// All blocks in order.
pub fn whole_file(book: &Book) -> String {
    let file = File::of(book);
    file.blocks().iter().map(|block| file.text(block)).collect()
}
