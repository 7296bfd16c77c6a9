//! Books that resemble real ones, each with ranks that clear it where some do.

use super::draft::Draft;
use super::notation;
use crate::order::check_ranks;

struct Known {
    symbols: &'static str,
    rules: &'static [&'static str],
    /// None: no ranks clear the book.
    ranks: Option<&'static [u8]>,
}

/// z and e are constants in all of them.
const KNOWN: &[Known] = &[
    // addition
    Known {
        symbols: "z/0 s/1 a/2",
        rules: &["a(z,x) -> x", "a(s(x),y) -> s(a(x,y))"],
        ranks: Some(&[0, 0, 1]),
    },
    // addition, multiplication, factorial
    Known {
        symbols: "z/0 s/1 a/2 m/2 fac/1",
        rules: &[
            "a(z,x) -> x",
            "a(s(x),y) -> s(a(x,y))",
            "m(z,x) -> z",
            "m(s(x),y) -> a(y,m(x,y))",
            "fac(z) -> s(z)",
            "fac(s(x)) -> m(s(x),fac(x))",
        ],
        ranks: Some(&[0, 0, 1, 2, 3]),
    },
    // Ackermann's function
    Known {
        symbols: "z/0 s/1 ack/2",
        rules: &["ack(z,y) -> s(y)", "ack(s(x),z) -> ack(x,s(z))", "ack(s(x),s(y)) -> ack(x,ack(s(x),y))"],
        ranks: Some(&[0, 0, 1]),
    },
    // associativity, and its reverse
    Known { symbols: "e/0 m/2", rules: &["m(m(x,y),z) -> m(x,m(y,z))"], ranks: Some(&[0, 0]) },
    Known { symbols: "e/0 m/2", rules: &["m(x,m(y,z)) -> m(m(x,y),z)"], ranks: None },
    // list functions
    Known {
        symbols: "nil/0 cons/2 app/2 rev/1 len/1 z/0 s/1",
        rules: &[
            "app(nil,y) -> y",
            "app(cons(x,y),w) -> cons(x,app(y,w))",
            "rev(nil) -> nil",
            "rev(cons(x,y)) -> app(rev(y),cons(x,nil))",
            "len(nil) -> z",
            "len(cons(x,y)) -> s(len(y))",
        ],
        ranks: Some(&[0, 0, 1, 2, 1, 0, 0]),
    },
    // group laws, completed
    Known {
        symbols: "e/0 i/1 m/2",
        rules: &[
            "m(e,x) -> x",
            "m(x,e) -> x",
            "m(i(x),x) -> e",
            "m(x,i(x)) -> e",
            "i(e) -> e",
            "i(i(x)) -> x",
            "i(m(x,y)) -> m(i(y),i(x))",
            "m(m(x,y),w) -> m(x,m(y,w))",
            "m(i(x),m(x,y)) -> y",
            "m(x,m(i(x),y)) -> y",
        ],
        ranks: Some(&[0, 2, 1]),
    },
    // the system of div, i, e
    Known {
        symbols: "div/2 i/1 e/0",
        rules: &["div(x,e) -> i(x)", "i(div(x,y)) -> div(y,x)", "div(div(x,y),w) -> div(y,div(i(x),w))"],
        ranks: None,
    },
    // doubling
    Known { symbols: "z/0 d/1 p/2", rules: &["d(x) -> p(x,x)"], ranks: Some(&[0, 1, 0]) },
    Known {
        symbols: "z/0 one/1 two/2 six/6",
        rules: &["one(x) -> two(x,x)", "two(x,y) -> six(x,y,x,y,x,y)"],
        ranks: Some(&[0, 2, 1, 0]),
    },
    // a counter of bits, which steps long before it grows
    Known {
        symbols: "end/0 o/1 i/1 inc/1 up/2 s/1",
        rules: &[
            "inc(end) -> i(end)",
            "inc(o(x)) -> i(x)",
            "inc(i(x)) -> o(inc(x))",
            "up(end,y) -> y",
            "up(s(x),y) -> up(x,inc(y))",
        ],
        ranks: Some(&[0, 0, 0, 1, 2, 0]),
    },
    // renaming, and a circle of two
    Known { symbols: "f/1 g/1", rules: &["f(x) -> g(x)"], ranks: Some(&[1, 0]) },
    Known { symbols: "f/1 g/1 z/0", rules: &["f(x) -> g(x)", "g(x) -> f(x)"], ranks: None },
    // a decrease in the middle argument
    Known { symbols: "f/3 g/1 z/0", rules: &["f(y,g(x),x) -> f(y,x,g(g(x)))"], ranks: Some(&[1, 0, 0]) },
    // a later argument that is not exceeded
    Known { symbols: "f/2 g/1 z/0", rules: &["f(g(x),y) -> f(x,f(g(x),y))"], ranks: None },
    // normal form of propositions
    Known {
        symbols: "not/1 and/2 or/2 t/0 f/0",
        rules: &[
            "not(not(x)) -> x",
            "not(t) -> f",
            "not(f) -> t",
            "not(and(x,y)) -> or(not(x),not(y))",
            "not(or(x,y)) -> and(not(x),not(y))",
            "and(x,or(y,w)) -> or(and(x,y),and(x,w))",
            "and(or(y,w),x) -> or(and(y,x),and(w,x))",
        ],
        ranks: Some(&[3, 2, 1, 0, 0]),
    },
    // tests of identity and choice
    Known {
        symbols: "t/0 f/0 eq/2 if/3 z/0 s/1",
        rules: &[
            "eq(x,x) -> t",
            "eq(z,s(x)) -> f",
            "eq(s(x),z) -> f",
            "eq(s(x),s(y)) -> eq(x,y)",
            "if(t,x,y) -> x",
            "if(f,x,y) -> y",
            "if(x,y,y) -> y",
        ],
        ranks: Some(&[0, 0, 1, 0, 0, 0]),
    },
    // a derivative
    Known {
        symbols: "d/1 t/0 one/0 zero/0 a/2 m/2",
        rules: &[
            "d(t) -> one",
            "d(one) -> zero",
            "d(zero) -> zero",
            "d(a(x,y)) -> a(d(x),d(y))",
            "d(m(x,y)) -> a(m(y,d(x)),m(x,d(y)))",
            "a(zero,x) -> x",
            "m(zero,x) -> zero",
            "m(one,x) -> x",
        ],
        ranks: Some(&[3, 2, 1, 0, 0, 0]),
    },
    // even and odd, each by the other
    Known {
        symbols: "even/1 odd/1 z/0 s/1 t/0 f/0",
        rules: &["even(z) -> t", "odd(z) -> f", "even(s(x)) -> odd(x)", "odd(s(x)) -> even(x)"],
        ranks: None,
    },
    // treatment dates: the later of two, and days added
    Known {
        symbols: "day/1 end/0 later/2 plus/2 dose/3",
        rules: &[
            "later(end,x) -> x",
            "later(x,end) -> x",
            "later(x,x) -> x",
            "later(day(x),day(y)) -> day(later(x,y))",
            "plus(x,end) -> x",
            "plus(x,day(y)) -> day(plus(x,y))",
            "dose(x,y,w) -> later(plus(x,y),w)",
        ],
        ranks: Some(&[0, 0, 1, 1, 2]),
    },
    // six arguments turned into a list
    Known {
        symbols: "six/6 cons/2 nil/0",
        rules: &["six(a,b,c,d,e,f) -> cons(a,cons(f,cons(c,nil)))"],
        ranks: Some(&[1, 0, 0]),
    },
    // the edges: a part, itself, another variable, a variable on the left, constants
    Known { symbols: "f/1", rules: &["f(x) -> x"], ranks: Some(&[0]) },
    Known { symbols: "f/1", rules: &["f(x) -> f(x)"], ranks: None },
    Known { symbols: "f/1 z/0", rules: &["f(x) -> y"], ranks: None },
    Known { symbols: "", rules: &["x -> x"], ranks: None },
    Known { symbols: "", rules: &[], ranks: Some(&[]) },
    Known { symbols: "z/0", rules: &[], ranks: Some(&[0]) },
    Known { symbols: "a/0 b/0", rules: &["a -> b"], ranks: Some(&[1, 0]) },
    Known { symbols: "a/0 b/0", rules: &["a -> b", "b -> b"], ranks: None },
];

pub fn drafts() -> Vec<Draft> {
    KNOWN.iter().map(draft).collect()
}

fn draft(known: &Known) -> Draft {
    let book = notation::book(known.symbols, known.rules);
    let ranks = known.ranks.map(<[u8]>::to_vec);
    if let Some(ranks) = &ranks {
        assert!(check_ranks(&book, ranks).is_ok(), "{} {:?}", known.symbols, known.rules);
    }
    Draft { book, ranks }
}
