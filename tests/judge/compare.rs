//! Two reply files held against each other, and the figures of the first.

use std::collections::BTreeMap;

const SHOWN: usize = 10;
/// Refusals 0 (accepted) to 15.
const NUMBERS: usize = 16;
const OUTCOMES: [&str; 3] = ["done", "spent", "too large"];
const MISSING: &str = "(no reply)";

/// Prints the first differing requests, then the figures; the reply is whether all agree.
pub fn compare(requests: &str, first: &str, second: &str) -> bool {
    let mut first = first.lines();
    let mut second = second.lines();
    let mut figures = Figures::default();
    let (mut asked, mut differ) = (0, 0);
    for request in requests.lines() {
        asked += 1;
        let replies = (first.next().unwrap_or(MISSING), second.next().unwrap_or(MISSING));
        figures.add(request, replies.0);
        if replies.0 != replies.1 {
            differ += 1;
            if differ <= SHOWN {
                println!("{}\n  first  {}\n  second {}", request, replies.0, replies.1);
            }
        }
    }
    let left_over = first.count() + second.count();
    if left_over > 0 {
        println!("{} replies more than requests", left_over);
    }
    figures.print();
    println!("{} requests, {} differ", asked, differ);
    differ + left_over == 0
}

#[derive(Default)]
struct Figures {
    /// For each call, how often each refusal number was given.
    refusals: BTreeMap<String, [u64; NUMBERS]>,
    outcomes: [u64; OUTCOMES.len()],
}

impl Figures {
    fn add(&mut self, request: &str, reply: &str) {
        let call = request.split(' ').next().unwrap_or("");
        let fields: Vec<&str> = reply.split(' ').collect();
        let field = |i: usize| fields.get(i).and_then(|field| field.parse::<usize>().ok());
        let row = self.refusals.entry(call.to_string()).or_default();
        match field(0) {
            Some(refusal) if refusal < NUMBERS => row[refusal] += 1,
            _ => return,
        }
        if let ("run", Some(outcome @ 1..=3)) = (call, field(2)) {
            self.outcomes[outcome - 1] += 1;
        }
    }

    fn print(&self) {
        print!("{:<18}{:>9}{:>9}", "", "requests", "accepted");
        (1..NUMBERS).for_each(|number| print!("{:>7}", number));
        println!();
        let mut total = [0; NUMBERS];
        for (call, row) in &self.refusals {
            print_row(call, row);
            (0..NUMBERS).for_each(|number| total[number] += row[number]);
        }
        print_row("all", &total);
        let outcomes: Vec<String> =
            OUTCOMES.iter().zip(self.outcomes).map(|(name, count)| format!("{} {}", name, count)).collect();
        println!("runs: {}", outcomes.join(", "));
    }
}

fn print_row(name: &str, row: &[u64; NUMBERS]) {
    print!("{:<18}{:>9}{:>9}", name, row.iter().sum::<u64>(), row[0]);
    row[1..].iter().for_each(|count| print!("{:>7}", count));
    println!();
}
