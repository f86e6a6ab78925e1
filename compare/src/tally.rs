//! What a layer's comparison counts, and the table of them.
use std::any::type_name;
use std::fmt::Debug;
use std::time::{Duration, Instant};

pub struct Tally {
    pub layer: &'static str,
    /// Boards, graphs, sizes or runs of calls.
    cases: u64,
    /// Those in which words stand in for the Rust's asks, since a request changes them.
    left_out: u64,
    /// Answers held against each other.
    answers: u64,
    /// Those of calls that list: a list, or clear, or a refusal in its place.
    lists: u64,
    differences: u64,
    began: Instant,
    took: Duration,
}

/// How many differences of a layer are printed.
const SHOWN: u64 = 5;

impl Tally {
    pub fn new(layer: &'static str) -> Tally {
        let (began, took) = (Instant::now(), Duration::ZERO);
        Tally { layer, cases: 0, left_out: 0, answers: 0, lists: 0, differences: 0, began, took }
    }

    pub fn case(&mut self) {
        self.cases += 1;
    }

    /// The case just begun is left out of what is compared with the Rust, if it is to be.
    pub fn leave_out(&mut self, left_out: bool) {
        self.left_out += u64::from(left_out);
    }

    /// Holds the port's answer against the Rust's.
    pub fn same<T: PartialEq + Debug>(&mut self, rust: &T, port: &T, on: impl FnOnce() -> String) {
        self.answers += 1;
        self.lists += u64::from(lists::<T>());
        if rust == port {
            return;
        }
        self.differences += 1;
        if self.differences <= SHOWN {
            println!("{}: on {}\n  the Rust: {rust:?}\n  the port: {port:?}", self.layer, on());
        }
    }

    pub fn done(mut self) -> Tally {
        self.took = self.began.elapsed();
        self
    }
}

/// Whether an answer of this type has entries or cells in it.
fn lists<T>() -> bool {
    let name = type_name::<T>();
    name.contains("Vec<u16>") || name.contains("answers::")
}

/// Prints the table, and says whether nothing differed.
pub fn report(tallies: &[Tally]) -> bool {
    println!("{:<12} {:>12} {:>12} {:>14} {:>14} {:>12} {:>9}", "layer", "cases", "left out", "answers", "lists", "differences", "seconds");
    for t in tallies {
        let (cases, left_out, answers, lists, seconds) = (t.cases, t.left_out, t.answers, t.lists, t.took.as_secs_f64());
        println!("{:<12} {cases:>12} {left_out:>12} {answers:>14} {lists:>14} {:>12} {seconds:>9.1}", t.layer, t.differences);
    }
    let all = |count: fn(&Tally) -> u64| tallies.iter().map(count).sum::<u64>();
    let (cases, left_out, answers, lists) = (all(|t| t.cases), all(|t| t.left_out), all(|t| t.answers), all(|t| t.lists));
    println!("{:<12} {cases:>12} {left_out:>12} {answers:>14} {lists:>14}", "all");
    tallies.iter().all(|t| t.differences == 0)
}
