//! The script that crate `vectors` runs in the gate, and the Rust's answers to it, or those of the words that stand in for it: a line for each call.
//! README.md has the calls.
use crate::boards::{self, Standing, UNDECIDED};
use crate::edges::{self, KINDS};
use crate::layers::{
    board, boundary, city_count, generator, groups, hand_over, images, numbering, path, puzzle, right_boards, shape, strokes, union_find,
};
use crate::ledger::singles;
use crate::random::Random;
use std::fmt::Display;
use std::path::Path;

/// The largest number of five digits, which stands for any that is larger.
pub const LARGEST: usize = 99_999;

/// The script and the answers as they grow.
pub struct Sample {
    script: String,
    answers: String,
}

impl Sample {
    /// A call (the record's letter and its own) with two numbers, and the answer to it.
    pub fn call(&mut self, name: &str, x: usize, y: usize, answer: impl Display) {
        self.script += &format!("{name} {:05} {:05}\n", x.min(LARGEST), y.min(LARGEST));
        self.answers += &format!("{answer}\n");
    }

    /// Two lists for the next call that takes lists.
    pub fn lists(&mut self, first: &[u16], second: &[u16]) {
        self.call("le", 0, 0, 0);
        first.iter().for_each(|&n| self.call("lf", n as usize, 0, 0));
        second.iter().for_each(|&n| self.call("ls", n as usize, 0, 0));
    }

    /// A board that stands so, its borders decided in rising order.
    pub fn board(&mut self, board: &Standing) {
        self.call("bm", board.height, board.width, 0);
        for (border, &state) in board.states.iter().enumerate().filter(|(_, &state)| state != UNDECIDED) {
            self.call("bd", border, state as usize, 0);
        }
    }
}

/// Numbers, each after a space.
pub fn numbers<T: Display>(list: &[T]) -> String {
    list.iter().map(|n| format!(" {n}")).collect()
}

/// The number of a refusal, or 0.
pub fn code<T>(answer: &Result<T, u8>) -> u8 {
    *answer.as_ref().err().unwrap_or(&0)
}

/// The code, and the list where it is 0.
pub fn listed<T: Display>(answer: &Result<Vec<T>, u8>) -> String {
    format!("{}{}", code(answer), numbers(answer.as_deref().unwrap_or(&[])))
}

/// An ask that is not refused: clear, or a fault with its list.
pub fn fault(fault: &Option<Vec<u16>>) -> String {
    fault.as_ref().map_or("0".into(), |list| format!("0 fault{}", numbers(list)))
}

/// A record: how many borders are decided, their names in turn, and the states.
pub fn named(names: &[u16], states: &[u8]) -> String {
    format!("{}{};{}", names.len(), numbers(names), numbers(states))
}

/// A record whose borders were decided one by one.
pub fn record(ledger: &[u16], states: &[u8]) -> String {
    named(&singles(ledger), states)
}

/// Boards, and what is asked of each: random ones with sides to 6, structured ones, and a long snake of the largest size.
fn standing(sample: &mut Sample) {
    let random = &mut Random::new(120);
    let mut list: Vec<Standing> = (0..120).map(|_| boards::random(random, 1, 6)).collect();
    list.extend(boards::structured(6, 6).into_iter().map(|(_, board)| board));
    list.extend(boards::structured(32, 32).into_iter().filter(|(name, _)| name == "snake, open beside").map(|(_, board)| board));
    for board in list {
        sample.board(&board);
        groups::sample(sample, &board);
        path::sample(sample, random, &board);
        boundary::sample(sample, &board);
        shape::sample(sample, &board);
    }
}

/// Boards whose units lie along the sides or fit in few places: small ones of each kind, and two of the largest sizes.
fn along_sides(sample: &mut Sample) {
    let random = &mut Random::new(137);
    let small = (0..KINDS.len()).flat_map(|kind| [(kind, 3, 7), (kind, 8, 5), (kind, 1, 9)]);
    for (kind, height, width) in small.chain([(2, 32, 32), (4, 31, 32)]) {
        let board = edges::drawn(random, kind, height, width);
        sample.board(&board);
        shape::sample(sample, &board);
    }
}

/// Writes the script of all layers and the answers to it.
pub fn write(folder: &Path) {
    let sample = &mut Sample { script: String::new(), answers: String::new() };
    numbering::sample(sample);
    board::sample(sample);
    standing(sample);
    along_sides(sample);
    union_find::sample(sample);
    city_count::sample(sample);
    puzzle::sample(sample);
    hand_over::sample(sample);
    right_boards::sample(sample);
    generator::sample(sample);
    strokes::sample(sample);
    images::sample(sample);
    sample.script += ".  00000 00000\n";
    sample.answers += "end\n";
    println!("{} calls", sample.script.lines().count() - 1);
    std::fs::write(folder.join("stdin"), &sample.script).expect("the crate's folder");
    std::fs::write(folder.join("stdout"), &sample.answers).expect("the crate's folder");
}
