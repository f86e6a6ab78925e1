//! What the Rust does at inputs where the port differs or refuses: the smallest input of each finding of
//! docs/DIFFERENCES.md. Run it in both builds: zero sizes differ between debug and release.
use crate::reference::{heard, Board, City, Puzzle, Union};
use std::fmt::Debug;

fn show<T: Debug>(input: &str, call: impl FnOnce() -> T) {
    match heard(call) {
        Ok(value) => println!("{input}: {value:?}"),
        Err(text) => println!("{input}: panics, {}", text.replace('\n', " ")),
    }
}

/// A board of a size: made, asked, decided on.
fn zero(height: usize, width: usize) {
    show(&format!("{height} by {width}, new"), || Board::new(height, width).ledger());
    show(&format!("{height} by {width}, ask"), || Board::new(height, width).ask());
    show(&format!("{height} by {width}, decide 0"), || Board::new(height, width).decide_and_undo(0, true));
}

pub fn run() {
    println!("build: {}", if cfg!(debug_assertions) { "debug" } else { "release" });
    for (height, width) in [(0, 0), (0, 1), (1, 0), (0, 2), (2, 0)] {
        zero(height, width);
    }
    show("33 by 1, ask on a fresh board", || Board::new(33, 1).ask());
    show("33 by 1, all Walls", || Board::standing(33, 1, &[2; 32]).ask());
    show("union of 3, 0 under 1 under 2, then unite 0 with 3", || {
        let mut union = Union::new(3);
        let answers = (union.unite(0, 1), union.unite(1, 2));
        (answers, union.parents(), union.after_panic(0, 3))
    });
    show("room graph, no vertices, count 0", || City::new(0, &[], 0).map(|mut c| c.ask()));
    show("room graph, no vertices, count 1", || City::new(0, &[], 1).map(|mut c| c.ask()));
    show("room graph, 2 vertices, no edge, count 3", || City::new(2, &[], 3).map(|mut c| c.ask()));
    show("room graph, 2 vertices, edge 0-1 Connected, count 3", || {
        City::new(2, &[(0, 1)], 3).map(|mut c| (c.decide(0, false), c.ask()))
    });
    show("room graph, 1 vertex, no edge, count 65537", || City::new(1, &[], 65537).map(|mut c| c.ask()));
    show("room graph, edge 0-2 of 2 vertices", || City::new(2, &[(0, 2)], 1).map(|mut c| c.ask()));
    show("puzzle 1 by 2, no given wall, two clues", || {
        Puzzle::new(1, 2, &[], &[1, 7], false).map(|mut p| p.ask())
    });
    show("puzzle 1 by 2, no given wall, no clue", || Puzzle::new(1, 2, &[], &[], false).map(|mut p| p.ask()));
    show("puzzle 1 by 2, clue 3", || Puzzle::new(1, 2, &[], &[3], false).map(|mut p| p.ask()));
}
