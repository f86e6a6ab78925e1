//! A module a layer: what is compared, on which inputs.
pub mod board;
pub mod boundary;
pub mod city_count;
pub mod edges;
pub mod files;
pub mod generator;
pub mod groups;
pub mod hand_over;
pub mod images;
pub mod numbering;
pub mod path;
pub mod puzzle;
pub mod right_boards;
pub mod shape;
pub mod strokes;
pub mod union_find;

use crate::boards::{self, Standing};
use crate::ledger::entry;
use crate::port::Record;
use crate::random::Random;
use crate::runs::{Call, Turn};
use crate::tally::Tally;
use std::time::{Duration, Instant};

/// How far a run goes.
#[derive(Clone, Copy)]
pub struct Limits {
    pub seed: u64,
    /// How long each layer draws random inputs.
    pub time: Duration,
    /// The exhaustive parts leave out boards with more borders than this.
    pub borders: usize,
}

/// What is compared.
pub struct Layer {
    pub name: &'static str,
    pub run: fn(&Limits) -> Tally,
}

pub const LAYERS: [Layer; 16] = [
    Layer { name: "numbering", run: numbering::run },
    Layer { name: "board", run: board::run },
    Layer { name: "groups", run: groups::run },
    Layer { name: "path", run: path::run },
    Layer { name: "boundary", run: boundary::run },
    Layer { name: "shape", run: shape::run },
    Layer { name: "union_find", run: union_find::run },
    Layer { name: "city_count", run: city_count::run },
    Layer { name: "puzzle", run: puzzle::run },
    Layer { name: "edges", run: edges::run },
    Layer { name: "strokes", run: strokes::run },
    Layer { name: "right_boards", run: right_boards::run },
    Layer { name: "images", run: images::run },
    Layer { name: "hand_over", run: hand_over::run },
    Layer { name: "files", run: files::run },
    Layer { name: "generator", run: generator::run },
];

/// Repeats a step for so long.
fn until(time: Duration, mut step: impl FnMut()) {
    let began = Instant::now();
    while began.elapsed() < time {
        step();
    }
}

/// A single decide is a stroke of one: from the same record it gives the same answer and leaves the same record.
fn stroke_of_one<R: Record>(tally: &mut Tally, mut from: R, turn: &Turn, told: (Result<(), u8>, R), on: impl FnOnce() -> String) {
    let Turn::Single(Call::Decide { border, wall }) = *turn else { return };
    let Some(entry) = entry(border, wall) else { return };
    let answer = from.stroke(&[entry]);
    tally.same(&(told.0, true), &(answer, from == told.1), on);
}

/// Sizes at which structured boards are tried.
const SIZES: [(usize, usize); 12] =
    [(1, 1), (1, 2), (2, 1), (1, 32), (32, 1), (2, 2), (4, 6), (7, 5), (12, 12), (31, 32), (32, 31), (32, 32)];

/// Every board of at most so many borders, structured boards as they are and stirred, and random ones of all sizes.
fn on_boards(limits: &Limits, borders: usize, mut compare: impl FnMut(&mut Random, &Standing)) {
    let random = &mut Random::new(limits.seed);
    for (height, width) in boards::sizes(borders.min(limits.borders)) {
        boards::every(height, width).for_each(|board| compare(random, &board));
    }
    for (height, width) in SIZES {
        for (_, board) in boards::structured(height, width) {
            compare(random, &board);
            let times = random.within(1, 3);
            let stirred = board.stirred(random, times);
            compare(random, &stirred);
        }
    }
    until(limits.time, || {
        let most = *random.pick(&[4, 8, 16, 32]);
        let board = boards::random(random, 1, most);
        compare(random, &board);
    });
}
