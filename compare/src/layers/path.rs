//! `reason_for_path`: all pairs of cells of small boards, some pairs of others; those that are not joined are refused.
use super::{on_boards, Limits};
use crate::boards::Standing;
use crate::port;
use crate::random::Random;
use crate::reference::Board;
use crate::sample::{listed, Sample, LARGEST};
use crate::tally::Tally;

/// The pairs to try on a board: all of a small one; else the corners and some others, and cells that do not exist.
fn pairs(random: &mut Random, cells: usize) -> Vec<(usize, usize)> {
    if cells <= 10 {
        return (0..=cells).flat_map(|a| (0..=cells).map(move |b| (a, b))).collect();
    }
    let mut pairs = vec![(0, cells - 1), (cells - 1, 0), (0, cells), (cells, 0), (0, usize::MAX)];
    pairs.extend((0..12).map(|_| (random.below(cells), random.below(cells))));
    // near ones are joined more often
    pairs.extend((0..12).map(|_| {
        let from = random.below(cells);
        (from, (from + random.within(0, 4)).min(cells - 1))
    }));
    pairs
}

fn compare(tally: &mut Tally, random: &mut Random, board: &Standing) {
    tally.case();
    let rust = Board::standing(board.height, board.width, &board.states);
    let ours = port::Board::standing(board.height, board.width, &board.states);
    for (from, to) in pairs(random, board.cells()) {
        let on = || format!("{board:?}, from {from} to {to}");
        tally.same(&rust.path(from, to), &ours.path(from, to), on);
    }
}

pub fn run(limits: &Limits) -> Tally {
    let mut tally = Tally::new("path");
    on_boards(limits, 9, |random, board| compare(&mut tally, random, board));
    tally.done()
}

/// Some pairs of cells.
pub fn sample(sample: &mut Sample, random: &mut Random, board: &Standing) {
    let rust = Board::standing(board.height, board.width, &board.states);
    let mut pairs = pairs(random, board.cells());
    random.shuffle(&mut pairs[2..]);
    for &(from, to) in &pairs[..pairs.len().min(6)] {
        sample.call("bp", from, to, listed(&rust.path(from.min(LARGEST), to.min(LARGEST))));
    }
}
