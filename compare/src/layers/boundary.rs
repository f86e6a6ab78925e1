//! `reason_for_unit_and_its_boundary` and `reason_for_potential_unit_boundary`, for every group of a board.
use super::{on_boards, Limits};
use crate::boards::Standing;
use crate::port;
use crate::reference::Board;
use crate::sample::{listed, Sample};
use crate::tally::Tally;

fn compare(tally: &mut Tally, board: &Standing) {
    tally.case();
    let rust = Board::standing(board.height, board.width, &board.states);
    let ours = port::Board::standing(board.height, board.width, &board.states);
    let info = rust.info();
    for unit in (0..=info.count(false)).chain([1024, usize::MAX]) {
        let theirs = rust.unit_boundary(&info, unit);
        tally.same(&theirs, &ours.unit_boundary(unit), || format!("{board:?}, unit {unit}"));
    }
    for unit in (0..=info.count(true)).chain([1024, usize::MAX]) {
        let theirs = rust.potential_unit_boundary(&info, unit);
        tally.same(&theirs, &ours.potential_unit_boundary(unit), || format!("{board:?}, potential unit {unit}"));
    }
}

pub fn run(limits: &Limits) -> Tally {
    let mut tally = Tally::new("boundary");
    on_boards(limits, 9, |_, board| compare(&mut tally, board));
    tally.done()
}

/// The lists of some groups, and of one that does not exist.
pub fn sample(sample: &mut Sample, board: &Standing) {
    let rust = Board::standing(board.height, board.width, &board.states);
    let info = rust.info();
    for unit in (0..info.count(false).min(4)).chain([info.count(false)]) {
        sample.call("bv", unit, 0, listed(&rust.unit_boundary(&info, unit)));
    }
    for unit in (0..info.count(true).min(4)).chain([info.count(true)]) {
        sample.call("bw", unit, 0, listed(&rust.potential_unit_boundary(&info, unit)));
    }
}
