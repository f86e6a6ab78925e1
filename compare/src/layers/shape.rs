//! `SendaiShapeConstraint::find_inconsistency`: clear, or the fault's list with its order and repeats.
use super::{on_boards, until, Limits};
use crate::boards::{self, Standing};
use crate::port;
use crate::random::Random;
use crate::reference::Board;
use crate::sample::{fault, Sample};
use crate::tally::Tally;

fn compare(tally: &mut Tally, board: &Standing) {
    tally.case();
    let theirs = Board::standing(board.height, board.width, &board.states).ask();
    let ours = port::Board::standing(board.height, board.width, &board.states).ask();
    tally.same(&Ok(theirs), &ours, || format!("{board:?}"));
}

pub fn run(limits: &Limits) -> Tally {
    let mut tally = Tally::new("shape");
    on_boards(limits, 12, |_, board| compare(&mut tally, board));
    // most time for boards to 8 by 8, and some for the largest
    let random = &mut Random::new(limits.seed ^ 8);
    until(limits.time * 2, || compare(&mut tally, &boards::random(random, 1, 8)));
    until(limits.time, || compare(&mut tally, &boards::random(random, 25, 32)));
    tally.done()
}

/// Clear, or the fault's list.
pub fn sample(sample: &mut Sample, board: &Standing) {
    sample.call("ba", 0, 0, fault(&Board::standing(board.height, board.width, &board.states).ask()));
}
