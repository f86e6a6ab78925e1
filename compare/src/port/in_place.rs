//! Boards and puzzles that are lent, and changed or asked where they are.
use super::puzzle::answered;
use super::record::{shape, Played, Record};
use super::{accepted, c, judged, Board, Puzzle, PLACES};
use crate::answers::Answer;
use crate::ledger::{fault_of, Fault};
use std::cell::UnsafeCell;

/// Lends a record to an ask, which must leave it as it is.
fn unchanged<R: Copy + PartialEq, T>(record: R, ask: impl FnOnce(*const R) -> T) -> T {
    // a cell: the compiler must not take for granted that the record stays as it is
    let lent = UnsafeCell::new(record);
    let answer = ask(lent.get());
    assert!(lent.into_inner() == record, "an ask changed the record");
    answer
}

/// A board's record where it is.
#[derive(Clone, Copy, PartialEq)]
pub struct LentBoard(pub Board);

// Entries and buffers live through their calls, here and below.
impl LentBoard {
    /// The shape check with a buffer of so many places; those behind the list must be untouched.
    pub fn ask_with(&self, places: usize) -> Result<Option<Vec<u16>>, u8> {
        judged(places, |buffer, places| {
            unchanged(self.0 .0, |board| unsafe { c::sendai_board_ask_in_place(board, buffer, places) })
        })
    }

    /// Whether it is a fault, its list in a buffer that is lent again and again: for the benchmark.
    pub fn ask_in(&self, buffer: &mut [u16]) -> bool {
        unsafe { c::sendai_board_ask_in_place(&self.0 .0, buffer.as_mut_ptr(), buffer.len()) }.fault
    }
}

impl Record for LentBoard {
    fn decide(&mut self, border: usize, wall: bool) -> Result<(), u8> {
        accepted(c::sendai_board_decide_in_place(&mut self.0 .0, border, wall))
    }

    fn stroke(&mut self, entries: &[u16]) -> Result<(), u8> {
        accepted(unsafe { c::sendai_board_stroke_in_place(&mut self.0 .0, entries.as_ptr(), entries.len()) })
    }

    fn undo(&mut self) -> Result<(), u8> {
        accepted(c::sendai_board_undo_in_place(&mut self.0 .0))
    }

    fn check(&self) -> Result<(), u8> {
        self.0.check()
    }

    fn fault(&self) -> Result<Fault, u8> {
        shape(self.ask_with(self.0.room()))
    }
}

/// A puzzle's record where it is.
#[derive(Clone, Copy, PartialEq)]
pub struct LentPuzzle(pub Puzzle);

impl Record for LentPuzzle {
    fn decide(&mut self, border: usize, wall: bool) -> Result<(), u8> {
        accepted(c::sendai_puzzle_decide_in_place(&mut self.0 .0, border, wall))
    }

    fn stroke(&mut self, entries: &[u16]) -> Result<(), u8> {
        accepted(unsafe { c::sendai_puzzle_stroke_in_place(&mut self.0 .0, entries.as_ptr(), entries.len()) })
    }

    fn undo(&mut self) -> Result<(), u8> {
        accepted(c::sendai_puzzle_undo_in_place(&mut self.0 .0))
    }

    fn check(&self) -> Result<(), u8> {
        self.0.check()
    }

    fn fault(&self) -> Result<Fault, u8> {
        self.answer(PLACES).map(fault_of)
    }
}

impl Played for LentPuzzle {
    fn answer(&self, places: usize) -> Result<Answer, u8> {
        answered(places, |buffer, places| {
            unchanged(self.0 .0, |puzzle| unsafe { c::sendai_puzzle_ask_in_place(puzzle, buffer, places) })
        })
    }

    fn kind_in(&self, buffer: &mut [u16]) -> u8 {
        unsafe { c::sendai_puzzle_ask_in_place(&self.0 .0, buffer.as_mut_ptr(), buffer.len()) }.kind
    }
}
