//! Records that have a ledger: boards, puzzles and room graphs, by value here and where they are in `in_place.rs`.
use super::{Board, City, Puzzle, PLACES};
use crate::answers::Answer;
use crate::ledger::{fault_of, Fault};
use crate::runs::{Call, Turn};

/// A call puts what it returned in the record's place, refused or not.
pub trait Record: Copy + PartialEq {
    fn decide(&mut self, border: usize, wall: bool) -> Result<(), u8>;
    fn stroke(&mut self, entries: &[u16]) -> Result<(), u8>;
    fn undo(&mut self) -> Result<(), u8>;
    fn check(&self) -> Result<(), u8>;
    fn fault(&self) -> Result<Fault, u8>;

    fn turn(&mut self, turn: &Turn) -> Result<(), u8> {
        match turn {
            Turn::Single(Call::Decide { border, wall }) => self.decide(*border, *wall),
            Turn::Single(Call::Undo) => self.undo(),
            Turn::Stroke(entries) => self.stroke(entries),
        }
    }
}

macro_rules! records {
    ($($record:ident, $fault:expr;)*) => {$(
        impl Record for $record {
            fn decide(&mut self, border: usize, wall: bool) -> Result<(), u8> {
                self.decide(border, wall)
            }
            fn stroke(&mut self, entries: &[u16]) -> Result<(), u8> {
                self.stroke(entries)
            }
            fn undo(&mut self) -> Result<(), u8> {
                self.undo()
            }
            fn check(&self) -> Result<(), u8> {
                self.check()
            }
            fn fault(&self) -> Result<Fault, u8> {
                $fault(self)
            }
        }
    )*};
}

/// The fault of a check that has one kind alone.
pub(super) fn shape(list: Result<Option<Vec<u16>>, u8>) -> Result<Fault, u8> {
    list.map(|list| list.map(|list| (0, list)))
}

records! {
    Board, |board: &Board| shape(board.ask());
    City, |city: &City| shape(city.ask());
    Puzzle, |puzzle: &Puzzle| puzzle.ask(PLACES).map(fault_of);
}

/// A puzzle's record, however it is handed over.
pub trait Played: Record {
    /// With a buffer of so many places; those behind the list must be untouched.
    fn answer(&self, places: usize) -> Result<Answer, u8>;
    /// The answer's kind, its list in the one buffer.
    fn kind_in(&self, buffer: &mut [u16]) -> u8;
}

impl Played for Puzzle {
    fn answer(&self, places: usize) -> Result<Answer, u8> {
        self.ask(places)
    }

    fn kind_in(&self, buffer: &mut [u16]) -> u8 {
        self.ask_in(buffer)
    }
}
