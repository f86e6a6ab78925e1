//! The puzzle's calls.
use super::file::{Lent, BEHIND};
use super::{accepted, c, Board, UNTOUCHED};
use crate::answers::{Answer, Boards};
use crate::boards::border_count;
use crate::kinds::Kind;
use crate::puzzles::Making;
use crate::reference::NO_CLUE;
use std::fmt::{Debug, Formatter, Result as Formatted};

pub use c::Puzzle as PuzzleRecord;

/// As many places as any ask needs.
pub const PLACES: usize = 16_384;

impl PuzzleRecord {
    /// What a making says, with these fronts of states and ledger, and 0 behind all fronts; the ledger is told by its names.
    pub fn of(making: &Making, states: &[u8], ledger: &[u16]) -> PuzzleRecord {
        let (mut record, Making { given, clues, .. }) = (PuzzleRecord::zero(), making);
        let board = &mut record.board;
        (board.height, board.width) = (making.height, making.width);
        board.states[..states.len()].copy_from_slice(states);
        board.ledger[..ledger.len()].copy_from_slice(ledger);
        board.len = ledger.len();
        record.given[..given.len()].copy_from_slice(given);
        record.given_len = given.len();
        record.clues[..clues.len()].copy_from_slice(clues);
        record.clues_len = clues.len();
        record.kind = making.kind.number();
        record
    }

    /// This board with no given wall, and one room without a clue.
    pub fn in_one_room(self) -> PuzzleRecord {
        let mut record = PuzzleRecord { board: self.board, ..PuzzleRecord::zero() };
        (record.clues[0], record.clues_len) = (NO_CLUE, 1);
        record
    }

    fn zero() -> PuzzleRecord {
        let board = c::Board { height: 0, width: 0, states: [0; 1984], ledger: [0; 1984], len: 0 };
        PuzzleRecord { board, given: [0; 1984], given_len: 0, clues: [0; 1024], clues_len: 0, kind: 0 }
    }
}

/// A list up to the last number that is not 0.
fn front<T: PartialEq + Default>(list: &[T]) -> &[T] {
    let used = list.iter().rposition(|n| *n != T::default()).map_or(0, |last| last + 1);
    &list[..used]
}

impl Debug for PuzzleRecord {
    fn fmt(&self, f: &mut Formatter) -> Formatted {
        let b = &self.board;
        let (states, ledger) = (front(&b.states), front(&b.ledger));
        write!(f, "{} by {}, states {states:?}, {} of ledger {ledger:?}, ", b.height, b.width, b.len)?;
        let (given, clues) = (front(&self.given), front(&self.clues));
        write!(f, "{} given of {given:?}, {} clues of {clues:?}, kind {}", self.given_len, self.clues_len, self.kind)
    }
}

/// The answer of an ask that is lent a buffer of so many places; those behind the list must be untouched.
pub(super) fn answered(places: usize, ask: impl FnOnce(*mut u16, usize) -> c::Outcome) -> Result<Answer, u8> {
    let mut buffer = vec![UNTOUCHED; places];
    let told = ask(buffer.as_mut_ptr(), places);
    assert!(buffer[told.length..].iter().all(|&place| place == UNTOUCHED), "places behind the list were written");
    buffer.truncate(told.length);
    match (told.kind, told.code, told.room, told.length) {
        (0, 0, 0, 0) => Ok(Answer::Clear),
        (1, 0, 0, _) => Ok(Answer::Shape(buffer)),
        (2, 0, room, _) => Ok(Answer::Room(room, buffer)),
        (3, code @ 1.., 0, 0) => Err(code),
        numbers => panic!("{numbers:?} are no answer"),
    }
}

/// A puzzle's record. A call puts what it returned in its place, refused or not.
#[derive(Clone, Copy, PartialEq)]
pub struct Puzzle(pub PuzzleRecord);

impl Puzzle {
    pub fn make(making: &Making) -> Result<Puzzle, u8> {
        let Making { kind, height, width, given, clues } = making;
        let make = match kind {
            Kind::Translates => c::sendai_puzzle_make,
            Kind::Images => c::sendai_puzzle_make_images,
        };
        // both slices live through the call
        let made = unsafe { make(*height, *width, given.as_ptr(), given.len(), clues.as_ptr(), clues.len()) };
        assert!(made.code == 0 || made.puzzle == PuzzleRecord::zero(), "a refused making returns zeros");
        accepted(made.code).map(|()| Puzzle(made.puzzle))
    }

    fn put(&mut self, made: c::PuzzleMade) -> Result<(), u8> {
        self.0 = made.puzzle;
        accepted(made.code)
    }

    pub fn decide(&mut self, border: usize, wall: bool) -> Result<(), u8> {
        self.put(c::sendai_puzzle_decide(self.0, border, wall))
    }

    pub fn stroke(&mut self, entries: &[u16]) -> Result<(), u8> {
        // the entries live through the call
        self.put(unsafe { c::sendai_puzzle_stroke(self.0, entries.as_ptr(), entries.len()) })
    }

    pub fn undo(&mut self) -> Result<(), u8> {
        self.put(c::sendai_puzzle_undo(self.0))
    }

    /// Questions 1 and 2.
    pub fn check(&self) -> Result<(), u8> {
        accepted(c::sendai_puzzle_check(self.0))
    }

    /// The board of the record, as it stands there.
    pub fn board(&self) -> Board {
        Board(self.0.board)
    }

    /// With a buffer of so many places; those behind the list must be untouched.
    pub fn ask(&self, places: usize) -> Result<Answer, u8> {
        // the buffer lives through the call
        answered(places, |buffer, places| unsafe { c::sendai_puzzle_ask(self.0, buffer, places) })
    }

    /// At most `cap` right boards into so many bytes; those behind the boards, and some behind the buffer, must be untouched.
    pub fn right_boards(&self, cap: usize, room: usize) -> Result<Boards, u8> {
        let mut lent = Lent::new(room + BEHIND);
        let (told, bytes) = lent.lend(room, |buffer, room| {
            // the buffer lives through the call
            let told = unsafe { c::sendai_puzzle_right_boards(self.0, cap, buffer, room) };
            let each = if told.count == 0 { 0 } else { border_count(self.0.board.height, self.0.board.width) };
            let used = told.count.saturating_mul(each);
            (told, used)
        });
        match (told.code, told.count, told.more) {
            (0, count, more) => Ok(Boards { count, more, bytes }),
            (code, 0, false) => Err(code),
            numbers => panic!("{numbers:?} are no answer"),
        }
    }
}
