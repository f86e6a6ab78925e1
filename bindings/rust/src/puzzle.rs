use crate::{accepted, board, lend, sys, Board, Check, Fault, Kind, Refusal, RightBoards, State, MAX_UNDECIDED};
use std::fmt;

/// A puzzle: a board, its given walls, a clue for each room, and its [`Kind`]. Rooms are the parts into which the given walls cut the
/// board, numbered from 0 by first cell.
///
/// ```
/// use sendai::{Check, Puzzle, NO_CLUE};
///
/// // one row of four cells with a given wall in the middle; the left room is to be one unit
/// let mut puzzle = Puzzle::make(1, 4, &[1], &[1, NO_CLUE])?;
/// puzzle.decide(0, true)?;
/// let mut list = vec![0; puzzle.list_len()];
/// let fault = puzzle.ask(&mut list)?.unwrap();
/// assert_eq!(fault.check, Check::Room(0));
/// assert_eq!(fault.borders().collect::<Vec<_>>(), [(0, true)]);
/// # Ok::<(), sendai::Refusal>(())
/// ```
#[derive(Clone, PartialEq, Eq)]
pub struct Puzzle(pub(crate) sys::Puzzle);

impl Puzzle {
    /// A fresh puzzle of translates: the given walls' numbers, rising, and a clue for each room, [`NO_CLUE`](crate::NO_CLUE) for none.
    /// Refused: `Sizes`, `Missing`, `GivenOrder`, `ClueCount`, `ClueValue`.
    pub fn make(height: usize, width: usize, given: &[u16], clues: &[u16]) -> Result<Puzzle, Refusal> {
        Puzzle::of_kind(Kind::Translates, height, width, given, clues)
    }

    /// [`make`](Puzzle::make) for any kind.
    pub fn of_kind(kind: Kind, height: usize, width: usize, given: &[u16], clues: &[u16]) -> Result<Puzzle, Refusal> {
        let make = match kind {
            Kind::Translates => sys::sendai_puzzle_make,
            Kind::Images => sys::sendai_puzzle_make_images,
        };
        // SAFETY: both slices live through the call.
        let made = unsafe { make(height, width, given.as_ptr(), given.len(), clues.as_ptr(), clues.len()) };
        accepted(made.code).map(|()| Puzzle(made.puzzle))
    }

    /// Which images of a unit its partner may be.
    pub fn kind(&self) -> Kind {
        Kind::of(self.0.kind)
    }

    /// Decides a border as Wall or Connected: a stroke of one. Refused: `Missing`, `Decided` (a given wall, too); the puzzle is then as
    /// it was.
    pub fn decide(&mut self, border: usize, wall: bool) -> Result<(), Refusal> {
        accepted(sys::sendai_puzzle_decide_in_place(&mut self.0, border, wall))
    }

    /// Decides several borders, each as Wall (`true`) or Connected, in one stroke: all or none. An empty stroke is accepted and not
    /// kept. Refused: `Missing`, `Twice`, `Decided` (a given wall, too); the puzzle is then as it was.
    pub fn stroke(&mut self, stroke: &[(usize, bool)]) -> Result<(), Refusal> {
        // SAFETY: the entries live through the call.
        accepted(lend(stroke, |entries, length| unsafe { sys::sendai_puzzle_stroke_in_place(&mut self.0, entries, length) }))
    }

    /// Takes the last stroke back, all of it. Refused: `EmptyLedger`; the puzzle is then as it was.
    pub fn undo(&mut self) -> Result<(), Refusal> {
        accepted(sys::sendai_puzzle_undo_in_place(&mut self.0))
    }

    /// The shape check, for the images of the puzzle's kind, then the counts of the clued rooms, up to the first fault: `None` where all is clear.
    /// Refused: `ShortBuffer` ([`list_len`](Puzzle::list_len)).
    pub fn ask<'b>(&self, buffer: &'b mut [u16]) -> Result<Option<Fault<'b>>, Refusal> {
        // SAFETY: the buffer lives through the call.
        let told = unsafe { sys::sendai_puzzle_ask_in_place(&self.0, buffer.as_mut_ptr(), buffer.len()) };
        accepted(told.code)?;
        let check = match told.kind {
            0 => return Ok(None),
            1 => Check::Shape,
            _ => Check::Room(told.room),
        };
        Ok(Some(Fault { check, list: &buffer[..told.length] }))
    }

    /// All answers: every full board, right for the puzzle's kind, on which all that is decided stands, each once, rising, at most `cap` of
    /// them, and whether more exist. Refused: `ManyUndecided`, `ShortBuffer` ([`boards_len`](Puzzle::boards_len)).
    ///
    /// ```
    /// # use sendai::{Puzzle, State::*, NO_CLUE};
    /// let mut puzzle = Puzzle::make(1, 4, &[], &[NO_CLUE])?;
    /// let mut buffer = vec![0; puzzle.boards_len(10)?];
    /// let right = puzzle.right_boards(10, &mut buffer)?;
    /// assert_eq!((right.len(), right.more()), (2, false));     // two units of two cells, or four of one
    /// assert!(right.get(0).unwrap().states().eq([Connected, Wall, Connected]));
    /// assert!(right.get(1).unwrap().states().eq([Wall, Wall, Wall]));
    ///
    /// puzzle.decide(2, true)?;
    /// assert!(puzzle.right_boards(1, &mut buffer)?.unique());  // a cap of 1 is enough to know
    /// # Ok::<(), sendai::Refusal>(())
    /// ```
    pub fn right_boards<'b>(&self, cap: usize, buffer: &'b mut [u8]) -> Result<RightBoards<'b>, Refusal> {
        // SAFETY: the buffer lives through the call.
        let told = unsafe { sys::sendai_puzzle_right_boards(self.0, cap, buffer.as_mut_ptr(), buffer.len()) };
        accepted(told.code)?;
        let (borders, count) = (self.borders(), told.count);
        Ok(RightBoards { bytes: &buffer[..count * borders], borders, count, more: told.more })
    }

    /// The length of a buffer for the right boards up to a cap: `cap` · borders. Refused, before a buffer is made: `ManyUndecided`, and
    /// `ShortBuffer` where no buffer is so long.
    pub fn boards_len(&self, cap: usize) -> Result<usize, Refusal> {
        if self.undecided() > MAX_UNDECIDED {
            return Err(Refusal::ManyUndecided);
        }
        // no slice has more than isize::MAX bytes
        cap.checked_mul(self.borders()).filter(|&len| len <= isize::MAX as usize).ok_or(Refusal::ShortBuffer)
    }

    /// Whether the record holds together; it does.
    pub fn check(&self) -> Result<(), Refusal> {
        accepted(sys::sendai_puzzle_check(self.0))
    }

    /// A copy of the board: for groups, paths and boundaries.
    pub fn board(&self) -> Board {
        Board(self.0.board)
    }

    pub fn height(&self) -> usize {
        self.0.board.height
    }

    pub fn width(&self) -> usize {
        self.0.board.width
    }

    /// How many borders there are.
    pub fn borders(&self) -> usize {
        board::borders(&self.0.board)
    }

    /// How many borders are undecided.
    pub fn undecided(&self) -> usize {
        self.states().filter(|&state| state == State::Undecided).count()
    }

    /// The length of a buffer that every list of this puzzle fits: 9 · h · w for one of translates, 16 · h · w for one of images.
    pub fn list_len(&self) -> usize {
        board::list_len(&self.0.board, self.kind())
    }

    /// A border's state. `None` where it does not exist.
    pub fn state(&self, border: usize) -> Option<State> {
        self.states().nth(border)
    }

    /// The states, by border.
    pub fn states(&self) -> impl Iterator<Item = State> + '_ {
        board::states(&self.0.board)
    }

    /// The decided borders in order, each with whether it is a Wall. Given walls are none of them.
    pub fn ledger(&self) -> impl Iterator<Item = (usize, bool)> + '_ {
        board::ledger(&self.0.board)
    }

    /// How many strokes stand: so many undos empty the ledger.
    pub fn strokes(&self) -> usize {
        board::strokes(&self.0.board.ledger[..self.0.board.len])
    }

    /// The given walls, rising.
    pub fn given(&self) -> &[u16] {
        &self.0.given[..self.0.given_len]
    }

    /// The clues, by room.
    pub fn clues(&self) -> &[u16] {
        &self.0.clues[..self.0.clues_len]
    }
}

impl fmt::Debug for Puzzle {
    fn fmt(&self, f: &mut fmt::Formatter) -> fmt::Result {
        write!(f, "Puzzle of {:?}, given {:?}, clues {:?}, {:?}", self.board(), self.given(), self.clues(), self.kind())
    }
}
