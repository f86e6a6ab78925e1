use crate::groups::Groups;
use crate::{accepted, judged, lend, listed, sys, Check, Fault, Kind, Refusal, State};
use std::fmt;

/// A board: each border undecided, Connected or a Wall, and the decided ones in order, stroke by stroke.
///
/// ```
/// use sendai::{Board, State};
///
/// let mut board = Board::make(1, 2)?;
/// let mut list = vec![0; board.list_len()];
/// assert_eq!(board.ask(&mut list)?, None);
///
/// board.decide(0, false)?;
/// assert_eq!(board.state(0), Some(State::Connected));
/// let fault = board.ask(&mut list)?.unwrap();      // one unit, and no other beside it
/// assert_eq!(fault.list, [0]);
///
/// board.undo()?;
/// assert_eq!(board, Board::make(1, 2)?);
/// # Ok::<(), sendai::Refusal>(())
/// ```
#[derive(Clone, PartialEq, Eq)]
pub struct Board(pub(crate) sys::Board);

impl Board {
    /// A fresh board, all borders undecided. Refused: `Sizes` (1 to 32 a side).
    pub fn make(height: usize, width: usize) -> Result<Board, Refusal> {
        let made = sys::sendai_board_make(height, width);
        accepted(made.code).map(|()| Board(made.board))
    }

    /// Decides a border as Wall or Connected: a stroke of one. Refused: `Missing`, `Decided`; the board is then as it was.
    pub fn decide(&mut self, border: usize, wall: bool) -> Result<(), Refusal> {
        accepted(sys::sendai_board_decide_in_place(&mut self.0, border, wall))
    }

    /// Decides several borders, each as Wall (`true`) or Connected, in one stroke: all or none. An empty stroke is accepted and not
    /// kept. Refused: `Missing`, `Twice`, `Decided`; the board is then as it was.
    ///
    /// ```
    /// # use sendai::{Board, Refusal};
    /// let mut board = Board::make(1, 4)?;
    /// board.decide(0, true)?;
    /// assert_eq!(board.stroke(&[(1, false), (0, false)]), Err(Refusal::Decided));
    /// board.stroke(&[(1, false), (2, true)])?;
    /// assert!(board.ledger().eq([(0, true), (1, false), (2, true)]));
    /// board.undo()?;                                   // the whole stroke
    /// assert!(board.ledger().eq([(0, true)]));
    /// # Ok::<(), sendai::Refusal>(())
    /// ```
    pub fn stroke(&mut self, stroke: &[(usize, bool)]) -> Result<(), Refusal> {
        // SAFETY: the entries live through the call.
        accepted(lend(stroke, |entries, length| unsafe { sys::sendai_board_stroke_in_place(&mut self.0, entries, length) }))
    }

    /// Takes the last stroke back, all of it. Refused: `EmptyLedger`; the board is then as it was.
    pub fn undo(&mut self) -> Result<(), Refusal> {
        accepted(sys::sendai_board_undo_in_place(&mut self.0))
    }

    /// [`decide`](Board::decide) on a copy.
    pub fn decided(&self, border: usize, wall: bool) -> Result<Board, Refusal> {
        let decided = sys::sendai_board_decide(self.0, border, wall);
        accepted(decided.code).map(|()| Board(decided.board))
    }

    /// [`stroke`](Board::stroke) on a copy.
    pub fn stroked(&self, stroke: &[(usize, bool)]) -> Result<Board, Refusal> {
        // SAFETY: the entries live through the call.
        let stroked = lend(stroke, |entries, length| unsafe { sys::sendai_board_stroke(self.0, entries, length) });
        accepted(stroked.code).map(|()| Board(stroked.board))
    }

    /// [`undo`](Board::undo) on a copy.
    pub fn undone(&self) -> Result<Board, Refusal> {
        let undone = sys::sendai_board_undo(self.0);
        accepted(undone.code).map(|()| Board(undone.board))
    }

    /// Whether the record holds together; it does.
    pub fn check(&self) -> Result<(), Refusal> {
        accepted(sys::sendai_board_check(self.0))
    }

    pub fn height(&self) -> usize {
        self.0.height
    }

    pub fn width(&self) -> usize {
        self.0.width
    }

    /// How many cells there are: the length of a buffer for groups.
    pub fn cells(&self) -> usize {
        self.0.height * self.0.width
    }

    /// How many borders there are.
    pub fn borders(&self) -> usize {
        borders(&self.0)
    }

    /// The length of a buffer that every list of this board fits: 9 · h · w.
    pub fn list_len(&self) -> usize {
        list_len(&self.0, Kind::Translates)
    }

    /// A border's state. `None` where it does not exist.
    pub fn state(&self, border: usize) -> Option<State> {
        self.states().nth(border)
    }

    /// The states, by border.
    pub fn states(&self) -> impl Iterator<Item = State> + '_ {
        states(&self.0)
    }

    /// The decided borders in order, each with whether it is a Wall.
    pub fn ledger(&self) -> impl Iterator<Item = (usize, bool)> + '_ {
        ledger(&self.0)
    }

    /// How many strokes stand: so many undos empty the ledger.
    pub fn strokes(&self) -> usize {
        strokes(&self.0.ledger[..self.0.len])
    }

    /// The shape check, for translates: `None` where it is clear. Refused: `ShortBuffer` ([`list_len`](Board::list_len)).
    pub fn ask<'b>(&self, buffer: &'b mut [u16]) -> Result<Option<Fault<'b>>, Refusal> {
        // SAFETY: the buffer lives through the call.
        let told = unsafe { sys::sendai_board_ask_in_place(&self.0, buffer.as_mut_ptr(), buffer.len()) };
        Ok(judged(told, buffer)?.map(|list| Fault { check: Check::Shape, list }))
    }

    /// The units: cells joined by Connected borders. Refused: `ShortBuffer` ([`cells`](Board::cells)).
    pub fn units<'b>(&self, buffer: &'b mut [u16]) -> Result<Groups<'b>, Refusal> {
        Groups::of(self, false, buffer)
    }

    /// The potential units: cells joined by borders that are no Wall. Refused: `ShortBuffer` ([`cells`](Board::cells)).
    pub fn potential_units<'b>(&self, buffer: &'b mut [u16]) -> Result<Groups<'b>, Refusal> {
        Groups::of(self, true, buffer)
    }

    /// The Connected borders that lead from target back to start. Refused: `Missing`, `ShortBuffer`, `NotJoined`.
    ///
    /// ```
    /// # use sendai::{Board, Refusal};
    /// let mut board = Board::make(1, 4)?;
    /// board.decide(0, false)?;
    /// board.decide(1, false)?;
    /// let mut list = vec![0; board.list_len()];
    /// assert_eq!(board.path(0, 2, &mut list)?, [2, 0]);
    /// assert_eq!(board.path(0, 3, &mut list), Err(Refusal::NotJoined));
    /// # Ok::<(), sendai::Refusal>(())
    /// ```
    pub fn path<'b>(&self, start: usize, target: usize, buffer: &'b mut [u16]) -> Result<&'b [u16], Refusal> {
        // SAFETY: the buffer lives through the call.
        let told = unsafe { sys::sendai_path(self.0, start, target, buffer.as_mut_ptr(), buffer.len()) };
        listed(told, buffer)
    }

    /// A unit's Connected borders and its Walls. Refused: `Missing`, `ShortBuffer`.
    pub fn unit_boundary<'b>(&self, unit: usize, buffer: &'b mut [u16]) -> Result<&'b [u16], Refusal> {
        // SAFETY: the buffer lives through the call.
        let told = unsafe { sys::sendai_unit_boundary(self.0, unit, buffer.as_mut_ptr(), buffer.len()) };
        listed(told, buffer)
    }

    /// A potential unit's Walls to other potential units. Refused: `Missing`, `ShortBuffer`.
    pub fn potential_unit_boundary<'b>(&self, unit: usize, buffer: &'b mut [u16]) -> Result<&'b [u16], Refusal> {
        // SAFETY: the buffer lives through the call.
        let told = unsafe { sys::sendai_potential_unit_boundary(self.0, unit, buffer.as_mut_ptr(), buffer.len()) };
        listed(told, buffer)
    }
}

impl fmt::Debug for Board {
    fn fmt(&self, f: &mut fmt::Formatter) -> fmt::Result {
        write!(f, "Board {} by {}, decided {:?}", self.0.height, self.0.width, self.ledger().collect::<Vec<_>>())
    }
}

// What is read of a board's record, a puzzle's too.

pub(crate) fn borders(board: &sys::Board) -> usize {
    board.height * (board.width - 1) + (board.height - 1) * board.width
}

/// How long a buffer an ask for images of this kind wants. Every other list of the board fits it, too.
pub(crate) fn list_len(board: &sys::Board, kind: Kind) -> usize {
    kind.entries_a_cell() * board.height * board.width
}

pub(crate) fn states(board: &sys::Board) -> impl Iterator<Item = State> + '_ {
    board.states[..borders(board)].iter().map(|&state| State::of(state))
}

pub(crate) fn ledger(board: &sys::Board) -> impl Iterator<Item = (usize, bool)> + '_ {
    decisions(&board.ledger[..board.len], &board.states)
}

/// The borders, or edges, that a ledger's names are about, each with whether it is a Wall.
pub(crate) fn decisions<'a>(ledger: &'a [u16], states: &'a [u8]) -> impl Iterator<Item = (usize, bool)> + 'a {
    ledger.iter().map(|&name| usize::from(name / 2)).map(|border| (border, states[border] == 2))
}

/// How many strokes a ledger has: the first name of each is odd.
pub(crate) fn strokes(ledger: &[u16]) -> usize {
    ledger.iter().filter(|&name| name % 2 == 1).count()
}
