//! The Sendai border checker: a safe interface to its proved calls.
//!
//! A solver decides the borders of a Sendai grid, one by one or several in one stroke, which one undo takes back. An ask says whether
//! the borders decided so far can all hold, and where they can't it lists some of them that can't: a clause, once each is negated.
//! [`Puzzle::right_boards`] finds every answer of a started grid, and whether it has just one. [`Puzzle::of_kind`] makes a puzzle of the
//! other kind, in which a unit's partner may be turned and mirrored. [`generate_case`] makes a case file from a seed, the same each time.
//!
//! ```
//! use sendai::{hand_over, Check, Puzzle, NO_CLUE};
//!
//! let mut puzzle = Puzzle::make(1, 3, &[], &[NO_CLUE])?;   // one row of three cells, one room, no clue
//! puzzle.decide(0, true)?;                                 // a Wall after the first cell
//! puzzle.decide(1, false)?;                                // Connected after the second
//!
//! let mut list = vec![0; puzzle.list_len()];
//! let fault = puzzle.ask(&mut list)?.expect("a unit of one cell has no translate beside it");
//! assert_eq!(fault.check, Check::Shape);
//! assert_eq!(fault.list, [2, 2, 1, 1, 1]);                 // entries: 2 · border + 1 for Wall, 2 · border for Connected
//!
//! let mut handed = vec![0; fault.list.len()];
//! let listed = hand_over(fault.list, &mut handed)?;        // rising, each once
//! let borders: Vec<(usize, bool)> = sendai::entries(listed).collect();
//! assert_eq!(borders, [(0, true), (1, false)]);            // not both: border 0 is Connected or border 1 is a Wall
//!
//! puzzle.undo()?;
//! assert_eq!(puzzle.ask(&mut list)?, None);                // clear again
//!
//! puzzle.undo()?;
//! puzzle.stroke(&borders)?;                                // the same two borders in one stroke: both or none
//! assert!(puzzle.ask(&mut list)?.is_some());
//! puzzle.undo()?;                                          // takes both back
//! assert_eq!(puzzle.undecided(), 2);
//! # Ok::<(), sendai::Refusal>(())
//! ```
//!
//! Cell (y, x) of a board of h by w has number y·w + x. The border between (y, x) and (y, x+1) has number y·(w−1) + x, the one
//! between (y, x) and (y+1, x) has h·(w−1) + y·w + x.
//!
//! Every call answers on all inputs. A bad one is refused by number ([`Refusal`]), and a refusal leaves record and buffer as they
//! were. A list goes to the front of a buffer that the caller lends; the other places stay. No call allocates. Boards and puzzles are
//! lent to the calls that decide, undo and ask: changed or read where they are, without a copy.

mod board;
mod case;
mod groups;
mod kind;
mod puzzle;
mod refusal;
mod right_boards;
mod room_graph;
pub mod sys;
mod union;

#[cfg(test)]
mod tests;

pub use board::Board;
pub use case::{generate_case, Case};
pub use groups::Groups;
pub use kind::Kind;
pub use puzzle::Puzzle;
pub use refusal::Refusal;
pub use right_boards::{RightBoard, RightBoards};
pub use room_graph::RoomGraph;
pub use sys::Edge;
pub use union::Union;

use refusal::accepted;

/// A side's limit.
pub const MAX_SIDE: usize = 32;
/// The most cells of a board, and the most vertices of a room graph or union.
pub const MAX_CELLS: usize = 1024;
/// The most borders of a board, and the most edges of a room graph.
pub const MAX_BORDERS: usize = 1984;
/// The most undecided borders of a puzzle whose answers are all asked for.
pub const MAX_UNDECIDED: usize = 24;
/// A buffer of so many places is long enough for every list of every board, and of every puzzle of translates.
pub const MAX_LIST: usize = 9216;
/// A buffer of so many places is long enough for every list of every board and puzzle, those of images among them.
pub const MAX_LIST_IMAGES: usize = 16384;
/// The bytes that any line of a case's call fits.
pub const MAX_LINE: usize = 55323;
/// The bytes of the longest case file.
pub const MAX_FILE: usize = 60003;
/// No clue for a room.
pub const NO_CLUE: u16 = 65535;

/// The version of the archive that is linked, as one number: major times 10,000, and minor times 100, and patch. It is that of this crate where
/// the two belong together.
///
/// ```
/// let numbers: Vec<u32> = env!("CARGO_PKG_VERSION").split('.').map(|n| n.parse().unwrap()).collect();
/// assert_eq!(sendai::version(), numbers[0] * 10000 + numbers[1] * 100 + numbers[2]);
/// ```
pub fn version() -> u32 {
    sys::sendai_version()
}

/// A border's or an edge's state.
#[derive(Clone, Copy, Debug, PartialEq, Eq, Hash)]
pub enum State {
    Undecided,
    Connected,
    Wall,
}

impl State {
    fn of(number: u8) -> State {
        match number {
            0 => State::Undecided,
            1 => State::Connected,
            _ => State::Wall,
        }
    }
}

/// Which check found a fault.
#[derive(Clone, Copy, Debug, PartialEq, Eq, Hash)]
pub enum Check {
    /// The shape check.
    Shape,
    /// The count of the room with this number.
    Room(usize),
}

/// Borders that stand and can't all hold.
#[derive(Clone, Copy, Debug, PartialEq, Eq)]
pub struct Fault<'b> {
    pub check: Check,
    /// The entries as the check lists them, repeats included; a part of the lent buffer.
    pub list: &'b [u16],
}

impl<'b> Fault<'b> {
    /// The listed borders, each with whether it is listed as a Wall.
    pub fn borders(&self) -> impl Iterator<Item = (usize, bool)> + 'b {
        entries(self.list)
    }
}

/// The entry that lists a border as Wall or Connected. `None` where the border is none of any board's or graph's.
///
/// ```
/// assert_eq!(sendai::entry(3, true), Some(7));
/// assert_eq!(sendai::entry(1984, true), None);
/// assert!(sendai::entries(&[7, 6]).eq([(3, true), (3, false)]));
/// ```
pub fn entry(border: usize, wall: bool) -> Option<u16> {
    (border < MAX_BORDERS).then(|| 2 * border as u16 + u16::from(wall))
}

/// Lends a call the entries of a stroke. Entries from the 1,985th on are put together to the greatest: so long a stroke is refused in any
/// case, because a border is missing if the greatest is, else because one stands twice. A border beyond all is one that no record has.
fn lend<T>(stroke: &[(usize, bool)], call: impl FnOnce(*const u16, usize) -> T) -> T {
    let mut entries = [0; MAX_BORDERS + 1];
    for (at, &(border, wall)) in stroke.iter().enumerate() {
        let place = &mut entries[at.min(MAX_BORDERS)];
        *place = entry(border, wall).unwrap_or(u16::MAX).max(*place);
    }
    call(entries.as_ptr(), stroke.len().min(entries.len()))
}

/// What a list says: each border, and whether it is listed as a Wall.
pub fn entries(list: &[u16]) -> impl Iterator<Item = (usize, bool)> + '_ {
    list.iter().map(|&entry| (usize::from(entry / 2), entry % 2 == 1))
}

/// The entries, rising, each once. Any entries will do. Refused: `ShortBuffer` (as many places as there are entries).
///
/// ```
/// let mut handed = [0; 5];
/// assert_eq!(sendai::hand_over(&[2, 2, 1, 1, 1], &mut handed)?, [1, 2]);
/// # Ok::<(), sendai::Refusal>(())
/// ```
pub fn hand_over<'b>(entries: &[u16], buffer: &'b mut [u16]) -> Result<&'b [u16], Refusal> {
    // SAFETY: both slices live through the call, and a buffer that is lent to be written overlaps no other.
    let told = unsafe { sys::sendai_hand_over(entries.as_ptr(), entries.len(), buffer.as_mut_ptr(), buffer.len()) };
    listed(told, buffer)
}

/// A direction from a cell.
#[derive(Clone, Copy, Debug, PartialEq, Eq, Hash)]
pub enum Direction {
    Up = 0,
    Down = 1,
    Left = 2,
    Right = 3,
}

/// The neighbour of a cell and the border before it; `None` where the board ends. Refused: `Sizes`, `Missing`.
///
/// ```
/// use sendai::{neighbour, Direction};
/// assert_eq!(neighbour(2, 3, 1, Direction::Down)?, Some((4, 5)));
/// assert_eq!(neighbour(2, 3, 1, Direction::Up)?, None);
/// # Ok::<(), sendai::Refusal>(())
/// ```
pub fn neighbour(height: usize, width: usize, cell: usize, direction: Direction) -> Result<Option<(usize, usize)>, Refusal> {
    let place = sys::sendai_neighbour(height, width, cell, direction as u8);
    accepted(place.code)?;
    Ok((!place.ends).then_some((place.cell, place.border)))
}

/// The list or the file that a call wrote to the front of the buffer.
fn listed<T>(told: sys::Answer, buffer: &[T]) -> Result<&[T], Refusal> {
    accepted(told.code)?;
    Ok(&buffer[..told.length])
}

/// The list of a fault, `None` where the answer is clear.
fn judged(told: sys::Answer, buffer: &[u16]) -> Result<Option<&[u16]>, Refusal> {
    accepted(told.code)?;
    Ok(told.fault.then(|| &buffer[..told.length]))
}
