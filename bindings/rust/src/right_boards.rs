use crate::State;

/// Right boards of a puzzle, rising, in the buffer that they were written to: what
/// [`Puzzle::right_boards`](crate::Puzzle::right_boards) answers.
#[derive(Clone, Copy, Debug, PartialEq, Eq)]
pub struct RightBoards<'b> {
    /// The boards one behind the other, a byte a border.
    pub(crate) bytes: &'b [u8],
    pub(crate) borders: usize,
    pub(crate) count: usize,
    pub(crate) more: bool,
}

impl<'b> RightBoards<'b> {
    /// How many were written.
    pub fn len(&self) -> usize {
        self.count
    }

    /// Whether none was written.
    pub fn is_empty(&self) -> bool {
        self.count == 0
    }

    /// Whether more exist beyond those written.
    pub fn more(&self) -> bool {
        self.more
    }

    /// Whether the puzzle has exactly one answer, the one written. A cap of 1 is enough to know; with a cap of 0 it is `false`.
    pub fn unique(&self) -> bool {
        self.count == 1 && !self.more
    }

    /// The board at a place of the order, counted from 0.
    pub fn get(&self, place: usize) -> Option<RightBoard<'b>> {
        (place < self.count).then(|| RightBoard(&self.bytes[place * self.borders..][..self.borders]))
    }

    /// The boards in order.
    pub fn iter(&self) -> impl Iterator<Item = RightBoard<'b>> + 'b {
        // by place, not by cutting the bytes up: a board without borders has none
        let boards = *self;
        (0..self.count).filter_map(move |place| boards.get(place))
    }
}

/// A right board: a part of the buffer that the answers of its puzzle were written to.
#[derive(Clone, Copy, Debug, PartialEq, Eq, PartialOrd, Ord)]
pub struct RightBoard<'b>(&'b [u8]);

impl<'b> RightBoard<'b> {
    /// A border's state. `None` where it does not exist.
    pub fn state(&self, border: usize) -> Option<State> {
        self.states().nth(border)
    }

    /// The states, by border.
    pub fn states(&self) -> impl Iterator<Item = State> + 'b {
        self.0.iter().map(|&state| State::of(state))
    }

    /// The bytes, by border: 1 for Connected, 2 for Wall.
    pub fn bytes(&self) -> &'b [u8] {
        self.0
    }
}
