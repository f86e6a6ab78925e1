//! Answers that both sides give, in the terms of docs/SPEC.md.
use std::fmt::{Debug, Formatter, Result as Formatted};

#[derive(Debug, PartialEq, Eq)]
pub struct Groups {
    /// Each cell's group.
    pub of: Vec<u16>,
    /// The cells of all groups, in turn.
    pub cells: Vec<u16>,
    /// Each group's start in `cells`.
    pub starts: Vec<u16>,
}

/// A puzzle's answer; a fault has its list.
#[derive(Debug, PartialEq, Eq)]
pub enum Answer {
    Clear,
    Shape(Vec<u16>),
    Room(usize, Vec<u16>),
}

/// Right boards: how many, whether there are more, and their borders' bytes, board after board.
#[derive(PartialEq, Eq)]
pub struct Boards {
    pub count: usize,
    pub more: bool,
    pub bytes: Vec<u8>,
}

impl Debug for Boards {
    /// A word a board.
    fn fmt(&self, f: &mut Formatter) -> Formatted {
        write!(f, "{} boards, more: {}", self.count, self.more)?;
        let each = (self.bytes.len() / self.count.max(1)).max(1);
        self.bytes.chunks(each).try_for_each(|board| {
            let word: String = board.iter().map(u8::to_string).collect();
            write!(f, " {word}")
        })
    }
}
