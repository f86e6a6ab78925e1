//! Both kinds of puzzle (SPEC 14.4), and what the port's are held to: the Rust where a partner is a translate, `images.rs` where it is an image,
//! with the Rust's rooms behind it.
use crate::answers::Answer;
use crate::boards::Standing;
use crate::images::{self, Check, Pictures};
use crate::puzzles::Making;
use crate::reference;

#[derive(Clone, Copy, Debug, PartialEq, Eq)]
pub enum Kind {
    Translates,
    Images,
}

pub const KINDS: [Kind; 2] = [Kind::Translates, Kind::Images];

impl Kind {
    /// Its number in a record.
    pub fn number(self) -> u8 {
        self as u8
    }

    pub fn of(number: u8) -> Option<Kind> {
        KINDS.into_iter().find(|kind| kind.number() == number)
    }

    /// The places that an ask needs on so many cells (SPEC 3.6, 14.5).
    pub fn places(self, cells: usize) -> usize {
        match self {
            Kind::Translates => 9 * cells,
            Kind::Images => 16 * cells,
        }
    }
}

/// A puzzle of a kind.
pub struct Puzzle {
    rust: reference::Puzzle,
    size: (usize, usize),
    /// Where the kind is images.
    pictures: Option<Pictures>,
}

impl Puzzle {
    /// A room without a clue is `Some(-1)` to the Rust or, by `absent`, `None`.
    pub fn new(making: &Making, absent: bool) -> Result<Puzzle, u8> {
        let size @ (height, width) = (making.height, making.width);
        let rust = reference::Puzzle::new(height, width, &making.walls(), &making.clues, absent)?;
        let pictures = (making.kind == Kind::Images).then(|| Pictures::of(height, width));
        Ok(Puzzle { rust, size, pictures })
    }

    pub fn decide(&mut self, border: usize, wall: bool) -> Result<(), u8> {
        self.rust.decide(border, wall)
    }

    pub fn undo(&mut self) -> Result<(), u8> {
        self.rust.undo()
    }

    pub fn states(&self) -> Vec<u8> {
        self.rust.states()
    }

    /// The borders decided since the puzzle was made.
    pub fn ledger(&self) -> Vec<u16> {
        self.rust.ledger()
    }

    pub fn ask(&mut self) -> Answer {
        let Some(pictures) = &self.pictures else { return self.rust.ask() };
        let (height, width) = self.size;
        let board = Standing { height, width, states: self.rust.states() };
        match Check::on(&board, pictures).fault(images::ALL) {
            Some(list) => Answer::Shape(list),
            None => self.rust.ask_rooms(),
        }
    }
}
