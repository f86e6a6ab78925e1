//! The archive's promises, as far as calls show them.

mod buffers;
mod cases;
mod forms;
mod generated;
mod images;
mod paper;
mod refusals;
mod right_boards;
mod strokes;

use crate::{Board, Kind, Refusal};

/// What the places of a buffer hold before a call.
const UNTOUCHED: u16 = 0xbeef;

/// The same of a buffer of bytes.
const UNTOUCHED_BYTE: u8 = 0x55;

const KINDS: [Kind; 2] = [Kind::Translates, Kind::Images];

fn marked(places: usize) -> Vec<u16> {
    vec![UNTOUCHED; places]
}

/// A board with these borders decided as Wall (`true`) or Connected.
fn board(height: usize, width: usize, decisions: &[(usize, bool)]) -> Board {
    let mut board = Board::make(height, width).unwrap();
    for &(border, wall) in decisions {
        board.decide(border, wall).unwrap();
    }
    board
}

/// Lends a buffer of so many places to a call that must be refused by this number and leave every place as it was.
fn refused(number: u8, places: usize, call: impl FnOnce(&mut [u16]) -> Result<(), Refusal>) {
    let mut buffer = marked(places);
    assert_eq!(call(&mut buffer).map_err(|refusal| refusal as u8), Err(number));
    assert_eq!(buffer, marked(places));
}

/// Numbers that look drawn: the same in every run.
struct Drawn(u64);

impl Drawn {
    fn below(&mut self, bound: usize) -> usize {
        self.0 = self.0.wrapping_mul(6364136223846793005).wrapping_add(1442695040888963407);
        (self.0 >> 33) as usize % bound
    }
}
