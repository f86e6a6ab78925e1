//! A repeatable load by SPEC 11: case files drawn from a seed. The Rust has no generator; these words stand in for one.
use crate::boards::border_count;
use crate::files::{self, Call, Case};
use crate::puzzles::{within_limits, Making};

/// What a file is drawn from.
#[derive(Clone, Copy, Debug)]
pub struct Load {
    pub seed: u32,
    pub height: usize,
    pub width: usize,
    pub count: usize,
}

/// What replaces a state; a shift to the left drops the bits beyond 32.
fn replaced(state: u32) -> u32 {
    let state = state ^ (state << 13);
    let state = state ^ (state >> 17);
    state ^ (state << 5)
}

impl Load {
    fn calls(self) -> Vec<Call> {
        let borders = border_count(self.height, self.width) as u32;
        let mut state = self.seed;
        let mut next = || {
            state = replaced(state);
            state
        };
        let mut call = || match next() % 4 {
            0 => Call::Undo,
            kind @ (1 | 2) if borders > 0 => Call::Decide { border: (next() % borders) as u16, wall: kind == 2 },
            _ => Call::Ask,
        };
        (0..self.count).map(|_| call()).collect()
    }

    /// The file, or the number that refuses it whatever the buffer: 1, 13 or 6.
    pub fn file(self) -> Result<Vec<u8>, u8> {
        if !within_limits(self.height, self.width) {
            return Err(1);
        }
        if self.seed == 0 {
            return Err(13);
        }
        // a call takes a byte at least
        if self.count > files::MOST {
            return Err(6);
        }
        let file = files::encode(&Case { making: Making::empty(self.height, self.width), calls: self.calls() });
        if file.len() - 3 > files::MOST { Err(6) } else { Ok(file) }
    }
}
