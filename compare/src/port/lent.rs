//! Calls with a buffer that is lent again and again and never cleared: for the benchmark.
use super::{c, Board, City, Puzzle};
use crate::generator::Load;

// Each buffer lives through its call.
impl Board {
    pub fn groups_in(&self, potential: bool, buffer: &mut [u16]) -> usize {
        unsafe { c::sendai_groups(self.0, potential, buffer.as_mut_ptr(), buffer.len()) }.info.count
    }

    pub fn path_in(&self, from: usize, to: usize, buffer: &mut [u16]) -> usize {
        unsafe { c::sendai_path(self.0, from, to, buffer.as_mut_ptr(), buffer.len()) }.length
    }

    pub fn boundary_in(&self, potential: bool, unit: usize, buffer: &mut [u16]) -> usize {
        let call = if potential { c::sendai_potential_unit_boundary } else { c::sendai_unit_boundary };
        unsafe { call(self.0, unit, buffer.as_mut_ptr(), buffer.len()) }.length
    }

    pub fn ask_in(&self, buffer: &mut [u16]) -> bool {
        unsafe { c::sendai_board_ask(self.0, buffer.as_mut_ptr(), buffer.len()) }.fault
    }
}

impl City {
    pub fn ask_in(&self, buffer: &mut [u16]) -> bool {
        unsafe { c::sendai_room_ask(self.0, buffer.as_mut_ptr(), buffer.len()) }.fault
    }
}

impl Puzzle {
    pub fn ask_in(&self, buffer: &mut [u16]) -> u8 {
        unsafe { c::sendai_puzzle_ask(self.0, buffer.as_mut_ptr(), buffer.len()) }.kind
    }

    pub fn right_boards_in(&self, cap: usize, buffer: &mut [u8]) -> usize {
        unsafe { c::sendai_puzzle_right_boards(self.0, cap, buffer.as_mut_ptr(), buffer.len()) }.count
    }
}

pub fn hand_over_in(entries: &[u16], buffer: &mut [u16]) -> usize {
    unsafe { c::sendai_hand_over(entries.as_ptr(), entries.len(), buffer.as_mut_ptr(), buffer.len()) }.length
}

pub fn generate_in(load: Load, buffer: &mut [u8]) -> usize {
    let Load { seed, height, width, count } = load;
    unsafe { c::sendai_case_generate(seed, height, width, count, buffer.as_mut_ptr(), buffer.len()) }.length
}

/// The call of a file at a byte, with its line in the buffer.
pub fn run_in(file: &[u8], at: usize, from: c::Puzzle, line: &mut [u8]) -> c::Ran {
    unsafe { c::sendai_case_run(file.as_ptr(), file.len(), at, 1, from, line.as_mut_ptr(), line.len()) }
}
