//! A decide and an undo of a border that is undecided then, by value and in place.
use super::calls::Laid;
use super::paper::{micros, number, Pair, Row};
use super::{both, row};
use crate::boards::{Standing, UNDECIDED};
use crate::port::{self, LentBoard, LentPuzzle, Record};
use crate::reference::{Board, NO_CLUE};
use std::hint::black_box;

/// The sides of puzzles.
pub const SIDES: [usize; 4] = [4, 10, 16, 32];

/// Fresh puzzles of a side, with and without given walls.
pub const FRESH: [(&str, fn(usize) -> Laid); 2] = [
    ("rooms of 4 by 4", |side| Laid::squares(side, 8, |_, _| UNDECIDED)),
    ("one room, no clue", |side| Laid::one_room(side, UNDECIDED, NO_CLUE as usize)),
];

/// The times on a board or a puzzle of 32 by 32, beside the port's ask on it.
pub struct Turned {
    pub name: String,
    pub in_place: bool,
    pub times: Pair,
    ask: f64,
}

impl Turned {
    pub fn in_asks(&self) -> f64 {
        self.times.port / self.ask
    }

    pub fn told(&self) -> String {
        let (turn, ask) = (micros(self.times.port), micros(self.ask));
        format!("up to {} of it ({}: {turn} µs, the ask {ask} µs)", number(self.in_asks()), self.name)
    }
}

pub fn turn(record: &mut impl Record, border: usize) {
    record.decide(black_box(border), true).expect("decided");
    record.undo().expect("undone");
}

/// By value and in place.
fn timed(mut rust: impl FnMut(), mut by_value: impl Record, mut lent: impl Record, border: usize) -> [Pair; 2] {
    [both(&mut rust, || turn(&mut by_value, border)), both(&mut rust, || turn(&mut lent, border))]
}

/// On a full board the first border is left open.
fn on_board(board: &Standing) -> [Pair; 2] {
    let mut states = board.states.clone();
    let border = states.iter().position(|&s| s == UNDECIDED).unwrap_or(0);
    states[border] = UNDECIDED;
    let mut rust = Board::standing(board.height, board.width, &states);
    let ours = port::Board::standing(board.height, board.width, &states);
    timed(|| rust.decide_and_undo(black_box(border), true), ours, LentBoard(ours), border)
}

fn on_puzzle(laid: &Laid) -> [Pair; 2] {
    let (mut rust, ours) = (laid.rust(), laid.port());
    timed(|| rust.decide_and_undo(black_box(0), true), ours, LentPuzzle(ours), 0)
}

/// On each board and on a puzzle, with asks on them by name.
pub fn at_32(boards: &[(&str, Standing)], asks: &[(String, Pair)]) -> Vec<Turned> {
    let name = "puzzle, rooms of 4 by 4, open inside";
    let on_boards = boards.iter().map(|(name, board)| (*name, on_board(board)));
    let on_all = on_boards.chain([(name, on_puzzle(&Laid::squares(32, 8, |_, _| UNDECIDED)))]);
    let turned = |(name, [by_value, lent]): (&str, [Pair; 2])| {
        let ask = asks.iter().find(|ask| ask.0 == name).expect("asked").1.port;
        let named = |name: String, in_place, times| Turned { name, in_place, times, ask };
        [named(name.into(), false, by_value), named(format!("{name}, in place"), true, lent)]
    };
    on_all.flat_map(turned).collect()
}

/// On fresh puzzles of the sides.
pub fn on_puzzles() -> Vec<Row<Vec<Pair>>> {
    let rows = |(name, laid): &(&str, fn(usize) -> Laid)| {
        let times = SIDES.map(|side| on_puzzle(&laid(side)));
        let way = |way: &str, at: usize| row(format!("{name}, {way}"), times.iter().map(|times| times[at]).collect());
        [way("by value", 0), way("in place", 1)]
    };
    FRESH.iter().flat_map(rows).collect()
}
