//! All right boards of a started grid: the call, plain asks on the boards that its search comes by, and the same search by the
//! Rust's checks.
use super::calls::Laid;
use super::paper::{micros, number, Pair};
use super::{both, stack};
use crate::answers::Answer;
use crate::boards::{Standing, CONNECTED, UNDECIDED, WALL};
use crate::kinds::Kind;
use crate::port;
use crate::random::Random;
use crate::reference::{self, NO_CLUE};

/// The most boards that a search is to find, above all that there are.
const CAP: usize = 2000;

/// Who answers the asks of a search.
trait Side {
    fn decide(&mut self, border: usize, state: u8);
    fn undo(&mut self, border: usize);
    fn clear(&mut self) -> bool;
}

impl Side for reference::Puzzle {
    fn decide(&mut self, border: usize, state: u8) {
        reference::Puzzle::decide(self, border, state == WALL).expect("decided");
    }

    fn undo(&mut self, _: usize) {
        reference::Puzzle::undo(self).expect("undone");
    }

    fn clear(&mut self) -> bool {
        self.ask() == Answer::Clear
    }
}

/// The port's plain ask, on a record whose state and ledger are written where they are.
struct Plain {
    puzzle: port::Puzzle,
    list: Vec<u16>,
}

impl Side for Plain {
    fn decide(&mut self, border: usize, state: u8) {
        let board = &mut self.puzzle.0.board;
        (board.states[border], board.ledger[board.len]) = (state, 2 * border as u16 + 1);
        board.len += 1;
    }

    fn undo(&mut self, border: usize) {
        let board = &mut self.puzzle.0.board;
        board.len -= 1;
        (board.states[border], board.ledger[board.len]) = (UNDECIDED, 0);
    }

    fn clear(&mut self) -> bool {
        self.puzzle.ask_in(&mut self.list) == 0
    }
}

#[derive(Clone, Copy, Default, PartialEq, Debug)]
struct Found {
    boards: usize,
    asks: usize,
}

/// The call's search: an ask on each board, and unless it is a fault the lowest undecided border as Connected, then as Wall,
/// until one board more than the cap is known.
fn search(side: &mut impl Side, open: &[usize], found: &mut Found) {
    found.asks += 1;
    if !side.clear() {
        return;
    }
    let Some((&border, later)) = open.split_first() else {
        found.boards += 1;
        return;
    };
    for state in [CONNECTED, WALL] {
        if found.boards <= CAP {
            side.decide(border, state);
            search(side, later, found);
            side.undo(border);
        }
    }
}

fn searched(side: &mut impl Side, open: &[usize]) -> Found {
    let mut found = Found::default();
    search(side, open, &mut found);
    found
}

/// 16 by 16 dominoes, of which 8 inner borders and 16 Walls are taken back; the one room's clue lets 4 dominoes part.
fn taken_back() -> Laid {
    let mut board = Standing::parted(16, 16, CONNECTED, |y, x| y * 64 + x / 2);
    let full = board.states.clone();
    let mut borders: Vec<usize> = (0..full.len()).collect();
    Random::new(16).shuffle(&mut borders);
    for (state, times) in [(CONNECTED, 8), (WALL, 16)] {
        let some = borders.iter().filter(|&&border| full[border] == state).take(times);
        some.for_each(|&border| board.states[border] = UNDECIDED);
    }
    Laid { board, given: vec![], clues: vec![128 + 4] }
}

/// The started grids: 24 undecided borders each.
fn grids() -> [(&'static str, Laid); 2] {
    let empty = Laid::one_room(4, UNDECIDED, NO_CLUE as usize);
    [("4 by 4, empty", empty), ("16 by 16, dominoes, 24 borders taken back", taken_back())]
}

/// A search's times in nanoseconds, and what it found.
pub struct Searched {
    pub name: &'static str,
    found: Found,
    times: Pair,
    /// Plain asks on all boards of the search, and the call in the same rounds.
    asks: f64,
    call: f64,
}

impl Searched {
    /// The call's time, divided by that of its asks.
    pub fn in_asks(&self) -> f64 {
        self.call / self.asks
    }
}

fn timed(name: &'static str, laid: &Laid) -> Searched {
    let states = &laid.board.states;
    let open: Vec<usize> = (0..states.len()).filter(|&border| states[border] == UNDECIDED).collect();
    let (mut rust, ours) = (laid.rust(), laid.port());
    let mut plain = Plain { puzzle: ours, list: vec![0; 9 * laid.board.cells()] };
    let buffer = &mut vec![0; CAP * states.len()];
    let found = searched(&mut plain, &open);
    assert_eq!(found, searched(&mut rust, &open), "the same search by both sides");
    assert_eq!(found.boards, ours.right_boards_in(CAP, buffer), "the boards of the search");
    let times = both(|| searched(&mut rust, &open), || ours.right_boards_in(CAP, buffer));
    let beside = both(|| searched(&mut plain, &open), || ours.right_boards_in(CAP, buffer));
    println!("{name}: {} µs, ratio {}", micros(times.port), number(times.ratio()));
    Searched { name, found, times, asks: beside.rust, call: beside.port }
}

pub fn all() -> Vec<Searched> {
    grids().iter().map(|(name, laid)| timed(name, laid)).collect()
}

/// The most stack of the call over the started grids, of each kind.
pub fn stacks() -> [(String, usize); 2] {
    let buffer = &mut vec![0; CAP * 480];
    let mut most = |kind| {
        let used = grids().map(|(_, laid)| {
            let ours = laid.port_of(kind);
            stack::used(|| ours.right_boards_in(CAP, buffer))
        });
        used.into_iter().max().expect("grids")
    };
    let name = "right boards, 24 borders undecided";
    [(name.into(), most(Kind::Translates)), (format!("{name}, images"), most(Kind::Images))]
}

pub fn table(rows: &[Searched]) -> String {
    let columns = ["started grid", "right boards", "asks", "one ask, µs", "the Rust, µs", "the port, µs", "ratio", "in asks"];
    let mut text = format!("| {} |\n|{}\n", columns.join(" | "), "---|".repeat(columns.len()));
    for row in rows {
        let Found { boards, asks } = row.found;
        let counts = format!("{} | {}", number(boards as f64), number(asks as f64));
        let ask = micros(row.asks / asks as f64);
        let Pair { rust, port } = row.times;
        let times = format!("{} | {} | {}", micros(rust), micros(port), number(row.times.ratio()));
        text += &format!("| {} | {counts} | {ask} | {times} | {:.2} |\n", row.name, row.in_asks());
    }
    text
}
