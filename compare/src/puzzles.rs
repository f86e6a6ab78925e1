//! Puzzles to compare on, damaged records, and SPEC's questions about both.
use crate::boards::{self, border_count, Standing, UNDECIDED, WALL};
use crate::kinds::Kind;
use crate::ledger::{self, Ledger};
use crate::port::PuzzleRecord;
use crate::random::Random;
use crate::reference::{rooms, NO_CLUE};
use crate::runs::{self, Call, Turn};

/// What a making gets.
#[derive(Clone, Debug)]
pub struct Making {
    pub kind: Kind,
    pub height: usize,
    pub width: usize,
    pub given: Vec<u16>,
    pub clues: Vec<u16>,
}

pub fn within_limits(height: usize, width: usize) -> bool {
    (1..=32).contains(&height) && (1..=32).contains(&width)
}

impl Making {
    /// Of translates, with no given walls, and one room without a clue.
    pub fn empty(height: usize, width: usize) -> Making {
        Making { kind: Kind::Translates, height, width, given: vec![], clues: vec![NO_CLUE] }
    }

    pub fn of_kind(self, kind: Kind) -> Making {
        Making { kind, ..self }
    }

    pub fn cells(&self) -> usize {
        self.height * self.width
    }

    /// The places that an ask needs.
    pub fn places(&self) -> usize {
        self.kind.places(self.cells())
    }

    pub fn walls(&self) -> Vec<usize> {
        self.given.iter().map(|&border| border as usize).collect()
    }

    /// The number by which SPEC 3 refuses the making, or 0.
    pub fn refusal(&self) -> u8 {
        if !within_limits(self.height, self.width) {
            return 1;
        }
        let borders = border_count(self.height, self.width);
        if self.given.iter().any(|&border| border as usize >= borders) {
            return 3;
        }
        if self.given.windows(2).any(|pair| pair[0] >= pair[1]) {
            return 7;
        }
        let rooms = rooms(self.height, self.width, &self.walls());
        if rooms.len() != self.clues.len() {
            return 8;
        }
        let too_large = |(room, &clue): (&Vec<usize>, &u16)| clue != NO_CLUE && clue as usize > room.len();
        if rooms.iter().zip(&self.clues).any(too_large) { 9 } else { 0 }
    }
}

/// The number by which SPEC's questions 1 and 2 refuse a record, or 0.
pub fn refusal(record: &PuzzleRecord) -> u8 {
    let board = &record.board;
    let (height, width) = (board.height, board.width);
    if !within_limits(height, width) {
        return 1;
    }
    if record.given_len > 1984 || record.clues_len > 1024 || Kind::of(record.kind).is_none() {
        return 2;
    }
    let (given, clues) = (record.given[..record.given_len].to_vec(), record.clues[..record.clues_len].to_vec());
    if (Making { given: given.clone(), clues, ..Making::empty(height, width) }).refusal() != 0 {
        return 2;
    }
    let states = &board.states[..border_count(height, width)];
    if ledger::sound(states, &given, &board.ledger, board.len) { 0 } else { 2 }
}

/// Every making of a size that is accepted: all sets of given walls, and for each room all clues that fit, and none.
pub fn every(height: usize, width: usize) -> Vec<Making> {
    let borders = border_count(height, width);
    let mut all = vec![];
    for set in 0..1usize << borders {
        let walls: Vec<usize> = (0..borders).filter(|border| set >> border & 1 == 1).collect();
        let mut lists: Vec<Vec<u16>> = vec![vec![]];
        for room in rooms(height, width, &walls) {
            let clues = (0..=room.len() as u16).chain([NO_CLUE]);
            lists = clues.flat_map(|clue| lists.iter().map(move |list| [&list[..], &[clue]].concat())).collect();
        }
        let given: Vec<u16> = walls.iter().map(|&border| border as u16).collect();
        all.extend(lists.into_iter().map(|clues| Making { given: given.clone(), clues, ..Making::empty(height, width) }));
    }
    all
}

/// How many units of a board each room holds.
pub fn units_in(board: &Standing, rooms: &[Vec<usize>]) -> Vec<usize> {
    let unit = board.units();
    let held = |room: &Vec<usize>| {
        let mut units: Vec<usize> = room.iter().map(|&cell| unit[cell]).collect();
        units.sort();
        units.dedup();
        units.len()
    };
    rooms.iter().map(held).collect()
}

/// A clue for a room: none, as many as it is to hold, one beside that, or any.
fn clue(random: &mut Random, size: usize, held: usize, style: usize) -> u16 {
    let clue = match if style == 4 { random.below(4) } else { style } {
        0 => return NO_CLUE,
        1 => held,
        2 => (held + 2 * random.below(2)).saturating_sub(1),
        _ => random.below(size + 1),
    };
    clue.min(size) as u16
}

/// A making whose given walls are some of a board's Walls, and some others; the board has them as Walls then.
pub fn on(random: &mut Random, board: &mut Standing) -> Making {
    let (walls, others) = (random.below(9), *random.pick(&[0, 0, 0, 1, 4]));
    for border in 0..board.states.len() {
        if random.chance(others, 32) {
            board.states[border] = WALL;
        }
    }
    let given: Vec<usize> =
        (0..board.states.len()).filter(|&border| board.states[border] == WALL && random.chance(walls, 8)).collect();
    let rooms = rooms(board.height, board.width, &given);
    let style = random.below(6).min(4);
    let odd = random.below(rooms.len());
    let clues = rooms.iter().zip(units_in(board, &rooms)).enumerate();
    let clues = clues.map(|(room, (cells, held))| {
        // often all rooms but one are as the board has them
        let style = if style == 2 && room != odd { 1 } else { style };
        clue(random, cells.len(), held, style)
    });
    let clues = clues.collect();
    let given = given.iter().map(|&border| border as u16).collect();
    Making { given, clues, ..Making::empty(board.height, board.width) }
}

/// Calls that decide a board's borders, with others among them.
pub fn towards(random: &mut Random, board: &Standing, length: usize) -> Vec<Call> {
    let stray = *random.pick(&[0, 2, 8]);
    let mut order: Vec<usize> = (0..board.states.len()).filter(|&border| board.states[border] != UNDECIDED).collect();
    random.shuffle(&mut order);
    let mut calls = vec![];
    while calls.len() < length {
        match order.pop() {
            Some(border) if !random.chance(stray, 16) => {
                calls.push(Call::Decide { border, wall: board.states[border] == WALL });
            }
            None if stray == 0 => break,
            _ => calls.extend(runs::random(random, board.states.len(), 1, 6)),
        }
    }
    calls
}

/// Turns that draw what stands on a board beside its given walls, in strokes, with other turns among them.
pub fn drawing(random: &mut Random, board: &Standing, making: &Making, length: usize) -> Vec<Turn> {
    let stray = *random.pick(&[0, 2, 6]);
    let mut strokes = ledger::cut(random, entries(board, making)).into_iter();
    let mut turns = vec![];
    while turns.len() < length {
        if random.chance(stray, 16) {
            turns.extend(runs::turns(random, Ledger::fresh(board.states.len(), &[]), 1, 8));
        } else if let Some(stroke) = strokes.next() {
            turns.push(Turn::Stroke(stroke));
        } else {
            break;
        }
    }
    turns
}

/// A making that SPEC 3 may refuse: a size, a given wall, an order, a number of clues or a clue is wrong.
pub fn spoilt(random: &mut Random, mut making: Making) -> Making {
    let borders = border_count(making.height, making.width);
    for _ in 0..random.within(1, 2) {
        match random.below(6) {
            0 => making.height = *random.pick(&[0, 33, making.width, usize::MAX]),
            1 => making.given.push(*random.pick(&[0, borders as u16, borders.saturating_sub(1) as u16, 65535])),
            2 => random.shuffle(&mut making.given),
            3 => making.clues.push(*random.pick(&[0, 1, NO_CLUE])),
            4 => drop(making.clues.pop()),
            _ => {
                let at = random.below(making.clues.len().max(1));
                let clue = *random.pick(&[2, 9, 65534]);
                making.clues.iter_mut().skip(at).take(1).for_each(|c| *c = c.wrapping_add(clue));
            }
        }
    }
    making
}

/// A number near another, or far out.
fn beyond(random: &mut Random, n: usize) -> usize {
    *random.pick(&[n.saturating_add(1), n.saturating_sub(1), 1025, 1985, usize::MAX])
}

/// A record with one or two numbers changed, which SPEC 3 may refuse; numbers behind the lists may be changed too.
pub fn damaged(random: &mut Random, mut record: PuzzleRecord) -> PuzzleRecord {
    let board = &mut record.board;
    let borders = border_count(board.height, board.width);
    for _ in 0..random.within(1, 2) {
        let (some, last) = (random.below(borders + 1), board.len.min(1983));
        match random.below(14) {
            0 => board.states[some] = random.below(256) as u8,
            1 => board.states[some] = random.below(3) as u8,
            2 => board.ledger[random.below(last + 1)] = random.below(2 * borders + 4) as u16,
            3 => board.ledger.swap(random.below(last + 1), random.below(last + 1)),
            4 => board.len = beyond(random, board.len),
            5 => record.given[random.below(record.given_len.min(1983) + 1)] = some as u16,
            6 => record.given_len = beyond(random, record.given_len),
            7 => record.clues[random.below(record.clues_len.min(1023) + 1)] = *random.pick(&[0, 1, 3, 65534, NO_CLUE]),
            8 => record.clues_len = beyond(random, record.clues_len),
            9 => board.height = *random.pick(&[0, 33, board.width, board.height.saturating_add(1), usize::MAX]),
            10 => board.width = *random.pick(&[0, 33, board.height, board.width.saturating_sub(1), usize::MAX]),
            // a stroke begins or ends elsewhere; at the first name none would begin
            11 => board.ledger[random.below(last + 1)] ^= 1,
            12 => record.kind = *random.pick(&[0, 1, 1, 2, 128, 255]),
            _ => {
                board.states[borders..].fill(random.below(256) as u8);
                board.ledger[board.len.min(1984)..].fill(random.below(65536) as u16);
                record.given[record.given_len.min(1984)..].fill(random.below(65536) as u16);
                record.clues[record.clues_len.min(1024)..].fill(random.below(65536) as u16);
            }
        }
    }
    record
}

/// A board of a size to lay a puzzle on.
pub fn drawn(random: &mut Random, low: usize, high: usize) -> (Standing, Making) {
    let mut board = boards::random(random, low, high);
    let making = on(random, &mut board);
    (board, making)
}

/// The entries of what stands on a board beside the given walls, rising.
pub fn entries(board: &Standing, making: &Making) -> Vec<u16> {
    let stands = |border: &u16| board.states[*border as usize] != UNDECIDED && making.given.binary_search(border).is_err();
    let entry = |border: u16| 2 * border + u16::from(board.states[border as usize] == WALL);
    (0..board.states.len() as u16).filter(stands).map(entry).collect()
}

/// A record on which a board stands, decided in any order and in any strokes.
pub fn record(random: &mut Random, board: &Standing, making: &Making) -> PuzzleRecord {
    let mut ledger = Ledger::fresh(board.states.len(), &making.given);
    for stroke in ledger::cut(random, entries(board, making)) {
        ledger.stroke(&stroke).expect("drawn");
    }
    PuzzleRecord::of(making, &board.states, &ledger.names())
}
