//! Lists of calls on a board: every short one on small boards, and random ones; with single decides alone, and with strokes.
use crate::boards::UNDECIDED;
use crate::ledger::{entry, Ledger};
use crate::random::Random;

#[derive(Clone, Copy, Debug, PartialEq, Eq)]
pub enum Call {
    Decide { border: usize, wall: bool },
    Undo,
}

impl Call {
    /// The call's byte in a case file, and its border.
    pub fn coded(self) -> (u8, usize) {
        match self {
            Call::Undo => (0, 0),
            Call::Decide { border, wall } => (1 + wall as u8, border),
        }
    }
}

/// A call on a record: a case file has single ones alone.
#[derive(Clone, Debug, PartialEq, Eq)]
pub enum Turn {
    Single(Call),
    Stroke(Vec<u16>),
}

pub fn singles(calls: Vec<Call>) -> Vec<Turn> {
    calls.into_iter().map(Turn::Single).collect()
}

/// The calls that can be told apart on so many borders: each border and the first that does not exist, each value, undo.
pub fn alphabet(borders: usize) -> Vec<Call> {
    let values = |border| [false, true].map(|wall| Call::Decide { border, wall });
    let mut calls: Vec<Call> = (0..=borders).flat_map(values).collect();
    calls.push(Call::Undo);
    calls
}

/// Every list of so many calls, or of other items.
pub fn every<T: Clone>(items: Vec<T>, length: u32) -> impl Iterator<Item = Vec<T>> {
    let n = items.len();
    (0..n.pow(length)).map(move |number| {
        let digits = (0..length).map(|place| number / n.pow(place) % n);
        digits.map(|digit| items[digit].clone()).collect()
    })
}

/// Every stroke of up to so many entries, over so many borders and the first that does not exist; and undo.
pub fn strokes(borders: usize, longest: u32) -> Vec<Turn> {
    let entries: Vec<u16> = (0..2 * borders as u16 + 2).collect();
    let strokes = (0..=longest).flat_map(|length| every(entries.clone(), length)).map(Turn::Stroke);
    strokes.chain([Turn::Single(Call::Undo)]).collect()
}

/// A border for a call: most often one of the board, now and then one that does not exist.
fn border(random: &mut Random, borders: usize) -> usize {
    match random.below(40) {
        0 => borders,
        1 => borders + random.below(2000),
        2 => *random.pick(&[65535, 65536, 131_072, usize::MAX]),
        _ => random.below(borders.max(1)),
    }
}

/// A random list of calls over so many borders or edges; `undos` in 16 are undos.
pub fn random(random: &mut Random, borders: usize, length: usize, undos: usize) -> Vec<Call> {
    let call = |random: &mut Random| {
        if random.chance(undos, 16) {
            Call::Undo
        } else {
            Call::Decide { border: border(random, borders), wall: random.chance(1, 2) }
        }
    };
    (0..length).map(|_| call(random)).collect()
}

/// A stroke of undecided borders, at times of none; into some of them go entries that are there already, decided or missing.
pub fn stroke(random: &mut Random, ledger: &Ledger) -> Vec<u16> {
    let states = ledger.states();
    let mut open: Vec<usize> = (0..states.len()).filter(|&border| states[border] == UNDECIDED).collect();
    random.shuffle(&mut open);
    let most = *random.pick(&[1, 3, 8, 40, 2000]);
    open.truncate(random.below(most.min(open.len()) + 1));
    let valued = |border: &usize| entry(*border, random.chance(1, 2)).expect("a border");
    let mut entries: Vec<u16> = open.iter().map(valued).collect();
    for _ in 0..*random.pick(&[0, 0, 0, 0, 1, 1, 2, 3]) {
        let stray = match random.below(4) {
            0 => border(random, states.len()),
            1 => open.first().copied().unwrap_or(0),
            _ => random.below(states.len() + 1),
        };
        let at = random.below(entries.len() + 1);
        entries.insert(at, entry(stray, random.chance(1, 2)).unwrap_or(u16::MAX));
    }
    entries
}

/// A random list of turns on a record, of which `undos` in 16 are undos; the others are single decides and strokes, most of which can be
/// done.
pub fn turns(random: &mut Random, mut ledger: Ledger, length: usize, undos: usize) -> Vec<Turn> {
    let turn = |_| {
        let turn = match random.below(2) {
            _ if random.chance(undos, 16) => Turn::Single(Call::Undo),
            0 => Turn::Single(Call::Decide { border: border(random, ledger.states().len()), wall: random.chance(1, 2) }),
            _ => Turn::Stroke(stroke(random, &ledger)),
        };
        // refused or not, the next one sees what stands
        let _ = ledger.turn(&turn);
        turn
    };
    (0..length).map(turn).collect()
}

/// The calls, with some of the decides that follow each other as one stroke, and empty strokes among them.
pub fn joined(random: &mut Random, calls: Vec<Call>) -> Vec<Turn> {
    let often = *random.pick(&[0, 4, 12, 15]);
    let mut turns: Vec<Turn> = vec![];
    for call in calls {
        let joins = random.chance(often, 16);
        match (call, turns.last_mut()) {
            (Call::Decide { border, wall }, Some(Turn::Stroke(entries))) if joins => {
                entries.push(entry(border, wall).unwrap_or(u16::MAX));
            }
            (Call::Decide { border, wall }, _) if joins && border < 1 << 15 => {
                turns.extend(entry(border, wall).map(|entry| Turn::Stroke(vec![entry])));
            }
            _ => turns.push(Turn::Single(call)),
        }
        if random.chance(1, 24) {
            turns.push(Turn::Stroke(vec![]));
        }
    }
    turns
}
