//! The ledger by SPEC's words: strokes in order. The Rust has single decisions alone, so a stroke is put to it border by border, and taken
//! back so.
use crate::answers::Answer;
use crate::boards::{CONNECTED, UNDECIDED, WALL};
use crate::kinds;
use crate::random::Random;
use crate::reference::{self, Board};
use crate::runs::{Call, Turn};
use std::collections::BTreeSet;

/// The border or edge of an entry or a name.
pub fn border(entry: u16) -> usize {
    usize::from(entry / 2)
}

pub fn is_wall(entry: u16) -> bool {
    entry % 2 == 1
}

/// The entry of a border; none where 16 bits do not hold it.
pub fn entry(border: usize, wall: bool) -> Option<u16> {
    u16::try_from(border).ok().filter(|&border| border < 1 << 15).map(|border| 2 * border + u16::from(wall))
}

/// The names of borders that are decided one by one.
pub fn singles(borders: &[u16]) -> Vec<u16> {
    borders.iter().map(|border| 2 * border + 1).collect()
}

/// What question 2 asks of states and ledger; a given wall is named by none.
pub fn sound(states: &[u8], given: &[u16], ledger: &[u16], len: usize) -> bool {
    if len > states.len() {
        return false;
    }
    let names = &ledger[..len];
    let started = names.first().is_none_or(|name| name % 2 == 1);
    let exist = names.iter().all(|&name| border(name) < states.len());
    let named = |place: usize| names.iter().filter(|&&name| border(name) == place).count();
    let right = |place: usize| match (given.contains(&(place as u16)), states[place]) {
        (true, state) => state == WALL && named(place) == 0,
        (false, UNDECIDED) => named(place) == 0,
        (false, CONNECTED | WALL) => named(place) == 1,
        (false, _) => false,
    };
    started && exist && (0..states.len()).all(right)
}

/// What stands on a record, and the strokes that put it there.
#[derive(Clone, Debug)]
pub struct Ledger {
    states: Vec<u8>,
    /// The entries of each stroke, none of which is empty.
    strokes: Vec<Vec<u16>>,
}

impl Ledger {
    /// Of a fresh record with so many borders or edges.
    pub fn fresh(borders: usize, given: &[u16]) -> Ledger {
        let mut states = vec![UNDECIDED; borders];
        given.iter().for_each(|&wall| states[usize::from(wall)] = WALL);
        Ledger { states, strokes: vec![] }
    }

    /// Of a record that holds together.
    pub fn of(states: &[u8], names: &[u16]) -> Ledger {
        let mut strokes: Vec<Vec<u16>> = vec![];
        for &name in names {
            if name % 2 == 1 {
                strokes.push(vec![]);
            }
            let wall = states[border(name)] == WALL;
            strokes.last_mut().expect("the first name is odd").push(name / 2 * 2 + u16::from(wall));
        }
        Ledger { states: states.to_vec(), strokes }
    }

    /// The number by which questions 3, 14 and 4 refuse a stroke, or 0: each is put to all of it before the next.
    pub fn refusal(&self, entries: &[u16]) -> u8 {
        let borders: Vec<usize> = entries.iter().map(|&entry| border(entry)).collect();
        if borders.iter().any(|&border| border >= self.states.len()) {
            return 3;
        }
        if borders.iter().collect::<BTreeSet<_>>().len() < borders.len() {
            return 14;
        }
        if borders.iter().any(|&border| self.states[border] != UNDECIDED) { 4 } else { 0 }
    }

    /// All entries are decided, or none.
    pub fn stroke(&mut self, entries: &[u16]) -> Result<(), u8> {
        match self.refusal(entries) {
            0 => entries.iter().for_each(|&entry| self.states[border(entry)] = if is_wall(entry) { WALL } else { CONNECTED }),
            code => return Err(code),
        }
        if !entries.is_empty() {
            self.strokes.push(entries.to_vec());
        }
        Ok(())
    }

    /// The last stroke is taken back, and told.
    pub fn undo(&mut self) -> Result<Vec<u16>, u8> {
        let stroke = self.strokes.pop().ok_or(5)?;
        stroke.iter().for_each(|&entry| self.states[border(entry)] = UNDECIDED);
        Ok(stroke)
    }

    pub fn turn(&mut self, turn: &Turn) -> Result<(), u8> {
        match turn {
            Turn::Single(Call::Decide { border, wall }) => self.stroke(&[entry(*border, *wall).ok_or(3)?]),
            Turn::Single(Call::Undo) => self.undo().map(drop),
            Turn::Stroke(entries) => self.stroke(entries),
        }
    }

    pub fn states(&self) -> &[u8] {
        &self.states
    }

    pub fn strokes(&self) -> &[Vec<u16>] {
        &self.strokes
    }

    /// The entries of all strokes, in order.
    pub fn entries(&self) -> Vec<u16> {
        self.strokes.concat()
    }

    /// What stands in the record's ledger: 2 · border, and 1 more where a stroke starts.
    pub fn names(&self) -> Vec<u16> {
        let named = |stroke: &Vec<u16>| {
            let name = |(at, entry): (usize, &u16)| entry / 2 * 2 + u16::from(at == 0);
            stroke.iter().enumerate().map(name).collect::<Vec<_>>()
        };
        self.strokes.iter().flat_map(named).collect()
    }
}

/// The entries in another order, cut into strokes, with empty ones among them.
pub fn cut(random: &mut Random, mut entries: Vec<u16>) -> Vec<Vec<u16>> {
    random.shuffle(&mut entries);
    let mut strokes = vec![vec![]];
    let parts = *random.pick(&[1, 4, 12]);
    for entry in entries {
        while random.chance(parts, 16) {
            strokes.push(vec![]);
        }
        strokes.last_mut().expect("a stroke").push(entry);
    }
    strokes
}

/// A fault: 0 for the shape check, else 1 more than the room; and its list.
pub type Fault = Option<(usize, Vec<u16>)>;

/// A record of the Rust.
pub trait Reference {
    fn decide(&mut self, border: usize, wall: bool) -> Result<(), u8>;
    fn undo(&mut self) -> Result<(), u8>;
    fn states(&self) -> Vec<u8>;
    fn fault(&mut self) -> Fault;
    /// Whether words stand in for the Rust's faults.
    fn left_out(&self) -> bool {
        false
    }
}

/// The fault of a puzzle's answer.
pub fn fault_of(answer: Answer) -> Fault {
    match answer {
        Answer::Clear => None,
        Answer::Shape(list) => Some((0, list)),
        Answer::Room(room, list) => Some((room + 1, list)),
    }
}

macro_rules! references {
    ($($record:ty, $fault:expr;)*) => {$(
        impl Reference for $record {
            fn decide(&mut self, border: usize, wall: bool) -> Result<(), u8> {
                self.decide(border, wall)
            }
            fn undo(&mut self) -> Result<(), u8> {
                self.undo()
            }
            fn states(&self) -> Vec<u8> {
                <$record>::states(self)
            }
            fn fault(&mut self) -> Fault {
                $fault(self.ask())
            }
        }
    )*};
}

references! {
    Board, |list: Option<Vec<u16>>| list.map(|list| (0, list));
    reference::Puzzle, fault_of;
    kinds::Puzzle, fault_of;
}

/// The Rust, and the strokes that were put to it.
pub struct Told<R> {
    pub rust: R,
    pub ledger: Ledger,
}

impl<R: Reference> Told<R> {
    /// A fresh record, with its given walls.
    pub fn new(rust: R, given: &[u16]) -> Told<R> {
        let borders = rust.states().len();
        Told { rust, ledger: Ledger::fresh(borders, given) }
    }

    /// A single decide is refused as the Rust does it, a stroke by the model; an undo takes as many decisions as the stroke had, and where
    /// there is none the Rust refuses it.
    pub fn turn(&mut self, turn: &Turn) -> Result<(), u8> {
        match turn {
            Turn::Single(Call::Decide { border, wall }) => {
                self.rust.decide(*border, *wall)?;
                self.ledger.turn(turn)
            }
            Turn::Single(Call::Undo) => {
                let decisions = self.ledger.undo().map_or(1, |stroke| stroke.len());
                (0..decisions).try_for_each(|_| self.rust.undo())
            }
            Turn::Stroke(entries) => {
                self.ledger.stroke(entries)?;
                entries.iter().try_for_each(|&entry| self.rust.decide(border(entry), is_wall(entry)))
            }
        }
    }

    /// The states as the Rust has them, and the names as the model has them.
    pub fn record(&self) -> (Vec<u8>, Vec<u16>) {
        (self.rust.states(), self.ledger.names())
    }
}
