//! The puzzle: making, decide, undo and ask beside the checks that `solve_sendai` lays out; strokes by the model, damaged records by SPEC's
//! questions. Each turn and each ask is also put to the puzzle as it is lent. Layer `images` puts puzzles of that kind to the same.
use super::{stroke_of_one, until, Limits};
use crate::answers::Answer;
use crate::boards::{self, border_count, Standing, WALL};
use crate::ledger::{Ledger, Told};
use crate::kinds::{self, Kind};
use crate::port::{self, LentPuzzle, Played, PuzzleRecord, Record, PLACES};
use crate::puzzles::{self, Making};
use crate::random::Random;
use crate::runs::{self, Call, Turn};
use crate::sample::{code, numbers, record, Sample, LARGEST};
use crate::tally::Tally;

/// The tally, and how many of the accepted asks were clear, faults of the shape check, and faults of a room.
pub(super) struct Compared {
    pub(super) tally: Tally,
    pub(super) answers: [u64; 3],
}

/// A puzzle on both sides.
struct Both<'a> {
    making: &'a Making,
    rust: Told<kinds::Puzzle>,
    ours: port::Puzzle,
}

impl Both<'_> {
    /// The record that stands for the Rust's states and the strokes.
    fn expected(&self) -> PuzzleRecord {
        let (states, names) = self.rust.record();
        PuzzleRecord::of(self.making, &states, &names)
    }
}

impl Compared {
    pub(super) fn new(layer: &'static str) -> Compared {
        Compared::of(Tally::new(layer))
    }

    pub(super) fn of(tally: Tally) -> Compared {
        Compared { tally, answers: [0; 3] }
    }

    pub(super) fn told(&self) {
        let [clear, shape, room] = self.answers;
        println!("{}: accepted asks: {clear} clear, {shape} of the shape check, {room} of a room", self.tally.layer);
    }

    /// Makes a puzzle on both sides; where SPEC 3 refuses it and the Rust has a word on it, that is the same one.
    fn made<'a>(&mut self, making: &'a Making, absent: bool) -> Option<Both<'a>> {
        self.tally.case();
        let on = || format!("{making:?}");
        let code = making.refusal();
        let ours = port::Puzzle::make(making);
        self.tally.same(&code, &ours.as_ref().err().copied().unwrap_or(0), on);
        if code != 0 && code != 9 {
            return None;
        }
        let rust = kinds::Puzzle::new(making, absent);
        self.tally.same(&code, &rust.as_ref().err().copied().unwrap_or(0), on);
        let both = Both { making, rust: Told::new(rust.ok()?, &making.given), ours: ours.ok()? };
        self.tally.same(&both.expected(), &both.ours.0, on);
        Some(both)
    }

    /// A turn, and the record that it leaves.
    fn turn(&mut self, both: &mut Both, turn: &Turn, on: impl Fn() -> String) {
        let before = both.ours;
        let (theirs, answer) = (both.rust.turn(turn), both.ours.turn(turn));
        self.tally.same(&theirs, &answer, &on);
        self.tally.same(&both.expected(), &both.ours.0, &on);
        self.lent_turn(before, turn, (answer, both.ours), &on);
        stroke_of_one(&mut self.tally, before, turn, (answer, both.ours), on);
    }

    /// A turn of a lent puzzle answers as that by value, and leaves the same record.
    fn lent_turn(&mut self, before: port::Puzzle, turn: &Turn, told: (Result<(), u8>, port::Puzzle), on: impl Fn() -> String) {
        let mut lent = LentPuzzle(before);
        let answer = lent.turn(turn);
        self.tally.same(&told.0, &answer, || format!("lent, {}", on()));
        self.tally.same(&told.1 .0, &lent.0 .0, || format!("lent, {}", on()));
    }

    /// The port's ask, which a lent puzzle answers alike, with the same list.
    fn asked(&mut self, ours: port::Puzzle, places: usize, on: impl Fn() -> String) -> Result<Answer, u8> {
        let answer = ours.ask(places);
        self.tally.same(&answer, &LentPuzzle(ours).answer(places), || format!("lent, {}", on()));
        answer
    }

    fn ask(&mut self, both: &mut Both, places: usize, on: impl Fn() -> String) {
        let theirs = both.rust.rust.ask();
        self.answers[match theirs {
            Answer::Clear => 0,
            Answer::Shape(_) => 1,
            Answer::Room(..) => 2,
        }] += 1;
        let answer = self.asked(both.ours, places, &on);
        self.tally.same(&Ok(theirs), &answer, on);
    }

    /// Asks with a buffer that is just long enough, one that is longer, one that is a place short, and none; and the record's check.
    fn ask_all(&mut self, both: &mut Both, on: impl Fn() -> String) {
        let places = both.making.places();
        self.ask(both, places, &on);
        self.ask(both, places + 7, &on);
        for short in [places - 1, 0] {
            let answer = self.asked(both.ours, short, &on);
            self.tally.same(&Err(6), &answer, &on);
        }
        self.tally.same(&Ok(()), &both.ours.check(), &on);
    }

    /// Every set of standing borders that holds what stands, with borders from `free` on: an ask on each.
    fn walk(&mut self, both: &mut Both, free: &[usize]) {
        let (places, record) = (both.making.places(), both.ours.0);
        self.ask(both, places, || format!("{record:?}"));
        for (at, &border) in free.iter().enumerate() {
            for wall in [false, true] {
                let on = || format!("{record:?}, border {border} as Wall: {wall}");
                self.turn(both, &Turn::Single(Call::Decide { border, wall }), on);
                self.walk(both, &free[at + 1..]);
                self.turn(both, &Turn::Single(Call::Undo), on);
            }
        }
    }

    /// A list of turns, with an ask after each.
    fn run(&mut self, making: &Making, absent: bool, turns: &[Turn]) {
        let Some(mut both) = self.made(making, absent) else { return };
        self.ask_all(&mut both, || format!("{making:?}"));
        for (at, turn) in turns.iter().enumerate() {
            let on = || format!("{making:?}, turn {at} of {turns:?}");
            self.turn(&mut both, turn, on);
            let places = making.places();
            self.ask(&mut both, places, on);
        }
        self.ask_all(&mut both, || format!("{making:?}, {turns:?}"));
    }

    /// A whole board stands on the puzzle, in one stroke: an ask of each kind.
    pub(super) fn standing(&mut self, making: &Making, board: &Standing) {
        let Some(mut both) = self.made(making, false) else { return };
        let on = || format!("{making:?}, {board:?}");
        self.turn(&mut both, &Turn::Stroke(puzzles::entries(board, making)), on);
        self.ask_all(&mut both, on);
    }

    /// A record as it comes: refused by all calls alike, or answered as the Rust answers what stands on it.
    fn record(&mut self, random: &mut Random, record: PuzzleRecord) {
        self.tally.case();
        let code = puzzles::refusal(&record);
        let ours = port::Puzzle(record);
        self.tally.same(&code, &ours.check().err().unwrap_or(0), || format!("{record:?}"));
        if code == 0 {
            return self.sound(random, record);
        }
        let border = random.below(9);
        let decide = Turn::Single(Call::Decide { border, wall: true });
        let strokes = [vec![], vec![2 * border as u16], vec![1, 1], vec![u16::MAX]].map(Turn::Stroke);
        for turn in strokes.iter().chain([&decide, &Turn::Single(Call::Undo)]) {
            let mut after = ours;
            let on = || format!("{record:?}, {turn:?}");
            let answer = after.turn(turn);
            self.tally.same(&Err(code), &answer, on);
            self.tally.same(&record, &after.0, on);
            self.lent_turn(ours, turn, (answer, after), on);
        }
        for places in [0, PLACES] {
            let on = || format!("{record:?}");
            let answer = self.asked(ours, places, on);
            self.tally.same(&Err(code), &answer, on);
        }
    }

    /// A record that holds together, whatever stands behind its lists: an ask, and turns of each kind.
    fn sound(&mut self, random: &mut Random, record: PuzzleRecord) {
        let board = &record.board;
        let (given, clues) = (&record.given[..record.given_len], &record.clues[..record.clues_len]);
        let kind = Kind::of(record.kind).expect("it holds together");
        let making = Making { given: given.to_vec(), clues: clues.to_vec(), ..Making::empty(board.height, board.width) };
        let making = making.of_kind(kind);
        let rust = kinds::Puzzle::new(&making, true).expect("made");
        let mut both = Both { making: &making, rust: Told::new(rust, &making.given), ours: port::Puzzle(record) };
        let borders = border_count(board.height, board.width);
        let ledger = Ledger::of(&board.states[..borders], &board.ledger[..board.len]);
        for stroke in ledger.strokes() {
            both.rust.turn(&Turn::Stroke(stroke.clone())).expect("drawn");
        }
        self.ask_all(&mut both, || format!("{record:?}"));
        let decide = Turn::Single(Call::Decide { border: random.below(borders + 2), wall: true });
        let strokes = [vec![], runs::stroke(random, &ledger), runs::stroke(random, &ledger)].map(Turn::Stroke);
        for turn in strokes.iter().chain([&decide, &Turn::Single(Call::Undo)]) {
            let (mut model, mut ours) = (ledger.clone(), port::Puzzle(record));
            let on = || format!("{record:?}, {turn:?}");
            let answer = ours.turn(turn);
            self.tally.same(&model.turn(turn), &answer, on);
            self.tally.same(&after(record, &model), &ours.0, on);
            self.lent_turn(port::Puzzle(record), turn, (answer, ours), on);
        }
    }
}

/// A record that a turn left: what was named and is no more is 0, and all behind it is as it was.
pub(super) fn after(mut record: PuzzleRecord, ledger: &Ledger) -> PuzzleRecord {
    let (states, names) = (ledger.states(), ledger.names());
    record.board.states[..states.len()].copy_from_slice(states);
    record.board.ledger[..record.board.len].fill(0);
    record.board.ledger[..names.len()].copy_from_slice(&names);
    record.board.len = names.len();
    record
}

/// Every puzzle of a size: all standing sets.
pub(super) fn every_set(compared: &mut Compared, random: &mut Random, kind: Kind, (height, width): (usize, usize)) {
    for making in puzzles::every(height, width) {
        let making = making.of_kind(kind);
        let Some(mut both) = compared.made(&making, random.chance(1, 2)) else { continue };
        let free = (0..border_count(height, width)).filter(|&border| !making.given.contains(&(border as u16)));
        compared.walk(&mut both, &free.collect::<Vec<_>>());
    }
}

/// Structured boards of a size, each with some makings, as they are and stirred.
pub(super) fn structured(compared: &mut Compared, random: &mut Random, kind: Kind, (height, width): (usize, usize)) {
    for (_, board) in boards::structured(height, width) {
        for times in [0, 0, 1, 3] {
            let mut board = board.clone().stirred(random, times);
            let making = puzzles::on(random, &mut board).of_kind(kind);
            compared.standing(&making, &board);
        }
    }
}

pub(super) fn random_run(compared: &mut Compared, random: &mut Random, kind: Kind, low: usize, high: usize) {
    let (board, making) = puzzles::drawn(random, low, high);
    let making = making.of_kind(kind);
    let making = if random.chance(1, 8) { puzzles::spoilt(random, making) } else { making };
    let length = random.below(40);
    let turns = if random.chance(1, 2) {
        puzzles::drawing(random, &board, &making, length)
    } else {
        let calls = puzzles::towards(random, &board, length);
        runs::joined(random, calls)
    };
    compared.run(&making, random.chance(1, 2), &turns);
}

/// Damaged or not, a record may become one of the other kind.
pub(super) fn random_record(compared: &mut Compared, random: &mut Random, kind: Kind) {
    let (board, making) = puzzles::drawn(random, 1, 8);
    let record = puzzles::record(random, &board, &making.of_kind(kind));
    let record = puzzles::damaged(random, record);
    compared.record(random, record);
}

pub fn run(limits: &Limits) -> Tally {
    let mut compared = Compared::new("puzzle");
    let random = &mut Random::new(limits.seed);
    // to 6 borders, and to 7 where there are two rows and columns
    let small = |&(height, width): &(usize, usize)| border_count(height, width) < 7 || (height > 1 && width > 1);
    let kind = Kind::Translates;
    for size in boards::sizes(limits.borders.min(7)).into_iter().filter(small) {
        every_set(&mut compared, random, kind, size);
    }
    for size in super::SIZES {
        structured(&mut compared, random, kind, size);
    }
    until(limits.time, || random_run(&mut compared, random, kind, 1, 8));
    until(limits.time, || {
        let (board, making) = puzzles::drawn(random, 1, 8);
        compared.standing(&making, &board);
    });
    until(limits.time / 2, || random_record(&mut compared, random, kind));
    until(limits.time / 2, || {
        let (board, making) = puzzles::drawn(random, 25, 32);
        compared.standing(&making, &board);
        random_run(&mut compared, random, kind, 32, 32);
    });
    compared.told();
    compared.tally.done()
}

/// The call that makes a puzzle of a kind.
pub(super) fn making_call(kind: Kind) -> &'static str {
    match kind {
        Kind::Translates => "pm",
        Kind::Images => "pi",
    }
}

/// An ask with so many places.
fn store_ask(sample: &mut Sample, rust: &mut kinds::Puzzle, places: usize, needed: usize) {
    let answer = match rust.ask() {
        _ if places < needed => "6".into(),
        Answer::Clear => "0".into(),
        Answer::Shape(list) => format!("shape 0 fault{}", numbers(&list)),
        Answer::Room(room, list) => format!("room {room} 0 fault{}", numbers(&list)),
    };
    sample.call("pa", places, 0, answer);
}

/// A making, calls with an ask after each, and the record that they left.
pub(super) fn store(sample: &mut Sample, random: &mut Random, making: &Making, calls: &[Call]) {
    sample.lists(&making.given, &making.clues);
    sample.call(making_call(making.kind), making.height, making.width, making.refusal());
    if making.refusal() != 0 {
        // a record of zeros
        return sample.call("pr", 0, 0, record(&[], &[]));
    }
    let mut rust = kinds::Puzzle::new(making, true).expect("made");
    let needed = making.places();
    store_ask(sample, &mut rust, needed, needed);
    for &call in calls {
        match call {
            Call::Decide { border, wall } => {
                let answer = rust.decide(border.min(LARGEST), wall);
                sample.call("pd", border, 1 + wall as usize, code(&answer));
            }
            Call::Undo => sample.call("pu", 0, 0, code(&rust.undo())),
        }
        let places = if random.chance(1, 8) { needed - 1 } else { needed };
        store_ask(sample, &mut rust, places, needed);
    }
    sample.call("pr", rust.states().len(), 0, record(&rust.ledger(), &rust.states()));
}

pub fn sample(sample: &mut Sample) {
    let random = &mut Random::new(9);
    for turn in 0..100 {
        let (board, making) = puzzles::drawn(random, 1, 5);
        let making = if turn % 5 == 4 { puzzles::spoilt(random, making) } else { making };
        let making = Making { height: making.height.min(LARGEST), width: making.width.min(LARGEST), ..making };
        let calls = puzzles::towards(random, &board, 12);
        store(sample, random, &making, &calls);
    }
    for given in [vec![0, 0], vec![1, 0]] {
        store(sample, random, &Making { given, clues: vec![1], ..Making::empty(1, 3) }, &[]);
    }
    // the largest size: squares of 4 by 4, walled off, of which the last is to hold 15 units
    let board = Standing::parted(32, 32, boards::CONNECTED, |y, x| y / 4 * 8 + x / 4);
    let walls = (0..board.states.len()).filter(|&border| board.states[border] == WALL);
    let given: Vec<u16> = walls.map(|border| border as u16).collect();
    let clues = (0..64).map(|room| if room < 63 { 1 } else { 15 }).collect();
    let making = Making { given, clues, ..Making::empty(32, 32) };
    let last = [(3, 0), (3, 1), (3, 2)].map(|(y, x)| (28 + y) * 31 + 28 + x);
    let calls = last.map(|border| Call::Decide { border, wall: false });
    store(sample, random, &making, &calls);
}
