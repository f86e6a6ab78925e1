//! Strokes on boards and puzzles, by value and in place, and on room graphs: the refusals that tell the order of the questions; every small
//! record beside question 2; and that asks don't tell how the standing borders were cut into strokes, nor is a fault lost by it.
use super::{until, Limits};
use crate::boards::Standing;
use crate::kinds::Puzzle;
use crate::ledger::{self, Fault, Ledger, Reference, Told};
use crate::lone::Lone;
use crate::port::{self, LentBoard, LentPuzzle, PuzzleRecord, Record};
use crate::puzzles::{self, Making};
use crate::random::Random;
use crate::reference::{self, NO_CLUE};
use crate::runs::{self, Call, Turn};
use crate::sample::{code, named, numbers, Sample};
use crate::tally::Tally;

/// Strokes on a record of one border: the refusals while it is undecided, and once it is decided or given.
const TELLS: [(&[u16], u8, u8); 11] = [
    (&[], 0, 0),
    (&[0], 0, 4),
    (&[1], 0, 4),
    (&[2], 3, 3),
    (&[65535], 3, 3),
    (&[0, 0], 14, 14),
    (&[0, 1], 14, 14),
    (&[0, 2], 3, 3),
    (&[2, 2], 3, 3),
    (&[0, 0, 2], 3, 3),
    (&[2, 1, 0], 3, 3),
];

/// The strokes of the table on a record of one border, and what an undo takes back behind an empty one.
fn tells<R: Record>(tally: &mut Tally, fresh: R, name: &str) {
    let mut drawn = fresh;
    tally.same(&Ok(()), &drawn.decide(0, true), || name.into());
    for (from, which) in [(fresh, 0), (drawn, 1)] {
        tally.case();
        for (stroke, open, decided) in TELLS {
            let on = || format!("{name}, {stroke:?}, decided: {which}");
            let mut after = from;
            let code = after.stroke(stroke).err().unwrap_or(0);
            tally.same(&[open, decided][which], &code, on);
            if code == 0 && !stroke.is_empty() {
                tally.same(&Ok(()), &after.undo(), on);
            }
            tally.same(&true, &(after == from), on);
        }
    }
    let (mut empty, mut behind) = (fresh, drawn);
    tally.same(&(Ok(()), Err(5)), &(empty.stroke(&[]), empty.undo()), || format!("{name}, an empty stroke and an undo"));
    let undone = (behind.stroke(&[]), behind.undo(), behind == fresh);
    tally.same(&(Ok(()), Ok(()), true), &undone, || format!("{name}, Wall, an empty stroke and an undo"));
}

/// How many records there were, and how many of them hold together.
#[derive(Default)]
struct Count {
    records: u64,
    sound: u64,
}

/// The fronts of a record's arrays: states, ledger, and how many names of it count.
type Fronts = (Vec<u8>, Vec<u16>, usize);

/// Every record of so many borders: states to 3, a place of the ledger more than there are borders with names to the first that names no
/// border of it, and all lengths to that.
fn every_record(borders: usize) -> Vec<Fronts> {
    let mut all = vec![];
    for states in runs::every(vec![0, 1, 2, 3], borders as u32) {
        for names in runs::every((0..2 * borders as u16 + 2).collect(), borders as u32 + 1) {
            all.extend((0..borders + 2).map(|len| (states.clone(), names.clone(), len)));
        }
    }
    all
}

/// Every small record, as `laid` makes it: question 2, and every short turn on it beside the model.
fn records<R: Record>(tally: &mut Tally, count: &mut Count, borders: usize, given: &[u16], laid: impl Fn(&Fronts) -> R) {
    for fronts in every_record(borders) {
        tally.case();
        let (states, names, len) = &fronts;
        let on = || format!("given {given:?}, states {states:?}, {len} of names {names:?}");
        let record = laid(&fronts);
        let sound = ledger::sound(states, given, names, *len);
        count.records += 1;
        count.sound += u64::from(sound);
        let held = if sound { Ok(()) } else { Err(2) };
        tally.same(&(held, held), &(record.check(), record.fault().map(drop)), on);
        let ledger = sound.then(|| Ledger::of(states, &names[..*len]));
        for turn in runs::strokes(borders, 2).into_iter().chain(runs::singles(runs::alphabet(borders))) {
            let (mut model, mut ours) = (ledger.clone(), record);
            let theirs = model.as_mut().map_or(Err(2), |model| model.turn(&turn));
            tally.same(&theirs, &ours.turn(&turn), || format!("{}, {turn:?}", on()));
            let left = model.map_or(record, |model| laid(&after(&fronts, &model)));
            tally.same(&true, &(ours == left), || format!("{}, what {turn:?} left", on()));
        }
        if let Some(ledger) = ledger {
            reached(tally, record, given, &ledger, &laid, on);
        }
    }
}

/// Every small record is asked alike by value and lent.
fn asked_alike<R: Record, L: Record>(tally: &mut Tally, borders: usize, by_value: impl Fn(&Fronts) -> R, lent: impl Fn(R) -> L) {
    for fronts in every_record(borders) {
        let record = by_value(&fronts);
        tally.same(&record.fault(), &lent(record).fault(), || format!("{fronts:?}, lent"));
    }
}

/// The fronts that a turn leaves: what was named and is no more is 0, and all behind it is as it was.
fn after((_, names, len): &Fronts, ledger: &Ledger) -> Fronts {
    let mut names = names.clone();
    names[..*len].fill(0);
    let left = ledger.names();
    names[..left.len()].copy_from_slice(&left);
    (ledger.states().to_vec(), names, left.len())
}

/// A record that holds together is what strokes make of a fresh one, but for what stands behind its ledger; undos take both back.
fn reached<R: Record>(
    tally: &mut Tally,
    mut record: R,
    given: &[u16],
    ledger: &Ledger,
    laid: impl Fn(&Fronts) -> R,
    on: impl Fn() -> String,
) {
    let names = ledger.names();
    let whole = laid(&(ledger.states().to_vec(), names.clone(), names.len()));
    let fresh = laid(&(Ledger::fresh(ledger.states().len(), given).states().to_vec(), vec![], 0));
    let (mut made, strokes) = (fresh, ledger.strokes());
    let drawn = strokes.iter().try_for_each(|stroke| made.stroke(stroke));
    tally.same(&(Ok(()), true), &(drawn, made == whole), &on);
    let undone = (strokes.iter().try_for_each(|_| record.undo()), strokes.iter().try_for_each(|_| made.undo()));
    tally.same(&(Ok(()), Ok(())), &undone, &on);
    tally.same(&(Err(5), true), &(record.undo(), made == fresh), on);
}

/// Boards of 1 by 1 to 1 by 3, the puzzles on them, and room graphs with as many edges.
fn every_small(tally: &mut Tally) -> Count {
    let mut count = Count::default();
    for borders in 0..=2 {
        let size = (1, borders + 1);
        let board = |(states, names, len): &Fronts| port::Board::of(size, states, names, *len);
        records(tally, &mut count, borders, &[], board);
        records(tally, &mut count, borders, &[], |fronts| LentBoard(board(fronts)));
        asked_alike(tally, borders, board, LentBoard);
        let graph = port::City::make(2, &[(0, 1), (1, 1)][..borders], 1).expect("made");
        records(tally, &mut count, borders, &[], |(states, names, len)| graph.with(states, names, *len));
        for set in 0..1 << borders {
            let given: Vec<u16> = (0..borders as u16).filter(|border| set >> border & 1 == 1).collect();
            let clues = vec![NO_CLUE; given.len() + 1];
            let making = Making { given: given.clone(), clues, ..Making::empty(size.0, size.1) };
            let puzzle = |(states, names, len): &Fronts| {
                let mut record = PuzzleRecord::of(&making, states, names);
                record.board.len = *len;
                port::Puzzle(record)
            };
            records(tally, &mut count, borders, &given, puzzle);
            records(tally, &mut count, borders, &given, |fronts| LentPuzzle(puzzle(fronts)));
            asked_alike(tally, borders, puzzle, LentPuzzle);
        }
    }
    count
}

/// How many cuttings were asked, and how many faults were drawn again.
#[derive(Default)]
pub(super) struct Cuttings {
    pub(super) asked: u64,
    pub(super) again: u64,
}

/// A fresh record on both sides, and the port's as it is lent, if it can be.
struct Fresh<P, L, R> {
    port: P,
    lent: Option<L>,
    rust: R,
    given: Vec<u16>,
}

/// The port's fault after these strokes. Undos take them back to the fresh record, and then there is none left.
fn cut<P: Record>(tally: &mut Tally, fresh: P, strokes: &[Vec<u16>], fault: &Fault, on: impl Fn() -> String) {
    let mut record = fresh;
    let drawn = strokes.iter().try_for_each(|stroke| record.stroke(stroke));
    tally.same(&Ok(()), &drawn, || format!("{}, {strokes:?}", on()));
    tally.same(&Ok(fault), &record.fault().as_ref().map_err(|&code| code), || format!("{}, {strokes:?}", on()));
    let kept = strokes.iter().filter(|stroke| !stroke.is_empty());
    let undone = kept.map(|_| record.undo()).collect::<Result<(), u8>>();
    tally.same(&(Ok(()), true, Err(5)), &(undone, record == fresh, record.undo()), on);
}

impl<P: Record, L: Record, R: Fn() -> Q, Q: Reference> Fresh<P, L, R> {
    /// The Rust's fault with these entries decided one by one.
    fn fault(&self, entries: &[u16]) -> Fault {
        let mut told = Told::new((self.rust)(), &self.given);
        entries.iter().for_each(|&entry| told.turn(&Turn::Stroke(vec![entry])).expect("decided"));
        told.rust.fault()
    }

    /// By value and lent.
    fn cut(&self, tally: &mut Tally, strokes: &[Vec<u16>], fault: &Fault, on: impl Fn() -> String) {
        cut(tally, self.port, strokes, fault, &on);
        if let Some(lent) = self.lent {
            cut(tally, lent, strokes, fault, || format!("lent, {}", on()));
        }
    }

    /// The entries in one stroke, one by one, and in drawn cuttings are answered as the Rust answers them; so are the borders that a fault
    /// lists, and that is a fault again.
    fn compare(&self, tally: &mut Tally, random: &mut Random, entries: &[u16], count: &mut Cuttings, on: impl Fn() -> String) {
        tally.case();
        tally.leave_out((self.rust)().left_out());
        let fault = self.fault(entries);
        let single = entries.iter().map(|&entry| vec![entry]).collect();
        let cuttings =
            [vec![entries.to_vec()], single, ledger::cut(random, entries.to_vec()), ledger::cut(random, entries.to_vec())];
        cuttings.iter().for_each(|strokes| self.cut(tally, strokes, &fault, &on));
        count.asked += cuttings.len() as u64;
        let Some((_, mut listed)) = fault else { return };
        listed.sort();
        listed.dedup();
        listed.retain(|&entry| self.given.binary_search(&(entry / 2)).is_err());
        let again = self.fault(&listed);
        tally.same(&true, &again.is_some(), || format!("{}, {listed:?} again", on()));
        for _ in 0..3 {
            self.cut(tally, &ledger::cut(random, listed.clone()), &again, &on);
            count.again += 1;
        }
    }
}

/// A puzzle on which a board's borders stand.
pub(super) fn on_puzzle(tally: &mut Tally, random: &mut Random, count: &mut Cuttings, making: &Making, board: &Standing) {
    let rust = || Puzzle::new(making, true).expect("made");
    let port = port::Puzzle::make(making).expect("made");
    let fresh = Fresh { port, lent: Some(LentPuzzle(port)), rust, given: making.given.clone() };
    fresh.compare(tally, random, &puzzles::entries(board, making), count, || format!("{making:?}, {board:?}"));
}

/// A board and a puzzle on which the same borders stand, and the graph of a room.
fn cuttings(tally: &mut Tally, random: &mut Random, count: &mut [Cuttings; 3], most: usize) {
    let (board, making) = puzzles::drawn(random, 1, most);
    let Making { height, width, .. } = &making;
    let on = || format!("{making:?}, {board:?}");
    let rust = || reference::Board::new(*height, *width);
    let port = port::Board::make(*height, *width).expect("made");
    let entries = puzzles::entries(&board, &Making::empty(*height, *width));
    Fresh { port, lent: Some(LentBoard(port)), rust, given: vec![] }.compare(tally, random, &entries, &mut count[0], on);

    on_puzzle(tally, random, &mut count[1], &making, &board);

    let cells = random.within(1, 12);
    let edges: Vec<(usize, usize)> = (0..random.below(16)).map(|_| (random.below(cells), random.below(cells))).collect();
    let parts = random.below(cells + 2) as u32;
    let stands = |edge: usize| (!random.chance(1, 4)).then(|| 2 * edge as u16 + random.below(2) as u16);
    let entries: Vec<u16> = (0..edges.len()).filter_map(stands).collect();
    let on = || format!("{cells} vertices, {edges:?}, count {parts}, {entries:?}");
    let rust = || Lone::new(cells, &edges, parts).expect("made");
    let port = port::City::make(cells, &edges, parts).expect("made");
    Fresh { port, lent: None::<port::City>, rust, given: vec![] }.compare(tally, random, &entries, &mut count[2], on);
}

pub fn run(limits: &Limits) -> Tally {
    let mut tally = Tally::new("strokes");
    let board = port::Board::make(1, 2).expect("made");
    tells(&mut tally, board, "board");
    tells(&mut tally, LentBoard(board), "board in place");
    let puzzle = port::Puzzle::make(&Making::empty(1, 2)).expect("made");
    tells(&mut tally, puzzle, "puzzle");
    tells(&mut tally, LentPuzzle(puzzle), "puzzle in place");
    tells(&mut tally, port::City::make(2, &[(0, 1)], 1).expect("made"), "room graph");
    let Count { records, sound } = every_small(&mut tally);
    println!("strokes: {records} small records, {sound} of them hold together");
    let random = &mut Random::new(limits.seed);
    let mut count: [Cuttings; 3] = Default::default();
    until(limits.time, || {
        let most = *random.pick(&[3, 5, 8, 8]);
        cuttings(&mut tally, random, &mut count, most);
    });
    until(limits.time / 4, || cuttings(&mut tally, random, &mut count, 32));
    for (name, Cuttings { asked, again }) in ["boards", "puzzles", "room graphs"].iter().zip(count) {
        println!("strokes: {name}: {asked} cuttings asked, {again} of a fault's borders again");
    }
    tally.done()
}

/// What an ask with a long enough buffer prints: a puzzle's tells which check found a fault.
fn told_fault(fault: &Fault, puzzle: bool) -> String {
    let check = |found: usize| match found {
        _ if !puzzle => String::new(),
        0 => "shape ".into(),
        room => format!("room {} ", room - 1),
    };
    fault.as_ref().map_or("0".into(), |(found, list)| format!("{}0 fault{}", check(*found), numbers(list)))
}

/// Turns on the record of this letter, with the model's numbers, and after each what the Rust finds.
fn store<R: Reference>(sample: &mut Sample, letter: char, told: &mut Told<R>, turns: &[Turn], places: usize) {
    for turn in turns {
        let number = code(&told.turn(turn));
        match turn {
            Turn::Single(Call::Decide { border, wall }) => sample.call(&format!("{letter}d"), *border, 1 + *wall as usize, number),
            Turn::Single(Call::Undo) => sample.call(&format!("{letter}u"), 0, 0, number),
            Turn::Stroke(entries) => {
                sample.lists(entries, &[]);
                sample.call(&format!("{letter}s"), 0, 0, number);
            }
        }
        sample.call(&format!("{letter}a"), places, 0, told_fault(&told.rust.fault(), letter == 'p'));
    }
}

/// Lists of strokes, decides and undos on boards, puzzles and room graphs, with the records that they leave.
pub fn sample(sample: &mut Sample) {
    let random = &mut Random::new(12);
    for _ in 0..40 {
        let (_, making) = puzzles::drawn(random, 1, 4);
        let Making { height, width, given, clues, .. } = &making;
        sample.call("bm", *height, *width, 0);
        let mut told = Told::new(reference::Board::new(*height, *width), &[]);
        let turns = runs::turns(random, told.ledger.clone(), 10, 4);
        store(sample, 'b', &mut told, &turns, 0);
        let (states, names) = told.record();
        sample.call("br", states.len(), 0, named(&names, &states));

        sample.lists(given, clues);
        sample.call("pm", *height, *width, 0);
        let rust = Puzzle::new(&making, true).expect("made");
        let mut told = Told::new(rust, given);
        let turns = runs::turns(random, told.ledger.clone(), 10, 4);
        store(sample, 'p', &mut told, &turns, making.places());
        let (states, names) = told.record();
        sample.call("pr", states.len(), 0, named(&names, &states));

        let cells = random.within(1, 6);
        let edges: Vec<(usize, usize)> = (0..random.below(8)).map(|_| (random.below(cells), random.below(cells))).collect();
        let parts = random.below(cells + 2) as u32;
        let ends = |end: fn(&(usize, usize)) -> usize| edges.iter().map(|edge| end(edge) as u16).collect::<Vec<_>>();
        sample.lists(&ends(|edge| edge.0), &ends(|edge| edge.1));
        sample.call("rm", cells, parts as usize, 0);
        let mut told = Told::new(Lone::new(cells, &edges, parts).expect("made"), &[]);
        let turns = runs::turns(random, told.ledger.clone(), 10, 4);
        store(sample, 'r', &mut told, &turns, 0);
    }
}
