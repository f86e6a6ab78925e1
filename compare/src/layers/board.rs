//! Lists of decides, strokes and undos, by value and in place: after each, the answer, the states and the decisions of `BoardManager`, cut
//! into strokes by the model, beside the port's; asks on small boards after each, on others at the end. Damaged records by SPEC's questions.
use super::puzzle::after;
use super::{stroke_of_one, until, Limits};
use crate::boards::{self, border_count};
use crate::ledger::{Ledger, Told};
use crate::port::{self, LentBoard, Record};
use crate::puzzles::{self, Making};
use crate::random::Random;
use crate::reference::Board;
use crate::runs::{self, Call, Turn};
use crate::sample::{code, record, Sample, LARGEST};
use crate::tally::Tally;

/// The most cells of a board that is asked after each turn.
const SMALL: usize = 36;

fn compare(tally: &mut Tally, height: usize, width: usize, turns: &[Turn]) {
    tally.case();
    let mut rust = Told::new(Board::new(height, width), &[]);
    let mut ours = port::Board::make(height, width).expect("a size within the limits");
    let mut lent = LentBoard(ours);
    for (at, turn) in turns.iter().enumerate() {
        let on = || format!("{height} by {width}, turn {at} of {turns:?}");
        let before = ours;
        let (theirs, answer, in_place) = (rust.turn(turn), ours.turn(turn), lent.turn(turn));
        tally.same(&theirs, &answer, on);
        tally.same(&theirs, &in_place, on);
        stroke_of_one(tally, before, turn, (answer, ours), on);
        let (states, names) = rust.record();
        // all places behind states and names are 0, so that an undo leaves the very record that it had before the stroke
        let whole = port::Board::of((height, width), &states, &names, names.len());
        tally.same(&(states, names), &(ours.states(), ours.names()), on);
        tally.same(&(true, true), &(ours == whole, lent.0 == whole), on);
        tally.same(&Ok(()), &ours.check(), on);
        if height * width <= SMALL || at + 1 == turns.len() {
            let theirs = Ok(rust.rust.ask());
            tally.same(&theirs, &ours.ask(), on);
            tally.same(&theirs, &lent.ask_with(9 * height * width), on);
        }
    }
    let (places, on) = (9 * height * width, || format!("{height} by {width}, {turns:?}"));
    for short in [places - 1, 0] {
        tally.same(&(Err(6), Err(6)), &(ours.ask_with(short), lent.ask_with(short)), on);
    }
    tally.same(&ours.ask_with(places + 7), &lent.ask_with(places + 7), on);
}

/// A record that may be damaged. By value each call is refused by question 1 or 2, or done as the model does it; lent it is answered alike, and
/// the same record is left.
fn damaged(tally: &mut Tally, random: &mut Random) {
    tally.case();
    let standing = boards::random(random, 1, 8);
    let drawn = puzzles::record(random, &standing, &Making::empty(standing.height, standing.width));
    let record = puzzles::damaged(random, drawn).in_one_room();
    let (ours, code) = (port::Puzzle(record).board(), puzzles::refusal(&record));
    tally.same(&code, &ours.check().err().unwrap_or(0), || format!("{record:?}"));
    let (board, borders) = (&record.board, border_count(standing.height, standing.width));
    let held = || Ledger::of(&board.states[..border_count(board.height, board.width)], &board.ledger[..board.len]);
    let sound = (code == 0).then(held);
    let stroke = runs::stroke(random, sound.as_ref().unwrap_or(&Ledger::fresh(borders, &[])));
    let decide = Turn::Single(Call::Decide { border: random.below(borders + 2), wall: true });
    let strokes = [vec![], stroke, vec![1, 1], vec![u16::MAX]].map(Turn::Stroke);
    for turn in strokes.iter().chain([&decide, &Turn::Single(Call::Undo)]) {
        let on = || format!("{record:?}, {turn:?}");
        let (mut model, mut by_value, mut lent) = (sound.clone(), ours, LentBoard(ours));
        let expected = model.as_mut().map_or(Err(code), |model| model.turn(turn));
        tally.same(&(expected, expected), &(by_value.turn(turn), lent.turn(turn)), on);
        let left = model.map_or(ours, |model| port::Puzzle(after(record, &model)).board());
        tally.same(&(true, true), &(by_value == left, lent.0 == left), on);
    }
    for places in [0, 9216] {
        let (by_value, lent) = (ours.ask_with(places), LentBoard(ours).ask_with(places));
        let expected = if code == 0 && places == 0 { 6 } else { code };
        tally.same(&expected, &by_value.as_ref().err().copied().unwrap_or(0), || format!("{record:?}"));
        tally.same(&by_value, &lent, || format!("{record:?}, lent"));
    }
}

/// Every border of a board decided in some order, with one that does not exist, and all taken back.
fn fill(random: &mut Random, height: usize, width: usize) -> Vec<Call> {
    let borders = border_count(height, width);
    let mut order: Vec<usize> = (0..=borders).collect();
    random.shuffle(&mut order);
    let decides = order.iter().map(|&border| Call::Decide { border, wall: border % 2 == 0 });
    decides.chain((0..=borders).map(|_| Call::Undo)).collect()
}

pub fn run(limits: &Limits) -> Tally {
    let mut tally = Tally::new("board");
    let random = &mut Random::new(limits.seed);
    for (size, length) in [((1, 1), 5), ((1, 2), 6), ((2, 1), 6), ((1, 3), 5), ((3, 1), 5), ((2, 2), 4)] {
        for calls in runs::every(runs::alphabet(border_count(size.0, size.1)), length) {
            compare(&mut tally, size.0, size.1, &runs::singles(calls));
        }
    }
    // the longest stroke, and the turns of a list
    for (size, longest, length) in
        [((1, 1), 3, 3), ((1, 2), 4, 2), ((2, 1), 2, 3), ((1, 3), 3, 2), ((3, 1), 2, 3), ((2, 2), 2, 2)]
    {
        for turns in runs::every(runs::strokes(border_count(size.0, size.1), longest), length) {
            compare(&mut tally, size.0, size.1, &turns);
        }
    }
    for (height, width) in [(1, 32), (32, 1), (2, 32), (32, 2), (17, 19), (31, 32), (32, 31), (32, 32)] {
        let calls = fill(random, height, width);
        compare(&mut tally, height, width, &runs::joined(random, calls.clone()));
        compare(&mut tally, height, width, &runs::singles(calls));
    }
    until(limits.time, || {
        let most = *random.pick(&[4, 8, 32]);
        let size = (random.within(1, most), random.within(1, most));
        let borders = border_count(size.0, size.1);
        let length = random.within(1, 2 * borders + 8).min(200);
        let undos = *random.pick(&[1, 4, 7]);
        let turns = runs::turns(random, Ledger::fresh(borders, &[]), length, undos);
        compare(&mut tally, size.0, size.1, &turns);
    });
    until(limits.time / 4, || damaged(&mut tally, random));
    for (height, width) in [(0, 0), (0, 1), (1, 0), (33, 1), (1, 33), (usize::MAX, 1), (32, usize::MAX)] {
        let ours = port::Board::make(height, width).err();
        tally.same(&Some(1), &ours, || format!("{height} by {width}"));
    }
    tally.done()
}

/// A board, calls with the Rust's answers, and the record that they left.
fn store(sample: &mut Sample, height: usize, width: usize, calls: &[Call]) {
    sample.call("bm", height, width, 0);
    let mut rust = Board::new(height, width);
    for &call in calls {
        match call {
            Call::Decide { border, wall } => {
                let answer = rust.decide(border.min(LARGEST), wall);
                sample.call("bd", border, 1 + wall as usize, code(&answer));
            }
            Call::Undo => sample.call("bu", 0, 0, code(&rust.undo())),
        }
    }
    sample.call("br", border_count(height, width), 0, record(&rust.ledger(), &rust.states()));
}

pub fn sample(sample: &mut Sample) {
    let random = &mut Random::new(2);
    for calls in runs::every(runs::alphabet(1), 3) {
        store(sample, 1, 2, &calls);
    }
    for _ in 0..60 {
        let (height, width) = (random.within(1, 6), random.within(1, 6));
        let calls = runs::random(random, border_count(height, width), 24, 4);
        store(sample, height, width, &calls);
    }
    for (height, width) in [(1, 1), (1, 32), (32, 1), (20, 31)] {
        let calls = runs::random(random, border_count(height, width), 60, 4);
        store(sample, height, width, &calls);
    }
    // every border of the largest board, the last first, and one too many
    let all = (0..=border_count(32, 32)).rev();
    let calls: Vec<Call> = all.map(|border| Call::Decide { border, wall: border % 3 == 0 }).collect();
    store(sample, 32, 32, &calls);
}
