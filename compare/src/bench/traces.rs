//! A learner's trace on both sides: what a clause learner decides, takes back and asks, one by one and in strokes.
use super::goals::Goal;
use super::paper::{count, number};
use super::{clock, recorded, round};
use crate::answers::Answer;
use crate::composed::four_rooms;
use crate::learner::{trace, Habit, Move, Trace};
use crate::ledger::{border, is_wall};
use crate::port::{self, LentPuzzle, Played};
use crate::puzzles::Making;
use crate::reference::Puzzle;
use std::hint::black_box;

/// Sides, how many asks a trace has, and the goal: how many times as fast as the Rust, one by one.
const SIDES: [(usize, usize, f64); 5] = [(6, 1000, 1.5), (8, 800, 2.5), (10, 600, 2.5), (16, 300, 2.0), (20, 800, 8.0)];

/// How many asks come before a trace: a learner without clauses forces nothing.
const FIRST: usize = 4000;

/// Of the puzzles and of what the learners draw.
const SEED: u64 = 18;

/// The habit of the clause learner example is the first one.
const HABITS: [(&str, Habit); 3] =
    [("Wall first", Habit::WallFirst), ("drawn choices", Habit::Drawn), ("Connected first", Habit::ConnectedFirst)];

/// The fewest and the most rounds that a replay gets, after how many nanoseconds there are no more than the fewest, and the asks
/// of a part of it, which is timed by itself.
const ROUNDS: (u32, u32) = (2, 9);
const LONG: f64 = 6e8;
const PART: usize = 20;

/// A call, one by one.
#[derive(Clone, Copy)]
pub enum One {
    Decide { border: usize, wall: bool },
    Undo,
    Ask,
}

/// Some moves in a row, as they are and one by one: a stroke is as many decides, and is taken back by as many undos.
#[derive(Default)]
pub struct Part {
    pub moves: Vec<Move>,
    pub ones: Vec<One>,
}

/// Moves in parts of so many asks.
pub struct Parts<I> {
    moves: I,
    /// How many borders each stroke has that stands.
    lengths: Vec<usize>,
}

impl<I: Iterator<Item = Move>> Parts<I> {
    pub fn of(moves: I) -> Parts<I> {
        Parts { moves, lengths: vec![] }
    }
}

impl<I: Iterator<Item = Move>> Iterator for Parts<I> {
    type Item = Part;

    fn next(&mut self) -> Option<Part> {
        let (mut part, mut asks) = (Part::default(), 0);
        while asks < PART {
            let Some(step) = self.moves.next() else { break };
            match &step {
                Move::Stroke(entries) => {
                    part.ones.extend(entries.iter().map(|&entry| One::Decide { border: border(entry), wall: is_wall(entry) }));
                    self.lengths.push(entries.len());
                }
                Move::Back => part.ones.extend(vec![One::Undo; self.lengths.pop().expect("a stroke")]),
                Move::Ask => {
                    part.ones.push(One::Ask);
                    asks += 1;
                }
            }
            part.moves.push(step);
        }
        (!part.moves.is_empty()).then_some(part)
    }
}

/// What a trace has of each.
#[derive(Clone, Copy, Default)]
pub struct Counts {
    pub asks: usize,
    pub faults: usize,
    pub of_rooms: usize,
    pub strokes: usize,
    pub decides: usize,
    pub walls: usize,
}

impl Counts {
    pub fn drawn(&mut self, stroke: &[u16]) {
        self.strokes += 1;
        self.decides += stroke.len();
        self.walls += stroke.iter().filter(|&&entry| is_wall(entry)).count();
    }

    pub fn asked(&mut self, answer: &Result<Answer, u8>) {
        self.asks += 1;
        self.faults += usize::from(*answer != Ok(Answer::Clear));
        self.of_rooms += usize::from(matches!(answer, Ok(Answer::Room(..))));
    }
}

/// The port's puzzle, on which a trace is played one by one and in strokes.
pub struct Both<P> {
    pub ones: P,
    pub strokes: P,
}

impl<P: Played> Both<P> {
    pub fn stroke(&mut self, entries: &[u16]) -> Result<(), u8> {
        entries.iter().try_for_each(|&entry| self.ones.decide(border(entry), is_wall(entry)))?;
        self.strokes.stroke(entries)
    }

    pub fn back(&mut self, decisions: usize) -> Result<(), u8> {
        (0..decisions).try_for_each(|_| self.ones.undo())?;
        self.strokes.undo()
    }

    pub fn answers(&self, places: usize) -> [Result<Answer, u8>; 2] {
        [self.ones.answer(places), self.strokes.answer(places)]
    }
}

/// The trace on both sides: each answer and each list is held to the Rust's, and each lent record to that by value.
pub fn checked(trace: &Trace, fresh: port::Puzzle) -> Counts {
    let making = &trace.making;
    let (places, mut rust) = (making.places(), rust(making));
    let (mut by_value, mut lent) =
        (Both { ones: fresh, strokes: fresh }, Both { ones: LentPuzzle(fresh), strokes: LentPuzzle(fresh) });
    let (mut counts, mut lengths) = (Counts::default(), vec![]);
    for (at, step) in trace.moves.iter().enumerate() {
        match step {
            Move::Stroke(entries) => {
                let theirs = entries.iter().try_for_each(|&entry| rust.decide(border(entry), is_wall(entry)));
                assert_eq!([theirs; 2], [by_value.stroke(entries), lent.stroke(entries)], "the stroke of move {at}");
                counts.drawn(entries);
                lengths.push(entries.len());
            }
            Move::Back => {
                let length = lengths.pop().expect("a stroke");
                let theirs = (0..length).try_for_each(|_| rust.undo());
                assert_eq!([theirs; 2], [by_value.back(length), lent.back(length)], "the undo of move {at}");
            }
            Move::Ask => {
                let theirs = Ok(rust.ask());
                let ours = [by_value.answers(places), lent.answers(places)];
                assert!(
                    ours.iter().flatten().all(|answer| *answer == theirs),
                    "the ask of move {at}: {theirs:?}, the port's are {ours:?}"
                );
                counts.asked(&theirs);
            }
        }
        assert!(by_value.ones == lent.ones.0 && by_value.strokes == lent.strokes.0, "what move {at} left of a lent puzzle");
    }
    assert!(by_value.ones == fresh && by_value.strokes == fresh, "a trace ends on the fresh puzzle");
    counts
}

pub fn fresh(making: &Making) -> port::Puzzle {
    port::Puzzle::make(making).expect("made")
}

pub fn rust(making: &Making) -> Puzzle {
    Puzzle::new(making.height, making.width, &making.walls(), &making.clues, true).expect("made")
}

pub fn play_rust(puzzle: &mut Puzzle, ones: &[One]) {
    for &one in ones {
        match one {
            One::Decide { border, wall } => puzzle.notify(border, wall),
            One::Undo => puzzle.take_back(),
            One::Ask => drop(black_box(puzzle.ask())),
        }
    }
}

pub fn play_ones(puzzle: &mut impl Played, ones: &[One], buffer: &mut [u16]) {
    for &one in ones {
        match one {
            One::Decide { border, wall } => puzzle.decide(border, wall).expect("decided"),
            One::Undo => puzzle.undo().expect("undone"),
            One::Ask => drop(black_box(puzzle.kind_in(buffer))),
        }
    }
}

pub fn play_strokes(puzzle: &mut impl Played, moves: &[Move], buffer: &mut [u16]) {
    for step in moves {
        match step {
            Move::Stroke(entries) => puzzle.stroke(entries).expect("drawn"),
            Move::Back => puzzle.undo().expect("undone"),
            Move::Ask => drop(black_box(puzzle.kind_in(buffer))),
        }
    }
}

/// Nanoseconds of a replay: the Rust as it is and without its verifying; the port by value and lent, one by one and in strokes.
#[derive(Clone, Copy)]
pub struct Times {
    pub rust: f64,
    pub unverified: f64,
    pub by_value: [f64; 2],
    pub lent: [f64; 2],
}

/// Each part's best of the rounds, together. The sides take turns at each part.
pub fn timed(trace: &Trace, fresh: port::Puzzle) -> Times {
    let (making, parts) = (&trace.making, Parts::of(trace.moves.iter().cloned()).collect::<Vec<_>>());
    let (mut theirs, mut unverified) = (rust(making), rust(making).unverified());
    let (mut ones, mut strokes) = (fresh, fresh);
    let (mut lent_ones, mut lent_strokes) = (LentPuzzle(fresh), LentPuzzle(fresh));
    let buffer = &mut vec![0; making.places()];
    let mut best = vec![[f64::MAX; 6]; parts.len()];
    let (mut rounds, began) = (0, clock::now());
    while rounds < ROUNDS.0 || rounds < ROUNDS.1 && clock::now() - began < LONG {
        rounds += 1;
        for (part, best) in parts.iter().zip(&mut best) {
            let times = [
                once(|| play_rust(&mut theirs, &part.ones)),
                once(|| play_rust(&mut unverified, &part.ones)),
                once(|| play_ones(&mut ones, &part.ones, buffer)),
                once(|| play_strokes(&mut strokes, &part.moves, buffer)),
                once(|| play_ones(&mut lent_ones, &part.ones, buffer)),
                once(|| play_strokes(&mut lent_strokes, &part.moves, buffer)),
            ];
            best.iter_mut().zip(times).for_each(|(best, time)| *best = best.min(time));
        }
    }
    let sum = |side: usize| best.iter().map(|part| part[side]).sum();
    Times { rust: sum(0), unverified: sum(1), by_value: [sum(2), sum(3)], lent: [sum(4), sum(5)] }
}

pub fn once(mut part: impl FnMut()) -> f64 {
    round(&mut part, 1)
}

/// A trace's times.
pub struct Traced {
    pub side: usize,
    /// The puzzle and the habit.
    pub about: String,
    /// Whether the habit is that of the clause learner example.
    pub example: bool,
    pub counts: Counts,
    pub times: Times,
}

impl Traced {
    /// How many times as fast as the Rust, lent: one by one, and in strokes.
    pub fn ratio(&self) -> f64 {
        self.times.rust / self.times.lent[0]
    }

    fn in_strokes(&self) -> f64 {
        self.times.rust / self.times.lent[1]
    }

    pub fn name(&self) -> String {
        format!("{} by {}, {}", self.side, self.side, self.about)
    }
}

fn traced(side: usize, about: String, habit: Habit, trace: &Trace) -> Traced {
    let making = &trace.making;
    let fresh = fresh(making);
    let counts = checked(trace, fresh);
    let times = timed(trace, fresh);
    let traced = Traced { side, about, example: habit == Habit::WallFirst, counts, times };
    let Counts { asks, faults, of_rooms, strokes, decides, walls } = counts;
    println!(
        "{}: {asks} asks, {faults} faults ({of_rooms} of rooms), {strokes} strokes, {decides} decides ({walls} Walls), {} boards{}, ratio {}",
        traced.name(),
        trace.boards,
        if trace.ended { ", none left" } else { "" },
        number(traced.ratio())
    );
    traced
}

/// The traces of a side: with and without clued rooms, by each habit.
fn of_side(&(side, asks, _): &(usize, usize, f64)) -> Vec<Traced> {
    let puzzles = [("four clued rooms", four_rooms(SEED, side).0), ("no walls", Making::empty(side, side))];
    let with = |(about, making): &(&str, Making)| {
        HABITS.map(|(chosen, habit)| {
            let trace = trace(making, SEED, habit, FIRST, asks);
            traced(side, format!("{about}, {chosen}"), habit, &trace)
        })
    };
    puzzles.iter().flat_map(with).collect()
}

/// The last one is the solver's, where its trace is there.
pub fn all() -> Vec<Traced> {
    SIDES.iter().flat_map(of_side).chain(recorded::row()).collect()
}

/// A row a trace: milliseconds of a replay, and in brackets how many times as fast as the Rust.
pub fn table(rows: &[Traced]) -> String {
    let counted = ["puzzle and choices", "asks", "faults", "decides", "strokes"];
    let timed = ["the Rust, ms", "not verified, ms", "by value, one by one", "in strokes", "lent, one by one", "in strokes"];
    let columns = [&counted[..], &timed[..], &["beside not verified"]].concat();
    let mut text = format!("| {} |\n|{}\n", columns.join(" | "), "---|".repeat(columns.len()));
    for row in rows {
        let Traced { counts, times, .. } = row;
        let counted = [counts.asks, counts.faults, counts.decides, counts.strokes].map(count).join(" | ");
        let millis = |nanoseconds: f64| number(nanoseconds / 1e6);
        let beside = |port: f64| format!("{} ({})", millis(port), number(times.rust / port));
        let rust = [times.rust, times.unverified].map(millis).join(" | ");
        let port = [times.by_value, times.lent].concat().into_iter().map(beside).collect::<Vec<_>>().join(" | ");
        text += &format!("| {} | {counted} | {rust} | {port} | {} |\n", row.name(), number(times.unverified / times.lent[0]));
    }
    text
}

/// The trace with the least ratio.
fn least<'a>(rows: impl Iterator<Item = &'a Traced>) -> &'a Traced {
    rows.min_by(|a, b| a.ratio().total_cmp(&b.ratio())).expect("traces")
}

/// For each side the goal, what was found, and whether it is met: by the least ratio of all its traces, whatever is chosen on whichever puzzle.
pub fn goals(rows: &[Traced]) -> Vec<Goal> {
    let of_side = |&(side, _, goal): &(usize, usize, f64)| {
        let of_side = || rows.iter().filter(|row| row.side == side);
        let (all, example) = (least(of_side()), least(of_side().filter(|row| row.example)));
        let strokes = of_side().map(Traced::in_strokes).fold(f64::MAX, f64::min);
        let found = format!(
            "least ratio {} ({}); of the clause learner example's habit {} ({}); all in strokes at least {}",
            number(all.ratio()),
            all.about,
            number(example.ratio()),
            example.about,
            number(strokes)
        );
        Goal::new(
            format!("a learner's trace at {side} by {side}, one by one, is at least {goal} times as fast"),
            found,
            all.ratio() >= goal,
        )
    };
    SIDES.iter().map(of_side).collect()
}

/// Prints the table and the goals alone.
pub fn run() {
    let rows = all();
    println!("\n{}\n{}\n{}", table(&rows), recorded::about(), super::goals::table(&goals(&rows)));
}
