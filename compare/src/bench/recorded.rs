//! The calls of tools/solve.py on a puzzle, played again on both sides: parts of them for the paper, or all of them.
use super::paper::{count, number};
use super::traces::{checked, fresh, once, play_ones, play_rust, play_strokes, rust, timed, Both, Counts, Parts, Times, Traced};
use crate::answers::Answer;
use crate::learner::{Move, Trace};
use crate::ledger::{border, is_wall};
use crate::port::LentPuzzle;
use crate::puzzles::Making;
use crate::recorded::{path, Call, Recorded, Told};
use crate::reference::NO_CLUE;

/// How many parts of the trace are timed for the paper, and how many asks a part has at most.
const PARTS: usize = 40;
const ASKS: usize = 500;

/// The command that makes the trace.
const MAKE: &str = "tools/solve.py tools/learner.txt --all --quiet --asks 3000000 --trace target/learner.trace";

/// Cuts parts out of the trace, evenly spread: each a trace of its own, which draws first what stood there, and takes all back at its end.
struct Cut {
    standing: Vec<Vec<u16>>,
    /// The moves of the part that is being cut out, and how many asks it wants yet.
    moves: Vec<Move>,
    wanted: usize,
}

impl Cut {
    fn start(&mut self, asks: usize) {
        self.moves = self.standing.iter().cloned().map(Move::Stroke).collect();
        self.wanted = asks;
    }

    /// Takes a call in; the part's moves, where it was the last of it.
    fn take(&mut self, call: Call) -> Option<Vec<Move>> {
        let step = match call {
            Call::Stroke(entries) => {
                self.standing.push(entries.clone());
                Move::Stroke(entries)
            }
            Call::Undo => {
                self.standing.pop();
                Move::Back
            }
            Call::Ask(_) => Move::Ask,
        };
        if self.wanted == 0 {
            return None;
        }
        self.wanted -= usize::from(step == Move::Ask);
        self.moves.push(step);
        (self.wanted == 0).then(|| {
            let mut moves = std::mem::take(&mut self.moves);
            moves.extend(vec![Move::Back; self.standing.len()]);
            moves
        })
    }
}

/// The parts; where the trace is short they are, too, and don't overlap.
fn spread(recorded: &Recorded) -> Vec<Trace> {
    let every = recorded.asks() / PARTS;
    let (mut cut, mut parts, mut asked) = (Cut { standing: vec![], moves: vec![], wanted: 0 }, vec![], 0);
    for call in recorded.calls() {
        let ask = matches!(call, Call::Ask(_));
        if ask && asked % every.max(1) == 0 && parts.len() < PARTS {
            cut.start(ASKS.min(every));
        }
        asked += usize::from(ask);
        let trace = |moves| Trace { making: recorded.making.clone(), moves, boards: 0, ended: false };
        parts.extend(cut.take(call).map(trace));
    }
    parts
}

impl Counts {
    fn and(self, other: Counts) -> Counts {
        Counts {
            asks: self.asks + other.asks,
            faults: self.faults + other.faults,
            of_rooms: self.of_rooms + other.of_rooms,
            strokes: self.strokes + other.strokes,
            decides: self.decides + other.decides,
            walls: self.walls + other.walls,
        }
    }
}

impl Times {
    fn and(self, other: Times) -> Times {
        let both = |a: [f64; 2], b: [f64; 2]| [a[0] + b[0], a[1] + b[1]];
        Times {
            rust: self.rust + other.rust,
            unverified: self.unverified + other.unverified,
            by_value: both(self.by_value, other.by_value),
            lent: both(self.lent, other.lent),
        }
    }
}

/// The parts together, checked and timed; none where the trace is not there.
pub fn row() -> Option<Traced> {
    let recorded = Recorded::read(&path())?;
    let (making, fresh) = (&recorded.making, fresh(&recorded.making));
    let parts: Vec<(Counts, Times)> =
        spread(&recorded).iter().map(|part| (checked(part, fresh), timed(part, fresh))).collect();
    let (counts, times) = parts.into_iter().reduce(|a, b| (a.0.and(b.0), a.1.and(b.1)))?;
    let traced = Traced { side: making.height, about: format!("{} clued rooms, clingo", clued(making)), example: false, counts, times };
    println!("{}: {} asks, {} faults, ratio {}", traced.name(), counts.asks, counts.faults, number(traced.ratio()));
    Some(traced)
}

/// How many rooms have a clue, as the other rows say it.
fn clued(making: &Making) -> String {
    match making.clues.iter().filter(|&&clue| clue != NO_CLUE).count() {
        4 => "four".into(),
        other => other.to_string(),
    }
}

/// What the paper says of the row.
pub fn about() -> String {
    let Some(recorded) = Recorded::read(&path()) else {
        return format!("The row of clingo is left out, since its trace was not there. It is made by\n\n    {MAKE}\n");
    };
    format!(
        "The row of clingo has what tools/solve.py called on the puzzle of tools/learner.txt: the clause learner is clingo, and each fault's
list a nogood. Its trace has {} asks. {PARTS} parts of {ASKS} asks, evenly spread over it, are checked and timed as the other traces are,
each from the fresh puzzle, on which what stood there is drawn first, to the fresh puzzle. `compare/run replay` plays all of it. It was made by

    {MAKE}
",
        count(recorded.asks())
    )
}

/// Plays all of the trace on the Rust and on the port lent, one by one and in strokes: each answer and each list is held to the Rust's, and
/// to what the solver was told.
fn check_all(recorded: &Recorded) -> Counts {
    let (making, fresh) = (&recorded.making, LentPuzzle(fresh(&recorded.making)));
    let (mut rust, mut lent, places) = (rust(making), Both { ones: fresh, strokes: fresh }, making.places());
    let (mut counts, mut lengths) = (Counts::default(), vec![]);
    for (at, call) in recorded.calls().enumerate() {
        match call {
            Call::Stroke(entries) => {
                let theirs = entries.iter().try_for_each(|&entry| rust.decide(border(entry), is_wall(entry)));
                assert_eq!([theirs, lent.stroke(&entries)], [Ok(()); 2], "the stroke of call {at}");
                counts.drawn(&entries);
                lengths.push(entries.len());
            }
            Call::Undo => {
                let length = lengths.pop().expect("a stroke");
                let theirs = (0..length).try_for_each(|_| rust.undo());
                assert_eq!([theirs, lent.back(length)], [Ok(()); 2], "the undo of call {at}");
            }
            Call::Ask(told) => {
                let theirs = Ok(rust.ask());
                let ours = lent.answers(places);
                assert!(ours.iter().all(|answer| *answer == theirs), "the ask of call {at}: {theirs:?}, the port's are {ours:?}");
                assert_eq!(theirs.as_ref().map(short), Ok(told), "what the solver was told at call {at}");
                counts.asked(&theirs);
            }
        }
    }
    assert!(lent.ones == fresh && lent.strokes == fresh, "a trace ends on the fresh puzzle");
    counts
}

fn short(answer: &Answer) -> Told {
    match answer {
        Answer::Clear => Told::Clear,
        Answer::Shape(list) => Told::Shape(list.len()),
        Answer::Room(room, list) => Told::Room(*room, list.len()),
    }
}

/// Nanoseconds of all of the trace: the Rust, the port lent one by one, and in strokes. Each is played once; they take turns every 20 asks.
fn time_all(recorded: &Recorded) -> [f64; 3] {
    let (making, fresh) = (&recorded.making, fresh(&recorded.making));
    let (mut theirs, mut ones, mut strokes) = (rust(making), LentPuzzle(fresh), LentPuzzle(fresh));
    let buffer = &mut vec![0; making.places()];
    let moves = recorded.calls().map(|call| match call {
        Call::Undo => Move::Back,
        Call::Stroke(entries) => Move::Stroke(entries),
        Call::Ask(_) => Move::Ask,
    });
    let mut sums = [0.0; 3];
    for part in Parts::of(moves) {
        sums[0] += once(|| play_rust(&mut theirs, &part.ones));
        sums[1] += once(|| play_ones(&mut ones, &part.ones, buffer));
        sums[2] += once(|| play_strokes(&mut strokes, &part.moves, buffer));
    }
    sums
}

/// Plays all of the trace; `false` where it is not there.
pub fn run() -> bool {
    let Some(recorded) = Recorded::read(&path()) else {
        eprintln!("compare: no {}: `{MAKE}` makes it", path().display());
        return false;
    };
    let Counts { asks, faults, of_rooms, strokes, decides, walls } = check_all(&recorded);
    let [asks, faults, of_rooms, strokes, decides, walls] = [asks, faults, of_rooms, strokes, decides, walls].map(count);
    println!("{asks} asks, {faults} faults ({of_rooms} of rooms), {strokes} strokes, {decides} decides ({walls} Walls)");
    println!("every answer and every list is the Rust's");
    let [rust, ones, in_strokes] = time_all(&recorded);
    let beside = |port: f64| format!("{} s ({})", number(port / 1e9), number(rust / port));
    println!("the Rust {} s; lent, one by one {}; in strokes {}", number(rust / 1e9), beside(ones), beside(in_strokes));
    true
}
