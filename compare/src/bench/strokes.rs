//! Several borders in one stroke beside as many single decides, and what takes them back.
use super::paper::{micros, number, Pair};
use super::{both, stack};
use crate::boards::{Standing, CONNECTED, UNDECIDED, WALL};
use crate::ledger::{border, is_wall};
use crate::port::{self, LentBoard, LentPuzzle, Record};
use crate::puzzles::Making;
use crate::random::Random;
use crate::reference::NO_CLUE;
use std::hint::black_box;

/// How many borders a stroke has.
const BORDERS: usize = 16;

const SIDES: [usize; 2] = [10, 32];

/// Times of a stroke and of its undo; in the place of the Rust stand the single calls.
pub struct Stroked {
    name: String,
    drawn: Pair,
    undone: Pair,
}

fn decide_all<R: Record>(record: &mut R, entries: &[u16]) {
    entries.iter().for_each(|&entry| record.decide(border(entry), is_wall(entry)).expect("decided"));
}

/// Each turn starts from a copy of the record.
fn timed<R: Record>(name: String, record: R, entries: &[u16]) -> Stroked {
    let (mut singles, mut stroked) = (record, record);
    decide_all(&mut singles, entries);
    stroked.stroke(entries).expect("drawn");
    let drawn = both(
        || decide_all(&mut record.clone(), black_box(entries)),
        || record.clone().stroke(black_box(entries)).expect("drawn"),
    );
    let undone = both(
        || {
            let mut record = singles;
            entries.iter().for_each(|_| record.undo().expect("undone"));
        },
        || stroked.clone().undo().expect("undone"),
    );
    println!("{name}, {BORDERS} borders in one stroke: {} µs, ratio {}", micros(drawn.port), number(drawn.ratio()));
    Stroked { name, drawn, undone }
}

/// A board of which two thirds of the borders are drawn, and entries for some of the others.
fn started(side: usize) -> (Standing, Vec<u16>) {
    let random = &mut Random::new(16);
    let mut board = Standing::all(side, side, UNDECIDED);
    board.states.iter_mut().for_each(|state| *state = *random.pick(&[UNDECIDED, CONNECTED, WALL]));
    let mut open: Vec<u16> =
        (0..board.states.len() as u16).filter(|&border| board.states[border as usize] == UNDECIDED).collect();
    random.shuffle(&mut open);
    let entries = open[..BORDERS].iter().map(|border| 2 * border + random.below(2) as u16).collect();
    (board, entries)
}

/// Boards and puzzles of both sides, by value and in place.
pub fn all() -> Vec<Stroked> {
    let of_side = |side: usize| {
        let (standing, entries) = started(side);
        let board = port::Board::standing(side, side, &standing.states);
        let puzzle = super::calls::Laid { board: standing, given: vec![], clues: vec![NO_CLUE] }.port();
        [
            timed(format!("board, {side} by {side}"), board, &entries),
            timed(format!("board in place, {side} by {side}"), LentBoard(board), &entries),
            timed(format!("puzzle, {side} by {side}"), puzzle, &entries),
            timed(format!("puzzle in place, {side} by {side}"), LentPuzzle(puzzle), &entries),
        ]
    };
    SIDES.into_iter().flat_map(of_side).collect()
}

/// The stack of a stroke of every border of the largest board, and of its undo.
fn used<R: Record + Send>(mut record: R) -> usize {
    let entries: Vec<u16> = (0..1984).map(|border| 2 * border).collect();
    stack::used(|| {
        record.stroke(&entries).expect("drawn");
        record.undo().expect("undone");
    })
}

pub fn stacks() -> [(String, usize); 4] {
    let board = port::Board::make(32, 32).expect("made");
    let puzzle = port::Puzzle::make(&Making::empty(32, 32)).expect("made");
    let named = |name: &str, used| (name.to_string(), used);
    [
        named("board's stroke of all borders, and its undo", used(board)),
        named("that stroke of a board in place", used(LentBoard(board))),
        named("puzzle's stroke of all borders, and its undo", used(puzzle)),
        named("that stroke of a puzzle in place", used(LentPuzzle(puzzle))),
    ]
}

pub fn table(rows: &[Stroked]) -> String {
    let columns = [
        format!("{BORDERS} borders"),
        format!("{BORDERS} single decides, µs"),
        "one stroke, µs".into(),
        "ratio".into(),
        format!("{BORDERS} undos, µs"),
        "its undo, µs".into(),
        "ratio".into(),
    ];
    let mut text = format!("| {} |\n|{}\n", columns.join(" | "), "---|".repeat(columns.len()));
    let cells = |times: Pair| format!("{} | {} | {}", micros(times.rust), micros(times.port), number(times.ratio()));
    for Stroked { name, drawn, undone } in rows {
        text += &format!("| {name} | {} | {} |\n", cells(*drawn), cells(*undone));
    }
    text
}
