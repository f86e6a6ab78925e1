//! A repeatable load: files drawn from a seed beside the comparison's own generator, and runs of a file beside the Rust's puzzle.
use super::paper::{count, micros, number, Pair, Row};
use super::{both, row, stack};
use crate::files::{self, Call, Line};
use crate::generator::Load;
use crate::port::file::{open, LINE_ROOM};
use crate::port::{generate_in, run_in};
use crate::reference::Puzzle;

/// Sides and counts of calls.
const LOADS: [(usize, usize); 2] = [(10, 100), (32, 20_000)];

/// The seeds that are gone through: with one alone the processor would learn the order of its kinds.
const SEEDS: u32 = 1000;

fn loads() -> Vec<Load> {
    LOADS.map(|(side, count)| Load { seed: 1, height: side, width: side, count }).to_vec()
}

fn name(load: Load) -> String {
    format!("{} by {}, {} calls", load.height, load.width, count(load.count))
}

/// The load with the next seed.
fn next(load: &mut Load) -> Load {
    load.seed = load.seed % SEEDS + 1;
    *load
}

/// Files by both generators.
pub fn generated() -> Vec<Row<Pair>> {
    let buffer = &mut vec![0; files::MOST + 3];
    let mut times = |load: Load| {
        let length = generate_in(load, buffer);
        assert_eq!(load.file().as_deref(), Ok(&buffer[..length]), "the same file by both generators");
        let (mut theirs, mut ours) = (load, load);
        let times = both(|| next(&mut theirs).file(), || generate_in(next(&mut ours), buffer));
        println!("{}, drawn: {} µs, ratio {}", name(load), micros(times.port), number(times.ratio()));
        times
    };
    loads().into_iter().map(|load| row(name(load), times(load))).collect()
}

/// What the Rust's side prints for a file. A decided border is refused by a look at the board: a panic would take longer.
fn printed(file: &[u8], verified: bool) -> Vec<Line> {
    let case = files::decode(file).expect("sound");
    let making = &case.making;
    let made = Puzzle::new(making.height, making.width, &making.walls(), &making.clues, true).expect("made");
    let mut rust = if verified { made } else { made.unverified() };
    let line = |&call: &Call| match call {
        Call::Decide { border, .. } if rust.is_decided(border as usize) => Line::Refused(4),
        _ => files::line(&mut rust, call),
    };
    case.calls.iter().map(line).collect()
}

fn text(lines: &[Line]) -> String {
    lines.iter().map(Line::text).collect()
}

/// Runs a file's calls one by one, as the program does, with each line in the one buffer.
fn run(file: &[u8], buffer: &mut [u8], mut print: impl FnMut(&[u8])) {
    let opened = open(file);
    let (mut puzzle, mut at) = (opened.puzzle, opened.at);
    for _ in 0..opened.count {
        let ran = run_in(file, at, puzzle, buffer);
        print(&buffer[..ran.len]);
        (puzzle, at) = (ran.puzzle, ran.at);
    }
}

/// A run's times beside the Rust as it is and without its verifying, and what was asked.
pub struct Run {
    name: String,
    asks: usize,
    faults: usize,
    times: Pair,
    unverified: Pair,
}

/// A run of a load's file by both sides, which print the same.
fn timed(load: Load, buffer: &mut [u8]) -> Run {
    let file = load.file().expect("accepted");
    let lines = printed(&file, true);
    let mut ours = vec![];
    run(&file, buffer, |line| ours.extend_from_slice(line));
    assert_eq!(text(&lines).as_bytes(), ours, "the lines of both sides");
    assert_eq!(lines, printed(&file, false), "the Rust's lines, verified and not");
    let faults = lines.iter().filter(|line| matches!(line, Line::Shape(_))).count();
    let asks = faults + lines.iter().filter(|line| matches!(line, Line::Clear)).count();
    let mut times = |verified| both(|| text(&printed(&file, verified)), || run(&file, buffer, |_| ()));
    let run = Run { name: name(load), asks, faults, times: times(true), unverified: times(false) };
    println!("{}, run: {} µs, ratio {}", run.name, micros(run.times.port), number(run.times.ratio()));
    run
}

pub fn runs() -> Vec<Run> {
    let buffer = &mut vec![0; LINE_ROOM];
    loads().into_iter().map(|load| timed(load, buffer)).collect()
}

/// The most stack of the call over the loads.
pub fn stack() -> usize {
    let buffer = &mut vec![0; files::MOST + 3];
    loads().into_iter().map(|load| stack::used(|| generate_in(load, buffer))).max().expect("loads")
}

/// A row a load: files a second by both generators.
pub fn generated_table(rows: &[Row<Pair>]) -> String {
    let mut text = String::from("| file | the comparison, files a second | the port, files a second | ratio |\n|---|---|---|---|\n");
    let a_second = |nanoseconds: f64| number(1e9 / nanoseconds);
    for Row { name, times } in rows {
        text += &format!("| {name} | {} | {} | {} |\n", a_second(times.rust), a_second(times.port), number(times.ratio()));
    }
    text
}

/// A row a run, beside the Rust as it is and without its verifying.
pub fn runs_table(runs: &[Run]) -> String {
    let columns = ["a run of a file", "asks", "faults", "the Rust, µs", "not verified, µs", "the port, µs", "ratio", "not verified"];
    let mut text = format!("| {} |\n|{}\n", columns.join(" | "), "---|".repeat(columns.len()));
    for Run { name, asks, faults, times, unverified } in runs {
        let micros = [times.rust, unverified.rust, times.port].map(micros).join(" | ");
        let ratios = [times, unverified].map(|times| number(times.ratio())).join(" | ");
        text += &format!("| {name} | {} | {} | {micros} | {ratios} |\n", count(*asks), count(*faults));
    }
    text
}
