//! The Rust beside the port. README.md has the commands.
#![allow(dead_code)]

mod answers;
mod bench;
mod boards;
mod composed;
mod edges;
mod files;
mod findings;
mod fits;
mod generator;
mod images;
mod kinds;
mod laws;
mod layers;
mod learner;
mod ledger;
mod lone;
mod pairs;
mod port;
mod puzzles;
mod random;
mod recorded;
mod reference;
mod runs;
mod said;
mod sample;
mod stubs;
mod tally;

/// util.rs, where sendai.rs looks for it.
#[allow(dead_code)]
mod util {
    use crate::stubs::cspuz_core;
    include!(env!("UTIL_RS"));
}

use layers::{Limits, LAYERS};
use std::path::Path;
use std::process::ExitCode;
use std::time::Duration;

const SAMPLE: &str = concat!(env!("CARGO_MANIFEST_DIR"), "/../crates/vectors");

fn usage(word: &str) -> ! {
    let layers: Vec<&str> = LAYERS.iter().map(|layer| layer.name).collect();
    let layers = layers.join(", ");
    eprintln!("compare: `{word}` is none of vectors, bench, trace, kinds, replay, before, findings, seed=N, seconds=N, borders=N, {layers}");
    std::process::exit(2);
}

/// The layers that are named, or all of them, within the limits that are set.
fn compare(words: &[String]) -> bool {
    let mut limits = Limits { seed: 1, time: Duration::from_secs(10), borders: 12 };
    let mut chosen = vec![];
    for word in words {
        let (key, number) = match word.split_once('=') {
            Some((key, value)) => (key, value.parse().unwrap_or_else(|_| usage(word))),
            None => (word.as_str(), 0),
        };
        match key {
            "seed" => limits.seed = number,
            "seconds" => limits.time = Duration::from_secs(number),
            "borders" => limits.borders = number as usize,
            name => match LAYERS.iter().find(|layer| layer.name == name) {
                Some(layer) => chosen.push(layer),
                None => usage(word),
            },
        }
    }
    if chosen.is_empty() {
        chosen = LAYERS.iter().collect();
    }
    let tallies: Vec<tally::Tally> = chosen.iter().map(|layer| (layer.run)(&limits)).collect();
    tally::report(&tallies)
}

fn main() -> ExitCode {
    reference::silence();
    let words: Vec<String> = std::env::args().skip(1).collect();
    match words.first().map(String::as_str) {
        Some("vectors") => sample::write(Path::new(SAMPLE)),
        Some("bench") => bench::run(),
        Some("trace") => bench::traces::run(),
        Some("kinds") => bench::kinds::run(),
        Some("replay") => {
            if !bench::recorded::run() {
                return ExitCode::from(3);
            }
        }
        Some("before") => match words.get(1) {
            Some(archive) => bench::before::run(Path::new(archive)),
            None => {
                eprintln!("compare: `before` wants the path of another archive");
                return ExitCode::from(2);
            }
        },
        Some("findings") => findings::run(),
        _ => {
            if !compare(&words) {
                return ExitCode::from(1);
            }
        }
    }
    ExitCode::SUCCESS
}
