//! Times of both sides from one driver, and docs/PERFORMANCE.md, which it writes. A ratio above 1 says that the port is faster.
mod asked;
pub mod before;
mod calls;
mod clock;
mod goals;
pub mod kinds;
mod loads;
mod paper;
pub mod recorded;
mod searches;
mod stack;
mod strokes;
pub mod traces;
mod turns;

use crate::boards::Standing;
use asked::{boards, later, puzzles, unfit, SIDES};
use calls::{Asked, Way};
use kinds::Kinds;
use loads::Run;
use paper::{micros, number, Pair, Row};
use searches::Searched;
use std::hint::black_box;
use std::path::PathBuf;
use strokes::Stroked;
use traces::Traced;
use turns::Turned;

/// How many turns make a round that is long enough to be measured.
fn turns<T>(turn: &mut impl FnMut() -> T) -> u32 {
    let mut turns = 1;
    while round(turn, turns) < ROUND {
        turns *= 2;
    }
    turns
}

/// Nanoseconds of so many turns.
fn round<T>(turn: &mut impl FnMut() -> T, turns: u32) -> f64 {
    let began = clock::now();
    for _ in 0..turns {
        black_box(turn());
    }
    clock::now() - began
}

/// Nanoseconds of the shortest round that counts, and how many rounds each side gets.
const ROUND: f64 = 4e6;
const ROUNDS: u32 = 21;

/// Nanoseconds a turn of both sides: the best of the rounds, which take turns.
fn both<R, P>(mut rust: impl FnMut() -> R, mut port: impl FnMut() -> P) -> Pair {
    let (theirs, ours) = (turns(&mut rust), turns(&mut port));
    let mut best = Pair { rust: f64::MAX, port: f64::MAX };
    for _ in 0..ROUNDS {
        best.rust = best.rust.min(round(&mut rust, theirs) / theirs as f64);
        best.port = best.port.min(round(&mut port, ours) / ours as f64);
    }
    best
}

fn row<T>(name: impl Into<String>, times: T) -> Row<T> {
    Row { name: name.into(), times }
}

type Grid = Vec<Row<Vec<Pair>>>;

/// Asks of four sides, by name.
fn grown(asks: impl Fn(usize) -> Vec<(String, Asked)>) -> Grid {
    let mut rows = vec![];
    for side in SIDES {
        for (name, Asked { times, kind }) in asks(side) {
            println!("{side} by {side}, {name}, {kind}: {} µs, ratio {}", micros(times.port), number(times.ratio()));
            add(&mut rows, &name, times);
        }
    }
    rows
}

/// Boards by value, and puzzles that are lent.
fn asks() -> Grid {
    grown(|side| {
        let shapes = boards(side).into_iter().chain(later(side)).chain(unfit(side));
        let shapes = shapes.map(|(name, board)| (name.to_string(), calls::ask(&board, Way::ByValue)));
        let rooms = puzzles(side).into_iter().map(|(name, laid)| (name.to_string(), calls::puzzle_ask(&laid, Way::Lent)));
        shapes.chain(rooms).collect()
    })
}

/// The other way: puzzles by value, and boards without a Wall that are lent.
fn asks_otherwise() -> Grid {
    grown(|side| {
        let open = boards(side).into_iter().filter(|(name, _)| goals::OPEN.contains(name));
        let shapes = open.map(|(name, board)| (format!("{name}, lent"), calls::ask(&board, Way::Lent)));
        let by_value = |(name, laid)| (format!("{name}, by value"), calls::puzzle_ask(&laid, Way::ByValue));
        shapes.chain(puzzles(side).into_iter().map(by_value)).collect()
    })
}

/// Puts an ask's times behind those of the sides before.
fn add(rows: &mut Vec<Row<Vec<Pair>>>, name: &str, times: Pair) {
    match rows.iter_mut().find(|row| row.name == name) {
        Some(found) => found.times.push(times),
        None => rows.push(row(name, vec![times])),
    }
}

/// The archive of the port.
fn archive() -> PathBuf {
    PathBuf::from(concat!(env!("CARGO_MANIFEST_DIR"), "/../target/staticlib/libexports.a"))
}

/// The most stack of each call.
fn stacks() -> Vec<(String, usize)> {
    let standing: Vec<(&str, Standing)> = boards(32).into_iter().chain(later(32)).chain(unfit(32)).collect();
    let mut stacks = calls::stacks(&standing, &puzzles(32));
    stacks.extend(strokes::stacks());
    stacks.extend(searches::stacks());
    stacks.push(("a case file drawn from a seed".into(), loads::stack()));
    stacks
}

const PAPER: &str = concat!(env!("CARGO_MANIFEST_DIR"), "/../docs/PERFORMANCE.md");

/// All that is measured.
struct Measured {
    asks: Grid,
    otherwise: Grid,
    kinds: Kinds,
    on_boards: (Vec<String>, Grid),
    turned: Vec<Turned>,
    puzzle_turns: Grid,
    stroked: Vec<Stroked>,
    traced: Vec<Traced>,
    searched: Vec<Searched>,
    generated: Vec<Row<Pair>>,
    runs: Vec<Run>,
    rooms: Vec<Row<Pair>>,
    others: Vec<Row<Pair>>,
    stacks: Vec<(String, usize)>,
}

impl Measured {
    fn new() -> Measured {
        let asks = asks();
        let turned = turns::at_32(&boards(32), &at_32(&asks));
        Measured {
            asks,
            otherwise: asks_otherwise(),
            kinds: kinds::all(),
            on_boards: calls::on_boards(&boards(32)),
            turned,
            puzzle_turns: turns::on_puzzles(),
            stroked: strokes::all(),
            traced: traces::all(),
            searched: searches::all(),
            generated: loads::generated(),
            runs: loads::runs(),
            rooms: calls::room_asks(),
            others: calls::others(),
            stacks: stacks(),
        }
    }

    /// All asks, with their sides.
    fn every_ask(&self) -> Vec<(String, Pair)> {
        let with_sides = |row: &Row<Vec<Pair>>| {
            let named = |(&times, side): (&Pair, usize)| (format!("{side} by {side}, {}", row.name), times);
            row.times.iter().zip(SIDES).map(named).collect::<Vec<_>>()
        };
        let of_rooms = self.rooms.iter().map(|row| (format!("room check, {}", row.name), row.times));
        self.asks.iter().chain(&self.otherwise).flat_map(with_sides).chain(of_rooms).collect()
    }
}

/// The asks of the largest side.
fn at_32(asks: &Grid) -> Vec<(String, Pair)> {
    asks.iter().map(|row| (row.name.clone(), *row.times.last().expect("four sides"))).collect()
}

fn by_sides(sides: &[usize]) -> Vec<String> {
    sides.iter().map(|side| format!("{side} by {side}")).collect()
}

/// The sections of the paper: what each is about, and its texts and tables.
fn sections(m: &Measured) -> Vec<(&'static str, Vec<String>)> {
    let told = |text: &str| text.to_string();
    let asks: Vec<Row<Pair>> = at_32(&m.asks).into_iter().map(|(name, times)| row(name, times)).collect();
    let turned: Vec<Row<Pair>> = m.turned.iter().map(|turned| row(turned.name.clone(), turned.times)).collect();
    let rooms = paper::pairs("room check, 1,024 vertices and 1,984 edges", &m.rooms);
    let stack_lines: String = m.stacks.iter().map(|(name, n)| format!("| {name} | {} |\n", n.div_ceil(1024))).collect();
    let (columns, on_boards) = &m.on_boards;
    let sides = by_sides(&SIDES);
    vec![
        ("Goals", vec![goals::table(&goals::all(m)), told(WHY)]),
        ("Asks at 32 by 32", vec![asked::about_later(32), paper::pairs("shape check and puzzles", &asks)]),
        (
            "How an ask grows",
            vec![told(GROWS), paper::grid("ask", &sides, &m.asks), told(OTHERWISE), paper::grid("ask", &sides, &m.otherwise)],
        ),
        ("Both kinds of puzzle, 32 by 32", vec![told(BOTH_KINDS), m.kinds.table()]),
        ("The other calls on the eight boards, 32 by 32", vec![told(OTHER_CALLS), paper::grid("board", columns, on_boards)]),
        (
            "Decide and undo",
            vec![
                told(DECIDES),
                paper::pairs("a decide and an undo, 32 by 32", &turned),
                told(PUZZLE_TURNS),
                paper::grid("a puzzle's decide and undo", &by_sides(&turns::SIDES), &m.puzzle_turns),
            ],
        ),
        ("Several borders in one stroke", vec![told(STROKES), strokes::table(&m.stroked)]),
        ("A learner's trace", vec![told(TRACES), traces::table(&m.traced), recorded::about()]),
        ("All right boards of a started grid", vec![told(SEARCHES), searches::table(&m.searched)]),
        ("A repeatable load", vec![told(LOADS), loads::generated_table(&m.generated), loads::runs_table(&m.runs)]),
        ("Rooms, unions, hand-over", vec![told(ROOMS), rooms, paper::pairs("call", &m.others)]),
        ("Stack", vec![told(STACK), format!("| call | KB |\n|---|---|\n{stack_lines}")]),
    ]
}

pub fn run() {
    let section = |(title, parts): (&str, Vec<String>)| format!("\n## {title}\n\n{}", parts.join("\n"));
    let sections: String = sections(&Measured::new()).into_iter().map(section).collect();
    let kit = std::process::Command::new("rt").arg("version").output().map_or(String::new(), |told| String::from_utf8_lossy(&told.stdout).trim().to_string());
    let text = format!("{HEAD}\nThe archive is by `{kit}`.\n{sections}");
    std::fs::write(PAPER, &text).expect("docs/PERFORMANCE.md");
    println!("{text}");
}

const HEAD: &str = "# Speed beside the Rust

Written by `compare/run bench`: both sides from one driver, in one run, built for release, on a machine that was not idle; only the
ratios mean something. Above 1 the port is faster. A time is the processor's, the best of 21 rounds, in which the two sides take turns. The
port's time includes question 2 of the whole record, and where nothing else is said the record's way over the C interface by value; a puzzle
that is asked is lent, since that is what a learner calls. The port writes into one buffer, which is lent again and again and not
cleared between calls. The Rust makes each list anew; in a puzzle it also verifies each list of the shape check, as `solve_sendai` has
it (of the asks below at 4 by 4, Connected inside, alone).
";

const WHY: &str = "Where an ask gains least, question 2 shows, which the Rust does not have: the port puts it to the whole record each time, for a puzzle with
its rooms. By value the record is copied, too, 6 KB of a board and 12 KB of a puzzle. A decide and an undo put question 2 to the whole
ledger, each name of it one store, and in place they copy nothing; where two thirds of the borders are decided and the ask ends at its
first Wall inside a unit, that is a large part of an ask. A learner's trace is held to the goal by the slowest of all its rows.
";

const GROWS: &str = "The port's µs, and the ratio in brackets. Boards go by value, puzzles are lent.
";

const OTHERWISE: &str = "The other way: boards without a Wall that are lent, and puzzles by value.
";

const BOTH_KINDS: &str = "The same boards on two puzzles, lent, in one room without a clue: the one made of translates, the other of images. Their asks take turns in
one run; times tells how many times as long one of images takes. The Rust has no images. Behind the sum of the eight are boards on which units
fit later, or one fits nowhere; and two on which each unit's partner is turned or mirrored, where translates end at the first unit.
";

const OTHER_CALLS: &str = "The port's µs, and the ratio in brackets. A path leads from the first to the last cell of the largest unit; a boundary is that of
the largest unit or potential unit. A boundary call of the port groups the board itself: the Rust's time has its grouping too.
";

const DECIDES: &str = "Each call of the port puts question 2 to the whole record, where the Rust changes one place. By value it also moves the record (6 KB for a
board, 12 KB for a puzzle); in place it copies nothing. On a full board the first border is left open. A decide is a stroke of one.
";

const PUZZLE_TURNS: &str = "Fresh puzzles, by value and in place: the port's µs, and the ratio in brackets. Where 4 does not divide the side, the last rooms are
smaller.
";

const STROKES: &str = "The Rust has no stroke: beside it stand as many single decides of the port, and beside its undo as many undos. The stroke has 16 of the
undecided borders in any order; of all borders two thirds are drawn. A stroke puts question 2 to the record once, whatever its length, and
by value moves it once, where single decides do so each time. Each time begins with a copy of the record, in place too. The puzzles
have one room and no clue.
";

const TRACES: &str = "What a clause learner called on a puzzle, played again on both sides: it draws a border that it chose with all that its clauses force
then, asks, makes a clause of a fault's list, and takes back to where that forces a border. compare/README.md has the learner, the puzzles
and the seed. Wall first is what the clause learner example of the bindings chooses, always: the first undecided border, as a Wall. The
other two go by the borders that late faults had most to do with, and begin with any border as anything, or with the first as Connected.
Each trace is behind 4,000 asks of its learner, and begins and ends on the fresh puzzle: what stood after these asks is drawn first, and
counts. One by one a stroke is as many decides, and is taken back by as many undos: so the Rust is called, and so is the port. In strokes
the port takes each stroke in one call, and back in one. Before anything is timed the trace is played on the Rust and on the port, by value
and lent, one by one and in strokes, and every answer and every list is compared, and every lent record with that by value. A trace is cut
into parts of 20 asks; its time is the sum of each part's best of 2 to 9 rounds, and the sides take turns at each part. In brackets is how
many times as fast as the Rust a replay is. Not verified: the Rust with its shape check alone, whose lists nothing verifies.
";

const SEARCHES: &str = "Each grid has 24 undecided borders, and all right boards over it are written. The search asks on each board that it comes by, and
unless that is a fault it goes on over the lowest undecided border, Connected first; the Rust's time is that of the same search by its
own checks. In asks: the call's time, divided by that of the plain puzzle's asks by value on the same boards, of which one ask is the
mean. The 16 by 16 board is dominoes in one room, 8 of them without their inner border, and the clue wants 4 of these parted.
";

const LOADS: &str = "Files are drawn from the seeds 1 to 1,000 in turn, by `sendai_case_generate` into one buffer. The Rust has no such call: beside it stands
the comparison's own generator, which makes a list of the calls and then the file. A run is that of the file of seed 1:
`sendai_case_open`, then `sendai_case_run` call by call into one buffer of a line, as the program does it, and nothing is written out. The
Rust's time is that of its puzzle on the same calls, the file read and the lines printed into memory by the comparison, which refuses a
decided border by a look at the board: a panic would take longer. Not verified: with its shape check alone, whose lists nothing verifies.
";

const ROOMS: &str = "The port's room check puts question 2 to the record, which the Rust does not; it unites, and lists the arcs for the walk, only where
bounds of the parts do not tell. Hand-over stands beside `sort` and `dedup`.
";

const STACK: &str = "How far a call reached down a painted stack, its arguments and its caller's copies of them included: the most on the boards,
puzzles and graphs above, and on a chain and a walk 1,024 deep.
";
