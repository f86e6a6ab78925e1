//! Every right full board over what stands, beside all full boards on which the Rust's checks find nothing.
//! - Sizes to 6 borders, 2 by 3 and 3 by 2: every puzzle (all given walls, all clues that fit, and none), all standing sets.
//! - The other sizes of 7 to 9 borders (1 by 8 to 1 by 10, and turned): all standing sets on the puzzle without given walls and
//!   clues, and on `DRAWN` puzzles a size, drawn on full boards that pass the shape check.
//! - Sizes of 10 to 17 borders, and 4 by 4: the empty puzzle, and puzzles drawn for so long, with `SETS` standing sets each.
//! - Sizes to 32 by 32: boards of which at most 6 borders are undecided, drawn for so long.
//! - Refusals: 24 and 25 undecided borders, products beyond 64 bits, damaged records; and a byte short in each case above.
//!
//! The Rust has judged every full board of these sizes by itself, 4 by 4 included (2 to the 24; left out below borders=12).
use super::{puzzle, until, Limits};
use crate::answers::{Answer, Boards};
use crate::boards::{self, border_count, Standing, CONNECTED, UNDECIDED, WALL};
use crate::ledger;
use crate::port::{self, PuzzleRecord};
use crate::puzzles::{self, Making};
use crate::random::Random;
use crate::reference::{Board, Puzzle};
use crate::sample::{code, numbers, Sample, LARGEST};
use crate::tally::Tally;
use std::collections::BTreeSet;

const DRAWN: usize = 24;
const SETS: usize = 8;

/// Full boards by their states, in rising order: border 0 first, Connected before Wall.
pub(super) type Full = Vec<Vec<u8>>;

/// The full boards of a size on which the Rust's shape check finds nothing: each one is asked. That check knows nothing of a
/// puzzle but its Walls, so its verdicts hold for all puzzles of the size.
fn shapes(height: usize, width: usize) -> Full {
    let mut clear = vec![];
    fill(&mut Board::new(height, width), border_count(height, width), &mut vec![], &mut clear);
    clear
}

fn fill(rust: &mut Board, borders: usize, states: &mut Vec<u8>, clear: &mut Full) {
    if states.len() == borders {
        if rust.ask().is_none() {
            clear.push(states.clone());
        }
        return;
    }
    for state in [CONNECTED, WALL] {
        rust.decide(states.len(), state == WALL).expect("decided");
        states.push(state);
        fill(rust, borders, states, clear);
        states.pop();
        rust.undo().expect("undone");
    }
}

/// Every full board over what stands.
pub(super) fn extensions(states: &[u8]) -> Full {
    let mut list = vec![states.to_vec()];
    for border in (0..states.len()).filter(|&border| states[border] == UNDECIDED) {
        let with = |mut board: Vec<u8>, state| {
            board[border] = state;
            board
        };
        list = list.into_iter().flat_map(|board| [with(board.clone(), CONNECTED), with(board, WALL)]).collect();
    }
    list
}

/// Those of some full boards on which the Rust's puzzle finds nothing: each that has the given walls is asked.
fn right(making: &Making, boards: &[Vec<u8>]) -> Full {
    let mut rust = Puzzle::new(making.height, making.width, &making.walls(), &making.clues, true).expect("made");
    let free = free(making);
    let walled = |board: &&Vec<u8>| making.given.iter().all(|&border| board[border as usize] == WALL);
    let mut clear = |board: &[u8]| {
        free.iter().for_each(|&border| rust.decide(border, board[border] == WALL).expect("decided"));
        let answer = rust.ask();
        free.iter().for_each(|_| rust.undo().expect("undone"));
        answer == Answer::Clear
    };
    boards.iter().filter(walled).filter(|board| clear(board)).cloned().collect()
}

/// The borders that are not given.
fn free(making: &Making) -> Vec<usize> {
    let all = 0..border_count(making.height, making.width);
    all.filter(|&border| making.given.binary_search(&(border as u16)).is_err()).collect()
}

/// How many borders of a record that holds together are undecided.
fn undecided(record: &PuzzleRecord) -> usize {
    let borders = border_count(record.board.height, record.board.width);
    record.board.states[..borders].iter().filter(|&&state| state == UNDECIDED).count()
}

/// Those of a puzzle's right boards that extend what stands.
fn over<'a>(right: &'a Full, board: &Standing) -> Vec<&'a Vec<u8>> {
    let extends = |full: &&Vec<u8>| full.iter().zip(&board.states).all(|(f, &s)| s == UNDECIDED || *f == s);
    right.iter().filter(extends).collect()
}

/// What a call with a cap is to answer, of all right boards over what stands.
fn expected(over: &[&Vec<u8>], cap: usize) -> Boards {
    let bytes: Vec<u8> = over.iter().take(cap).flat_map(|board| board.iter().copied()).collect();
    Boards { count: over.len().min(cap), more: over.len() > cap, bytes }
}

/// The number by which a call is refused, or 0: 1, 2, 12 and 6 in this order.
fn refusal(record: &PuzzleRecord, cap: usize, room: usize) -> u8 {
    let code = puzzles::refusal(record);
    if code != 0 {
        return code;
    }
    if undecided(record) > 24 {
        return 12;
    }
    let borders = border_count(record.board.height, record.board.width);
    if cap as u128 * borders as u128 > room as u128 { 6 } else { 0 }
}

/// The tally; and how many standing sets a part of the layer had, and how many right boards over them.
pub(super) struct Compared {
    pub(super) tally: Tally,
    sets: usize,
    boards: usize,
}

impl Compared {
    pub(super) fn new(tally: Tally) -> Compared {
        Compared { tally, sets: 0, boards: 0 }
    }

    /// Says what a part of the layer had.
    pub(super) fn told(&mut self, part: &str) {
        println!("{}: {part}: {} standing sets, {} right boards over them", self.tally.layer, self.sets, self.boards);
        (self.sets, self.boards) = (0, 0);
    }

    /// What stands on a puzzle, with caps of 0, 1, any, just all and one more, each into just the bytes that it needs, and
    /// once into a byte less.
    pub(super) fn standing(&mut self, random: &mut Random, making: &Making, right: &Full, board: &Standing) {
        self.tally.case();
        let over = over(right, board);
        self.sets += 1;
        self.boards += over.len();
        let (borders, all) = (board.states.len(), over.len());
        let ours = port::Puzzle(puzzles::record(random, board, making));
        let mut caps = vec![0, 1, random.below(all + 1), all, all + 1];
        caps.sort();
        caps.dedup();
        let on = |cap: usize| format!("{making:?}, {board:?}, cap {cap}");
        for cap in caps {
            self.tally.same(&Ok(expected(&over, cap)), &ours.right_boards(cap, cap * borders), || on(cap));
        }
        if borders > 0 {
            self.tally.same(&Err(6), &ours.right_boards(all + 1, (all + 1) * borders - 1), || on(all + 1));
        }
    }

    /// All standing sets of a puzzle.
    fn every_set(&mut self, random: &mut Random, making: &Making, shapes: &Full) {
        let right = right(making, shapes);
        let walled = |board: &Standing| making.given.iter().all(|&border| board.states[border as usize] == WALL);
        for board in boards::every(making.height, making.width).filter(walled) {
            self.standing(random, making, &right, &board);
        }
    }

    /// Some standing sets of a puzzle that is drawn on a full board.
    fn some_sets(&mut self, random: &mut Random, (height, width): (usize, usize), shapes: &Full) {
        let (full, making) = laid(random, height, width, shapes);
        let right = right(&making, shapes);
        for _ in 0..SETS {
            let open = random.below(full.states.len() + 1);
            let board = started(random, &making, &full, open);
            self.standing(random, &making, &right, &board);
        }
    }

    /// A structured board of any size, of which few borders are undecided: the Rust judges each full board over it.
    fn few_open(&mut self, random: &mut Random, most: usize) {
        let (height, width) = (random.within(1, most), random.within(1, most));
        let list = boards::structured(height, width);
        let mut full = random.pick(&list).1.clone();
        full.states.iter_mut().filter(|state| **state == UNDECIDED).for_each(|state| *state = CONNECTED);
        let making = puzzles::on(random, &mut full);
        let open = random.below(if most > 8 { 4 } else { 7 });
        let board = started(random, &making, &full, open);
        let right = right(&making, &extensions(&board.states));
        self.standing(random, &making, &right, &board);
    }

    /// A call on a record as it comes is refused by this number, or by none, and leaves the record as it came.
    fn code(&mut self, code: u8, record: PuzzleRecord, cap: usize, room: usize) {
        self.tally.case();
        let ours = port::Puzzle(record);
        let told = ours.right_boards(cap, room).err().unwrap_or(0);
        self.tally.same(&(code, record), &(told, ours.0), || format!("{record:?}, cap {cap}, {room} bytes"));
    }
}

/// A full board that passes the shape check, and a puzzle on it.
pub(super) fn laid(random: &mut Random, height: usize, width: usize, shapes: &Full) -> (Standing, Making) {
    let mut full = Standing { height, width, states: random.pick(shapes).clone() };
    let making = puzzles::on(random, &mut full);
    (full, making)
}

/// A full board with so many borders taken back that are not given, and now and then another one changed.
pub(super) fn started(random: &mut Random, making: &Making, full: &Standing, open: usize) -> Standing {
    let mut board = full.clone();
    let mut free = free(making);
    random.shuffle(&mut free);
    let (back, rest) = free.split_at(open.min(free.len()));
    back.iter().for_each(|&border| board.states[border] = UNDECIDED);
    if let (Some(&border), true) = (rest.first(), random.chance(1, 8)) {
        board.states[border] = CONNECTED + WALL - board.states[border];
    }
    board
}

/// The puzzles of a size on which all standing sets are compared.
fn makings(random: &mut Random, height: usize, width: usize, shapes: &Full) -> Vec<Making> {
    if border_count(height, width) < 7 || (height > 1 && width > 1) {
        return puzzles::every(height, width);
    }
    let drawn = (0..DRAWN).map(|_| laid(random, height, width, shapes).1);
    [Making::empty(height, width)].into_iter().chain(drawn).collect()
}

/// The empty puzzles of 10 to 17 borders and of 4 by 4, and puzzles drawn on these sizes, most often with rows and columns.
fn sampled(compared: &mut Compared, random: &mut Random, limits: &Limits) {
    let mut sizes: Vec<(usize, usize)> = boards::sizes(17).into_iter().filter(|&(h, w)| border_count(h, w) > 9).collect();
    if limits.borders >= 12 {
        sizes.push((4, 4));
    }
    let judged: Vec<((usize, usize), Full)> = sizes.into_iter().map(|size| (size, shapes(size.0, size.1))).collect();
    for ((height, width), shapes) in &judged {
        let making = Making::empty(*height, *width);
        let board = Standing::all(*height, *width, UNDECIDED);
        compared.standing(random, &making, &right(&making, shapes), &board);
    }
    until(limits.time, || {
        let (size, shapes) = random.pick(&judged);
        if size.0.min(size.1) > 1 || random.chance(1, 4) {
            compared.some_sets(random, *size, shapes);
        }
    });
}

/// A record without given walls and clues whose first borders are Walls.
fn walled(height: usize, width: usize, walls: usize) -> PuzzleRecord {
    let names = ledger::singles(&Vec::from_iter(0..walls as u16));
    PuzzleRecord::of(&Making::empty(height, width), &vec![WALL; walls], &names)
}

/// Each refusal and what stands just before it, and their order.
fn refusals(compared: &mut Compared) {
    let mut spoilt = walled(5, 5, 0);
    spoilt.board.states[0] = 3;
    let list = [
        (1, walled(0, 3, 0), 1 << 63, 0),
        (1, walled(33, 1, 0), 1, 0),
        (2, spoilt, 1, 0),
        (12, walled(1, 26, 0), 1, 0),
        (12, walled(1, 26, 0), 1, 25),
        (12, walled(5, 5, 15), 0, 0),
        (12, walled(32, 32, 0), usize::MAX, 0),
        (0, walled(1, 26, 1), 1, 25),
        (6, walled(1, 26, 1), 1, 24),
        (0, walled(5, 5, 16), 0, 0),
        (6, walled(5, 5, 16), 1, 39),
        (6, walled(1, 3, 0), 1 << 63, 0),
        (6, walled(1, 3, 0), usize::MAX, 64),
        (6, walled(2, 2, 0), 1 << 62, 64),
        (6, walled(2, 3, 0), usize::MAX / 7 + 1, 64),
        (0, walled(1, 1, 0), usize::MAX, 0),
    ];
    list.into_iter().for_each(|(code, record, cap, room)| compared.code(code, record, cap, room));
}

/// A damaged record with a buffer that may be too short; one that is accepted is called on where few borders are undecided.
fn damaged(compared: &mut Compared, random: &mut Random) {
    let (board, making) = puzzles::drawn(random, 1, 8);
    let record = puzzles::record(random, &board, &making);
    let record = puzzles::damaged(random, record);
    let cap = *random.pick(&[0, 1, 2, 1 << 63, usize::MAX]);
    let room = *random.pick(&[0, 1, board.states.len(), 2 * board.states.len()]);
    let code = refusal(&record, cap, room);
    if code != 0 || undecided(&record) < 8 {
        compared.code(code, record, cap, room);
    }
}

pub fn run(limits: &Limits) -> Tally {
    let mut compared = Compared::new(Tally::new("right_boards"));
    let random = &mut Random::new(limits.seed);
    let mut puzzles = 0;
    for (height, width) in boards::sizes(limits.borders.min(9)) {
        let shapes = shapes(height, width);
        let makings = makings(random, height, width, &shapes);
        puzzles += makings.len();
        makings.iter().for_each(|making| compared.every_set(random, making, &shapes));
    }
    compared.told(&format!("{puzzles} puzzles of up to 9 borders"));
    sampled(&mut compared, random, limits);
    compared.told("10 to 17 borders, and 4 by 4");
    until(limits.time / 2, || {
        let most = *random.pick(&[4, 8, 16, 32]);
        compared.few_open(random, most);
    });
    compared.told("to 32 by 32, few undecided");
    refusals(&mut compared);
    until(limits.time / 4, || damaged(&mut compared, random));
    compared.tally.done()
}

/// Makes a puzzle and decides what stands on it.
fn store(sample: &mut Sample, making: &Making, board: &Standing) {
    sample.lists(&making.given, &making.clues);
    sample.call(puzzle::making_call(making.kind), making.height, making.width, making.refusal());
    let mut rust = Puzzle::new(making.height, making.width, &making.walls(), &making.clues, true).expect("made");
    for border in free(making).into_iter().filter(|&border| board.states[border] != UNDECIDED) {
        let state = board.states[border];
        sample.call("pd", border, state as usize, code(&rust.decide(border, state == WALL)));
    }
}

/// The right boards over what stands, a word of digits a board, with caps of 0, 1, one less than all, all and one more, each into
/// just the bytes that it needs; and once into a byte less.
pub(super) fn store_boards(sample: &mut Sample, making: &Making, right: &Full, board: &Standing) {
    store(sample, making, board);
    let over = over(right, board);
    let (borders, all) = (board.states.len(), over.len());
    for cap in BTreeSet::from([0, 1, all.saturating_sub(1), all, all + 1]) {
        let boards = expected(&over, cap);
        let words = boards.bytes.chunks(borders.max(1)).map(|board| board.iter().map(u8::to_string).collect::<String>());
        let words = numbers(&words.collect::<Vec<_>>());
        sample.call("pb", cap, cap * borders, format!("0 {} {}{words}", boards.count, boards.more as u8));
    }
    if borders > 0 {
        sample.call("pb", all + 1, (all + 1) * borders - 1, 6);
    }
}

/// Sizes to 9 borders, and 3 by 3: the empty puzzle, and drawn ones with some borders decided, most with two rows and columns. Then
/// refusals.
pub fn sample(sample: &mut Sample) {
    let random = &mut Random::new(24);
    for (height, width) in boards::sizes(9).into_iter().chain([(3, 3)]) {
        let shapes = shapes(height, width);
        let making = Making::empty(height, width);
        store_boards(sample, &making, &right(&making, &shapes), &Standing::all(height, width, UNDECIDED));
        // nothing is drawn at 1 by 1, whose only board is not right
        let drawn = if height > 1 && width > 1 { 8 } else { shapes.len().min(1) };
        for _ in 0..drawn {
            let (full, making) = laid(random, height, width, &shapes);
            let open = random.below(full.states.len() + 1);
            let board = started(random, &making, &full, open);
            store_boards(sample, &making, &right(&making, &shapes), &board);
        }
    }
    for (width, cap) in [(26, 0), (26, 1), (3, LARGEST)] {
        store(sample, &Making::empty(1, width), &Standing::all(1, width, UNDECIDED));
        sample.call("pb", cap, 0, refusal(&walled(1, width, 0), cap, 0));
    }
}
