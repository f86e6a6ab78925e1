//! Puzzles whose partners are images (SPEC 14): the Rust has no such kind, so asks are held to `images.rs`, whose first image alone is held to the
//! Rust's check, and full boards to `laws.rs`.
//! - Three boards with their answers written out.
//! - Every full board of up to 12 borders, and of up to 17 with two rows and columns: right or not by the laws, for translates too.
//! - Every standing set of up to 9 borders, and of up to 12 with two rows and columns: its list, that a fault excludes no right board, and that
//!   the listed entries alone are the same fault again.
//! - The right boards over what stands, of these sizes, on drawn puzzles.
//! - Boards and puzzles to 32 by 32, as layer `puzzle` has them, and boards of pairs.
use super::puzzle::{self, every_set, random_record, random_run, structured};
use super::right_boards::{self, extensions, laid, started, store_boards, Full};
use super::strokes::{self, Cuttings};
use super::{until, Limits, SIZES};
use crate::answers::Answer;
use crate::boards::{self, border_count, Standing, CONNECTED, UNDECIDED, WALL};
use crate::images::{self, Check, Pictures};
use crate::kinds::{Kind, KINDS};
use crate::laws;
use crate::ledger::{border, is_wall, singles};
use crate::pairs;
use crate::port::{self, PuzzleRecord};
use crate::puzzles::{self, Making};
use crate::random::Random;
use crate::reference::Board;
use crate::runs::Call;
use crate::sample::{Sample, LARGEST};
use crate::tally::Tally;

/// Boards by size and states, with their lists. On the first one each image fails twice, and no repeat is left out. The second is the smallest that
/// tells turns the other way, a mirror after the turn and a mirror of the rows. On the last one the unit of the cells 1 and 2 falls on 3 and 4 by two
/// images, and only the later one is good there: an image whose cells an earlier one had may not be left out.
const WRITTEN: [((usize, usize), &[u8], Option<&[u16]>); 3] = [
    ((1, 3), &[2, 1], Some(&[2, 2, 2, 2, 2, 2, 2, 2, 2, 2, 2, 2, 2, 2, 2, 2, 1, 1, 1])),
    ((1, 4), &[2, 1, 1], Some(&[2, 2, 4, 2, 4, 4, 2, 4, 4, 2, 2, 4, 2, 4, 4, 2, 4, 4, 2, 2, 4, 2, 2, 4, 1, 1, 1])),
    ((2, 3), &[2, 1, 1, 0, 1, 0, 0], None),
];

/// What stands, on a puzzle in one room without a clue.
fn ask(kind: Kind, board: &Standing) -> Result<Answer, u8> {
    let decided: Vec<u16> = (0..board.states.len() as u16).filter(|&border| board.states[usize::from(border)] != UNDECIDED).collect();
    let making = Making::empty(board.height, board.width).of_kind(kind);
    port::Puzzle(PuzzleRecord::of(&making, &board.states, &singles(&decided))).ask(making.places())
}

fn answer(list: Option<Vec<u16>>) -> Answer {
    list.map_or(Answer::Clear, Answer::Shape)
}

/// The entries of `pairs::cornered` at 32 by 32: 8 images on 1,023 cells, the 2 Walls of the unit, and each of 963 Walls for both potential units
/// beside it.
const CORNERED: usize = 8 * 1023 + 2 + 2 * 963;

fn written(tally: &mut Tally) {
    let length = |answer| if let Ok(Answer::Shape(list)) = answer { list.len() } else { 0 };
    tally.same(&CORNERED, &length(ask(Kind::Images, &pairs::cornered(32, 32))), || "a cell between two combs".into());
    for ((height, width), states, list) in WRITTEN {
        tally.case();
        let board = Standing { height, width, states: states.to_vec() };
        tally.same(&Ok(answer(list.map(<[u16]>::to_vec))), &ask(Kind::Images, &board), || format!("{board:?}"));
    }
}

/// The full boards that are right for each kind, by the laws.
struct Right {
    all: usize,
    translates: usize,
    images: Full,
}

/// Each full board: clear exactly if it is right.
fn full(tally: &mut Tally, (height, width): (usize, usize)) -> Right {
    let (every, pictures) = (extensions(&vec![UNDECIDED; border_count(height, width)]), Pictures::of(height, width));
    let mut right = Right { all: every.len(), translates: 0, images: vec![] };
    for states in every {
        tally.case();
        let board = Standing { height, width, states };
        let is_right = KINDS.map(|kind| laws::right_shape(&board, kind));
        let check = Check::on(&board, &pictures);
        assert_eq!(is_right, [images::FIRST, images::ALL].map(|images| check.fault(images).is_none()), "pictures and laws: {board:?}");
        let clear = KINDS.map(|kind| ask(kind, &board).map(|answer| answer == Answer::Clear));
        tally.same(&is_right.map(Ok), &clear, || format!("{board:?}"));
        let [by_translates, by_images] = is_right;
        assert!(!by_translates || by_images, "a translate is an image: {board:?}");
        right.translates += usize::from(by_translates);
        if by_images {
            right.images.push(board.states);
        }
    }
    right
}

/// The board on which these entries stand, and nothing else.
fn listed(board: &Standing, list: &[u16]) -> Standing {
    let mut listed = Standing::all(board.height, board.width, UNDECIDED);
    list.iter().for_each(|&entry| listed.states[border(entry)] = if is_wall(entry) { WALL } else { CONNECTED });
    listed
}

/// How many standing sets there were, how many of them were faults, and of these those whose list a buffer for translates doesn't hold.
#[derive(Default)]
struct Sets {
    all: u64,
    faults: u64,
    long: u64,
}

impl Sets {
    fn standing(&mut self, tally: &mut Tally, board: &Standing, pictures: &Pictures, right: &Full) {
        tally.case();
        self.all += 1;
        let check = Check::on(board, pictures);
        let rust = Board::standing(board.height, board.width, &board.states).ask();
        assert_eq!(rust, check.fault(images::FIRST), "translates on {board:?}");
        let theirs = Ok(answer(check.fault(images::ALL)));
        let ours = ask(Kind::Images, board);
        tally.same(&theirs, &ours, || format!("{board:?}"));
        let Ok(Answer::Shape(list)) = &ours else { return };
        self.faults += 1;
        self.long += u64::from(list.len() > Kind::Translates.places(board.cells()));
        let listed = listed(board, list);
        let extends = |full: &Vec<u8>| full.iter().zip(&listed.states).all(|(f, &s)| s == UNDECIDED || *f == s);
        tally.same(&None, &right.iter().find(|full| extends(full)), || format!("{list:?} of {board:?} excludes a right board"));
        tally.same(&theirs, &ask(Kind::Images, &listed), || format!("{list:?} of {board:?} again"));
    }
}

/// The sizes with at most so many borders, and so many where there are two rows and columns.
fn sizes(borders: usize, wide: usize) -> impl Iterator<Item = (usize, usize)> {
    boards::sizes(wide).into_iter().filter(move |&(h, w)| h.min(w) > 1 || border_count(h, w) <= borders)
}

/// All boards of small sizes: full ones by the laws, and every standing set. What is right is handed on, by size.
fn every_board(tally: &mut Tally, limits: &Limits) -> Vec<((usize, usize), Full)> {
    let most = limits.borders.min(12);
    let (mut sets, mut rights) = (Sets::default(), vec![]);
    // up to 12 borders, and beyond
    let mut counts = [[0; 3]; 2];
    for (height, width) in sizes(most, if most < 12 { most } else { 17 }) {
        let right = full(tally, (height, width));
        let beyond = usize::from(border_count(height, width) > 12);
        let found = [right.all, right.images.len(), right.images.len() - right.translates];
        counts[beyond].iter_mut().zip(found).for_each(|(count, found)| *count += found);
        rights.push(((height, width), right.images));
    }
    for (part, [all, right, turned]) in ["up to 12 borders", "13 to 17 borders"].iter().zip(counts) {
        println!("images: full boards of {part}: {all}, of which {right} are right, and {turned} of these not for translates");
    }
    for size @ (height, width) in sizes(most.min(9), most) {
        let right = &rights.iter().find(|right| right.0 == size).expect("all sizes").1;
        let pictures = Pictures::of(height, width);
        boards::every(height, width).for_each(|board| sets.standing(tally, &board, &pictures, right));
    }
    let Sets { all, faults, long } = sets;
    println!("images: standing sets: {all}, of which {faults} are faults, {long} with a list that a buffer for translates doesn't hold");
    rights
}

/// Those of some boards with a right shape that are right for a puzzle.
fn right(making: &Making, shapes: &Full) -> Full {
    let (height, width) = (making.height, making.width);
    let obeys = |states: &&Vec<u8>| laws::right_rooms(&Standing { height, width, states: (*states).clone() }, making);
    shapes.iter().filter(obeys).cloned().collect()
}

/// How often something else is drawn on a puzzle.
const SETS: usize = 8;

/// Right boards over what stands: on the empty puzzle of each size, and on puzzles drawn on right boards, with given walls and clues.
fn right_over(tally: Tally, random: &mut Random, limits: &Limits, rights: &[((usize, usize), Full)]) -> Tally {
    let mut compared = right_boards::Compared::new(tally);
    for ((height, width), shapes) in rights {
        let empty = Making::empty(*height, *width).of_kind(Kind::Images);
        compared.standing(random, &empty, shapes, &Standing::all(*height, *width, UNDECIDED));
    }
    until(limits.time / 2, || {
        let ((height, width), shapes) = random.pick(rights);
        // most often two rows and columns; the board of one cell isn't right
        if shapes.is_empty() || *height.min(width) < 2 && !random.chance(1, 8) {
            return;
        }
        let (full, making) = laid(random, *height, *width, shapes);
        let making = making.of_kind(Kind::Images);
        let right = right(&making, shapes);
        for _ in 0..SETS {
            let open = random.below(full.states.len() + 1);
            let board = started(random, &making, &full, open);
            compared.standing(random, &making, &right, &board);
        }
    });
    compared.told("small sizes");
    compared.tally
}

/// By which image units fit first, and how many fit by none.
#[derive(Default)]
struct Seen {
    by: [u64; 8],
    unfit: u64,
    /// Of boards without an inner Wall, those that are clear, and those that are a fault for translates but not for images.
    clear: u64,
    turned: u64,
}

impl Seen {
    fn board(&mut self, board: &Standing) {
        let pictures = Pictures::of(board.height, board.width);
        let check = Check::on(board, &pictures);
        if check.inner_wall().is_some() {
            return;
        }
        let first: Vec<Option<usize>> = check.units().map(|unit| Some(check.fits(&unit, images::ALL).ok()?.image)).collect();
        first.iter().for_each(|image| *image.map_or(&mut self.unfit, |image| &mut self.by[image]) += 1);
        let clear = first.iter().all(Option::is_some);
        self.clear += u64::from(clear);
        self.turned += u64::from(clear && first.iter().any(|image| *image != Some(0)));
    }

    fn print(&self) {
        let Seen { by, unfit, clear, turned } = self;
        println!("images: drawn boards: {clear} clear, {turned} of them not for translates");
        println!("images: their units by the first image in which they fit: {by:?}, in none {unfit}");
    }
}

/// A drawn board, most often with given walls and clues.
fn drawn(random: &mut Random, low: usize, high: usize) -> (Standing, Making) {
    let (height, width) = (random.within(low, high), random.within(low, high));
    let mut board = pairs::drawn(random, height, width);
    let making = if random.chance(1, 4) { Making::empty(height, width) } else { puzzles::on(random, &mut board) };
    (board, making.of_kind(Kind::Images))
}

/// Puzzles as layer `puzzle` has them, and on drawn boards.
fn on_puzzles(compared: &mut puzzle::Compared, random: &mut Random, limits: &Limits) {
    let kind = Kind::Images;
    boards::sizes(limits.borders.min(4)).into_iter().for_each(|size| every_set(compared, random, kind, size));
    SIZES.into_iter().for_each(|size| structured(compared, random, kind, size));
    SIZES.into_iter().for_each(|(height, width)| compared.standing(&Making::empty(height, width).of_kind(kind), &pairs::cornered(height, width)));
    until(limits.time / 2, || random_run(compared, random, kind, 1, 8));
    until(limits.time / 4, || random_record(compared, random, kind));
    let mut seen = Seen::default();
    until(limits.time, || {
        let most = *random.pick(&[4, 6, 8, 8]);
        let (board, making) = drawn(random, 1, most);
        seen.board(&board);
        compared.standing(&making, &board);
    });
    until(limits.time, || {
        let low = *random.pick(&[1, 9, 25]);
        let (board, making) = drawn(random, low, 32);
        compared.standing(&making, &board);
    });
    until(limits.time / 4, || random_run(compared, random, kind, 32, 32));
    seen.print();
}

/// The calls that draw a board on a puzzle, in rising order.
fn drawing(board: &Standing, making: &Making) -> Vec<Call> {
    let entries = puzzles::entries(board, making);
    entries.into_iter().map(|entry| Call::Decide { border: border(entry), wall: is_wall(entry) }).collect()
}

/// The boards that are written out, drawn ones with other calls among them, spoilt makings, and a cell between combs; then right boards of small sizes.
pub fn sample(sample: &mut Sample) {
    let random = &mut Random::new(14);
    let written = WRITTEN.iter().map(|((height, width), states, _)| Standing { height: *height, width: *width, states: states.to_vec() });
    for board in written.chain([pairs::cornered(6, 5)]) {
        let making = Making::empty(board.height, board.width).of_kind(Kind::Images);
        puzzle::store(sample, random, &making, &drawing(&board, &making));
    }
    for turn in 0..48 {
        let (board, making) = drawn(random, 1, 5);
        let making = if turn % 6 == 5 { puzzles::spoilt(random, making) } else { making };
        let making = Making { height: making.height.min(LARGEST), width: making.width.min(LARGEST), ..making };
        let calls = puzzles::towards(random, &board, 16);
        puzzle::store(sample, random, &making, &calls);
    }
    for (height, width) in [(2, 2), (2, 3), (3, 2), (2, 4), (3, 3)] {
        let every = extensions(&vec![UNDECIDED; border_count(height, width)]);
        let is_right = |states: &Vec<u8>| laws::right_shape(&Standing { height, width, states: states.clone() }, Kind::Images);
        let shapes: Full = every.into_iter().filter(is_right).collect();
        let empty = Making::empty(height, width).of_kind(Kind::Images);
        store_boards(sample, &empty, &shapes, &Standing::all(height, width, UNDECIDED));
        for _ in 0..4 {
            let (full, making) = laid(random, height, width, &shapes);
            let making = making.of_kind(Kind::Images);
            let open = random.below(full.states.len() + 1);
            let board = started(random, &making, &full, open);
            store_boards(sample, &making, &right(&making, &shapes), &board);
        }
    }
}

pub fn run(limits: &Limits) -> Tally {
    let random = &mut Random::new(limits.seed);
    let mut tally = Tally::new("images");
    written(&mut tally);
    let rights = every_board(&mut tally, limits);
    tally = right_over(tally, random, limits, &rights);
    let mut compared = puzzle::Compared::of(tally);
    on_puzzles(&mut compared, random, limits);
    compared.told();
    let (mut tally, mut count) = (compared.tally, Cuttings::default());
    until(limits.time / 2, || {
        let (board, making) = drawn(random, 1, 8);
        strokes::on_puzzle(&mut tally, random, &mut count, &making, &board);
    });
    println!("images: {} cuttings asked, {} of a fault's borders again", count.asked, count.again);
    tally.done()
}
