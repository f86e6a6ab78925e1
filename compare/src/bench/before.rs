//! Asks, and a puzzle's decide and undo, of another archive, as that of an earlier commit, and of this one, in one run.
use super::asked::{boards, later, puzzles, unfit, SIDES};
use super::calls::Laid;
use super::paper::{self, micros, number, Pair, Row};
use super::turns::FRESH;
use super::{add, archive, both, by_sides, row};
use crate::boards::{Standing, CONNECTED, UNDECIDED, WALL};
use crate::port::{self, Archive, Told};
use crate::random::Random;
use crate::reference::NO_CLUE;
use std::hint::black_box;
use std::path::Path;

/// Both times of an ask; both archives must answer alike.
fn asked(places: usize, old: impl Fn(&mut [u16]) -> Told, new: impl Fn(&mut [u16]) -> Told) -> Pair {
    let (mut theirs, mut ours) = (vec![0; places], vec![0; places]);
    assert_eq!(old(&mut theirs), new(&mut ours), "answers");
    assert_eq!(theirs, ours, "lists");
    both(|| old(&mut theirs), || new(&mut ours))
}

/// All asks of a side, by name.
fn asks(side: usize, old: &Archive, new: &Archive) -> Vec<(&'static str, Pair)> {
    let places = 9 * side * side;
    let on_board = |(name, board): (&'static str, Standing)| {
        let board = port::Board::standing(side, side, &board.states);
        let before = old.board(board);
        (name, asked(places, |buffer| old.board_ask(&before, buffer), |buffer| new.board_ask(&board, buffer)))
    };
    let on_puzzle = |(name, laid): (&'static str, Laid)| {
        let puzzle = laid.port();
        let before = old.puzzle(puzzle);
        let now = new.puzzle(puzzle);
        (name, asked(places, |buffer| old.puzzle_ask(&before, buffer), |buffer| new.puzzle_ask(&now, buffer)))
    };
    let shapes = boards(side).into_iter().chain(later(side)).chain(unfit(side)).map(on_board);
    shapes.chain(puzzles(side).into_iter().map(on_puzzle)).collect()
}

/// The sides of puzzles on which a border is decided and undone.
const TURN_SIDES: [usize; 6] = [4, 6, 10, 16, 20, 32];

/// One room without a clue, of whose borders two thirds are drawn.
fn drawn(side: usize) -> Laid {
    let random = &mut Random::new(16);
    let mut laid = Laid::one_room(side, UNDECIDED, NO_CLUE as usize);
    laid.board.states.iter_mut().for_each(|state| *state = *random.pick(&[UNDECIDED, CONNECTED, WALL]));
    laid
}

/// A decide and an undo of the first undecided border: the other archive's by value, and this one's in place.
fn turned(laid: &Laid, old: &Archive, new: &Archive) -> Pair {
    let border = laid.board.states.iter().position(|&state| state == UNDECIDED).expect("an undecided border");
    let (fresh, before) = (laid.port(), old.puzzle(laid.port()));
    let (mut theirs, mut ours) = (before, fresh);
    let times = both(|| old.turn(&mut theirs, black_box(border)), || new.turn_in_place(&mut ours, black_box(border)));
    assert!(theirs == before && ours == fresh, "an undo takes back what was decided");
    times
}

/// On puzzles of the sides, fresh and drawn.
fn turns(old: &Archive, new: &Archive) -> Vec<Row<Vec<Pair>>> {
    let kinds = FRESH.into_iter().chain([("one room, no clue, two thirds drawn", drawn as fn(usize) -> Laid)]);
    kinds.map(|(name, laid)| row(name, TURN_SIDES.map(|side| turned(&laid(side), old, new)).to_vec())).collect()
}

fn least(rows: &[Row<Vec<Pair>>]) -> f64 {
    rows.iter().flat_map(|row| row.times.iter().map(|times| times.ratio())).fold(f64::MAX, f64::min)
}

/// Prints a puzzle's decide and undo in place, and the asks of this archive, with the ratios to those of another by value.
pub fn run(other: &Path) {
    let folder = archive().parent().expect("a folder").to_path_buf();
    let old = Archive::load(other, &folder, "before");
    let new = Archive::load(&archive(), &folder, "now");
    let turned = turns(&old, &new);
    println!("µs of a decide and an undo in place now, and by value before by that in brackets\n");
    println!("{}\nleast ratio {}\n", paper::grid("puzzle", &by_sides(&TURN_SIDES), &turned), number(least(&turned)));
    let mut rows: Vec<Row<Vec<Pair>>> = vec![];
    for side in SIDES {
        for (name, times) in asks(side, &old, &new) {
            println!(
                "{side} by {side}, {name}: {} µs, before {}, ratio {:.2}",
                micros(times.port),
                micros(times.rust),
                times.ratio()
            );
            add(&mut rows, name, times);
        }
    }
    println!("\nµs now, and before by now in brackets\n\n{}", paper::grid("ask", &by_sides(&SIDES), &rows));
    println!("least ratio {}", number(least(&rows)));
}
