//! Which full boards are right, by SPEC 2 and 14.3 alone: a unit is a set of cells, and what it looks like, turned or mirrored, is drawn.
use crate::boards::{Standing, WALL};
use crate::kinds::Kind;
use crate::puzzles::{units_in, Making};
use crate::reference::{rooms, NO_CLUE};
use std::collections::BTreeSet;

/// Rows of `#` where a cell is in the set and `.` where none is, no wider and no higher than the set: where it was moved to doesn't show.
type Drawing = Vec<String>;

fn drawing(cells: &BTreeSet<(usize, usize)>) -> Drawing {
    let rows = cells.iter().map(|cell| cell.0);
    let columns = cells.iter().map(|cell| cell.1);
    let (top, bottom) = (rows.clone().min().expect("a cell"), rows.max().expect("a cell"));
    let (left, right) = (columns.clone().min().expect("a cell"), columns.max().expect("a cell"));
    let row = |y| (left..=right).map(|x| if cells.contains(&(y, x)) { '#' } else { '.' }).collect();
    (top..=bottom).map(row).collect()
}

fn mirrored(drawing: &Drawing) -> Drawing {
    drawing.iter().map(|row| row.chars().rev().collect()).collect()
}

/// A quarter turn clockwise.
fn turned(drawing: &Drawing) -> Drawing {
    let column = |x: usize| drawing.iter().rev().map(|row| row.as_bytes()[x] as char).collect();
    (0..drawing[0].len()).map(column).collect()
}

/// What a partner may look like.
fn partners(drawing: Drawing, kind: Kind) -> BTreeSet<Drawing> {
    if kind == Kind::Translates {
        return BTreeSet::from([drawing]);
    }
    let mirror = mirrored(&drawing);
    let turns = |start: Drawing| std::iter::successors(Some(start), |last| Some(turned(last))).take(4);
    turns(drawing).chain(turns(mirror)).collect()
}

/// Whether a full board obeys the second and the third law of a kind: no Wall has one unit on both sides, and for each unit there is another
/// that is its translate, or its image, and has a Wall in common with it.
pub fn right_shape(board: &Standing, kind: Kind) -> bool {
    let unit = board.units();
    let cells = |number: usize| -> BTreeSet<(usize, usize)> {
        (0..board.cells()).filter(|&cell| unit[cell] == number).map(|cell| (cell / board.width, cell % board.width)).collect()
    };
    let walls = (0..board.states.len()).filter(|&border| board.states[border] == WALL);
    let walls: BTreeSet<(usize, usize)> = walls.map(|border| board.beside(border)).map(|(a, b)| (unit[a], unit[b])).collect();
    let drawn = |number: usize| drawing(&cells(number));
    let has_partner = |number: usize| {
        let partners = partners(drawn(number), kind);
        let others = walls.iter().filter(|(a, b)| *a == number || *b == number).map(|(a, b)| a + b - number);
        others.into_iter().any(|other| partners.contains(&drawn(other)))
    };
    let numbers: BTreeSet<usize> = unit.iter().copied().collect();
    walls.iter().all(|(a, b)| a != b) && numbers.into_iter().all(has_partner)
}

/// Whether such a board obeys the first and the fourth law of a puzzle: given walls are Wall, and each clued room has as many units as its clue says.
pub fn right_rooms(board: &Standing, making: &Making) -> bool {
    let walled = making.given.iter().all(|&border| board.states[border as usize] == WALL);
    let held = units_in(board, &rooms(making.height, making.width, &making.walls()));
    walled && held.iter().zip(&making.clues).all(|(&held, &clue)| clue == NO_CLUE || held == clue as usize)
}
