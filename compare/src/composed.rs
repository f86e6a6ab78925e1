//! Puzzles with four clued rooms, composed from a right board.
use crate::boards::{Standing, CONNECTED};
use crate::puzzles::{units_in, Making};
use crate::random::Random;
use crate::reference::rooms;

/// A rectangle of cells: its first row and column, and its sides.
type Rectangle = (usize, usize, usize, usize);

/// The most cells of a rectangle that is cut into like units.
const LARGEST: usize = 12;

/// How many rooms a puzzle has.
const ROOMS: usize = 4;

/// Cuts a rectangle into smaller ones, and those into strips of one shape. `units` has the unit of each cell.
fn cut(random: &mut Random, (top, left, height, width): Rectangle, side: usize, units: &mut [usize]) {
    let (along, other) = if height >= width { (height, width) } else { (width, height) };
    if height * width > LARGEST {
        // no part is one cell alone
        let at = if other > 1 { random.within(1, along - 1) } else { random.within(2, along - 2) };
        let parts = if height >= width {
            [(top, left, at, width), (top + at, left, height - at, width)]
        } else {
            [(top, left, height, at), (top, left + at, height, width - at)]
        };
        return parts.into_iter().for_each(|part| cut(random, part, side, units));
    }
    let strips = |length: usize| (2..=length).filter(move |n| length % n == 0);
    let ways: Vec<(usize, usize)> =
        strips(height).map(|n| (height / n, width)).chain(strips(width).map(|n| (height, width / n))).collect();
    let &(tall, wide) = random.pick(&ways);
    for y in top..top + height {
        for x in left..left + width {
            let (first, second) = (top + (y - top) / tall * tall, left + (x - left) / wide * wide);
            units[y * side + x] = first * side + second;
        }
    }
}

/// Room numbers of the cells: rooms grow by whole units from four of them, the smallest first.
fn grown(random: &mut Random, board: &Standing, units: &[usize]) -> Vec<usize> {
    let mut starts = units.to_vec();
    starts.sort();
    starts.dedup();
    random.shuffle(&mut starts);
    let mut room: Vec<Option<usize>> = vec![None; units.len()];
    let join = |room: &mut Vec<Option<usize>>, unit: usize, to: usize| {
        (0..units.len()).filter(|&cell| units[cell] == unit).for_each(|cell| room[cell] = Some(to));
    };
    (0..ROOMS).for_each(|to| join(&mut room, starts[to], to));
    let beside: Vec<(usize, usize)> = (0..board.states.len()).map(|border| board.beside(border)).collect();
    while room.contains(&None) {
        let size = |to: usize| room.iter().filter(|&&of| of == Some(to)).count();
        let ways = |to: usize| -> Vec<usize> {
            let both = beside.iter().flat_map(|&(a, b)| [(a, b), (b, a)]);
            both.filter(|&(a, b)| room[a] == Some(to) && room[b].is_none()).map(|(_, b)| units[b]).collect()
        };
        let to = (0..ROOMS).filter(|&to| !ways(to).is_empty()).min_by_key(|&to| size(to)).expect("a room grows");
        let unit = *random.pick(&ways(to));
        join(&mut room, unit, to);
    }
    room.into_iter().map(|room| room.expect("a room")).collect()
}

/// A puzzle of a side with four clued rooms, and a right board of it.
pub fn four_rooms(seed: u64, side: usize) -> (Making, Standing) {
    let random = &mut Random::new(seed);
    let mut units = vec![0; side * side];
    cut(random, (0, 0, side, side), side, &mut units);
    let board = Standing::parted(side, side, CONNECTED, |y, x| units[y * side + x]);
    let room = grown(random, &board, &units);
    let parts = |&border: &usize| {
        let (one, other) = board.beside(border);
        room[one] != room[other]
    };
    let given: Vec<usize> = (0..board.states.len()).filter(parts).collect();
    let clues = units_in(&board, &rooms(side, side, &given)).into_iter().map(|held| held as u16).collect();
    let given = given.iter().map(|&border| border as u16).collect();
    (Making { given, clues, ..Making::empty(side, side) }, board)
}
