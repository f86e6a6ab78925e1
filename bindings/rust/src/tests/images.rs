//! Puzzles of images beside those of translates: what a kind changes, and each of the eight images by itself.
use super::KINDS;
use crate::{Kind, Puzzle, NO_CLUE};
use std::collections::BTreeSet;

type Cell = (i32, i32);
type Unit = BTreeSet<Cell>;

/// A unit of four cells whose eight images are all different, and one that is none of them.
const CORNER: [Cell; 4] = [(2, 3), (3, 3), (4, 3), (4, 4)];
const SQUARE: [Cell; 4] = [(2, 3), (2, 4), (3, 3), (3, 4)];

/// A side of the boards.
const SIDE: i32 = 7;

#[test]
fn a_kind_is_kept() {
    let [translates, images] = KINDS.map(|kind| Puzzle::of_kind(kind, 1, 4, &[1], &[1, NO_CLUE]).unwrap());
    assert_eq!(translates, Puzzle::make(1, 4, &[1], &[1, NO_CLUE]).unwrap());
    assert_ne!(translates, images);
    assert_eq!((translates.kind(), images.kind()), (Kind::Translates, Kind::Images));
    assert_eq!((images.height(), images.width(), images.given(), images.clues()), (1, 4, &[1][..], &[1, NO_CLUE][..]));
    let mut drawn = images.clone();
    drawn.stroke(&[(2, false), (0, true)]).unwrap();
    drawn.decide(1, true).unwrap_err();
    assert_eq!(drawn.kind(), Kind::Images);
    drawn.undo().unwrap();
    assert_eq!(drawn, images);
}

/// A unit of two cells falls on the same two cells as two of its images and is good there by the later one alone.
#[test]
fn by_the_later_image() {
    let mut puzzle = Puzzle::of_kind(Kind::Images, 2, 3, &[], &[NO_CLUE]).unwrap();
    puzzle.stroke(&[(0, true), (1, false), (2, false), (4, false)]).unwrap();
    assert_eq!(puzzle.ask(&mut [0; 96]), Ok(None));
}

/// A unit turned clockwise by a quarter turn as often as `image` modulo 4 says, mirrored left to right before that from 4 on.
fn image(unit: &[Cell], image: usize) -> Vec<Cell> {
    let mirrored = |&(y, x): &Cell| if image < 4 { (y, x) } else { (y, -x) };
    let turned = |cell: Cell| (0..image % 4).fold(cell, |(y, x), _| (x, -y));
    unit.iter().map(mirrored).map(turned).collect()
}

/// A unit at every place of the board.
fn placed(unit: &[Cell]) -> impl Iterator<Item = Unit> + '_ {
    let (top, left) = (unit.iter().map(|cell| cell.0).min().unwrap(), unit.iter().map(|cell| cell.1).min().unwrap());
    let places = (0..SIDE).flat_map(|y| (0..SIDE).map(move |x| (y, x)));
    let units = places.map(move |(down, right)| unit.iter().map(|&(y, x)| (y - top + down, x - left + right)).collect());
    units.filter(|unit: &Unit| unit.iter().all(|cell| cell.0.max(cell.1) < SIDE))
}

fn beside((y, x): Cell) -> [Cell; 4] {
    [(y - 1, x), (y + 1, x), (y, x - 1), (y, x + 1)]
}

fn touch(one: &Unit, other: &Unit) -> bool {
    one.iter().any(|&cell| beside(cell).iter().any(|next| other.contains(next)))
}

/// What an ask of this kind says of the full board on which two units stand and every other cell is a unit by itself: whether it is clear.
fn clear(kind: Kind, units: [&Unit; 2]) -> bool {
    let joined = |one, other| units.iter().any(|unit| unit.contains(&one) && unit.contains(&other));
    let right = (0..SIDE).flat_map(|y| (0..SIDE - 1).map(move |x| ((y, x), (y, x + 1))));
    let below = (0..SIDE - 1).flat_map(|y| (0..SIDE).map(move |x| ((y, x), (y + 1, x))));
    let stroke: Vec<_> = right.chain(below).enumerate().map(|(border, (one, other))| (border, !joined(one, other))).collect();
    let mut puzzle = Puzzle::of_kind(kind, SIDE as usize, SIDE as usize, &[], &[NO_CLUE]).unwrap();
    puzzle.stroke(&stroke).unwrap();
    let answer = puzzle.ask(&mut vec![0; puzzle.list_len()]).unwrap().is_none();
    answer
}

/// A unit with another one at every place of the board: for each kind they are partners where they share a Wall and the kind says so. How often
/// they share one. Left out are boards on which a cell by itself has no other beside it.
fn tried(unit: &Unit, other: &[Cell], are_partners: [bool; 2]) -> usize {
    let mut touching = 0;
    for other in placed(other).filter(|other| unit.is_disjoint(other)) {
        let taken = |cell: &Cell| unit.contains(cell) || other.contains(cell);
        let single: Unit = placed(&[(0, 0)]).flatten().filter(|cell| !taken(cell)).collect();
        if !single.iter().all(|&cell| touch(&[cell].into(), &single)) {
            continue;
        }
        for (kind, are_partners) in KINDS.into_iter().zip(are_partners) {
            assert_eq!(clear(kind, [unit, &other]), are_partners && touch(unit, &other), "{kind:?}: {other:?}");
        }
        touching += usize::from(touch(unit, &other));
    }
    touching
}

/// All eight images of a unit are partners, of translates only the one that is neither turned nor mirrored.
#[test]
fn each_image() {
    let unit = Unit::from(CORNER);
    for number in 0..8 {
        assert!(tried(&unit, &image(&CORNER, number), [number == 0, true]) > 8);
    }
    assert!(tried(&unit, &SQUARE, [false, false]) > 8);
}
