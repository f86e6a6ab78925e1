//! Buffers exactly long enough, longer, one short and empty. A list fills the front, and the other places stay.
use super::{board, marked, refused, KINDS, UNTOUCHED};
use crate::{hand_over, Edge, Kind, Puzzle, Refusal, RoomGraph, NO_CLUE};

/// Lends a call buffers of several lengths, of which `places` is just enough; it answers how many it filled.
fn lent(places: usize, call: impl Fn(&mut [u16]) -> Result<usize, Refusal>) -> Vec<u16> {
    let mut exact = marked(places);
    let filled = call(&mut exact).unwrap();
    let mut longer = marked(places + 3);
    assert_eq!(call(&mut longer), Ok(filled));
    assert_eq!(longer[..filled], exact[..filled]);
    assert!(exact[filled..].iter().chain(&longer[filled..]).all(|&place| place == UNTOUCHED));
    if places > 0 {
        refused(6, places - 1, |buffer| call(buffer).map(drop));
        refused(6, 0, |buffer| call(buffer).map(drop));
    }
    exact.truncate(filled);
    exact
}

#[test]
fn lists_of_a_board() {
    let board = board(1, 3, &[(0, true), (1, false)]);
    assert_eq!(board.list_len(), 27);
    assert_eq!(lent(27, |b| Ok(board.ask(b)?.map_or(0, |fault| fault.list.len()))), [2, 2, 1, 1, 1]);
    assert_eq!(lent(27, |b| Ok(board.path(2, 1, b)?.len())), [2]);
    assert_eq!(lent(27, |b| Ok(board.path(2, 2, b)?.len())), []);
    assert_eq!(lent(27, |b| Ok(board.unit_boundary(1, b)?.len())), [2, 1]);
    assert_eq!(lent(27, |b| Ok(board.potential_unit_boundary(0, b)?.len())), [1]);
    assert_eq!(lent(3, |b| Ok(board.units(b)?.cells().len())), [0, 1, 2]);
    assert_eq!(lent(3, |b| Ok(board.potential_units(b)?.cells().len())), [0, 1, 2]);
}

#[test]
fn a_clear_answer_writes_nothing() {
    let board = board(4, 4, &[(3, true)]);
    assert_eq!(lent(144, |b| Ok(board.ask(b)?.map_or(0, |_| 1))), []);
}

#[test]
fn a_puzzles_list() {
    for (kind, places) in [(Kind::Translates, 36), (Kind::Images, 64)] {
        let mut puzzle = Puzzle::of_kind(kind, 2, 2, &[], &[1]).unwrap();
        assert_eq!((puzzle.list_len(), puzzle.board().list_len()), (places, 36));
        puzzle.decide(0, true).unwrap();
        assert_eq!(lent(places, |b| Ok(puzzle.ask(b)?.map_or(0, |_| 1))), []);
        puzzle.decide(2, true).unwrap();
        assert_eq!(lent(places, |b| Ok(puzzle.ask(b)?.map_or(0, |fault| fault.list.len()))), [5, 1]);
    }
}

/// The unit of one cell has eight images, all alike: each is tried on both other cells.
#[test]
fn lists_of_both_kinds() {
    for (kind, places, images) in [(Kind::Translates, 27, 1), (Kind::Images, 48, 8)] {
        let mut puzzle = Puzzle::of_kind(kind, 1, 3, &[], &[NO_CLUE]).unwrap();
        puzzle.stroke(&[(0, true), (1, false)]).unwrap();
        let list = lent(places, |b| Ok(puzzle.ask(b)?.map_or(0, |fault| fault.list.len())));
        assert_eq!(list, [&vec![2; 2 * images][..], &[1; 3]].concat());
    }
}

#[test]
fn a_rooms_list() {
    let mut room = RoomGraph::of_edges(2, &[Edge { u: 0, v: 1 }; 3], 1).unwrap();
    for edge in 0..3 {
        room.decide(edge, true).unwrap();
    }
    assert_eq!(lent(3, |b| Ok(room.ask(b)?.map_or(0, <[u16]>::len))), [1, 3, 5]);
    let none = RoomGraph::of_edges(1, &[], 0).unwrap();
    assert_eq!(lent(0, |b| Ok(none.ask(b)?.map_or(9, <[u16]>::len))), []);
}

#[test]
fn handed_over() {
    assert_eq!(lent(6, |b| Ok(hand_over(&[9, 65535, 0, 9, 3, 0], b)?.len())), [0, 3, 9, 65535]);
    assert_eq!(lent(0, |b| Ok(hand_over(&[], b)?.len())), []);
}

#[test]
fn a_groups_cells() {
    let board = board(2, 3, &[(0, false), (1, false)]);
    let mut cells = marked(6);
    let units = board.units(&mut cells).unwrap();
    assert_eq!((units.count(), units.starts()), (4, &[0, 3, 4, 5][..]));
    let mut out = marked(4);
    assert_eq!(units.group(0, &mut out), [0, 1, 2]);
    assert_eq!(out, [0, 1, 2, UNTOUCHED]);
    out.fill(UNTOUCHED);
    assert_eq!(units.group(0, &mut out[..2]), []);
    assert_eq!(units.group(0, &mut []), []);
    assert_eq!(out, marked(4));
    assert_eq!(units.group(3, &mut out[..1]), [5]);
}

/// The largest board, and every list of a puzzle on it.
#[test]
fn limits() {
    for (kind, places) in KINDS.into_iter().zip([crate::MAX_LIST, crate::MAX_LIST_IMAGES]) {
        let mut puzzle = Puzzle::of_kind(kind, 32, 32, &[], &[NO_CLUE]).unwrap();
        assert_eq!((puzzle.list_len(), puzzle.borders()), (places, crate::MAX_BORDERS));
        for border in 0..puzzle.borders() {
            puzzle.decide(border, border % 31 == 0).unwrap();
        }
        assert_eq!(puzzle.ledger().count(), 1984);
        assert_eq!(puzzle.check(), Ok(()));
        let list = lent(places, |b| Ok(puzzle.ask(b)?.map_or(0, |fault| fault.list.len())));
        assert!(!list.is_empty());
    }
}
