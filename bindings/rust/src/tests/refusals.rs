//! Each refusal of each call by its number, with record and buffer as they were. Damaged records are made here: the public types
//! can't be damaged.
use super::{board, refused, KINDS};
use crate::{hand_over, neighbour, sys, Board, Direction, Edge, Groups, Kind, Puzzle, Refusal, RoomGraph, Union, NO_CLUE};
use std::fmt::Debug;

/// A changing call that must be refused by this number and leave the record as it was.
fn kept<R: Clone + PartialEq + Debug, T: Debug>(number: u8, record: &R, call: impl FnOnce(&mut R) -> Result<T, Refusal>) {
    let mut after = record.clone();
    assert_eq!(call(&mut after).map_err(|refusal| refusal as u8).unwrap_err(), number);
    assert_eq!(after, *record);
}

/// A change that spoils a record, and the number by which every call then refuses it.
pub(super) type Damage<R> = (u8, fn(&mut R));

/// Strokes for records that are refused whatever the stroke: empty, good, and bad in each way.
const STROKES: [&[(usize, bool)]; 5] = [&[], &[(0, true)], &[(0, true), (0, true)], &[(1, true)], &[(usize::MAX, true)]];

/// A refused making.
fn not_made<R: Debug>(number: u8, made: Result<R, Refusal>) {
    assert_eq!(made.unwrap_err() as u8, number);
}

/// Boards that are refused whatever is asked of them, each with the number.
fn bad_boards() -> Vec<(u8, Board)> {
    let with = |number, damage: fn(&mut sys::Board)| {
        let mut bad = board(2, 3, &[(1, true), (4, false)]);
        damage(&mut bad.0);
        (number, bad)
    };
    vec![
        with(1, |b| b.height = 0),
        with(1, |b| b.width = 33),
        with(1, |b| b.height = usize::MAX),
        with(2, |b| b.states[1] = 3),
        with(2, |b| b.states[0] = 1),
        with(2, |b| b.ledger[0] = 9),
        with(2, |b| b.ledger[0] = 15),
        with(2, |b| b.ledger[0] = 2),
        with(2, |b| b.len = 1),
        with(2, |b| b.len = usize::MAX),
    ]
}

#[test]
fn boards() {
    not_made(1, Board::make(0, 1));
    not_made(1, Board::make(1, 33));
    let good = board(2, 3, &[(1, true)]);
    kept(3, &good, |b| b.decide(7, true));
    kept(3, &good, |b| b.decide(usize::MAX, true));
    kept(4, &good, |b| b.decide(1, false));
    kept(14, &good, |b| b.stroke(&[(0, true), (0, false)]));
    kept(5, &board(2, 3, &[]), |b| b.undo());
    assert_eq!(good.decided(7, true), Err(Refusal::Missing));
    assert_eq!(good.decided(1, true), Err(Refusal::Decided));
    assert_eq!(board(2, 3, &[]).undone(), Err(Refusal::EmptyLedger));
    for (number, bad) in bad_boards() {
        kept(number, &bad, |b| b.decide(0, true));
        kept(number, &bad, |b| b.undo());
        kept(number, &bad, |b| b.check());
        for stroke in STROKES {
            kept(number, &bad, |b| b.stroke(stroke));
            assert_eq!(bad.stroked(stroke).unwrap_err() as u8, number);
        }
        assert_eq!(sys::sendai_board_decide(bad.0, 0, true), sys::BoardAnswer { code: number, board: bad.0 });
        assert_eq!(sys::sendai_board_undo(bad.0), sys::BoardAnswer { code: number, board: bad.0 });
    }
}

#[test]
fn lists_of_boards() {
    let good = board(2, 3, &[(0, false)]);
    refused(3, 54, |buffer| good.path(0, 6, buffer).map(drop));
    refused(3, 54, |buffer| good.path(usize::MAX, 0, buffer).map(drop));
    refused(3, 54, |buffer| good.unit_boundary(5, buffer).map(drop));
    refused(3, 54, |buffer| good.potential_unit_boundary(1, buffer).map(drop));
    refused(10, 54, |buffer| good.path(0, 5, buffer).map(drop));
    refused(6, 53, |buffer| good.ask(buffer).map(drop));
    for (number, bad) in bad_boards() {
        refused(number, 54, |buffer| bad.ask(buffer).map(drop));
        refused(number, 54, |buffer| bad.path(0, 1, buffer).map(drop));
        refused(number, 54, |buffer| bad.unit_boundary(0, buffer).map(drop));
        refused(number, 54, |buffer| bad.potential_unit_boundary(0, buffer).map(drop));
        refused(number, 54, |buffer| bad.units(buffer).map(drop));
        refused(number, 54, |buffer| bad.potential_units(buffer).map(drop));
    }
}

#[test]
fn group_records() {
    let mut buffer = [0; 6];
    let info = board(2, 3, &[(0, false)]).units(&mut buffer).unwrap().info;
    let damages: [fn(&mut sys::GroupInfo); 5] =
        [|i| i.height = 0, |i| i.count = 7, |i| i.starts[1] = 0, |i| i.starts[4] = 6, |i| i.ids[5] = 5];
    for damage in damages {
        let mut bad = Groups { info, buffer: &buffer };
        damage(&mut bad.info);
        refused_hand_out(&bad, 0);
    }
    refused_hand_out(&Groups { info, buffer: &buffer }, 5);
    refused_hand_out(&Groups { info, buffer: &buffer[..5] }, 0);
}

/// A hand-out has no number: it is empty.
fn refused_hand_out(groups: &Groups, group: usize) {
    let mut out = super::marked(6);
    assert_eq!(groups.group(group, &mut out), []);
    assert_eq!(out, super::marked(6));
}

/// A making of both kinds that must be refused.
fn no_puzzle(number: u8, height: usize, width: usize, given: &[u16], clues: &[u16]) {
    not_made(number, Puzzle::make(height, width, given, clues));
    KINDS.into_iter().for_each(|kind| not_made(number, Puzzle::of_kind(kind, height, width, given, clues)));
}

#[test]
fn puzzles() {
    no_puzzle(1, 0, 4, &[], &[]);
    no_puzzle(3, 1, 4, &[3], &[NO_CLUE; 2]);
    no_puzzle(7, 1, 4, &[1, 1], &[NO_CLUE; 2]);
    no_puzzle(7, 1, 4, &[2, 1], &[NO_CLUE; 3]);
    no_puzzle(8, 1, 4, &[1], &[NO_CLUE]);
    no_puzzle(8, 1, 4, &[1], &[NO_CLUE; 3]);
    no_puzzle(9, 1, 4, &[1], &[3, NO_CLUE]);
    refused_puzzles(Kind::Translates, 36);
    refused_puzzles(Kind::Images, 64);
}

/// Each refusal of the calls on a puzzle of this kind, whose asks want so many places.
fn refused_puzzles(kind: Kind, places: usize) {
    let good = Puzzle::of_kind(kind, 1, 4, &[1], &[2, NO_CLUE]).unwrap();
    kept(3, &good, |p| p.decide(3, true));
    kept(4, &good, |p| p.decide(1, true));
    kept(14, &good, |p| p.stroke(&[(0, true), (0, false)]));
    kept(5, &good, |p| p.undo());
    refused(6, places - 1, |buffer| good.ask(buffer).map(drop));
    let damages: [Damage<sys::Puzzle>; 9] = [
        (1, |p| p.board.width = 0),
        (2, |p| p.board.states[0] = 3),
        (2, |p| p.board.states[1] = 0),
        (2, |p| p.given[0] = 3),
        (2, |p| p.given_len = usize::MAX),
        (2, |p| p.clues[0] = 3),
        (2, |p| p.clues_len = 1),
        (2, |p| p.kind = 2),
        (2, |p| p.kind = 255),
    ];
    for (number, damage) in damages {
        let mut bad = good.clone();
        damage(&mut bad.0);
        assert_eq!(bad.check().unwrap_err() as u8, number);
        kept(number, &bad, |p| p.decide(0, true));
        kept(number, &bad, |p| p.undo());
        assert_eq!(sys::sendai_puzzle_decide(bad.0, 0, true), sys::PuzzleAnswer { code: number, puzzle: bad.0 });
        assert_eq!(sys::sendai_puzzle_undo(bad.0), sys::PuzzleAnswer { code: number, puzzle: bad.0 });
        STROKES.iter().for_each(|stroke| kept(number, &bad, |p| p.stroke(stroke)));
        refused(number, places, |buffer| bad.ask(buffer).map(drop));
        let mut boards = [7; 9];
        assert_eq!(bad.right_boards(3, &mut boards).unwrap_err() as u8, number);
        assert_eq!(boards, [7; 9]);
    }
}

#[test]
fn room_graphs() {
    not_made(1, RoomGraph::make(1025, &[], &[], 0));
    not_made(1, RoomGraph::make(2, &[0; 1985], &[1; 1985], 0));
    not_made(1, RoomGraph::make(2, &[0, 0], &[1], 0));
    not_made(3, RoomGraph::make(2, &[0, 2], &[1, 1], 0));
    not_made(1, RoomGraph::of_edges(2, &[Edge { u: 0, v: 1 }; 1985], 0));
    not_made(3, RoomGraph::of_edges(2, &[Edge { u: 0, v: 2 }], 0));
    let good = RoomGraph::make(3, &[0, 1], &[1, 2], 1).unwrap();
    kept(3, &good, |r| r.decide(2, true));
    kept(5, &good, |r| r.undo());
    let mut decided = good.clone();
    decided.decide(0, true).unwrap();
    kept(4, &decided, |r| r.decide(0, true));
    let damages: [Damage<sys::Room>; 6] = [
        (1, |r| r.vertices = 1025),
        (1, |r| r.edges = 1985),
        (2, |r| r.vs[1] = 3),
        (2, |r| r.book.states[1] = 1),
        (2, |r| r.book.len = usize::MAX),
        (2, |r| r.book.ledger[0] = 0),
    ];
    for (number, damage) in damages {
        let mut bad = decided.clone();
        damage(&mut bad.0);
        assert_eq!(bad.check().unwrap_err() as u8, number);
        assert_eq!(sys::sendai_room_decide(bad.0, 1, true), sys::RoomAnswer { code: number, room: bad.0 });
        assert_eq!(sys::sendai_room_undo(bad.0), sys::RoomAnswer { code: number, room: bad.0 });
        STROKES.iter().for_each(|stroke| kept(number, &bad, |r| r.stroke(stroke)));
        refused(number, 2, |buffer| bad.ask(buffer).map(drop));
    }
}

#[test]
fn unions() {
    not_made(1, Union::new(1025));
    let mut good = Union::new(3).unwrap();
    good.unite(0, 1).unwrap();
    kept(3, &good, |u| u.find(3));
    kept(3, &good, |u| u.unite(3, 0));
    kept(3, &good, |u| u.unite(0, usize::MAX));
    let damages: [Damage<sys::Union>; 3] = [(1, |u| u.n = 1025), (2, |u| u.parent[2] = 3), (2, |u| u.parent[1] = 0)];
    for (number, damage) in damages {
        let mut bad = good.0;
        damage(&mut bad);
        assert_eq!(sys::sendai_union_find(bad, 0), sys::Found { code: number, root: 0, parts: bad });
        assert_eq!(sys::sendai_union_unite(bad, 0, 1), sys::United { code: number, united: false, parts: bad });
    }
}

#[test]
fn the_rest() {
    refused(6, 2, |buffer| hand_over(&[1, 1, 1], buffer).map(drop));
    assert_eq!(neighbour(0, 3, 0, Direction::Up), Err(Refusal::Sizes));
    assert_eq!(neighbour(2, 3, 6, Direction::Up), Err(Refusal::Missing));
    assert_eq!(
        (1..=14).filter_map(Refusal::from_number).map(|refusal| refusal as u8).collect::<Vec<_>>(),
        Vec::from_iter(1..=14)
    );
    assert_eq!(Refusal::from_number(0), None);
    assert_eq!(Refusal::from_number(15), None);
}

/// "A refused making returns a record whose every number is 0", and so does a refused grouping.
#[test]
fn zeros() {
    let board = sys::Board { height: 0, width: 0, states: [0; 1984], ledger: [0; 1984], len: 0 };
    assert_eq!(sys::sendai_board_make(33, 32), sys::BoardAnswer { code: 1, board });

    let puzzle = sys::Puzzle { board, given: [0; 1984], given_len: 0, clues: [0; 1024], clues_len: 0, kind: 0 };
    let (given, clues) = ([0u16, 0], [NO_CLUE]);
    for make in [sys::sendai_puzzle_make, sys::sendai_puzzle_make_images] {
        // SAFETY: both slices live through the call.
        let made = unsafe { make(1, 3, given.as_ptr(), 2, clues.as_ptr(), 1) };
        assert_eq!(made, sys::PuzzleAnswer { code: 7, puzzle });
    }

    let (us, vs) = ([0u16, 9], [1u16, 1]);
    let (ends, book) = ([0; 1984], sys::Book { states: [0; 1984], ledger: [0; 1984], len: 0 });
    let room = sys::Room { vertices: 0, edges: 0, us: ends, vs: ends, count: 0, book };
    // SAFETY: both slices live through the call.
    let made = unsafe { sys::sendai_room_make(3, us.as_ptr(), 2, vs.as_ptr(), 2, 5) };
    assert_eq!(made, sys::RoomAnswer { code: 3, room });

    let parts = sys::Union { parent: [0; 1024], n: 0 };
    assert_eq!(sys::sendai_union_new(usize::MAX), sys::UnionMade { code: 1, parts });

    let info = sys::GroupInfo { height: 0, width: 0, count: 0, ids: [0; 1024], starts: [0; 1024] };
    let mut buffer = [7u16; 5];
    let good = sys::sendai_board_make(2, 3).board;
    // SAFETY: the buffer lives through the call.
    let grouping = unsafe { sys::sendai_groups(good, true, buffer.as_mut_ptr(), 5) };
    assert_eq!(grouping, sys::Grouping { code: 6, info });
}
