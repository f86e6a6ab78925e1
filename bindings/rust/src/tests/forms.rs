//! Two forms of one call answer alike.
use super::{board, marked, refusals::Damage, Drawn, KINDS};
use crate::{sys, Board, Edge, Puzzle, Refusal, RoomGraph, State, MAX_LIST_IMAGES, NO_CLUE};
use std::collections::BTreeSet;
use std::fmt::Debug;

/// A call that changes a record.
#[derive(Debug)]
enum Call {
    Decide(usize, bool),
    Stroke(Vec<u16>),
    Undo,
}

use Call::{Decide, Stroke, Undo};

/// A record whose calls the archive has by value and on a lent record.
trait Forms: Copy + PartialEq + Debug {
    /// What an ask answers.
    type Told: PartialEq + Debug;
    /// The code, and the record that is returned.
    fn by_value(self, call: &Call) -> (u8, Self);
    fn lent(&mut self, call: &Call) -> u8;
    fn ask_by_value(self, buffer: &mut [u16]) -> Self::Told;
    fn ask_lent(&self, buffer: &mut [u16]) -> Self::Told;
    /// An ask's code, and the kind of its fault, 0 for none.
    fn brief(told: Self::Told) -> (u8, u8);
    /// Changes a number of a small record, which may spoil it.
    fn spoil(&mut self, drawn: &mut Drawn);
}

macro_rules! forms {
    ($(
        $record:ident, $field:ident: [$decide:ident, $stroke:ident, $undo:ident, $ask:ident],
        [$decide_lent:ident, $stroke_lent:ident, $undo_lent:ident, $ask_lent:ident], $told:ident, $brief:expr, $spoil:expr;
    )*) => {$(
        impl Forms for sys::$record {
            type Told = sys::$told;

            fn by_value(self, call: &Call) -> (u8, Self) {
                let told = match call {
                    Decide(border, wall) => sys::$decide(self, *border, *wall),
                    // SAFETY: the entries live through the call.
                    Stroke(entries) => unsafe { sys::$stroke(self, entries.as_ptr(), entries.len()) },
                    Undo => sys::$undo(self),
                };
                (told.code, told.$field)
            }

            fn lent(&mut self, call: &Call) -> u8 {
                match call {
                    Decide(border, wall) => sys::$decide_lent(self, *border, *wall),
                    // SAFETY: the entries live through the call.
                    Stroke(entries) => unsafe { sys::$stroke_lent(self, entries.as_ptr(), entries.len()) },
                    Undo => sys::$undo_lent(self),
                }
            }

            fn ask_by_value(self, buffer: &mut [u16]) -> sys::$told {
                // SAFETY: the buffer lives through the call.
                unsafe { sys::$ask(self, buffer.as_mut_ptr(), buffer.len()) }
            }

            fn ask_lent(&self, buffer: &mut [u16]) -> sys::$told {
                // SAFETY: the buffer lives through the call.
                unsafe { sys::$ask_lent(self, buffer.as_mut_ptr(), buffer.len()) }
            }

            fn brief(told: sys::$told) -> (u8, u8) {
                $brief(told)
            }

            fn spoil(&mut self, drawn: &mut Drawn) {
                $spoil(self, drawn)
            }
        }
    )*};
}

forms! {
    Board, board: [sendai_board_decide, sendai_board_stroke, sendai_board_undo, sendai_board_ask],
        [sendai_board_decide_in_place, sendai_board_stroke_in_place, sendai_board_undo_in_place, sendai_board_ask_in_place],
        Answer, |told: sys::Answer| (told.code, u8::from(told.fault)), |board: &mut sys::Board, drawn: &mut Drawn| {
            match drawn.below(5) {
                0 => board.height = drawn.below(4),
                1 => board.width = drawn.below(40),
                2 => board.states[drawn.below(9)] = drawn.below(4) as u8,
                3 => board.ledger[drawn.below(9)] = drawn.below(18) as u16,
                _ => board.len = [0, 1, 2, 1984, 1985, usize::MAX][drawn.below(6)],
            }
        };
    Puzzle, puzzle: [sendai_puzzle_decide, sendai_puzzle_stroke, sendai_puzzle_undo, sendai_puzzle_ask],
        [sendai_puzzle_decide_in_place, sendai_puzzle_stroke_in_place, sendai_puzzle_undo_in_place, sendai_puzzle_ask_in_place],
        Outcome, |told: sys::Outcome| (told.code, told.kind), |puzzle: &mut sys::Puzzle, drawn: &mut Drawn| {
            match drawn.below(8) {
                0 => puzzle.given[drawn.below(3)] = drawn.below(9) as u16,
                1 => puzzle.given_len = [0, 1, 2, 1984, 1985, usize::MAX][drawn.below(6)],
                2 => puzzle.clues[drawn.below(3)] = [0, 1, 2, 9, NO_CLUE][drawn.below(5)],
                3 => puzzle.clues_len = [0, 1, 2, 1024, 1025, usize::MAX][drawn.below(6)],
                4 => puzzle.kind = drawn.below(256) as u8,
                _ => puzzle.board.spoil(drawn),
            }
        };
}

/// A call that must be answered alike in both forms, and refused leave the record as it was, number for number. The code.
fn told<R: Forms>(record: &mut R, call: &Call) -> u8 {
    let before = *record;
    let (code, after) = before.by_value(call);
    assert_eq!((record.lent(call), *record), (code, after), "{call:?}");
    assert!(code == 0 || *record == before, "{call:?}");
    code
}

/// An ask that must be answered alike in both forms, only read the record, and refused leave the buffer as it was; no place behind the
/// buffer is written. Its code, and the fault's kind.
fn asked<R: Forms>(record: &R, places: usize) -> (u8, u8) {
    let (before, fresh) = (*record, marked(places + 3));
    let (mut lent, mut by_value) = (fresh.clone(), fresh.clone());
    let told = record.ask_lent(&mut lent[..places]);
    assert_eq!(told, before.ask_by_value(&mut by_value[..places]));
    assert_eq!((*record, &lent), (before, &by_value));
    let (code, kind) = R::brief(told);
    assert!(code == 0 || lent == fresh);
    (code, kind)
}

/// A drawn call on a record of so many borders. Some name a border that does not exist, or one twice.
fn call(drawn: &mut Drawn, borders: usize) -> Call {
    match drawn.below(7) {
        0 | 1 => Undo,
        kind @ (2 | 3) => Decide(drawn.below(borders + 2), kind == 2),
        _ => Stroke((0..drawn.below(4)).map(|_| drawn.below(2 * borders + 1) as u16).collect()),
    }
}

/// A stroke of all borders on a fresh record, and drawn calls; after each, asks with a buffer just long enough and one short, all in both
/// forms. Noted are the codes of the calls and the kinds of faults.
fn steps<R: Forms>(drawn: &mut Drawn, fresh: R, borders: usize, places: usize, noted: &mut [BTreeSet<u8>; 2]) {
    let mut record = fresh;
    let all = [Stroke((0..borders as u16).rev().map(|border| 2 * border + border % 2).collect()), Undo];
    for call in all.into_iter().chain((0..300).map(|_| call(drawn, borders))) {
        noted[0].insert(told(&mut record, &call));
        let (code, kind) = asked(&record, places);
        assert_eq!((code, asked(&record, places - 1).0), (0, 6));
        noted[1].insert(kind);
    }
}

/// Puzzles of both kinds without and with given walls and clues, the smallest and the largest among them.
fn puzzles() -> Vec<Puzzle> {
    let puzzles: [(usize, usize, &[u16], &[u16]); 7] = [
        (1, 1, &[], &[NO_CLUE]),
        (1, 2, &[], &[1]),
        (3, 1, &[0], &[NO_CLUE, 2]),
        (2, 4, &[1, 4], &[2, 1]),
        (3, 4, &[2, 5, 8], &[NO_CLUE, 3]),
        (4, 5, &[], &[7]),
        (32, 32, &[], &[NO_CLUE]),
    ];
    let of_both = puzzles.into_iter().flat_map(|puzzle| KINDS.map(|kind| (kind, puzzle)));
    of_both.map(|(kind, (height, width, given, clues))| Puzzle::of_kind(kind, height, width, given, clues).unwrap()).collect()
}

/// Decide, stroke, undo and ask on lent boards and puzzles beside the same by value, on drawn calls, refused ones included.
#[test]
fn lent_as_by_value() {
    let (mut drawn, mut of_boards, mut of_puzzles) = (Drawn(5), Default::default(), Default::default());
    for puzzle in puzzles() {
        let (borders, board) = (puzzle.borders(), board(puzzle.height(), puzzle.width(), &[]));
        steps(&mut drawn, board.0, borders, board.list_len(), &mut of_boards);
        steps(&mut drawn, puzzle.0, borders, puzzle.list_len(), &mut of_puzzles);
    }
    // every number by which a sound record's calls are refused, and every kind of fault
    let codes = BTreeSet::from([0, 3, 4, 5, 14]);
    assert_eq!(of_boards, [codes.clone(), BTreeSet::from([0, 1])]);
    assert_eq!(of_puzzles, [codes, BTreeSet::from([0, 1, 2])]);
}

/// Each refusal of the calls in both forms, on a fresh record of one row of four cells and on one with border 2 decided, whose asks want so
/// many places.
fn refusals<R: Forms>(fresh: R, decided: R, enough: usize, damages: &[Damage<R>]) {
    for (number, call) in [
        (3, Decide(3, true)),
        (3, Decide(usize::MAX, true)),
        (4, Decide(2, false)),
        (3, Stroke(vec![0, 6])),
        (3, Stroke(vec![0, 0, 65535])),
        (14, Stroke(vec![0, 1])),
        (14, Stroke(vec![5, 5])),
        (4, Stroke(vec![0, 5])),
    ] {
        assert_eq!(told(&mut decided.clone(), &call), number, "{call:?}");
    }
    assert_eq!(told(&mut fresh.clone(), &Undo), 5);
    for places in [0, 1, enough - 1] {
        assert_eq!(asked(&decided, places).0, 6);
    }
    assert_eq!(asked(&decided, enough).0, 0);
    for &(number, damage) in damages {
        let mut bad = decided;
        damage(&mut bad);
        for call in [Decide(0, true), Decide(3, true), Stroke(vec![]), Stroke(vec![0]), Stroke(vec![6]), Stroke(vec![0, 0]), Undo]
        {
            assert_eq!(told(&mut bad, &call), number, "{call:?}");
        }
        assert_eq!((asked(&bad, enough).0, asked(&bad, 0).0), (number, number));
    }
}

#[test]
fn refused_alike() {
    let fresh = board(1, 4, &[]).0;
    refusals(fresh, board(1, 4, &[(2, true)]).0, 36, &[(1, |b| b.width = 33), (2, |b| b.states[0] = 3)]);
    for (kind, enough) in KINDS.into_iter().zip([36, 64]) {
        let fresh = Puzzle::of_kind(kind, 1, 4, &[1], &[2, NO_CLUE]).unwrap();
        let mut decided = fresh.clone();
        decided.decide(2, true).unwrap();
        refusals(fresh.0, decided.0, enough, &[(1, |p| p.board.height = 0), (2, |p| p.clues[0] = 3), (2, |p| p.kind = 2)]);
        assert_eq!(told(&mut decided.0, &Decide(1, true)), 4); // a given wall
    }
}

/// Records with a drawn change, sound or not. The codes that they tell in both forms.
fn spoilt<R: Forms>(drawn: &mut Drawn, record: R, borders: usize) -> BTreeSet<u8> {
    let mut codes = BTreeSet::new();
    for _ in 0..2000 {
        let mut bad = record;
        bad.spoil(drawn);
        codes.insert(asked(&bad, MAX_LIST_IMAGES).0);
        codes.insert(told(&mut bad, &call(drawn, borders)));
    }
    codes
}

#[test]
fn spoilt_alike() {
    let drawn = &mut Drawn(6);
    let codes = BTreeSet::from([0, 1, 2, 3, 4, 14]);
    assert_eq!(spoilt(drawn, board(2, 3, &[(0, true), (4, false)]).0, 7), codes);
    for kind in KINDS {
        let mut puzzle = Puzzle::of_kind(kind, 2, 3, &[1, 3], &[2, NO_CLUE]).unwrap();
        puzzle.stroke(&[(0, true), (4, false)]).unwrap();
        assert_eq!(spoilt(drawn, puzzle.0, 7), codes);
    }
}

/// A board's calls on a copy beside the same where it is, on drawn calls, refused ones included.
#[test]
fn on_a_copy() {
    let mut drawn = Drawn(1);
    for size in [(1, 1), (1, 2), (3, 1), (4, 5), (32, 32)] {
        let mut changed = Board::make(size.0, size.1).unwrap();
        let mut copy = changed.clone();
        for _ in 0..300 {
            let (border, kind) = (drawn.below(changed.borders() + 2), drawn.below(7));
            let stroke =
                [(border, true), (drawn.below(changed.borders() + 1), false), (drawn.below(changed.borders() + 1), true)];
            let stroke = &stroke[..drawn.below(4)];
            let (next, told) = match kind {
                0 | 1 => (copy.undone(), changed.undo()),
                2 | 3 => (copy.decided(border, kind == 2), changed.decide(border, kind == 2)),
                _ => (copy.stroked(stroke), changed.stroke(stroke)),
            };
            assert_eq!(told, next.clone().map(drop));
            copy = next.unwrap_or(copy);
            assert_eq!(changed, copy);
        }
    }
}

/// States and ledger as the accepted calls make them.
#[test]
fn ledger() {
    let mut board = Board::make(2, 2).unwrap();
    for (border, wall) in [(3, true), (0, false), (1, true)] {
        board.decide(border, wall).unwrap();
    }
    board.undo().unwrap();
    assert_eq!(board.ledger().collect::<Vec<_>>(), [(3, true), (0, false)]);
    let states = [State::Connected, State::Undecided, State::Undecided, State::Wall];
    assert_eq!(board.states().collect::<Vec<_>>(), states);
    assert_eq!((board.state(3), board.state(4)), (Some(State::Wall), None));
}

/// Room graphs from edge records beside the same from number slices, on drawn graphs and on refused ones.
#[test]
fn edge_records_as_number_slices() {
    let mut drawn = Drawn(2);
    for (vertices, edges, ends) in
        [(0, 0, 1), (1, 3, 1), (5, 9, 5), (5, 9, 7), (1024, 1984, 1024), (1024, 1985, 1024), (1025, 2, 2)]
    {
        for count in [0, 3, u32::MAX] {
            let mut end = || drawn.below(ends) as u16;
            let list: Vec<Edge> = (0..edges).map(|_| Edge { u: end(), v: end() }).collect();
            let (us, vs): (Vec<u16>, Vec<u16>) = list.iter().map(|edge| (edge.u, edge.v)).unzip();
            let by_records = RoomGraph::of_edges(vertices, &list, count);
            assert_eq!(by_records, RoomGraph::make(vertices, &us, &vs, count));
            let made = match (vertices, edges, ends) {
                (1025, ..) | (_, 1985, _) => Err(Refusal::Sizes),
                (5, _, 7) => Err(Refusal::Missing),
                _ => Ok(()),
            };
            assert_eq!(by_records.as_ref().map(drop).map_err(|&refusal| refusal), made);
            if let Ok(room) = by_records {
                assert_eq!((0..edges).map(|edge| room.edge(edge)).collect::<Option<Vec<_>>>(), Some(list));
                assert_eq!((room.vertices(), room.count()), (vertices, count));
            }
        }
    }
}
