//! Several borders in one stroke: all or none, the question that refuses it, what one undo takes back, and that asks don't tell how the
//! borders were cut into strokes.
use super::Drawn;
use crate::{entries, Board, Edge, Kind, Puzzle, Refusal, RoomGraph, State, MAX_BORDERS, NO_CLUE};
use std::fmt::Debug;

type Stroke = Vec<(usize, bool)>;

/// What boards, puzzles and room graphs have in common.
trait Record: Clone + PartialEq + Debug {
    fn decide(&mut self, border: usize, wall: bool) -> Result<(), Refusal>;
    fn stroke(&mut self, stroke: &[(usize, bool)]) -> Result<(), Refusal>;
    fn undo(&mut self) -> Result<(), Refusal>;
    fn check(&self) -> Result<(), Refusal>;
    fn strokes(&self) -> usize;
    fn ledger(&self) -> Stroke;
    fn states(&self) -> Vec<State>;
    fn fault(&self) -> Option<Vec<u16>>;
}

macro_rules! records {
    ($($record:ident: $places:ident, $list:expr;)*) => {$(
        impl Record for $record {
            fn decide(&mut self, border: usize, wall: bool) -> Result<(), Refusal> {
                self.decide(border, wall)
            }
            fn stroke(&mut self, stroke: &[(usize, bool)]) -> Result<(), Refusal> {
                self.stroke(stroke)
            }
            fn undo(&mut self) -> Result<(), Refusal> {
                self.undo()
            }
            fn check(&self) -> Result<(), Refusal> {
                self.check()
            }
            fn strokes(&self) -> usize {
                self.strokes()
            }
            fn ledger(&self) -> Stroke {
                self.ledger().collect()
            }
            fn states(&self) -> Vec<State> {
                self.states().collect()
            }
            fn fault(&self) -> Option<Vec<u16>> {
                self.ask(&mut vec![0; self.$places()]).unwrap().map($list)
            }
        }
    )*};
}

records! {
    Board: list_len, |fault| fault.list.to_vec();
    Puzzle: list_len, |fault| fault.list.to_vec();
    RoomGraph: edges, |list| list.to_vec();
}

fn room(edges: usize) -> RoomGraph {
    let edge = |n: usize| Edge { u: (n % 4) as u16, v: (n % 5) as u16 };
    RoomGraph::of_edges(5, &(0..edges).map(edge).collect::<Vec<_>>(), 2).unwrap()
}

fn plain(height: usize, width: usize) -> Puzzle {
    Puzzle::make(height, width, &[], &[NO_CLUE]).unwrap()
}

fn images(height: usize, width: usize) -> Puzzle {
    Puzzle::of_kind(Kind::Images, height, width, &[], &[NO_CLUE]).unwrap()
}

/// A stroke that must be answered so: refused, or accepted but empty, it leaves the very record; else one undo does.
fn told<R: Record>(record: &R, stroke: &[(usize, bool)], answer: Result<(), Refusal>) {
    let mut after = record.clone();
    assert_eq!(after.stroke(stroke), answer, "{record:?}, {stroke:?}");
    let kept = answer.is_ok() && !stroke.is_empty();
    assert_eq!(after.strokes(), record.strokes() + usize::from(kept));
    if kept {
        assert_eq!(after.ledger(), [&record.ledger()[..], stroke].concat());
        assert_eq!(after.check(), Ok(()));
        after.undo().unwrap();
    }
    assert_eq!(after, *record);
}

/// A record of one border, or edge: each question is put to the whole stroke before the next.
fn tells<R: Record>(fresh: &R) {
    let mut drawn = fresh.clone();
    drawn.decide(0, true).unwrap();
    for (wall, other) in [(false, false), (false, true), (true, false), (true, true)] {
        told(fresh, &[(0, wall)], Ok(()));
        told(&drawn, &[(0, wall)], Err(Refusal::Decided));
        for record in [fresh, &drawn] {
            told(record, &[], Ok(()));
            told(record, &[(1, wall)], Err(Refusal::Missing));
            told(record, &[(0, wall), (1, other)], Err(Refusal::Missing));
            told(record, &[(0, wall), (0, other)], Err(Refusal::Twice));
            told(record, &[(0, wall), (0, other), (1, true)], Err(Refusal::Missing));
            told(record, &[(1, wall), (1, other)], Err(Refusal::Missing));
        }
    }
    // an empty stroke is not kept: an undo takes what was drawn before it
    let mut undone = drawn.clone();
    undone.stroke(&[]).unwrap();
    undone.undo().unwrap();
    assert_eq!(undone, *fresh);
    undone.stroke(&[]).unwrap();
    assert_eq!(undone.undo(), Err(Refusal::EmptyLedger));
}

#[test]
fn questions() {
    tells(&Board::make(1, 2).unwrap());
    tells(&plain(1, 2));
    tells(&images(1, 2));
    tells(&room(1));
    // a given wall is decided
    let walled = Puzzle::make(1, 3, &[1], &[NO_CLUE; 2]).unwrap();
    told(&walled, &[(0, true), (1, true)], Err(Refusal::Decided));
    told(&walled, &[(1, true), (1, false)], Err(Refusal::Twice));
    told(&walled, &[(1, true), (2, true)], Err(Refusal::Missing));
    told(&walled, &[(0, false)], Ok(()));
}

/// No number is cut off: in fewer bits some of these are 0.
#[test]
fn borders_beyond_all() {
    for border in [MAX_BORDERS, 1 << 15, (1 << 16) - 1, 1 << 16, 1 << 31, 1 << 32, 1 << 63, usize::MAX] {
        for stroke in [
            &[(border, false)][..],
            &[(border, true); 2],
            &[(0, true), (border, false)],
            &[(0, true), (0, true), (border, false)],
        ] {
            told(&Board::make(32, 32).unwrap(), stroke, Err(Refusal::Missing));
            told(&plain(1, 2), stroke, Err(Refusal::Missing));
            told(&room(3), stroke, Err(Refusal::Missing));
        }
    }
}

#[test]
fn longer_than_any_board() {
    let whole: Stroke = (0..MAX_BORDERS).rev().map(|border| (border, border % 3 == 0)).collect();
    told(&Board::make(32, 32).unwrap(), &whole, Ok(()));
    told(&plain(32, 32), &whole, Ok(()));
    told(&room(MAX_BORDERS), &whole, Ok(()));
    told(&plain(31, 32), &whole, Err(Refusal::Missing));
    for length in [MAX_BORDERS + 1, MAX_BORDERS + 2, 2 * MAX_BORDERS, 9999] {
        for (record, borders) in [(plain(32, 32), MAX_BORDERS), (plain(2, 2), 4), (plain(1, 2), 1)] {
            let mut long: Stroke = (0..length).map(|at| (at % borders, at % 2 == 0)).collect();
            told(&record, &long, Err(Refusal::Twice));
            for place in [0, borders - 1, MAX_BORDERS - 1, MAX_BORDERS, length / 2, length - 1] {
                let before = std::mem::replace(&mut long[place], (borders, false));
                told(&record, &long, Err(Refusal::Missing));
                long[place] = before;
            }
        }
    }
}

/// What stands in the record's ledger: the first name of a stroke is odd.
#[test]
fn names() {
    let mut board = Board::make(1, 5).unwrap();
    board.decide(2, false).unwrap();
    board.stroke(&[(1, false), (0, true), (3, true)]).unwrap();
    assert_eq!((board.0.ledger[..5].to_vec(), board.0.len, board.strokes()), (vec![5, 3, 0, 6, 0], 4, 2));
    assert_eq!(Board::make(1, 5).unwrap().stroked(&[(2, true)]), Board::make(1, 5).unwrap().decided(2, true));
    // cut otherwise, it is as sound, and an undo takes what is then the last stroke
    board.0.ledger[3] = 7;
    assert_eq!(board.undone().unwrap().ledger().collect::<Stroke>(), [(2, false), (1, false), (0, true)]);
    board.0.ledger[..4].copy_from_slice(&[5, 2, 0, 6]);
    assert_eq!(board.undone(), Board::make(1, 5));
}

/// A stroke of different borders, of which some may be decided.
fn stroke(drawn: &mut Drawn, borders: usize) -> Stroke {
    let mut left: Vec<usize> = (0..borders).collect();
    (0..drawn.below(5).min(borders)).map(|_| (left.swap_remove(drawn.below(left.len())), drawn.below(2) == 0)).collect()
}

/// Drawn strokes and undos on a record: all of a stroke stands or nothing of it, and an undo gives the very record back.
fn steps<R: Record>(drawn: &mut Drawn, fresh: R) {
    let (mut record, mut before) = (fresh.clone(), vec![]);
    for _ in 0..200 {
        if drawn.below(3) == 0 {
            assert_eq!(record.undo(), before.last().map(drop).ok_or(Refusal::EmptyLedger));
            record = before.pop().inspect(|last| assert_eq!(record, *last)).unwrap_or(record);
            continue;
        }
        let (stroke, states) = (stroke(drawn, record.states().len()), record.states());
        let open = stroke.iter().all(|&(border, _)| states[border] == State::Undecided);
        told(&record, &stroke, if open { Ok(()) } else { Err(Refusal::Decided) });
        if open && !stroke.is_empty() {
            before.push(record.clone());
        }
        let _ = record.stroke(&stroke);
    }
}

#[test]
fn undo_takes_a_whole_stroke() {
    let drawn = &mut Drawn(3);
    for (height, width) in [(1, 1), (1, 2), (2, 2), (3, 4), (8, 8)] {
        steps(drawn, Board::make(height, width).unwrap());
        steps(drawn, plain(height, width));
        steps(drawn, images(height, width));
        steps(drawn, room(height * width));
    }
    steps(drawn, Puzzle::make(2, 4, &[1, 4], &[2, NO_CLUE]).unwrap());
}

/// The borders in another order, cut into strokes with empty ones among them.
fn cut(drawn: &mut Drawn, mut borders: Stroke) -> Vec<Stroke> {
    let mut strokes = vec![vec![]];
    while !borders.is_empty() {
        match drawn.below(3) {
            0 => strokes.push(vec![]),
            _ => strokes.last_mut().unwrap().push(borders.swap_remove(drawn.below(borders.len()))),
        }
    }
    strokes
}

/// A fresh record with these strokes, which undos take back to the last.
fn with<R: Record>(fresh: &R, strokes: &[Stroke]) -> R {
    let mut record = fresh.clone();
    strokes.iter().for_each(|stroke| record.stroke(stroke).unwrap());
    let mut undone = record.clone();
    (0..record.strokes()).for_each(|_| undone.undo().unwrap());
    assert_eq!(undone, *fresh);
    record
}

/// The same borders one by one, in one stroke, and in drawn cuttings are answered alike; a fault's own borders are a fault however they
/// are cut. How many faults there were.
fn cuttings<R: Record>(drawn: &mut Drawn, fresh: &R) -> usize {
    let standing: Stroke = {
        let open = (0..fresh.states().len()).filter(|&border| fresh.states()[border] == State::Undecided);
        open.filter_map(|border| (drawn.below(3) > 0).then(|| (border, drawn.below(2) == 0))).collect()
    };
    let one_by_one = with(fresh, &standing.iter().map(|&border| vec![border]).collect::<Vec<_>>());
    let fault = one_by_one.fault();
    assert_eq!(with(fresh, std::slice::from_ref(&standing)).fault(), fault);
    for _ in 0..4 {
        let strokes = cut(drawn, standing.clone());
        let record = with(fresh, &strokes);
        assert_eq!((record.states(), record.fault()), (one_by_one.states(), fault.clone()), "{strokes:?}");
        if let Some(list) = &fault {
            let mut listed: Stroke = entries(list).filter(|&(border, _)| fresh.states()[border] == State::Undecided).collect();
            listed.sort();
            listed.dedup();
            assert!(with(fresh, &cut(drawn, listed)).fault().is_some(), "{fresh:?}, {list:?}");
        }
    }
    usize::from(fault.is_some())
}

#[test]
fn asks_do_not_tell_the_cutting() {
    let drawn = &mut Drawn(4);
    let mut faults = [0; 4];
    for _ in 0..40 {
        for (height, width) in [(1, 3), (2, 2), (3, 3)] {
            faults[0] += cuttings(drawn, &Board::make(height, width).unwrap());
            faults[1] += cuttings(drawn, &plain(height, width));
            faults[3] += cuttings(drawn, &images(height, width));
        }
        faults[1] += cuttings(drawn, &Puzzle::make(2, 4, &[1, 4], &[2, 1]).unwrap());
        faults[2] += cuttings(drawn, &room(6));
    }
    assert!(faults.iter().all(|&faults| faults > 10), "{faults:?}");
}
