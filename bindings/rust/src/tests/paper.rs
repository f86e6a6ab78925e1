//! The scope document's examples.
use super::board;
use crate::{entries, hand_over, Board, Check, Puzzle, Refusal, RoomGraph, NO_CLUE};

/// The raw list of a board's fault, and the same of the puzzle without given walls and clues.
fn fault(board: &Board) -> Option<Vec<u16>> {
    let mut list = vec![0; board.list_len()];
    let alone = board.ask(&mut list).unwrap().map(|fault| fault.list.to_vec());

    let mut puzzle = Puzzle::make(board.height(), board.width(), &[], &[NO_CLUE]).unwrap();
    for (border, wall) in board.ledger() {
        puzzle.decide(border, wall).unwrap();
    }
    assert_eq!(puzzle.board(), *board);
    let asked = puzzle.ask(&mut list).unwrap();
    assert_eq!(asked.map(|fault| (fault.check, fault.list.to_vec())), alone.clone().map(|list| (Check::Shape, list)));
    alone
}

#[test]
fn one_by_one() {
    assert_eq!(fault(&board(1, 1, &[])), Some(vec![]));
}

#[test]
fn one_by_two() {
    assert_eq!(fault(&board(1, 2, &[])), None);
    assert_eq!(fault(&board(1, 2, &[(0, false)])), Some(vec![0]));
    assert_eq!(fault(&board(1, 2, &[(0, true)])), None);
}

#[test]
fn one_by_three() {
    let raw = fault(&board(1, 3, &[(0, true), (1, false)])).unwrap();
    assert_eq!(raw, [2, 2, 1, 1, 1]);
    let mut handed = [0; 5];
    assert_eq!(hand_over(&raw, &mut handed), Ok(&[1, 2][..]));
    assert_eq!(entries(&handed[..2]).collect::<Vec<_>>(), [(0, true), (1, false)]);
}

#[test]
fn two_by_two() {
    assert_eq!(fault(&board(2, 2, &[(0, false), (1, false), (2, false), (3, true)])), Some(vec![2, 4, 0, 7]));
    assert_eq!(fault(&board(2, 2, &[(0, false), (1, false), (2, true), (3, true)])), None);
}

/// The answer of a graph's ask, with these edges decided.
fn counted(vertices: usize, us: &[u16], vs: &[u16], count: u32, decisions: &[(usize, bool)]) -> Option<Vec<u16>> {
    let mut room = RoomGraph::make(vertices, us, vs, count).unwrap();
    for &(edge, wall) in decisions {
        room.decide(edge, wall).unwrap();
    }
    let mut list = vec![0; room.edges()];
    room.ask(&mut list).unwrap().map(<[u16]>::to_vec)
}

#[test]
fn two_edges() {
    assert_eq!(counted(3, &[0, 1], &[1, 2], 3, &[]), None);
    assert_eq!(counted(3, &[0, 1], &[1, 2], 3, &[(0, false), (1, false)]), Some(vec![0, 2]));
    assert_eq!(counted(3, &[0, 1], &[1, 2], 1, &[(0, true)]), Some(vec![1]));
}

#[test]
fn no_edge() {
    assert_eq!(counted(2, &[], &[], 3, &[]), Some(vec![]));
    assert_eq!(counted(1, &[], &[], 0, &[]), Some(vec![]));
}

/// A count above the vertices is a fault that lists nothing, drawn or not, once the buffer is long enough.
#[test]
fn above_the_vertices() {
    for decisions in [&[][..], &[(0, false)], &[(0, true)]] {
        assert_eq!(counted(2, &[0], &[1], 3, decisions), Some(vec![]));
        assert_eq!(counted(2, &[0], &[1], 65_536 + 2, decisions), Some(vec![]));
        assert_eq!(counted(2, &[0], &[1], u32::MAX, decisions), Some(vec![]));
    }
    assert_eq!(counted(2, &[0], &[1], 2, &[]), None);
    assert_eq!(counted(2, &[0], &[1], 2, &[(0, false)]), Some(vec![0]));
    assert_eq!(counted(1, &[], &[], 65_537, &[]), Some(vec![]));
    assert_eq!([0, 1, 5].map(|count| counted(0, &[], &[], count, &[])), [None, Some(vec![]), Some(vec![])]);
    let room = RoomGraph::make(2, &[0], &[1], 3).unwrap();
    assert_eq!(room.ask(&mut []), Err(Refusal::ShortBuffer));
    assert_eq!(Puzzle::make(1, 2, &[], &[3]), Err(Refusal::ClueValue));
}

/// A graph whose edges are all decided is clear exactly when its parts are as many as the count: a triangle with a loop, a repeat and a vertex
/// beside it, with each count.
#[test]
fn full_graphs() {
    let (us, vs) = ([0, 1, 2, 1, 0], [1, 2, 0, 1, 1]);
    for walls in 0..32usize {
        let is_wall = |edge: usize| walls >> edge & 1 == 1;
        let joined = [!is_wall(0) || !is_wall(4), !is_wall(1), !is_wall(2)].iter().filter(|&&joined| joined).count();
        let parts = 4 - joined.min(2) as u32;
        let decisions: Vec<(usize, bool)> = (0..5).map(|edge| (edge, is_wall(edge))).collect();
        for count in (0..8).chain([65_536 + parts, u32::MAX]) {
            assert_eq!(counted(4, &us, &vs, count, &decisions).is_none(), count == parts, "{walls:05b}, count {count}");
        }
    }
}

#[test]
fn heights() {
    assert_eq!(Board::make(32, 32).unwrap().borders(), crate::MAX_BORDERS);
    assert_eq!(Board::make(33, 1), Err(Refusal::Sizes));
    assert_eq!(Board::make(0, 1), Err(Refusal::Sizes));
}
