//! All answers: the boards, their order, the cap, the buffer, and the refusals; and beside trying every full board.
use super::{board, Drawn, KINDS, UNTOUCHED_BYTE};
use crate::{sys, Kind, Puzzle, Refusal, RightBoards, State, MAX_UNDECIDED, NO_CLUE};

/// A puzzle of one room without given walls and clue, with these borders decided as Wall (`true`) or Connected.
fn plain(height: usize, width: usize, decisions: &[(usize, bool)]) -> Puzzle {
    let mut puzzle = Puzzle::make(height, width, &[], &[NO_CLUE]).unwrap();
    for &(border, wall) in decisions {
        puzzle.decide(border, wall).unwrap();
    }
    puzzle
}

/// The answers up to a cap, and whether more exist. Lent are a buffer that is just long enough and a longer one.
fn answers(puzzle: &Puzzle, cap: usize) -> (Vec<Vec<u8>>, bool) {
    let before = puzzle.clone();
    let len = puzzle.boards_len(cap).unwrap();
    let [mut exact, mut longer] = [len, len + 3].map(|bytes| vec![UNTOUCHED_BYTE; bytes]);
    let right = puzzle.right_boards(cap, &mut exact).unwrap();
    assert_eq!(puzzle.right_boards(cap, &mut longer), Ok(right));
    assert_eq!((right.len(), right.is_empty()), (right.iter().count(), right.get(0).is_none()));
    let told = (right.iter().map(|board| board.bytes().to_vec()).collect::<Vec<_>>(), right.more());
    let written = told.0.concat();
    for buffer in [exact, longer] {
        assert_eq!(buffer[..written.len()], written);
        assert!(buffer[written.len()..].iter().all(|&byte| byte == UNTOUCHED_BYTE));
    }
    assert_eq!(*puzzle, before);
    told
}

/// A call that must be refused by this number and leave every byte as it was.
fn refused(number: u8, puzzle: &Puzzle, cap: usize, bytes: usize) {
    let mut buffer = vec![UNTOUCHED_BYTE; bytes];
    assert_eq!(puzzle.right_boards(cap, &mut buffer).map_err(|refusal| refusal as u8), Err(number));
    assert_eq!(buffer, vec![UNTOUCHED_BYTE; bytes]);
}

#[test]
fn small_boards() {
    assert_eq!(answers(&plain(1, 2, &[]), 9), (vec![vec![2]], false));
    assert_eq!(answers(&plain(1, 4, &[]), 9), (vec![vec![1, 2, 1], vec![2, 2, 2]], false));
    let two_by_two = [[1, 1, 2, 2], [2, 2, 1, 1], [2, 2, 2, 2]].map(Vec::from);
    assert_eq!(answers(&plain(2, 2, &[]), 9), (two_by_two.to_vec(), false));
    assert_eq!(answers(&plain(2, 2, &[(3, true)]), 9), (vec![two_by_two[0].clone(), two_by_two[2].clone()], false));
    assert_eq!(answers(&plain(1, 2, &[(0, false)]), 9), (vec![], false));
    let full = plain(1, 4, &[(2, false), (0, false), (1, true)]);
    assert_eq!(answers(&full, 9), (vec![vec![1, 2, 1]], false));
    let clued = |clue| Puzzle::make(1, 4, &[1], &[clue, NO_CLUE]).unwrap();
    assert_eq!(answers(&clued(1), 9), (vec![vec![1, 2, 1]], false));
    assert_eq!(answers(&clued(2), 9), (vec![vec![2, 2, 2]], false));
    assert_eq!(answers(&clued(0), 9), (vec![], false));
}

/// 2 by 3 with a Connected border in the corner: all answers for either kind, those for translates among those for images.
#[test]
fn both_kinds() {
    let boards =
        [[1, 1, 1, 1, 2, 2, 2], [1, 2, 1, 2, 2, 2, 1], [1, 2, 1, 2, 2, 2, 2], [1, 2, 2, 1, 1, 2, 1], [1, 2, 2, 2, 2, 2, 1]];
    let boards = boards.map(Vec::from);
    for (kind, right) in [(Kind::Translates, vec![boards[0].clone(), boards[2].clone()]), (Kind::Images, boards.to_vec())] {
        let mut puzzle = Puzzle::of_kind(kind, 2, 3, &[], &[NO_CLUE]).unwrap();
        puzzle.decide(0, false).unwrap();
        assert_eq!(answers(&puzzle, 9), (right.clone(), false));
        assert_eq!(answers(&puzzle, 1), (right[..1].to_vec(), true));
    }
}

#[test]
fn caps() {
    assert_eq!(answers(&plain(1, 2, &[]), 0), (vec![], true));
    assert_eq!(answers(&plain(1, 2, &[(0, false)]), 0), (vec![], false));
    assert_eq!(answers(&plain(1, 4, &[]), 1), (vec![vec![1, 2, 1]], true));
    assert_eq!(answers(&plain(1, 4, &[]), 2), (vec![vec![1, 2, 1], vec![2, 2, 2]], false));
    let unique = |puzzle: Puzzle, cap| puzzle.right_boards(cap, &mut [0; 9]).unwrap().unique();
    assert!(unique(plain(1, 2, &[]), 1) && unique(plain(1, 4, &[(0, true)]), 3));
    assert!(!unique(plain(1, 2, &[]), 0) && !unique(plain(1, 4, &[]), 1) && !unique(plain(1, 4, &[]), 2));
    assert!(!unique(plain(1, 2, &[(0, false)]), 1));
}

#[test]
fn states_of_a_board() {
    let mut buffer = [0; 3];
    let board = plain(1, 4, &[]).right_boards(1, &mut buffer).unwrap().get(0).unwrap();
    assert_eq!(board.states().collect::<Vec<_>>(), [State::Connected, State::Wall, State::Connected]);
    assert_eq!((board.state(1), board.state(3)), (Some(State::Wall), None));
}

/// A board of one cell has no border, so that every cap fits the empty buffer.
#[test]
fn no_borders() {
    let puzzle = plain(1, 1, &[]);
    assert_eq!(puzzle.boards_len(usize::MAX), Ok(0));
    let right = puzzle.right_boards(usize::MAX, &mut []).unwrap();
    assert_eq!((right.len(), right.more(), right.iter().count()), (0, false, 0));
    // boards without bytes are counted all the same
    let two = RightBoards { bytes: &[], borders: 0, count: 2, more: false };
    assert!(two.iter().map(|board| board.bytes().len()).eq([0, 0]) && two.get(2).is_none());
}

/// A change that spoils a puzzle, and the number that then refuses it.
type Damage = (u8, fn(&mut sys::Puzzle));

#[test]
fn refusals() {
    for (bytes, cap) in [(0, 1), (5, 2), (0, usize::MAX), (7, 1 << 63)] {
        refused(6, &plain(1, 4, &[]), cap, bytes);
    }
    refused(6, &plain(1, 3, &[]), 1 << 63, 0);
    assert_eq!(plain(1, 3, &[]).boards_len(1 << 62), Err(Refusal::ShortBuffer));
    assert_eq!(plain(1, 3, &[]).boards_len(1 << 61), Ok(1 << 62));

    let many = plain(4, 5, &[]);
    assert_eq!((many.undecided(), many.boards_len(1)), (31, Err(Refusal::ManyUndecided)));
    for (cap, bytes) in [(0, 0), (1, 0), (1, 31), (usize::MAX, 3)] {
        refused(12, &many, cap, bytes);
    }
    let damages: [Damage; 5] = [
        (1, |p| p.board.height = 0),
        (1, |p| p.board.width = 33),
        (2, |p| p.board.states[0] = 1),
        (2, |p| p.clues_len = 2),
        (2, |p| p.kind = 2),
    ];
    for (number, damage) in damages {
        let mut bad = many.clone();
        damage(&mut bad.0);
        refused(number, &bad, 1, 0);
    }
}

/// Just as many undecided borders as are allowed, and one more.
#[test]
fn undecided_borders() {
    assert_eq!(plain(1, 25, &[]).undecided(), MAX_UNDECIDED);
    assert_eq!(answers(&plain(1, 25, &[]), 0), (vec![], true));
    refused(12, &plain(1, 26, &[]), 0, 0);
    assert_eq!(answers(&plain(1, 26, &[(7, true)]), 0), (vec![], true));
}

/// A drawn puzzle of a kind: some given walls, a clue for some rooms, some borders decided.
fn drawn_puzzle(drawn: &mut Drawn, kind: Kind, height: usize, width: usize) -> Puzzle {
    let borders = board(height, width, &[]).borders();
    let given: Vec<usize> = (0..borders).filter(|_| drawn.below(5) == 0).collect();
    // rooms are the potential units of the board on which the given walls alone are decided
    let walled = board(height, width, &given.iter().map(|&border| (border, true)).collect::<Vec<_>>());
    let (mut cells, mut out) = (vec![0; walled.cells()], vec![0; walled.cells()]);
    let rooms = walled.potential_units(&mut cells).unwrap();
    let clue = |room| match drawn.below(3) {
        0 => 1 + drawn.below(rooms.group(room, &mut out).len()) as u16,
        _ => NO_CLUE,
    };
    let clues: Vec<u16> = (0..rooms.count()).map(clue).collect();
    let given: Vec<u16> = given.into_iter().map(|border| border as u16).collect();
    let mut puzzle = Puzzle::of_kind(kind, height, width, &given, &clues).unwrap();
    for _ in 0..drawn.below(borders + 1) / 2 {
        // a border that stands already is refused, which is as well
        let _ = puzzle.decide(drawn.below(borders), drawn.below(2) == 1);
    }
    puzzle
}

/// Every full board over what is decided, border 0 compared first, that an ask finds nothing against.
fn tried(puzzle: &mut Puzzle, found: &mut Vec<Vec<u8>>) {
    let Some(open) = puzzle.states().position(|state| state == State::Undecided) else {
        if puzzle.ask(&mut vec![0; puzzle.list_len()]).unwrap().is_none() {
            found.push(puzzle.states().map(|state| if state == State::Wall { 2 } else { 1 }).collect());
        }
        return;
    };
    for wall in [false, true] {
        puzzle.decide(open, wall).unwrap();
        tried(puzzle, found);
        puzzle.undo().unwrap();
    }
}

#[test]
fn as_trying_every_board() {
    let (mut drawn, mut counts) = (Drawn(3), [0; 4]);
    for size in [(1, 2), (1, 5), (2, 2), (3, 1), (1, 9), (2, 3), (3, 2), (2, 4), (4, 2), (3, 3)] {
        for kind in [KINDS; 20].concat() {
            let mut puzzle = drawn_puzzle(&mut drawn, kind, size.0, size.1);
            let mut all = vec![];
            tried(&mut puzzle, &mut all);
            for cap in [0, 1, all.len().saturating_sub(1), all.len(), all.len() + 1, 1 << puzzle.undecided()] {
                let told = (all[..cap.min(all.len())].to_vec(), cap < all.len());
                assert_eq!(answers(&puzzle, cap), told, "{puzzle:?}, cap {cap}");
            }
            counts[all.len().min(3)] += 1;
        }
    }
    assert!(counts.iter().all(|&puzzles| puzzles > 9), "puzzles with 0, 1, 2 and more answers: {counts:?}");
}
