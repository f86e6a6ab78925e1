//! What is timed: each call on both sides.
use super::paper::{Pair, Row};
use super::turns::turn;
use super::{both, row, stack};
use crate::boards::{Standing, CONNECTED, UNDECIDED, WALL};
use crate::kinds::Kind;
use crate::port::{self, LentBoard, LentPuzzle, Played};
use crate::puzzles::Making;
use crate::random::Random;
use crate::reference::{self, Board, NO_CLUE};
use std::hint::black_box;

/// An ask's times, and what it answered.
pub struct Asked {
    pub times: Pair,
    pub kind: &'static str,
}

const KINDS: [&str; 3] = ["clear", "shape", "room"];

/// How a record is handed over.
#[derive(Clone, Copy, PartialEq, Eq)]
pub enum Way {
    ByValue,
    Lent,
}

pub fn ask(board: &Standing, way: Way) -> Asked {
    let (height, width) = (board.height, board.width);
    let mut rust = Board::standing(height, width, &board.states);
    let ours = port::Board::standing(height, width, &board.states);
    let lent = LentBoard(ours);
    let mut buffer = vec![0; 9 * board.cells()];
    let kind = KINDS[ours.ask_in(&mut buffer) as usize];
    let times = match way {
        Way::ByValue => both(|| rust.ask(), || ours.ask_in(&mut buffer)),
        Way::Lent => both(|| rust.ask(), || lent.ask_in(&mut buffer)),
    };
    Asked { times, kind }
}

/// A puzzle with what stands on it.
pub struct Laid {
    pub board: Standing,
    pub given: Vec<usize>,
    pub clues: Vec<u16>,
}

impl Laid {
    /// Rooms of 4 by 4 cells, parted by given walls, with one clue; inside, borders by their two cells.
    pub fn squares(side: usize, clue: u16, inside: impl Fn((usize, usize), (usize, usize)) -> u8) -> Laid {
        let apart = |a: (usize, usize), b: (usize, usize)| (a.0 / 4, a.1 / 4) != (b.0 / 4, b.1 / 4);
        let walls = Standing::by(side, side, |a, b| if apart(a, b) { WALL } else { UNDECIDED });
        let given = (0..walls.states.len()).filter(|&border| walls.states[border] == WALL).collect();
        let board = Standing::by(side, side, |a, b| if apart(a, b) { WALL } else { inside(a, b) });
        // the last rooms have what is left of the sides
        let across = |room: usize| (side - 4 * room).min(4) as u16;
        let rooms = side.div_ceil(4);
        let clues = (0..rooms * rooms).map(|room| clue.min(across(room / rooms) * across(room % rooms))).collect();
        Laid { board, given, clues }
    }

    pub fn with_last_clue(mut self, clue: u16) -> Laid {
        *self.clues.last_mut().expect("a room") = clue;
        self
    }

    pub fn one_room(side: usize, state: u8, clue: usize) -> Laid {
        Laid { board: Standing::all(side, side, state), given: vec![], clues: vec![clue as u16] }
    }

    /// One room that is a path of all cells, walled off by given walls: the walk over it goes as deep as it can.
    fn snake(side: usize) -> Laid {
        let place = |y: usize, x: usize| y * side + if y % 2 == 0 { x } else { side - 1 - x };
        let mut board = Standing::along(side, side, WALL, place);
        let given = (0..board.states.len()).filter(|&border| board.states[border] == WALL).collect();
        board.states.iter_mut().filter(|state| **state == CONNECTED).for_each(|state| *state = UNDECIDED);
        Laid { board, given, clues: vec![(side * side / 2) as u16] }
    }

    fn stands(&self) -> impl Iterator<Item = (usize, u8)> + '_ {
        let states = self.board.states.iter().copied().enumerate();
        states.filter(|(border, state)| *state != UNDECIDED && self.given.binary_search(border).is_err())
    }

    pub fn rust(&self) -> reference::Puzzle {
        let (height, width) = (self.board.height, self.board.width);
        let mut rust = reference::Puzzle::new(height, width, &self.given, &self.clues, false).expect("made");
        self.stands().for_each(|(border, state)| rust.decide(border, state == WALL).expect("decided"));
        rust
    }

    /// Of translates.
    pub fn port(&self) -> port::Puzzle {
        self.port_of(Kind::Translates)
    }

    pub fn port_of(&self, kind: Kind) -> port::Puzzle {
        let given = self.given.iter().map(|&border| border as u16).collect();
        let making = Making { given, clues: self.clues.clone(), ..Making::empty(self.board.height, self.board.width) };
        let mut ours = port::Puzzle::make(&making.of_kind(kind)).expect("made");
        self.stands().for_each(|(border, state)| ours.decide(border, state == WALL).expect("decided"));
        ours
    }
}

pub fn puzzle_ask(laid: &Laid, way: Way) -> Asked {
    let (mut rust, ours) = (laid.rust(), laid.port());
    let lent = LentPuzzle(ours);
    let mut buffer = vec![0; 9 * laid.board.cells()];
    let kind = KINDS[ours.ask_in(&mut buffer) as usize];
    let times = match way {
        Way::ByValue => both(|| rust.ask(), || ours.ask_in(&mut buffer)),
        Way::Lent => both(|| rust.ask(), || lent.kind_in(&mut buffer)),
    };
    Asked { times, kind }
}

/// The largest group, its first and its last cell.
fn largest(info: &reference::Info, potential: bool) -> (usize, usize, usize) {
    let group = |k: usize| info.group(potential, k).expect("a group");
    let most = (0..info.count(potential)).max_by_key(|&k| (group(k).len(), usize::MAX - k)).expect("a group");
    let cells = group(most);
    (most, cells[0] as usize, cells[cells.len() - 1] as usize)
}

/// Groups, paths and boundaries on boards: the columns, and a row a board.
pub fn on_boards(boards: &[(&str, Standing)]) -> (Vec<String>, Vec<Row<Vec<Pair>>>) {
    let columns = ["units", "potential units", "path", "unit's boundary", "potential unit's boundary"];
    let buffer = &mut vec![0; 9216];
    let mut times = |board: &Standing| {
        let rust = Board::standing(board.height, board.width, &board.states);
        let ours = port::Board::standing(board.height, board.width, &board.states);
        let info = rust.info();
        let (unit, first, last) = largest(&info, false);
        let (potential, ..) = largest(&info, true);
        vec![
            both(|| rust.group_kind(false), || ours.groups_in(false, buffer)),
            both(|| rust.group_kind(true), || ours.groups_in(true, buffer)),
            both(|| rust.path(first, last), || ours.path_in(first, last, buffer)),
            both(
                || rust.unit_boundary(&rust.info(), unit),
                || ours.boundary_in(false, unit, buffer),
            ),
            both(
                || rust.potential_unit_boundary(&rust.info(), potential),
                || ours.boundary_in(true, potential, buffer),
            ),
        ]
    };
    let rows = boards.iter().map(|(name, board)| row(*name, times(board))).collect();
    (columns.map(String::from).to_vec(), rows)
}

/// The largest room, 32 by 32 cells, whose edges all have one state, with a count.
fn room(state: u8, count: u32) -> (reference::City, port::City) {
    let side = 32;
    let mut edges = vec![];
    for cell in 0..side * side {
        if cell / side + 1 < side {
            edges.push((cell, cell + side));
        }
        if cell % side + 1 < side {
            edges.push((cell, cell + 1));
        }
    }
    let mut rust = reference::City::new(side * side, &edges, count).expect("made");
    let mut ours = port::City::make(side * side, &edges, count).expect("made");
    if state != UNDECIDED {
        for edge in 0..edges.len() {
            rust.decide(edge, state == WALL).expect("decided");
            ours.decide(edge, state == WALL).expect("decided");
        }
    }
    (rust, ours)
}

const ROOMS: [(&str, u8, u32); 5] = [
    ("all Connected, clear", CONNECTED, 1),
    ("all Connected, a fault", CONNECTED, 2),
    ("all Walls, clear", WALL, 1024),
    ("all Walls, a fault", WALL, 1023),
    ("all undecided, clear", UNDECIDED, 500),
];

pub fn room_asks() -> Vec<Row<Pair>> {
    let buffer = &mut vec![0; 1984];
    let mut times = |state, count| {
        let (mut rust, ours) = room(state, count);
        both(|| rust.ask(), || ours.ask_in(buffer))
    };
    ROOMS.iter().map(|&(name, state, count)| row(name, times(state, count))).collect()
}

/// A chain in which each vertex names the next one.
fn chain() -> (reference::Union, port::Union) {
    let (mut rust, mut ours) = (reference::Union::new(1024), port::Union::make(1024).expect("made"));
    for x in 0..1023 {
        rust.unite(x, x + 1).expect("united");
        ours.unite(x, x + 1).expect("united");
    }
    (rust, ours)
}

pub fn others() -> Vec<Row<Pair>> {
    let (rust, ours) = chain();
    let find = both(
        || rust.clone().find(0),
        || {
            let mut union = ours;
            union.find(0)
        },
    );
    let mut random = Random::new(1);
    let entries: Vec<u16> = (0..9216).map(|_| random.below(3968) as u16).collect();
    let buffer = &mut vec![0; 9216];
    let handed = both(
        || {
            let mut list = entries.clone();
            list.sort();
            list.dedup();
            black_box(list);
        },
        || port::hand_over_in(&entries, buffer),
    );
    vec![row("find at the end of a chain of 1,024, in a copy of the union", find), row("hand-over of 9,216 entries", handed)]
}

/// The stack of each call: the most over the inputs. A lent record lies elsewhere.
pub fn stacks(boards: &[(&str, Standing)], puzzles: &[(&str, Laid)]) -> Vec<(String, usize)> {
    let buffer = &mut vec![0; 65536];
    let standing: Vec<port::Board> = boards.iter().map(|(_, b)| port::Board::standing(32, 32, &b.states)).collect();
    let in_one_room = boards.iter().map(|(_, board)| Laid { board: board.clone(), given: vec![], clues: vec![NO_CLUE] });
    let in_one_room: Vec<Laid> = in_one_room.chain([Laid::snake(32)]).collect();
    let all = || puzzles.iter().map(|(_, laid)| laid).chain(&in_one_room);
    let laid: Vec<port::Puzzle> = all().map(Laid::port).collect();
    let images: Vec<port::Puzzle> = all().map(|laid| laid.port_of(Kind::Images)).collect();
    let path: Vec<(usize, usize)> = (0..1023).map(|vertex| (vertex, vertex + 1)).collect();
    let deep = port::City::make(1024, &path, 500).expect("made");
    let cities: Vec<port::City> = ROOMS.iter().map(|&(_, state, count)| room(state, count).1).chain([deep]).collect();
    let (_, mut union) = chain();
    let most = |list: Vec<usize>| list.into_iter().max().expect("inputs");
    let on = |name: &str, used: Vec<usize>| (name.to_string(), most(used));
    let whole: Vec<u16> = (0..=65535).collect();
    let line = &mut vec![0; 65536];
    let making = Making { clues: vec![9], ..Making::empty(32, 32) };
    let (mut board, mut puzzle) = (LentBoard(standing[5]), LentPuzzle(laid[0]));
    let (lent_boards, lent_puzzles) = (standing.iter().copied().map(LentBoard), laid.iter().copied().map(LentPuzzle));
    let lent_images = images.iter().copied().map(LentPuzzle);
    vec![
        on("groups", standing.iter().map(|b| stack::used(|| b.groups_in(true, buffer))).collect()),
        on("path", standing.iter().map(|b| stack::used(|| b.path_in(0, 0, buffer))).collect()),
        on("boundary", standing.iter().map(|b| stack::used(|| b.boundary_in(false, 0, buffer))).collect()),
        on("board's decide and undo", vec![stack::used(|| turn(&mut standing[5].clone(), 0))]),
        on("board's decide and undo in place", vec![stack::used(|| turn(&mut board, 0))]),
        on("shape check", standing.iter().map(|b| stack::used(|| b.ask_in(buffer))).collect()),
        on("shape check of a lent board", lent_boards.map(|b| stack::used(|| b.ask_in(buffer))).collect()),
        on("room check", cities.iter().map(|c| stack::used(|| c.ask_in(buffer))).collect()),
        on("find", vec![stack::used(|| union.find(0))]),
        on("puzzle's making", vec![stack::used(|| port::Puzzle::make(&making).is_ok())]),
        on("puzzle's decide and undo", vec![stack::used(|| turn(&mut laid[0].clone(), 0))]),
        on("puzzle's decide and undo in place", vec![stack::used(|| turn(&mut puzzle, 0))]),
        on("puzzle's ask", laid.iter().map(|p| stack::used(|| p.ask_in(buffer))).collect()),
        on("ask of a lent puzzle", lent_puzzles.map(|p| stack::used(|| p.kind_in(buffer))).collect()),
        on("puzzle's ask, images", images.iter().map(|p| stack::used(|| p.ask_in(buffer))).collect()),
        on("ask of a lent puzzle, images", lent_images.map(|p| stack::used(|| p.kind_in(buffer))).collect()),
        on("hand-over", vec![stack::used(|| port::hand_over_in(&whole, buffer))]),
        on("a file's puzzle", vec![stack::used(|| port::file::open(&ONE_ASK).code)]),
        on("a run of a file's calls", laid.iter().map(|p| stack::used(|| port::run_in(&ONE_ASK, 13, p.0, line).code)).collect()),
        on("a run of a file's calls, images", images.iter().map(|p| stack::used(|| port::run_in(&ONE_ASK, 13, p.0, line).code)).collect()),
    ]
}

/// A case file of 32 by 32: one room without a clue, and an ask at byte 13.
const ONE_ASK: [u8; 14] = [1, 0, 11, 32, 32, 0, 0, 0, 1, 0xff, 0xff, 0, 1, 3];
