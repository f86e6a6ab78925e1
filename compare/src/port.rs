//! The port: safe wrappers of the functions that crate `exports` hands out.
//! The declarations must agree with crates/exports; nothing but these comparisons checks that.

pub mod file;
mod in_place;
mod lent;
mod loaded;
mod puzzle;
mod record;

use crate::answers::Groups;
use crate::ledger::singles;
pub use in_place::{LentBoard, LentPuzzle};
pub use lent::{generate_in, hand_over_in, run_in};
pub use loaded::{Archive, Told};
pub use puzzle::{Puzzle, PuzzleRecord, PLACES};
pub use record::{Played, Record};

/// The exported functions and records, as crates/exports declares them.
mod c {
    #[repr(C)]
    pub struct Place {
        pub code: u8,
        pub ends: bool,
        pub cell: usize,
        pub border: usize,
    }

    #[repr(C)]
    #[derive(Clone, Copy, PartialEq, Eq)]
    pub struct Board {
        pub height: usize,
        pub width: usize,
        pub states: [u8; 1984],
        pub ledger: [u16; 1984],
        pub len: usize,
    }

    #[repr(C)]
    pub struct Decided {
        pub code: u8,
        pub board: Board,
    }

    #[repr(C)]
    #[derive(Clone, Copy)]
    pub struct UnionFind {
        pub parent: [u16; 1024],
        pub n: usize,
    }

    #[repr(C)]
    pub struct Made {
        pub code: u8,
        pub union: UnionFind,
    }

    #[repr(C)]
    pub struct Found {
        pub code: u8,
        pub root: usize,
        pub union: UnionFind,
    }

    #[repr(C)]
    pub struct United {
        pub code: u8,
        pub united: bool,
        pub union: UnionFind,
    }

    #[repr(C)]
    #[derive(Clone, Copy)]
    pub struct GroupInfo {
        pub height: usize,
        pub width: usize,
        pub count: usize,
        pub ids: [u16; 1024],
        pub starts: [u16; 1024],
    }

    #[repr(C)]
    pub struct Grouping {
        pub code: u8,
        pub info: GroupInfo,
    }

    #[repr(C)]
    #[derive(Clone, Copy, PartialEq, Eq)]
    pub struct Book {
        pub states: [u8; 1984],
        pub ledger: [u16; 1984],
        pub len: usize,
    }

    #[repr(C)]
    #[derive(Clone, Copy, PartialEq, Eq)]
    pub struct CityCountConstraint {
        pub vertices: usize,
        pub edges: usize,
        pub us: [u16; 1984],
        pub vs: [u16; 1984],
        pub count: u32,
        pub book: Book,
    }

    #[repr(C)]
    pub struct Edge {
        pub u: u16,
        pub v: u16,
    }

    #[repr(C)]
    pub struct RoomDecided {
        pub code: u8,
        pub room: CityCountConstraint,
    }

    /// An archive from before images has nothing in the place of the kind.
    #[repr(C)]
    #[derive(Clone, Copy, PartialEq, Eq)]
    pub struct PuzzleOf<K> {
        pub board: Board,
        pub given: [u16; 1984],
        pub given_len: usize,
        pub clues: [u16; 1024],
        pub clues_len: usize,
        pub kind: K,
    }

    pub type Puzzle = PuzzleOf<u8>;

    #[repr(C)]
    pub struct PuzzleMadeOf<K> {
        pub code: u8,
        pub puzzle: PuzzleOf<K>,
    }

    pub type PuzzleMade = PuzzleMadeOf<u8>;

    #[repr(C)]
    pub struct Outcome {
        pub kind: u8,
        pub code: u8,
        pub room: usize,
        pub length: usize,
    }

    #[repr(C)]
    pub struct Boards {
        pub code: u8,
        pub more: bool,
        pub count: usize,
    }

    #[repr(C)]
    pub struct Opened {
        pub code: u8,
        pub puzzle: Puzzle,
        pub at: usize,
        pub count: usize,
    }

    #[repr(C)]
    pub struct Ran {
        pub code: u8,
        pub puzzle: Puzzle,
        pub at: usize,
        pub done: usize,
        pub len: usize,
    }

    #[repr(C)]
    #[derive(Clone, Copy, Debug, Default, PartialEq, Eq)]
    pub struct Parts {
        pub code: u8,
        pub height: usize,
        pub width: usize,
        pub walls_at: usize,
        pub walls_count: usize,
        pub clues_at: usize,
        pub clues_count: usize,
        pub calls_at: usize,
        pub calls_count: usize,
    }

    #[repr(C)]
    pub struct CallFields {
        pub code: u8,
        pub kind: u8,
        pub border: usize,
        pub behind: usize,
    }

    #[repr(C)]
    pub struct Answer {
        pub code: u8,
        pub fault: bool,
        pub length: usize,
    }

    // Numbers and records by value cross, and every value of them is answered: these calls are safe. A slice crosses as a
    // pointer and a length: those calls have a wrapper below.
    unsafe extern "C" {
        pub safe fn sendai_neighbour(height: usize, width: usize, cell: usize, direction: u8) -> Place;
        pub safe fn sendai_board_make(height: usize, width: usize) -> Decided;
        pub safe fn sendai_board_decide(board: Board, border: usize, wall: bool) -> Decided;
        pub safe fn sendai_board_undo(board: Board) -> Decided;
        pub safe fn sendai_board_check(board: Board) -> u8;
        pub safe fn sendai_board_decide_in_place(board: &mut Board, border: usize, wall: bool) -> u8;
        pub safe fn sendai_board_undo_in_place(board: &mut Board) -> u8;
        pub fn sendai_board_stroke(board: Board, entries: *const u16, length: usize) -> Decided;
        pub fn sendai_board_stroke_in_place(board: &mut Board, entries: *const u16, length: usize) -> u8;
        pub fn sendai_board_ask_in_place(board: *const Board, buffer: *mut u16, room: usize) -> Answer;
        pub safe fn sendai_union_new(n: usize) -> Made;
        pub safe fn sendai_union_find(union: UnionFind, x: usize) -> Found;
        pub safe fn sendai_union_unite(union: UnionFind, x: usize, y: usize) -> United;
        pub safe fn sendai_room_check(room: CityCountConstraint) -> u8;
        pub safe fn sendai_room_decide(room: CityCountConstraint, edge: usize, wall: bool) -> RoomDecided;
        pub safe fn sendai_room_undo(room: CityCountConstraint) -> RoomDecided;
        pub fn sendai_room_stroke(room: CityCountConstraint, entries: *const u16, length: usize) -> RoomDecided;
        pub safe fn sendai_puzzle_check(puzzle: Puzzle) -> u8;
        pub safe fn sendai_puzzle_decide(puzzle: Puzzle, border: usize, wall: bool) -> PuzzleMade;
        pub safe fn sendai_puzzle_undo(puzzle: Puzzle) -> PuzzleMade;
        pub fn sendai_puzzle_stroke(puzzle: Puzzle, entries: *const u16, length: usize) -> PuzzleMade;
        pub safe fn sendai_puzzle_decide_in_place(puzzle: &mut Puzzle, border: usize, wall: bool) -> u8;
        pub safe fn sendai_puzzle_undo_in_place(puzzle: &mut Puzzle) -> u8;
        pub fn sendai_puzzle_stroke_in_place(puzzle: &mut Puzzle, entries: *const u16, length: usize) -> u8;
        pub fn sendai_puzzle_ask_in_place(puzzle: *const Puzzle, buffer: *mut u16, room: usize) -> Outcome;
        pub fn sendai_puzzle_make(
            height: usize,
            width: usize,
            given: *const u16,
            given_length: usize,
            clues: *const u16,
            clues_length: usize,
        ) -> PuzzleMade;
        pub fn sendai_puzzle_make_images(
            height: usize,
            width: usize,
            given: *const u16,
            given_length: usize,
            clues: *const u16,
            clues_length: usize,
        ) -> PuzzleMade;
        pub fn sendai_puzzle_ask(puzzle: Puzzle, buffer: *mut u16, room: usize) -> Outcome;
        pub fn sendai_puzzle_right_boards(puzzle: Puzzle, cap: usize, buffer: *mut u8, room: usize) -> Boards;
        pub fn sendai_room_make(
            vertices: usize,
            us: *const u16,
            us_length: usize,
            vs: *const u16,
            vs_length: usize,
            count: u32,
        ) -> RoomDecided;
        pub fn sendai_room_make_of_edges(vertices: usize, edges: *const Edge, length: usize, count: u32) -> RoomDecided;
        pub fn sendai_room_ask(room: CityCountConstraint, buffer: *mut u16, room_for: usize) -> Answer;
        pub fn sendai_groups(board: Board, potential: bool, buffer: *mut u16, room: usize) -> Grouping;
        pub fn sendai_group(
            info: GroupInfo,
            buffer: *const u16,
            length: usize,
            group: usize,
            out: *mut u16,
            room: usize,
        ) -> usize;
        pub fn sendai_path(board: Board, start: usize, target: usize, buffer: *mut u16, room: usize) -> Answer;
        pub fn sendai_unit_boundary(board: Board, unit: usize, buffer: *mut u16, room: usize) -> Answer;
        pub fn sendai_potential_unit_boundary(board: Board, unit: usize, buffer: *mut u16, room: usize) -> Answer;
        pub fn sendai_board_ask(board: Board, buffer: *mut u16, room: usize) -> Answer;
        pub fn sendai_hand_over(entries: *const u16, length: usize, buffer: *mut u16, room: usize) -> Answer;
        pub fn sendai_case_generate(
            seed: u32,
            height: usize,
            width: usize,
            count: usize,
            buffer: *mut u8,
            room: usize,
        ) -> Answer;
        pub fn sendai_case_open(file: *const u8, length: usize) -> Opened;
        pub fn sendai_case_run(
            file: *const u8,
            length: usize,
            at: usize,
            count: usize,
            puzzle: Puzzle,
            out: *mut u8,
            room: usize,
        ) -> Ran;
        pub fn sendai_file_decode(file: *const u8, length: usize) -> Parts;
        pub fn sendai_file_call(file: *const u8, length: usize, at: usize) -> CallFields;
        pub fn sendai_file_number(file: *const u8, length: usize, at: usize, count: usize, k: usize) -> usize;
        pub fn sendai_file_numbers(
            file: *const u8,
            length: usize,
            at: usize,
            count: usize,
            out: *mut u16,
            room: usize,
        ) -> Answer;
        pub fn sendai_line(
            kind: u8,
            number: usize,
            entries: *const u16,
            length: usize,
            buffer: *mut u8,
            room: usize,
        ) -> Answer;
    }
}

#[derive(Clone, Copy, Debug, PartialEq, Eq)]
pub enum Beyond {
    At { cell: usize, border: usize },
    End,
    Refused(u8),
}

/// Directions by their numbers.
pub const UP: u8 = 0;
pub const DOWN: u8 = 1;
pub const LEFT: u8 = 2;
pub const RIGHT: u8 = 3;

pub fn neighbour(height: usize, width: usize, cell: usize, direction: u8) -> Beyond {
    let place = c::sendai_neighbour(height, width, cell, direction);
    if place.code != 0 {
        Beyond::Refused(place.code)
    } else if place.ends {
        Beyond::End
    } else {
        Beyond::At { cell: place.cell, border: place.border }
    }
}

/// A refusal's number as a result.
fn accepted(code: u8) -> Result<(), u8> {
    if code == 0 { Ok(()) } else { Err(code) }
}

/// A board record. A call puts what it returned in its place, refused or not.
#[derive(Clone, Copy, PartialEq, Eq)]
pub struct Board(c::Board);

impl Board {
    pub fn make(height: usize, width: usize) -> Result<Board, u8> {
        let made = c::sendai_board_make(height, width);
        accepted(made.code).map(|()| Board(made.board))
    }

    /// A record with these fronts of its arrays, and 0 behind them; `len` of the ledger's names count.
    pub fn of(size: (usize, usize), states: &[u8], ledger: &[u16], len: usize) -> Board {
        let mut board = c::Board { height: size.0, width: size.1, states: [0; 1984], ledger: [0; 1984], len };
        board.states[..states.len()].copy_from_slice(states);
        board.ledger[..ledger.len()].copy_from_slice(ledger);
        Board(board)
    }

    /// A record on which these states stand, written down with a rising ledger of single decisions and not called for.
    pub fn standing(height: usize, width: usize, states: &[u8]) -> Board {
        let decided: Vec<u16> = (0..states.len() as u16).filter(|&border| states[border as usize] != 0).collect();
        Board::of((height, width), states, &singles(&decided), decided.len())
    }

    fn put(&mut self, decided: c::Decided) -> Result<(), u8> {
        self.0 = decided.board;
        accepted(decided.code)
    }

    pub fn decide(&mut self, border: usize, wall: bool) -> Result<(), u8> {
        self.put(c::sendai_board_decide(self.0, border, wall))
    }

    pub fn stroke(&mut self, entries: &[u16]) -> Result<(), u8> {
        // the entries live through the call
        self.put(unsafe { c::sendai_board_stroke(self.0, entries.as_ptr(), entries.len()) })
    }

    pub fn undo(&mut self) -> Result<(), u8> {
        self.put(c::sendai_board_undo(self.0))
    }

    /// Questions 1 and 2.
    pub fn check(&self) -> Result<(), u8> {
        accepted(c::sendai_board_check(self.0))
    }

    pub fn states(&self) -> Vec<u8> {
        let borders = crate::boards::border_count(self.0.height, self.0.width);
        self.0.states[..borders].to_vec()
    }

    /// The ledger's names.
    pub fn names(&self) -> Vec<u16> {
        self.0.ledger[..self.0.len].to_vec()
    }
}

/// A union record.
#[derive(Clone, Copy)]
pub struct Union(c::UnionFind);

impl Union {
    pub fn make(vertices: usize) -> Result<Union, u8> {
        let made = c::sendai_union_new(vertices);
        accepted(made.code).map(|()| Union(made.union))
    }

    pub fn find(&mut self, x: usize) -> Result<usize, u8> {
        let found = c::sendai_union_find(self.0, x);
        self.0 = found.union;
        accepted(found.code).map(|()| found.root)
    }

    pub fn unite(&mut self, x: usize, y: usize) -> Result<bool, u8> {
        let united = c::sendai_union_unite(self.0, x, y);
        self.0 = united.union;
        accepted(united.code).map(|()| united.united)
    }

    pub fn parents(&self) -> Vec<u16> {
        self.0.parent[..self.0.n].to_vec()
    }
}

/// What the places of a buffer hold before a call.
const UNTOUCHED: u16 = 0xbeef;

/// Lends a buffer of so many places to a call, and takes out the list that it wrote; the other places must be untouched.
fn listed(room: usize, call: impl FnOnce(*mut u16, usize) -> c::Answer) -> Result<Vec<u16>, u8> {
    let mut buffer = vec![UNTOUCHED; room];
    let listing = call(buffer.as_mut_ptr(), room);
    let used = if listing.code == 0 { listing.length } else { 0 };
    assert!(buffer[used..].iter().all(|&place| place == UNTOUCHED), "places behind the list were written");
    buffer.truncate(used);
    accepted(listing.code).map(|()| buffer)
}

/// The same for an ask: none where it is clear, else the fault's list.
fn judged(room: usize, call: impl FnOnce(*mut u16, usize) -> c::Answer) -> Result<Option<Vec<u16>>, u8> {
    let mut fault = false;
    let list = listed(room, |buffer, places| {
        let answer = call(buffer, places);
        fault = answer.fault;
        answer
    });
    list.map(|list| fault.then_some(list))
}

/// Hand-over into a buffer of so many places.
pub fn hand_over(entries: &[u16], room: usize) -> Result<Vec<u16>, u8> {
    let (from, length) = (entries.as_ptr(), entries.len());
    // both slices live through the call, and neither overlaps the other
    listed(room, |buffer, room| unsafe { c::sendai_hand_over(from, length, buffer, room) })
}

/// A group record with the buffer that holds the cells.
pub struct Grouping {
    info: c::GroupInfo,
    cells: Vec<u16>,
}

impl Grouping {
    pub fn groups(&self) -> Groups {
        let cells = self.info.height * self.info.width;
        assert!(self.cells[cells..].iter().all(|&place| place == UNTOUCHED), "places behind the cells were written");
        Groups {
            of: self.info.ids[..cells].to_vec(),
            cells: self.cells[..cells].to_vec(),
            starts: self.info.starts[..self.info.count].to_vec(),
        }
    }

    /// The cells that are handed out for a group.
    pub fn group(&self, group: usize) -> Vec<u16> {
        let (from, length) = (self.cells.as_ptr(), self.cells.len());
        let call = |out, room| c::Answer {
            code: 0,
            fault: false,
            // both slices live through the call, and neither overlaps the other
            length: unsafe { c::sendai_group(self.info, from, length, group, out, room) },
        };
        listed(length, call).expect("a hand-out has no code")
    }
}

impl Board {
    /// Room for any list of a board: 9·h·w places.
    fn room(&self) -> usize {
        9 * self.0.height * self.0.width
    }

    /// With three places more than the cells need.
    pub fn grouping(&self, potential: bool) -> Result<Grouping, u8> {
        let mut cells = vec![UNTOUCHED; self.0.height * self.0.width + 3];
        // the buffer lives through the call
        let grouping = unsafe { c::sendai_groups(self.0, potential, cells.as_mut_ptr(), cells.len()) };
        accepted(grouping.code).map(|()| Grouping { info: grouping.info, cells })
    }

    pub fn path(&self, from: usize, to: usize) -> Result<Vec<u16>, u8> {
        listed(self.room(), |buffer, room| unsafe { c::sendai_path(self.0, from, to, buffer, room) })
    }

    /// The shape check.
    pub fn ask(&self) -> Result<Option<Vec<u16>>, u8> {
        self.ask_with(self.room())
    }

    /// The same with a buffer of so many places.
    pub fn ask_with(&self, places: usize) -> Result<Option<Vec<u16>>, u8> {
        judged(places, |buffer, places| unsafe { c::sendai_board_ask(self.0, buffer, places) })
    }

    pub fn unit_boundary(&self, unit: usize) -> Result<Vec<u16>, u8> {
        listed(self.room(), |buffer, room| unsafe { c::sendai_unit_boundary(self.0, unit, buffer, room) })
    }

    pub fn potential_unit_boundary(&self, unit: usize) -> Result<Vec<u16>, u8> {
        listed(self.room(), |buffer, room| unsafe { c::sendai_potential_unit_boundary(self.0, unit, buffer, room) })
    }
}

/// A room graph's record.
#[derive(Clone, Copy, PartialEq, Eq)]
pub struct City(c::CityCountConstraint);

impl City {
    pub fn make(vertices: usize, edges: &[(usize, usize)], count: u32) -> Result<City, u8> {
        let ends = |end: fn(&(usize, usize)) -> usize| edges.iter().map(|e| end(e) as u16).collect::<Vec<u16>>();
        let (us, vs) = (ends(|e| e.0), ends(|e| e.1));
        // both slices live through the call
        let made = unsafe { c::sendai_room_make(vertices, us.as_ptr(), us.len(), vs.as_ptr(), vs.len(), count) };
        accepted(made.code).map(|()| City(made.room))
    }

    /// With the edges as one list of records.
    pub fn make_of_edges(vertices: usize, edges: &[(usize, usize)], count: u32) -> Result<City, u8> {
        let list: Vec<c::Edge> = edges.iter().map(|&(u, v)| c::Edge { u: u as u16, v: v as u16 }).collect();
        // the slice lives through the call
        let made = unsafe { c::sendai_room_make_of_edges(vertices, list.as_ptr(), list.len(), count) };
        accepted(made.code).map(|()| City(made.room))
    }

    fn put(&mut self, decided: c::RoomDecided) -> Result<(), u8> {
        self.0 = decided.room;
        accepted(decided.code)
    }

    pub fn decide(&mut self, edge: usize, wall: bool) -> Result<(), u8> {
        self.put(c::sendai_room_decide(self.0, edge, wall))
    }

    pub fn stroke(&mut self, entries: &[u16]) -> Result<(), u8> {
        // the entries live through the call
        self.put(unsafe { c::sendai_room_stroke(self.0, entries.as_ptr(), entries.len()) })
    }

    pub fn undo(&mut self) -> Result<(), u8> {
        self.put(c::sendai_room_undo(self.0))
    }

    /// Questions 1 and 2.
    pub fn check(&self) -> Result<(), u8> {
        accepted(c::sendai_room_check(self.0))
    }

    pub fn states(&self) -> Vec<u8> {
        self.0.book.states[..self.0.edges].to_vec()
    }

    /// The ledger's names.
    pub fn names(&self) -> Vec<u16> {
        self.0.book.ledger[..self.0.book.len].to_vec()
    }

    /// This graph with these fronts of its book's arrays, and 0 behind them; `len` of the ledger's names count.
    pub fn with(&self, states: &[u8], ledger: &[u16], len: usize) -> City {
        let mut book = c::Book { states: [0; 1984], ledger: [0; 1984], len };
        book.states[..states.len()].copy_from_slice(states);
        book.ledger[..ledger.len()].copy_from_slice(ledger);
        City(c::CityCountConstraint { book, ..self.0 })
    }

    /// With a buffer of just the edge count.
    pub fn ask(&self) -> Result<Option<Vec<u16>>, u8> {
        self.ask_within(self.0.edges)
    }

    /// With a buffer of so many places.
    pub fn ask_within(&self, places: usize) -> Result<Option<Vec<u16>>, u8> {
        judged(places, |buffer, places| unsafe { c::sendai_room_ask(self.0, buffer, places) })
    }
}
