//! The records and functions of the archive as they are, for who wants plain numbers; `../sendai.h` says what each one answers.
//! The types of the crate's root keep such a record to themselves.

use std::mem::{offset_of, size_of};

/// Declares records laid out as in C, and refuses another layout at compile time.
macro_rules! records {
    ($($(#[$doc:meta])* $name:ident, $size:literal { $($field:ident: $type:ty = $offset:literal,)* })*) => {$(
        $(#[$doc])*
        #[repr(C)]
        #[derive(Clone, Copy, Debug, PartialEq, Eq)]
        pub struct $name { $(pub $field: $type,)* }
        const _: () = assert!(size_of::<$name>() == $size $(&& offset_of!($name, $field) == $offset)*);
    )*};
}

records! {
    /// The ledger's first `len` places name the decided borders in order: 2 · border + 1 for the first of a stroke, 2 · border for the others.
    Board, 5976 {
        height: usize = 0,
        width: usize = 8,
        states: [u8; 1984] = 16,
        ledger: [u16; 1984] = 2000,
        len: usize = 5968,
    }
    /// `kind` is the number of a [`Kind`](crate::Kind).
    Puzzle, 12016 {
        board: Board = 0,
        given: [u16; 1984] = 5976,
        given_len: usize = 9944,
        clues: [u16; 1024] = 9952,
        clues_len: usize = 12000,
        kind: u8 = 12008,
    }
    /// An edge of a room graph between two vertices.
    Edge, 4 {
        u: u16 = 0,
        v: u16 = 2,
    }
    /// States and ledger of a room graph's edges, named as a board's borders.
    Book, 5960 {
        states: [u8; 1984] = 0,
        ledger: [u16; 1984] = 1984,
        len: usize = 5952,
    }
    Room, 13920 {
        vertices: usize = 0,
        edges: usize = 8,
        us: [u16; 1984] = 16,
        vs: [u16; 1984] = 3984,
        count: u32 = 7952,
        book: Book = 7960,
    }
    GroupInfo, 4120 {
        height: usize = 0,
        width: usize = 8,
        count: usize = 16,
        ids: [u16; 1024] = 24,
        starts: [u16; 1024] = 2072,
    }
    Union, 2056 {
        parent: [u16; 1024] = 0,
        n: usize = 2048,
    }
    BoardAnswer, 5984 {
        code: u8 = 0,
        board: Board = 8,
    }
    PuzzleAnswer, 12024 {
        code: u8 = 0,
        puzzle: Puzzle = 8,
    }
    RoomAnswer, 13928 {
        code: u8 = 0,
        room: Room = 8,
    }
    Grouping, 4128 {
        code: u8 = 0,
        info: GroupInfo = 8,
    }
    UnionMade, 2064 {
        code: u8 = 0,
        parts: Union = 8,
    }
    Found, 2072 {
        code: u8 = 0,
        root: usize = 8,
        parts: Union = 16,
    }
    United, 2064 {
        code: u8 = 0,
        united: bool = 1,
        parts: Union = 8,
    }
    Place, 24 {
        code: u8 = 0,
        ends: bool = 1,
        cell: usize = 8,
        border: usize = 16,
    }
    Answer, 16 {
        code: u8 = 0,
        fault: bool = 1,
        length: usize = 8,
    }
    Outcome, 24 {
        kind: u8 = 0,
        code: u8 = 1,
        room: usize = 8,
        length: usize = 16,
    }
    Boards, 16 {
        code: u8 = 0,
        more: bool = 1,
        count: usize = 8,
    }
    Case, 12040 {
        code: u8 = 0,
        puzzle: Puzzle = 8,
        at: usize = 12024,
        count: usize = 12032,
    }
    Ran, 12048 {
        code: u8 = 0,
        puzzle: Puzzle = 8,
        at: usize = 12024,
        done: usize = 12032,
        length: usize = 12040,
    }
    FileParts, 72 {
        code: u8 = 0,
        height: usize = 8,
        width: usize = 16,
        walls_at: usize = 24,
        walls_count: usize = 32,
        clues_at: usize = 40,
        clues_count: usize = 48,
        calls_at: usize = 56,
        calls_count: usize = 64,
    }
    FileCall, 24 {
        code: u8 = 0,
        kind: u8 = 1,
        border: usize = 8,
        behind: usize = 16,
    }
}

// Every number and every record is answered, so a call over numbers, records and a lent record is safe. A slice is a pointer and a
// length: those calls are unsafe here and have their safe form in the crate's root.
unsafe extern "C" {
    pub safe fn sendai_version() -> u32;

    pub safe fn sendai_neighbour(height: usize, width: usize, cell: usize, direction: u8) -> Place;

    pub safe fn sendai_board_make(height: usize, width: usize) -> BoardAnswer;
    pub safe fn sendai_board_check(board: Board) -> u8;
    pub safe fn sendai_board_decide(board: Board, border: usize, wall: bool) -> BoardAnswer;
    pub fn sendai_board_stroke(board: Board, entries: *const u16, length: usize) -> BoardAnswer;
    pub safe fn sendai_board_undo(board: Board) -> BoardAnswer;
    pub safe fn sendai_board_decide_in_place(board: &mut Board, border: usize, wall: bool) -> u8;
    pub fn sendai_board_stroke_in_place(board: &mut Board, entries: *const u16, length: usize) -> u8;
    pub safe fn sendai_board_undo_in_place(board: &mut Board) -> u8;
    pub fn sendai_board_ask(board: Board, buffer: *mut u16, length: usize) -> Answer;
    pub fn sendai_board_ask_in_place(board: &Board, buffer: *mut u16, length: usize) -> Answer;
    pub fn sendai_groups(board: Board, is_potential: bool, buffer: *mut u16, length: usize) -> Grouping;
    pub fn sendai_group(
        info: GroupInfo,
        buffer: *const u16,
        length: usize,
        group: usize,
        out: *mut u16,
        out_length: usize,
    ) -> usize;
    pub fn sendai_path(board: Board, start: usize, target: usize, buffer: *mut u16, length: usize) -> Answer;
    pub fn sendai_unit_boundary(board: Board, unit: usize, buffer: *mut u16, length: usize) -> Answer;
    pub fn sendai_potential_unit_boundary(board: Board, unit: usize, buffer: *mut u16, length: usize) -> Answer;

    pub fn sendai_puzzle_make(
        height: usize,
        width: usize,
        given: *const u16,
        given_length: usize,
        clues: *const u16,
        clues_length: usize,
    ) -> PuzzleAnswer;
    pub fn sendai_puzzle_make_images(
        height: usize,
        width: usize,
        given: *const u16,
        given_length: usize,
        clues: *const u16,
        clues_length: usize,
    ) -> PuzzleAnswer;
    pub safe fn sendai_puzzle_check(puzzle: Puzzle) -> u8;
    pub safe fn sendai_puzzle_decide(puzzle: Puzzle, border: usize, wall: bool) -> PuzzleAnswer;
    pub fn sendai_puzzle_stroke(puzzle: Puzzle, entries: *const u16, length: usize) -> PuzzleAnswer;
    pub safe fn sendai_puzzle_undo(puzzle: Puzzle) -> PuzzleAnswer;
    pub safe fn sendai_puzzle_decide_in_place(puzzle: &mut Puzzle, border: usize, wall: bool) -> u8;
    pub fn sendai_puzzle_stroke_in_place(puzzle: &mut Puzzle, entries: *const u16, length: usize) -> u8;
    pub safe fn sendai_puzzle_undo_in_place(puzzle: &mut Puzzle) -> u8;
    pub fn sendai_puzzle_ask(puzzle: Puzzle, buffer: *mut u16, length: usize) -> Outcome;
    pub fn sendai_puzzle_ask_in_place(puzzle: &Puzzle, buffer: *mut u16, length: usize) -> Outcome;
    pub fn sendai_puzzle_right_boards(puzzle: Puzzle, cap: usize, buffer: *mut u8, length: usize) -> Boards;

    pub fn sendai_room_make(
        vertices: usize,
        us: *const u16,
        us_length: usize,
        vs: *const u16,
        vs_length: usize,
        count: u32,
    ) -> RoomAnswer;
    pub fn sendai_room_make_of_edges(vertices: usize, edges: *const Edge, length: usize, count: u32) -> RoomAnswer;
    pub safe fn sendai_room_check(room: Room) -> u8;
    pub safe fn sendai_room_decide(room: Room, edge: usize, wall: bool) -> RoomAnswer;
    pub fn sendai_room_stroke(room: Room, entries: *const u16, length: usize) -> RoomAnswer;
    pub safe fn sendai_room_undo(room: Room) -> RoomAnswer;
    pub fn sendai_room_ask(room: Room, buffer: *mut u16, length: usize) -> Answer;

    pub safe fn sendai_union_new(n: usize) -> UnionMade;
    pub safe fn sendai_union_find(parts: Union, x: usize) -> Found;
    pub safe fn sendai_union_unite(parts: Union, x: usize, y: usize) -> United;

    pub fn sendai_hand_over(entries: *const u16, length: usize, buffer: *mut u16, buffer_length: usize) -> Answer;

    pub fn sendai_case_generate(seed: u32, height: usize, width: usize, count: usize, buffer: *mut u8, length: usize) -> Answer;
    pub fn sendai_case_open(file: *const u8, length: usize) -> Case;
    pub fn sendai_case_run(
        file: *const u8,
        length: usize,
        at: usize,
        count: usize,
        puzzle: Puzzle,
        out: *mut u8,
        out_length: usize,
    ) -> Ran;
    pub fn sendai_file_decode(file: *const u8, length: usize) -> FileParts;
    pub fn sendai_file_call(file: *const u8, length: usize, at: usize) -> FileCall;
    pub fn sendai_file_number(file: *const u8, length: usize, at: usize, count: usize, k: usize) -> usize;
    pub fn sendai_file_numbers(
        file: *const u8,
        length: usize,
        at: usize,
        count: usize,
        buffer: *mut u16,
        buffer_length: usize,
    ) -> Answer;
    pub fn sendai_line(
        kind: u8,
        number: usize,
        entries: *const u16,
        length: usize,
        buffer: *mut u8,
        buffer_length: usize,
    ) -> Answer;
}
