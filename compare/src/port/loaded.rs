//! An archive that is loaded while the comparison runs, so that two archives are timed in one run: asks, and a puzzle's decide and undo.
use super::{accepted, c, Board, Puzzle};
use std::ffi::{c_char, c_int, c_void, CString};
use std::path::{Path, PathBuf};
use std::process::Command;

unsafe extern "C" {
    fn dlopen(path: *const c_char, flags: c_int) -> *mut c_void;
    fn dlsym(library: *mut c_void, name: *const c_char) -> *mut c_void;
}

/// Every name is looked up at once.
const NOW: c_int = 2;

/// A shared library made of an archive. It is never unloaded.
struct Library {
    archive: PathBuf,
    loaded: *mut c_void,
}

impl Library {
    /// Makes it in the folder.
    fn load(archive: &Path, folder: &Path, name: &str) -> Library {
        let library = folder.join(format!("lib{name}.so"));
        let mut linker = Command::new("cc");
        linker.args(["-shared", "-Wl,-Bsymbolic", "-o"]).arg(&library).arg("-Wl,--whole-archive").arg(archive);
        let linked = linker.arg("-Wl,--no-whole-archive").status().expect("a C compiler");
        assert!(linked.success(), "{} can't be linked", archive.display());
        let path = CString::new(library.to_str().expect("a path in UTF-8")).expect("a path");
        // the path lives through the call
        let loaded = unsafe { dlopen(path.as_ptr(), NOW) };
        assert!(!loaded.is_null(), "{} can't be loaded", library.display());
        Library { archive: archive.to_path_buf(), loaded }
    }

    fn find(&self, name: &str) -> Option<*mut c_void> {
        let name = CString::new(name).expect("a name");
        // the name lives through the call
        let place = unsafe { dlsym(self.loaded, name.as_ptr()) };
        (!place.is_null()).then_some(place)
    }

    fn must_find(&self, name: &str) -> *mut c_void {
        self.find(name).unwrap_or_else(|| panic!("{} has no {name}", self.archive.display()))
    }
}

/// A puzzle's calls by value.
struct ByValue<K> {
    ask: unsafe extern "C" fn(c::PuzzleOf<K>, *mut u16, usize) -> c::Outcome,
    decide: unsafe extern "C" fn(c::PuzzleOf<K>, usize, bool) -> c::PuzzleMadeOf<K>,
    undo: unsafe extern "C" fn(c::PuzzleOf<K>) -> c::PuzzleMadeOf<K>,
}

// The buffer lives through its call.
impl<K: Copy> ByValue<K> {
    /// The functions are as crates/exports declares them.
    unsafe fn find(library: &Library) -> ByValue<K> {
        ByValue {
            ask: std::mem::transmute(library.must_find("sendai_puzzle_ask")),
            decide: std::mem::transmute(library.must_find("sendai_puzzle_decide")),
            undo: std::mem::transmute(library.must_find("sendai_puzzle_undo")),
        }
    }

    fn ask(&self, puzzle: &c::PuzzleOf<K>, buffer: &mut [u16]) -> Told {
        let told = unsafe { (self.ask)(*puzzle, buffer.as_mut_ptr(), buffer.len()) };
        (told.kind, told.length)
    }

    fn turn(&self, puzzle: &mut c::PuzzleOf<K>, border: usize) {
        let decided = unsafe { (self.decide)(*puzzle, border, true) };
        accepted(decided.code).expect("decided");
        *puzzle = decided.puzzle;
        let undone = unsafe { (self.undo)(*puzzle) };
        accepted(undone.code).expect("undone");
        *puzzle = undone.puzzle;
    }
}

enum Calls {
    Kinds(ByValue<u8>),
    /// From before images.
    Kindless(ByValue<()>),
}

/// A puzzle's record as an archive has it.
#[derive(Clone, Copy, PartialEq)]
pub enum Theirs {
    Kinds(c::Puzzle),
    Kindless(c::PuzzleOf<()>),
}

type DecideInPlace = unsafe extern "C" fn(&mut c::Puzzle, usize, bool) -> u8;
type UndoInPlace = unsafe extern "C" fn(&mut c::Puzzle) -> u8;

/// An archive whose records are laid out as those of this one, but for a puzzle's kind.
pub struct Archive {
    board: unsafe extern "C" fn(c::Board, *mut u16, usize) -> c::Answer,
    puzzle: Calls,
    /// Where the archive has them, and kinds.
    in_place: Option<(DecideInPlace, UndoInPlace)>,
    /// Whether it knows strokes. Where it doesn't, the ledger has borders alone.
    strokes: bool,
}

/// What an ask answers, beside the list: its kind and its length.
pub type Told = (u8, usize);

// Each buffer lives through its call.
impl Archive {
    /// Makes a shared library of the archive in the folder, and loads it.
    pub fn load(archive: &Path, folder: &Path, name: &str) -> Archive {
        let library = Library::load(archive, folder, name);
        let lent = ["sendai_puzzle_decide_in_place", "sendai_puzzle_undo_in_place"].map(|name| library.find(name));
        let kinds = library.find("sendai_puzzle_make_images").is_some();
        let lent = lent[0].zip(lent[1]).filter(|_| kinds);
        // the functions are as crates/exports declares them
        unsafe {
            Archive {
                board: std::mem::transmute(library.must_find("sendai_board_ask")),
                puzzle: if kinds { Calls::Kinds(ByValue::find(&library)) } else { Calls::Kindless(ByValue::find(&library)) },
                in_place: lent.map(|(decide, undo)| (std::mem::transmute(decide), std::mem::transmute(undo))),
                strokes: library.find("sendai_puzzle_stroke").is_some(),
            }
        }
    }

    fn named(&self, mut board: c::Board) -> c::Board {
        if !self.strokes {
            board.ledger[..board.len].iter_mut().for_each(|name| *name /= 2);
        }
        board
    }

    /// A record of single decisions as this archive writes it.
    pub fn board(&self, board: Board) -> Board {
        Board(self.named(board.0))
    }

    pub fn puzzle(&self, puzzle: Puzzle) -> Theirs {
        let c::PuzzleOf { board, given, given_len, clues, clues_len, kind } = puzzle.0;
        let board = self.named(board);
        match self.puzzle {
            Calls::Kinds(_) => Theirs::Kinds(c::PuzzleOf { board, given, given_len, clues, clues_len, kind }),
            Calls::Kindless(_) => Theirs::Kindless(c::PuzzleOf { board, given, given_len, clues, clues_len, kind: () }),
        }
    }

    pub fn board_ask(&self, board: &Board, buffer: &mut [u16]) -> Told {
        let told = unsafe { (self.board)(board.0, buffer.as_mut_ptr(), buffer.len()) };
        (u8::from(told.fault), told.length)
    }

    pub fn puzzle_ask(&self, puzzle: &Theirs, buffer: &mut [u16]) -> Told {
        match (&self.puzzle, puzzle) {
            (Calls::Kinds(calls), Theirs::Kinds(puzzle)) => calls.ask(puzzle, buffer),
            (Calls::Kindless(calls), Theirs::Kindless(puzzle)) => calls.ask(puzzle, buffer),
            _ => panic!("a record of another archive"),
        }
    }

    /// A decide as Wall and an undo, by value.
    pub fn turn(&self, puzzle: &mut Theirs, border: usize) {
        match (&self.puzzle, puzzle) {
            (Calls::Kinds(calls), Theirs::Kinds(puzzle)) => calls.turn(puzzle, border),
            (Calls::Kindless(calls), Theirs::Kindless(puzzle)) => calls.turn(puzzle, border),
            _ => panic!("a record of another archive"),
        }
    }

    /// The same where the puzzle is.
    pub fn turn_in_place(&self, puzzle: &mut Puzzle, border: usize) {
        let (decide, undo) = self.in_place.expect("an archive with the calls in place");
        accepted(unsafe { decide(&mut puzzle.0, border, true) }).expect("decided");
        accepted(unsafe { undo(&mut puzzle.0) }).expect("undone");
    }
}
