//! The calls of tools/solve.py on a puzzle, as it wrote them to a file. tools/solver/trace.py says what a file has.
use crate::puzzles::Making;
use std::path::{Path, PathBuf};

const MAGIC: &[u8] = b"SENDAIT1";

/// The file that compare/README.md tells how to make.
pub fn path() -> PathBuf {
    PathBuf::from(concat!(env!("CARGO_MANIFEST_DIR"), "/../target/learner.trace"))
}

/// A call; an ask with what the solver was answered.
pub enum Call {
    Undo,
    Stroke(Vec<u16>),
    Ask(Told),
}

/// A fault has its list's length.
#[derive(Debug, PartialEq, Eq)]
pub enum Told {
    Clear,
    Shape(usize),
    Room(usize, usize),
}

/// A file's bytes, with the puzzle in front.
pub struct Recorded {
    pub making: Making,
    bytes: Vec<u8>,
    /// Where the calls begin.
    first: usize,
}

/// A place in the bytes.
struct Reader<'b> {
    bytes: &'b [u8],
    at: usize,
}

impl Reader<'_> {
    fn byte(&mut self) -> u8 {
        self.at += 1;
        *self.bytes.get(self.at - 1).expect("a trace that is whole")
    }

    fn word(&mut self) -> u16 {
        u16::from_be_bytes([self.byte(), self.byte()])
    }

    fn words(&mut self) -> Vec<u16> {
        (0..self.word()).map(|_| self.word()).collect()
    }

    fn length(&mut self) -> usize {
        usize::from(self.word())
    }
}

impl Recorded {
    /// The file of a path, where there is one.
    pub fn read(path: &Path) -> Option<Recorded> {
        let bytes = std::fs::read(path).ok()?;
        assert!(bytes.starts_with(MAGIC), "{} is no trace", path.display());
        let mut reader = Reader { bytes: &bytes, at: MAGIC.len() };
        let (height, width) = (usize::from(reader.byte()), usize::from(reader.byte()));
        let making = Making { given: reader.words(), clues: reader.words(), ..Making::empty(height, width) };
        let first = reader.at;
        Some(Recorded { making, bytes, first })
    }

    pub fn calls(&self) -> impl Iterator<Item = Call> + '_ {
        let mut reader = Reader { bytes: &self.bytes, at: self.first };
        std::iter::from_fn(move || {
            (reader.at < self.bytes.len()).then(|| match reader.byte() {
                0 => Call::Undo,
                1 => Call::Stroke(reader.words()),
                2 => Call::Ask(Told::Clear),
                3 => Call::Ask(Told::Shape(reader.length())),
                4 => Call::Ask(Told::Room(reader.length(), reader.length())),
                kind => panic!("a call of kind {kind} in a trace"),
            })
        })
    }

    pub fn asks(&self) -> usize {
        self.calls().filter(|call| matches!(call, Call::Ask(_))).count()
    }
}
