use std::fmt;

/// Why a call was refused: the question that was answered no, first in this order, but 11 put first, 13 after 1, 12 between 2 and 6 and
/// 14 between 3 and 4. Each is put to a whole stroke before the next. `as u8` gives its number.
///
/// ```
/// use sendai::{Board, Refusal};
/// let refusal = Board::make(33, 1).unwrap_err();
/// assert_eq!(refusal, Refusal::Sizes);
/// assert_eq!(refusal as u8, 1);
/// ```
#[derive(Clone, Copy, Debug, PartialEq, Eq, Hash)]
#[repr(u8)]
pub enum Refusal {
    /// Are the sizes within the limits (1 to 32 a side; 1,024 vertices, 1,984 edges), and two edge slices equally long?
    Sizes = 1,
    /// Does the record hold together? The types of this crate keep their records whole, so none of their calls is refused by it.
    Record = 2,
    /// Does every border, cell, vertex or group named exist?
    Missing = 3,
    /// Decide, stroke: is every border undecided? A given wall is not.
    Decided = 4,
    /// Undo: is the ledger non-empty?
    EmptyLedger = 5,
    /// Is the buffer long enough, and a case file from a seed at most [`MAX_FILE`](crate::MAX_FILE) bytes long?
    ShortBuffer = 6,
    /// Do the given walls rise strictly?
    GivenOrder = 7,
    /// Are there as many clues as rooms?
    ClueCount = 8,
    /// Is each clue [`NO_CLUE`](crate::NO_CLUE) or at most its room's cells?
    ClueValue = 9,
    /// Path: are the cells joined by Connected borders?
    NotJoined = 10,
    /// Is the file sound?
    File = 11,
    /// All answers: are at most [`MAX_UNDECIDED`](crate::MAX_UNDECIDED) borders undecided?
    ManyUndecided = 12,
    /// A case file from a seed: is the seed not 0?
    ZeroSeed = 13,
    /// Stroke: does no border stand twice in it, whatever the values?
    Twice = 14,
}

impl Refusal {
    const ALL: [Refusal; 14] = [
        Refusal::Sizes,
        Refusal::Record,
        Refusal::Missing,
        Refusal::Decided,
        Refusal::EmptyLedger,
        Refusal::ShortBuffer,
        Refusal::GivenOrder,
        Refusal::ClueCount,
        Refusal::ClueValue,
        Refusal::NotJoined,
        Refusal::File,
        Refusal::ManyUndecided,
        Refusal::ZeroSeed,
        Refusal::Twice,
    ];

    /// The refusal with this number.
    pub fn from_number(number: u8) -> Option<Refusal> {
        Refusal::ALL.into_iter().find(|&refusal| refusal as u8 == number)
    }
}

impl fmt::Display for Refusal {
    fn fmt(&self, f: &mut fmt::Formatter) -> fmt::Result {
        write!(f, "refused {}", *self as u8)
    }
}

impl std::error::Error for Refusal {}

/// A call's code as a result: 0 is accepted.
pub(crate) fn accepted(code: u8) -> Result<(), Refusal> {
    match Refusal::from_number(code) {
        Some(refusal) => Err(refusal),
        None => {
            assert_eq!(code, 0, "the archive answered a number that is no refusal's: it is not of this crate's version");
            Ok(())
        }
    }
}
