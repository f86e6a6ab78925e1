use crate::{accepted, listed, sys, Puzzle, Refusal};

/// A case file: its puzzle, and the calls on it that are left to do.
///
/// ```
/// use sendai::{Case, MAX_LINE};
///
/// // 1 by 3, no given wall, no clue; a Wall, Connected, ask, undo
/// let file = [1, 0, 0x12, 1, 3, 0, 0, 0, 1, 0xff, 0xff, 0, 4, 2, 0, 0, 1, 0, 1, 3, 0];
/// let mut case = Case::open(&file)?;
/// let mut out = vec![0; MAX_LINE * case.left()];
/// assert_eq!(case.run(4, &mut out)?, b"decided\ndecided\nshape: 1 2\nundone\n");
/// assert_eq!(case.puzzle().ledger().collect::<Vec<_>>(), [(0, true)]);
/// # Ok::<(), sendai::Refusal>(())
/// ```
#[derive(Clone, Debug)]
pub struct Case<'f> {
    file: &'f [u8],
    puzzle: Puzzle,
    at: usize,
    left: usize,
}

impl<'f> Case<'f> {
    /// A file's fresh puzzle, of translates. Refused: `File`, or as [`Puzzle::make`] refuses what the file says.
    pub fn open(file: &'f [u8]) -> Result<Case<'f>, Refusal> {
        // SAFETY: the slice lives through the call.
        let case = unsafe { sys::sendai_case_open(file.as_ptr(), file.len()) };
        accepted(case.code).map(|()| Case { file, puzzle: Puzzle(case.puzzle), at: case.at, left: case.count })
    }

    /// The puzzle as the calls done so far left it.
    pub fn puzzle(&self) -> &Puzzle {
        &self.puzzle
    }

    /// How many calls are left.
    pub fn left(&self) -> usize {
        self.left
    }

    /// Does the next `count` calls, or all that are left, and returns the lines that they print. Refused: `ShortBuffer`
    /// ([`MAX_LINE`](crate::MAX_LINE) places for each of them); the case is then as it was.
    pub fn run<'o>(&mut self, count: usize, out: &'o mut [u8]) -> Result<&'o [u8], Refusal> {
        let (file, count) = (self.file, count.min(self.left));
        let (to, places) = (out.as_mut_ptr(), out.len());
        // SAFETY: both slices live through the call, and one that is lent to be written overlaps no other.
        let ran = unsafe { sys::sendai_case_run(file.as_ptr(), file.len(), self.at, count, self.puzzle.0, to, places) };
        self.puzzle = Puzzle(ran.puzzle);
        self.at = ran.at;
        self.left -= ran.done;
        accepted(ran.code)?;
        Ok(&out[..ran.length])
    }
}

/// The case file that a seed makes, the same each time: no given walls, one room without a clue, and `count` calls, none of which names a
/// border that does not exist. It is the front part of the buffer, and the bytes behind it stay. Refused: `Sizes`, `ZeroSeed`, `ShortBuffer`
/// ([`MAX_FILE`](crate::MAX_FILE) bytes fit every file; one that would be longer is refused, too).
///
/// ```
/// use sendai::{generate_case, Case, MAX_FILE, MAX_LINE};
///
/// let mut buffer = [0; MAX_FILE];
/// let file = generate_case(20, 2, 3, 4, &mut buffer)?;     // seed 20, 2 by 3, four calls
/// assert_eq!(file[13..], [1, 0, 3, 0, 2, 0, 5, 3]);        // border 3 Connected, undo, border 5 a Wall, ask
///
/// let mut case = Case::open(file)?;
/// let mut out = vec![0; MAX_LINE * case.left()];
/// assert_eq!(case.run(4, &mut out)?, b"decided\nundone\ndecided\nclear\n");
/// # Ok::<(), sendai::Refusal>(())
/// ```
pub fn generate_case(seed: u32, height: usize, width: usize, count: usize, buffer: &mut [u8]) -> Result<&[u8], Refusal> {
    // SAFETY: the buffer lives through the call.
    let told = unsafe { sys::sendai_case_generate(seed, height, width, count, buffer.as_mut_ptr(), buffer.len()) };
    listed(told, buffer)
}
