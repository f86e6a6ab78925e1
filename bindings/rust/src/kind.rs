/// Which images of a unit its partner may be.
///
/// ```
/// use sendai::{Kind, Puzzle, NO_CLUE};
///
/// // 2 by 3: two units of three cells, of which one is the other turned by half a turn
/// let stroke = [(0, false), (1, true), (2, true), (3, false), (4, false), (5, true), (6, false)];
/// let mut list = vec![0; 96];                                  // 16 entries for each cell
/// for (kind, places, is_right) in [(Kind::Translates, 54, false), (Kind::Images, 96, true)] {
///     let mut puzzle = Puzzle::of_kind(kind, 2, 3, &[], &[NO_CLUE])?;
///     puzzle.stroke(&stroke)?;
///     assert_eq!((puzzle.kind(), puzzle.list_len()), (kind, places));
///     assert_eq!(puzzle.ask(&mut list)?.is_none(), is_right);
/// }
/// # Ok::<(), sendai::Refusal>(())
/// ```
#[derive(Clone, Copy, Debug, PartialEq, Eq, Hash)]
#[repr(u8)]
pub enum Kind {
    /// A unit's translate: moved, neither turned nor mirrored.
    Translates = 0,
    /// Any of a unit's eight images: turned by quarter turns, mirrored, and moved.
    Images = 1,
}

impl Kind {
    /// The kind of a record that a call has accepted, by its number.
    pub(crate) fn of(number: u8) -> Kind {
        match number {
            0 => Kind::Translates,
            _ => Kind::Images,
        }
    }

    /// How many entries an ask's list may have for each cell.
    pub(crate) fn entries_a_cell(self) -> usize {
        match self {
            Kind::Translates => 9,
            Kind::Images => 16,
        }
    }
}
