use crate::{accepted, sys, Board, Refusal};

/// The groups of a board, numbered from 0 by first cell, with the buffer that holds their cells.
///
/// ```
/// # use sendai::Board;
/// let mut board = Board::make(2, 2)?;
/// board.decide(0, false)?;                         // joins cells 0 and 1
/// let (mut buffer, mut out) = ([0; 4], [0; 4]);
/// let units = board.units(&mut buffer)?;
/// assert_eq!(units.count(), 3);
/// assert_eq!(units.of_cells(), [0, 0, 1, 2]);
/// assert_eq!(units.group(0, &mut out), [0, 1]);
/// assert_eq!(units.group(3, &mut out), []);        // no group is empty: there is no group 3
/// # Ok::<(), sendai::Refusal>(())
/// ```
#[derive(Clone, Debug)]
pub struct Groups<'b> {
    pub(crate) info: sys::GroupInfo,
    pub(crate) buffer: &'b [u16],
}

impl<'b> Groups<'b> {
    pub(crate) fn of(board: &Board, is_potential: bool, buffer: &'b mut [u16]) -> Result<Groups<'b>, Refusal> {
        // SAFETY: the buffer lives through the call.
        let told = unsafe { sys::sendai_groups(board.0, is_potential, buffer.as_mut_ptr(), buffer.len()) };
        accepted(told.code).map(|()| Groups { info: told.info, buffer })
    }

    /// How many groups there are.
    pub fn count(&self) -> usize {
        self.info.count
    }

    /// Each cell's group.
    pub fn of_cells(&self) -> &[u16] {
        &self.info.ids[..self.info.height * self.info.width]
    }

    /// The cells of all groups, in turn.
    pub fn cells(&self) -> &'b [u16] {
        &self.buffer[..self.info.height * self.info.width]
    }

    /// Where each group starts in [`cells`](Groups::cells).
    pub fn starts(&self) -> &[u16] {
        &self.info.starts[..self.info.count]
    }

    /// A group's cells, copied to the front of `out`. Empty where there is no such group, or where `out` has fewer places.
    pub fn group<'o>(&self, group: usize, out: &'o mut [u16]) -> &'o [u16] {
        let (buffer, places) = (self.buffer, out.len());
        // SAFETY: both slices live through the call, and one that is lent to be written overlaps no other.
        let cells = unsafe { sys::sendai_group(self.info, buffer.as_ptr(), buffer.len(), group, out.as_mut_ptr(), places) };
        &out[..cells]
    }
}
