//! Where the units of a board fit, by the words of SPEC 4.7 to 4.9: to tell what a board asks of the check. Lists are the Rust's to say.
use crate::answers::Groups;
use crate::boards::{Standing, CONNECTED, WALL};
use crate::reference::Board;

/// A board with its groups.
pub struct Fits<'a> {
    board: &'a Standing,
    units: Groups,
    potential: Groups,
    /// Whether one potential unit, and then another, are adjacent: a row for each of the first.
    adjacent: Vec<bool>,
}

/// Up, down, left, right, in rows and columns.
const WAYS: [(isize, isize); 4] = [(-1, 0), (1, 0), (0, -1), (0, 1)];

impl Fits<'_> {
    pub fn on(board: &Standing) -> Fits<'_> {
        let info = Board::standing(board.height, board.width, &board.states).info();
        let (units, potential) = (info.groups(false), info.groups(true));
        let count = potential.starts.len();
        let mut adjacent: Vec<bool> = (0..count * count).map(|pair| pair / count == pair % count).collect();
        for (border, _) in board.states.iter().enumerate().filter(|(_, &state)| state == WALL) {
            let (a, b) = board.beside(border);
            let (p, q) = (potential.of[a] as usize, potential.of[b] as usize);
            (adjacent[p * count + q], adjacent[q * count + p]) = (true, true);
        }
        Fits { board, units, potential, adjacent }
    }

    /// Each unit's cells.
    pub fn units(&self) -> impl Iterator<Item = &[u16]> + '_ {
        let starts = self.units.starts.iter().map(|&start| start as usize);
        let ends = starts.clone().skip(1).chain([self.units.cells.len()]);
        starts.zip(ends).map(|(start, end)| &self.units.cells[start..end])
    }

    /// Whether a Wall has one unit on both sides: it is the fault then, and no offset is looked at.
    pub fn has_inner_wall(&self) -> bool {
        let mut walls = (0..self.board.states.len()).filter(|&border| self.board.states[border] == WALL);
        walls.any(|border| {
            let (a, b) = self.board.beside(border);
            self.units.of[a] == self.units.of[b]
        })
    }

    /// The cell so many rows and columns away.
    fn moved(&self, cell: usize, (rows, columns): (isize, isize)) -> Option<usize> {
        let (height, width) = (self.board.height, self.board.width);
        let y = (cell / width).checked_add_signed(rows).filter(|&y| y < height)?;
        let x = (cell % width).checked_add_signed(columns).filter(|&x| x < width)?;
        Some(y * width + x)
    }

    /// What a cell has in a direction: the border's state and the cell behind it, or nothing where the board ends.
    fn behind(&self, cell: usize, way: (isize, isize)) -> Option<(u8, usize)> {
        let other = self.moved(cell, way)?;
        Some((self.board.states[self.board.between(cell.min(other), cell.max(other))], other))
    }

    /// Whether the border of a unit's cell in a direction lands well, when the cell comes to lie on another.
    fn lands(&self, cell: usize, on: usize, way: (isize, isize)) -> bool {
        let there = self.behind(on, way).map(|(state, _)| state);
        match self.behind(cell, way) {
            Some((_, other)) if self.units.of[other] == self.units.of[cell] => there != Some(WALL),
            None | Some((WALL, _)) => there != Some(CONNECTED),
            Some(_) => true,
        }
    }

    /// How many rows and columns a unit is moved, whose first cell goes to a cell.
    fn by(&self, cells: &[u16], to: usize) -> (isize, isize) {
        let (first, width) = (cells[0] as usize, self.board.width);
        ((to / width) as isize - (first / width) as isize, (to % width) as isize - (first % width) as isize)
    }

    /// Whether the offset that puts a unit's first cell on `to` is good.
    pub fn is_good(&self, cells: &[u16], to: usize) -> bool {
        let (first, by) = (cells[0] as usize, self.by(cells, to));
        let moved = |&cell: &u16| self.moved(cell as usize, by);
        let is_free = |cell: usize| self.units.of[cell] != self.units.of[first];
        let count = self.potential.starts.len();
        let row = self.potential.of[first] as usize * count;
        let is_near = |cell: usize| self.adjacent[row + self.potential.of[cell] as usize];
        cells.iter().all(|cell| moved(cell).is_some_and(is_free))
            && cells.iter().any(|cell| moved(cell).is_some_and(is_near))
            && cells.iter().all(|cell| {
                moved(cell).is_some_and(|on| WAYS.iter().all(|&way| self.lands(*cell as usize, on, way)))
            })
    }

    /// Whether a unit fits where the port tries first: beside itself to the right or to the left, by as many columns as its longest run has
    /// cells, under its last row, or at the first offset of all; on a board of at most 25 cells anywhere.
    pub fn fits_soon(&self, cells: &[u16]) -> bool {
        let (width, first, last) = (self.board.width, cells[0] as usize, cells[cells.len() - 1] as usize);
        let run = cells.chunk_by(|a, b| a + 1 == *b).map(<[u16]>::len).max().expect("a cell");
        let soon = [first + run, (last / width + 1) * width + first % width, first.saturating_sub(run), 0];
        let all = 0..if self.board.cells() <= 25 { self.board.cells() } else { 0 };
        soon.into_iter().chain(all).any(|to| self.is_good(cells, to))
    }

    /// The offsets that are good for a unit.
    pub fn good(&self, cells: &[u16]) -> Vec<usize> {
        (0..self.board.cells()).filter(|&to| self.is_good(cells, to)).collect()
    }

    /// Borders and states, any of which would make a good offset bad: those that a border of the unit lands on and may be set without a
    /// Wall inside another unit.
    pub fn spoiling(&self, cells: &[u16], to: usize) -> Vec<(usize, u8)> {
        let by = self.by(cells, to);
        let landing = |(&cell, &way): (&u16, &(isize, isize))| {
            let on = self.moved(cell as usize, by)?;
            let (state, behind) = self.behind(on, way)?;
            let border = self.board.between(on.min(behind), on.max(behind));
            match self.behind(cell as usize, way) {
                Some((_, other)) if self.units.of[other] == self.units.of[cell as usize] => (state != CONNECTED).then_some((border, WALL)),
                None | Some((WALL, _)) => Some((border, CONNECTED)),
                Some(_) => None,
            }
        };
        cells.iter().flat_map(|cell| WAYS.iter().map(move |way| (cell, way))).filter_map(landing).collect()
    }
}
