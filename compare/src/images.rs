//! The shape check by SPEC 4.6 to 4.12 and 14.2, from pictures: the picture of a board is mirrored and turned place by place, and a unit goes with
//! it, its borders and the board's edges at it too. With the first image alone it is the check of translates, which is held to the Rust's.
//! Groups, paths and boundary lists know no images: the Rust makes them.
use crate::answers::Groups;
use crate::boards::{Standing, CONNECTED, WALL};
use crate::reference::{Board, Info};
use std::ops::Range;

/// All eight images, in the order in which they are tried; the first alone is that of translates.
pub const ALL: Range<usize> = 0..8;
pub const FIRST: Range<usize> = 0..1;

/// A row and a column of a picture. Cells stand at odd rows and columns, and between them their borders, or the board's edge around them.
type Spot = (isize, isize);

/// Rows of things.
pub type Picture<T> = Vec<Vec<T>>;

/// The left column becomes the right one.
fn mirrored<T: Copy>(picture: &Picture<T>) -> Picture<T> {
    picture.iter().map(|row| row.iter().rev().copied().collect()).collect()
}

/// The left column, read upwards, becomes the first row.
fn clockwise<T: Copy>(picture: &Picture<T>) -> Picture<T> {
    (0..picture[0].len()).map(|x| picture.iter().rev().map(|row| row[x]).collect()).collect()
}

/// The image of a number: 0 to 3 are quarter turns clockwise, 4 to 7 the same after a left-right mirror.
pub fn image<T: Copy>(number: usize, own: Picture<T>) -> Picture<T> {
    let start = if number < 4 { own } else { mirrored(&own) };
    (0..number % 4).fold(start, |picture, _| clockwise(&picture))
}

/// The picture of a board: each place tells its row and column.
fn picture(height: usize, width: usize) -> Picture<Spot> {
    let row = |y: isize| (0..=2 * width as isize).map(move |x| (y, x)).collect();
    (0..=2 * height as isize).map(row).collect()
}

/// Where each place of a board's picture stands in its images.
pub struct Pictures {
    columns: usize,
    stands: Vec<Vec<Spot>>,
}

impl Pictures {
    pub fn of(height: usize, width: usize) -> Pictures {
        let columns = 2 * width + 1;
        let stands = |number: usize| {
            let mut stands = vec![(0, 0); (2 * height + 1) * columns];
            for (y, row) in image(number, picture(height, width)).iter().enumerate() {
                row.iter().enumerate().for_each(|(x, &(v, u))| stands[v as usize * columns + u as usize] = (y as isize, x as isize));
            }
            stands
        };
        Pictures { columns, stands: ALL.map(stands).collect() }
    }

    fn stand(&self, image: usize, (y, x): Spot) -> Spot {
        self.stands[image][y as usize * self.columns + x as usize]
    }
}

/// Up, down, left and right, in a picture's rows and columns.
const UP: Spot = (-1, 0);
const DOWN: Spot = (1, 0);
const LEFT: Spot = (0, -1);
const RIGHT: Spot = (0, 1);

fn beside(spot: Spot, way: Spot) -> Spot {
    (spot.0 + way.0, spot.1 + way.1)
}

/// A unit, with what its offsets are tried by.
pub struct Unit {
    number: usize,
    /// In row order.
    pub cells: Vec<Spot>,
    /// By potential unit: whether it is adjacent to the one around the unit.
    near: Vec<bool>,
    /// The borders and edges to be looked at, in order, each with the state on which it may not land.
    pub borders: Vec<(Spot, u8)>,
}

/// An image of a unit, moved so that its first cell comes to lie on a cell.
#[derive(Clone, Copy, Debug, PartialEq, Eq)]
pub struct Offset {
    pub image: usize,
    pub to: usize,
}

/// What comes of an offset.
#[derive(Clone, Copy, Debug, PartialEq, Eq)]
pub enum Tried {
    Passed,
    Good,
    Failed(u16),
}

/// A board that is checked.
pub struct Check<'a> {
    board: &'a Standing,
    pictures: &'a Pictures,
    rust: Board,
    info: Info,
    units: Groups,
    potential: Groups,
}

impl<'a> Check<'a> {
    pub fn on(board: &'a Standing, pictures: &'a Pictures) -> Check<'a> {
        let rust = Board::standing(board.height, board.width, &board.states);
        let info = rust.info();
        let (units, potential) = (info.groups(false), info.groups(true));
        Check { board, pictures, rust, info, units, potential }
    }

    fn spot(&self, cell: usize) -> Spot {
        (2 * (cell / self.board.width) as isize + 1, 2 * (cell % self.board.width) as isize + 1)
    }

    /// The cell at an odd row and column.
    fn cell(&self, (y, x): Spot) -> Option<usize> {
        let (height, width) = (self.board.height as isize, self.board.width as isize);
        let inside = (0..2 * height).contains(&y) && (0..2 * width).contains(&x);
        inside.then_some((y / 2 * width + x / 2) as usize)
    }

    /// The border at a place beside a cell; none where the board ends.
    pub fn border(&self, spot: Spot) -> Option<usize> {
        let ways = if spot.0 % 2 == 0 { [UP, DOWN] } else { [LEFT, RIGHT] };
        let [one, other] = ways.map(|way| self.cell(beside(spot, way)));
        Some(self.board.between(one?, other?))
    }

    /// The state at a place beside a cell; none where the board ends.
    fn state(&self, spot: Spot) -> Option<u8> {
        self.border(spot).map(|border| self.board.states[border])
    }

    /// The cell behind a place that is beside another one.
    fn behind(&self, spot: Spot, way: Spot) -> Option<usize> {
        self.cell(beside(beside(spot, way), way))
    }

    /// The first Wall with one unit on both sides: the path between its cells, and then the Wall.
    pub fn inner_wall(&self) -> Option<Vec<u16>> {
        let of = |cell: usize| self.units.of[cell];
        let all = (0..self.board.cells()).flat_map(|cell| [DOWN, RIGHT].map(|way| (cell, way)));
        let walls = all.filter(|&(cell, way)| self.state(beside(self.spot(cell), way)) == Some(WALL));
        let mut pairs = walls.filter_map(|(cell, way)| Some((cell, self.behind(self.spot(cell), way)?)));
        let (cell, other) = pairs.find(|&(cell, other)| of(cell) == of(other))?;
        let path = self.rust.path(cell, other).expect("one unit");
        Some([path, vec![2 * self.board.between(cell, other) as u16 + 1]].concat())
    }

    /// By potential unit: whether it is this one, or a Wall has the one and the other on its sides.
    fn near(&self, own: u16) -> Vec<bool> {
        let mut near: Vec<bool> = (0..self.potential.starts.len()).map(|other| other == own as usize).collect();
        for border in (0..self.board.states.len()).filter(|&border| self.board.states[border] == WALL) {
            let (a, b) = self.board.beside(border);
            let (p, q) = (self.potential.of[a], self.potential.of[b]);
            if p == own || q == own {
                (near[p as usize], near[q as usize]) = (true, true);
            }
        }
        near
    }

    /// Inner borders, decided or not, for each cell down and right; then Walls and edges, for each cell up, down, left and right.
    fn borders(&self, number: usize, cells: &[Spot]) -> Vec<(Spot, u8)> {
        let own = |cell: Option<usize>| cell.is_some_and(|cell| self.units.of[cell] as usize == number);
        let around = |ways: &'static [Spot]| cells.iter().flat_map(move |&cell| ways.iter().map(move |&way| (cell, way)));
        let inner = around(&[DOWN, RIGHT]).filter(|&(cell, way)| own(self.behind(cell, way)));
        let shut = |&(cell, way): &(Spot, Spot)| matches!(self.state(beside(cell, way)), None | Some(WALL));
        let outer = around(&[UP, DOWN, LEFT, RIGHT]).filter(shut);
        let inner = inner.map(|(cell, way)| (beside(cell, way), WALL));
        inner.chain(outer.map(|(cell, way)| (beside(cell, way), CONNECTED))).collect()
    }

    fn unit(&self, number: usize) -> Unit {
        let all = 0..self.board.cells();
        let cells: Vec<Spot> = all.filter(|&cell| self.units.of[cell] as usize == number).map(|cell| self.spot(cell)).collect();
        let own = self.potential.of[self.cell(cells[0]).expect("a cell")];
        Unit { number, near: self.near(own), borders: self.borders(number, &cells), cells }
    }

    pub fn units(&self) -> impl Iterator<Item = Unit> + '_ {
        (0..self.units.starts.len()).map(|number| self.unit(number))
    }

    /// Where an offset puts a place of the unit.
    pub fn put(&self, unit: &Unit, Offset { image, to }: Offset, spot: Spot) -> Spot {
        let (first, turned, to) = (self.pictures.stand(image, unit.cells[0]), self.pictures.stand(image, spot), self.spot(to));
        (turned.0 - first.0 + to.0, turned.1 - first.1 + to.1)
    }

    /// An offset is passed over, good, or fails by the entry of the first border that stands as it may not.
    pub fn tried(&self, unit: &Unit, offset: Offset) -> Tried {
        let put = |&cell: &Spot| self.cell(self.put(unit, offset, cell));
        let falls = unit.cells.iter().all(|cell| put(cell).is_some_and(|on| self.units.of[on] as usize != unit.number));
        if !falls || !unit.cells.iter().filter_map(put).any(|on| unit.near[self.potential.of[on] as usize]) {
            return Tried::Passed;
        }
        let landed = |&(spot, bad): &(Spot, u8)| {
            let border = self.border(self.put(unit, offset, spot)).filter(|&border| self.board.states[border] == bad)?;
            Some(2 * border as u16 + u16::from(bad == WALL))
        };
        unit.borders.iter().find_map(landed).map_or(Tried::Good, Tried::Failed)
    }

    /// Image by image, all cells of the board in row order.
    pub fn offsets(&self, images: Range<usize>) -> impl Iterator<Item = Offset> {
        let cells = self.board.cells();
        images.flat_map(move |image| (0..cells).map(move |to| Offset { image, to }))
    }

    /// The first good offset; or, where there is none, the entries of all that failed.
    pub fn fits(&self, unit: &Unit, images: Range<usize>) -> Result<Offset, Vec<u16>> {
        let mut failed = vec![];
        for offset in self.offsets(images) {
            match self.tried(unit, offset) {
                Tried::Passed => {}
                Tried::Good => return Ok(offset),
                Tried::Failed(entry) => failed.push(entry),
            }
        }
        Err(failed)
    }

    /// The fault's list: that of an inner Wall, else that of the first unit without a good offset.
    pub fn fault(&self, images: Range<usize>) -> Option<Vec<u16>> {
        self.inner_wall().or_else(|| {
            let unfit = |unit: Unit| self.fits(&unit, images.clone()).err().map(|failed| (unit, failed));
            let (unit, failed) = self.units().find_map(unfit)?;
            let own = self.rust.unit_boundary(&self.info, unit.number).expect("a unit");
            let near = (0..unit.near.len()).filter(|&other| unit.near[other]);
            let around = near.map(|other| self.rust.potential_unit_boundary(&self.info, other).expect("a potential unit"));
            Some([failed, own].into_iter().chain(around).flatten().collect())
        })
    }
}
