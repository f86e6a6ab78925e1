//! Boards for the kind whose partners are images: figures in pairs, the one an image of the other; and boards on which few offsets are left of all
//! at which a unit would fit.
use crate::boards::{self, Standing, CONNECTED, UNDECIDED, WALL};
use crate::edges;
use crate::images::{self, Check, Offset, Pictures, Tried, Unit};
use crate::random::Random;

/// Cells by row and column.
type Figure = Vec<(usize, usize)>;

/// The cells of a square of a side that hang together.
fn figure(random: &mut Random, side: usize) -> Figure {
    let size = random.within(1, side * side.min(6));
    let mut cells = vec![(random.below(side), random.below(side))];
    for _ in 0..8 * size {
        let &(y, x) = random.pick(&cells);
        let (v, u) = *random.pick(&[(y + 1, x), (y, x + 1), (y.wrapping_sub(1), x), (y, x.wrapping_sub(1))]);
        if cells.len() < size && v < side && u < side && !cells.contains(&(v, u)) {
            cells.push((v, u));
        }
    }
    cells
}

/// An image of a figure in a square of a side.
fn image(number: usize, figure: &Figure, side: usize) -> Figure {
    let own = (0..side).map(|y| (0..side).map(|x| figure.contains(&(y, x))).collect()).collect();
    let turned = images::image(number, own);
    let all = (0..side).flat_map(|y| (0..side).map(move |x| (y, x)));
    all.filter(|&(y, x)| turned[y][x]).collect()
}

/// A board as it is covered by parts: 0 where by none yet.
struct Cover {
    height: usize,
    width: usize,
    parts: Vec<usize>,
}

impl Cover {
    /// The cells of a figure whose square begins at a place, on the board or off it; none where a cell of the figure is taken, or off the board.
    fn free(&self, figure: &Figure, at: (isize, isize)) -> Option<Vec<usize>> {
        let cell = |&(y, x): &(usize, usize)| {
            let y = y.checked_add_signed(at.0).filter(|&y| y < self.height)?;
            let x = x.checked_add_signed(at.1).filter(|&x| x < self.width)?;
            Some(y * self.width + x).filter(|&cell| self.parts[cell] == 0)
        };
        figure.iter().map(cell).collect()
    }

    fn touch(&self, one: &[usize], other: &[usize]) -> bool {
        let beside = |a: usize, b: usize| (a + 1 == b && b % self.width > 0) || a + self.width == b;
        one.iter().any(|&a| other.iter().any(|&b| beside(a, b) || beside(b, a)))
    }

    /// A figure anywhere, and beside it one of its images.
    fn pair(&mut self, random: &mut Random, part: usize) -> Option<()> {
        let side = random.within(1, 6);
        let figure = figure(random, side);
        let (y, x) = (random.below(self.height) as isize, random.below(self.width) as isize);
        let one = self.free(&figure, (y, x))?;
        let other = image(random.below(8), &figure, side);
        let around = side as isize;
        let mut places: Vec<(isize, isize)> = (-around..=around).flat_map(|v| (-around..=around).map(move |u| (y + v, x + u))).collect();
        random.shuffle(&mut places);
        let beside = |cells: &Vec<usize>| cells.iter().all(|cell| !one.contains(cell)) && self.touch(&one, cells);
        let other = places.into_iter().find_map(|at| self.free(&other, at).filter(beside))?;
        one.into_iter().for_each(|cell| self.parts[cell] = part);
        other.into_iter().for_each(|cell| self.parts[cell] = part + 1);
        Some(())
    }
}

/// Pairs of figures with Walls around; what is left over is open, or has Walls between all cells.
pub fn paired(random: &mut Random, height: usize, width: usize) -> Standing {
    let mut cover = Cover { height, width, parts: vec![0; height * width] };
    for turn in 0..height * width / 2 + 4 {
        let _ = cover.pair(random, 2 * turn + 1);
    }
    let (inside, left) = (*random.pick(&[CONNECTED, CONNECTED, CONNECTED, UNDECIDED]), *random.pick(&[WALL, WALL, UNDECIDED]));
    let part = |(y, x): (usize, usize)| cover.parts[y * width + x];
    Standing::by(height, width, |a, b| match (part(a), part(b)) {
        (0, 0) => left,
        (p, q) if p == q => inside,
        _ => WALL,
    })
}

/// The first cell by itself, and beside it two combs, each with its teeth between those of the other: the cell fits nowhere, and all images land on a
/// Connected border of each other cell. On large boards its list is longer than a buffer for translates.
pub fn cornered(height: usize, width: usize) -> Standing {
    let part = |y: usize, x: usize| match (y, x) {
        (0, 0) => 0,
        (_, 0) => 1,
        _ if x + 1 == width => 2,
        _ => 2 - y % 2,
    };
    Standing::parted(height, width, CONNECTED, part)
}

/// With some borders taken back.
fn worn(random: &mut Random, mut board: Standing) -> Standing {
    let open = *random.pick(&[0, 0, 1, 3]);
    board.states.iter_mut().filter(|_| random.chance(open, 32)).for_each(|state| *state = UNDECIDED);
    board
}

/// The borders and states by which an offset that is good would fail.
fn spoiling(check: &Check, unit: &Unit, offset: Offset) -> Vec<(usize, u8)> {
    let landing = |&(spot, bad): &_| check.border(check.put(unit, offset, spot)).map(|border| (border, bad));
    unit.borders.iter().filter_map(landing).collect()
}

/// Wherever a unit fits, in any image, a border is set so that it no longer does; but for one offset at times, and where nothing can be set.
fn spoilt(random: &mut Random, mut board: Standing) -> Standing {
    let pictures = Pictures::of(board.height, board.width);
    let check = Check::on(&board, &pictures);
    let units: Vec<Unit> = check.units().collect();
    let unit = random.pick(&units);
    let mut good: Vec<Offset> = check.offsets(images::ALL).filter(|&offset| check.tried(unit, offset) == Tried::Good).collect();
    random.shuffle(&mut good);
    good.truncate(good.len() - random.below(2).min(good.len()));
    // on a board that is all but undecided, as many borders would leave little of it
    good.truncate(256);
    let landings: Vec<Vec<(usize, u8)>> = good.iter().map(|&offset| spoiling(&check, unit, offset)).collect();
    for list in landings.iter().filter(|list| !list.is_empty()) {
        let &(border, state) = random.pick(list);
        board.states[border] = state;
    }
    board
}

/// A board of a size: pairs, random borders and parts, or long units, as they are or with few places left.
pub fn drawn(random: &mut Random, height: usize, width: usize) -> Standing {
    let kind = random.below(edges::KINDS.len());
    let board = match random.below(4) {
        0 | 1 => {
            let board = paired(random, height, width);
            worn(random, board)
        }
        2 => edges::drawn(random, kind, height, width),
        _ => boards::sized(random, height, width),
    };
    if random.chance(1, 2) { board } else { edges::mended(spoilt(random, edges::mended(board))) }
}
