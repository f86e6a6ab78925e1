//! The shape check, alone and in a puzzle, on boards whose units are long, lie along the sides, or fit in few places: what is right for one
//! offset may be wrong for a row of them.
use super::puzzle::Compared;
use super::{until, Limits};
use crate::boards::Standing;
use crate::edges::{self, KINDS, SIDES};
use crate::fits::Fits;
use crate::port;
use crate::puzzles;
use crate::random::Random;
use crate::reference::Board;
use crate::tally::Tally;

/// What the boards were, and where their units fit.
#[derive(Default)]
struct Seen {
    clear: u64,
    unfit: u64,
    inner: u64,
    units: u64,
    /// Units that fit, but at none of the offsets that the port tries first.
    later: u64,
    /// Of these, those that fit in rows above alone, in rows below alone, in their own row to the left alone, and far away alone.
    above: u64,
    below: u64,
    left: u64,
    far: u64,
}

/// So many rows or columns are far.
const FAR: usize = 8;

impl Seen {
    /// Whether a unit fits, and where.
    fn unit(&mut self, fits: &Fits, cells: &[u16], width: usize) -> bool {
        self.units += 1;
        if fits.fits_soon(cells) {
            return true;
        }
        let good = fits.good(cells);
        if good.is_empty() {
            return false;
        }
        self.later += 1;
        let (row, column) = (cells[0] as usize / width, cells[0] as usize % width);
        let all = |is: &dyn Fn(usize, usize) -> bool| u64::from(good.iter().all(|to| is(to / width, to % width)));
        self.above += all(&|y, _| y < row);
        self.below += all(&|y, _| y > row);
        self.left += all(&|y, x| y == row && x < column);
        self.far += all(&|y, x| y.abs_diff(row).max(x.abs_diff(column)) >= FAR);
        true
    }

    /// A board, and whether the Rust finds nothing on it: the words that tell where units fit must say the same.
    fn board(&mut self, board: &Standing, clear: bool) {
        let fits = Fits::on(board);
        let inner = fits.has_inner_wall();
        let unfit = fits.units().filter(|cells| !self.unit(&fits, cells, board.width)).count();
        assert_eq!(clear, !inner && unfit == 0, "what fits on {board:?}");
        *(if inner { &mut self.inner } else if clear { &mut self.clear } else { &mut self.unfit }) += 1;
    }

    fn print(&self, [clear, shape, room]: [u64; 3]) {
        let Seen { units, later, above, below, left, far, .. } = self;
        println!(
            "edges: boards: {} clear, {} with a unit that fits nowhere, {} with an inner Wall; asks of puzzles: {clear} clear, {shape} \
             of the shape check, {room} of a room",
            self.clear, self.unfit, self.inner
        );
        println!(
            "edges: units: {units}, of which {later} fit, but at none of the offsets that are tried first: {above} above alone, {below} \
             below alone, {left} on the left alone, {far} at least {FAR} rows or columns away alone"
        );
    }
}

/// A board by itself, and at times with given walls and clues.
fn compare(compared: &mut Compared, seen: &mut Seen, random: &mut Random, mut board: Standing) {
    compared.tally.case();
    let theirs = Board::standing(board.height, board.width, &board.states).ask();
    let ours = port::Board::standing(board.height, board.width, &board.states).ask();
    seen.board(&board, theirs.is_none());
    compared.tally.same(&Ok(theirs), &ours, || format!("{board:?}"));
    if random.chance(1, 4) {
        let making = puzzles::on(random, &mut board);
        compared.standing(&making, &board);
    }
}

/// Boards of each kind and each size, of which there are fewer where there are many cells; then any.
pub fn run(limits: &Limits) -> Tally {
    let mut compared = Compared::new("edges");
    let (seen, random) = (&mut Seen::default(), &mut Random::new(limits.seed));
    for (height, width) in SIDES.iter().flat_map(|&height| SIDES.map(|width| (height, width))) {
        let times = if height * width > 64 { 300 } else { 800 };
        for kind in (0..KINDS.len() * times).map(|at| at / times) {
            let board = edges::drawn(random, kind, height, width);
            compare(&mut compared, seen, random, board);
        }
    }
    until(limits.time, || {
        let most = *random.pick(&[4, 8, 16, 32]);
        let (kind, height, width) = (random.below(KINDS.len()), random.within(1, most), random.within(1, most));
        let board = edges::drawn(random, kind, height, width);
        compare(&mut compared, seen, random, board);
    });
    seen.print(compared.answers);
    compared.tally.done()
}
