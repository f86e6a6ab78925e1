//! Boards with long units, units along the sides, and units that fit in one direction alone or far away. The port decides a row of offsets
//! by the bits of one word: a wrong first or last bit, or one that is shifted out too soon, shows on such boards.
use crate::boards::{spiral, Standing, CONNECTED, UNDECIDED, WALL};
use crate::fits::Fits;
use crate::random::Random;

/// Sides at which a row has the fewest and the most cells, and borders.
pub const SIDES: [usize; 4] = [1, 2, 31, 32];

/// What is drawn.
pub const KINDS: [fn(&mut Random, usize, usize) -> Standing; 7] = [figures, boxes, stacks, coils, hidden, strips, lone];

/// Parts have numbers: a figure's is a multiple of this, and those of what is left around it lie behind its own.
const FIGURE: usize = 1 << 12;

/// How what is left around figures is parted: not at all, into rows, into columns, or into cells.
fn left(kind: usize, y: usize, x: usize) -> usize {
    1 + [0, y, x, 32 * y + x][kind]
}

/// Whether each cell of a box lies in a figure that goes through all of it, most often along its sides.
fn figure(random: &mut Random, h: usize, w: usize) -> Vec<bool> {
    let (row, column) = (*random.pick(&[0, h / 2, h - 1]), *random.pick(&[0, w / 2, w - 1]));
    let (kind, step) = (random.below(8), random.within(2, 4));
    let inside = |y: usize, x: usize| match kind {
        0 => y == row,
        1 => x == column,
        // an L, a T or a cross
        2 => y == row || x == column,
        // all four sides, or three of them
        3 => y == 0 || y == h - 1 || x == 0 || x == w - 1,
        4 => y == 0 || y == h - 1 || x == column,
        // combs: teeth to the right, and teeth down
        5 => x == column || y % step == row % step,
        6 => y == row || x % step == column % step,
        // stairs from corner to corner
        _ => (y * w / h..=(y + 1) * w / h).contains(&x),
    };
    (0..h * w).map(|cell| inside(cell / w, cell % w)).collect()
}

/// One cell goes over to the part beside it, or becomes one of its own.
fn odd(random: &mut Random, w: usize, mut parts: Vec<usize>) -> Vec<usize> {
    let cell = random.below(parts.len());
    let other = cell + *random.pick(&[1, w]);
    parts[cell] = if random.chance(1, 2) { usize::MAX } else { parts[other % parts.len()] };
    parts
}

/// States inside a figure, around figures, inside a part of what is left, and between such parts.
const STATES: [[u8; 4]; 8] = [
    [CONNECTED, WALL, CONNECTED, WALL],
    [CONNECTED, WALL, CONNECTED, WALL],
    [CONNECTED, WALL, UNDECIDED, WALL],
    [CONNECTED, WALL, UNDECIDED, UNDECIDED],
    [CONNECTED, WALL, CONNECTED, UNDECIDED],
    [CONNECTED, UNDECIDED, UNDECIDED, WALL],
    [UNDECIDED, WALL, CONNECTED, WALL],
    [UNDECIDED, WALL, UNDECIDED, WALL],
];

/// The board of these parts; in one of three there is an odd one out.
fn laid(random: &mut Random, h: usize, w: usize, parts: Vec<usize>) -> Standing {
    let parts = if random.chance(1, 3) { odd(random, w, parts) } else { parts };
    let [inside, around, within, between] = *random.pick(&STATES);
    Standing::by(h, w, |a, b| {
        let (p, q) = (parts[a.0 * w + a.1], parts[b.0 * w + b.1]);
        match (p % FIGURE == 0 || q % FIGURE == 0, p == q) {
            (true, true) => inside,
            (true, false) => around,
            (false, true) => within,
            (false, false) => between,
        }
    })
}

/// A figure over the whole board.
fn figures(random: &mut Random, h: usize, w: usize) -> Standing {
    let (figure, kind) = (figure(random, h, w), random.below(4));
    let parts = (0..h * w).map(|cell| if figure[cell] { 0 } else { left(kind, cell / w, cell % w) });
    laid(random, h, w, parts.collect())
}

/// A side of a box: a part of the board's side, or any.
fn some(random: &mut Random, side: usize) -> usize {
    let any = random.within(1, side);
    (*random.pick(&[side, side / 2, side / 3, any, any.min(4)])).max(1)
}

/// A place: the first or the last, or any.
fn at_end(random: &mut Random, places: usize) -> usize {
    let any = random.below(places);
    *random.pick(&[0, places - 1, any])
}

/// A box with a figure in it over and over, each row of boxes shifted against the last one; boxes are cut where the board ends.
fn boxes(random: &mut Random, h: usize, w: usize) -> Standing {
    let (a, b) = (some(random, h), some(random, w));
    let (figure, kind, shift) = (figure(random, a, b), random.below(4), *random.pick(&[0, 0, 0, 1, b / 2]));
    let part = |cell: usize| {
        let (y, x) = (cell / w, cell % w + cell / w / a * shift);
        let (v, u) = (y % a, x % b);
        (y / a * 2048 + x / b) * FIGURE + if figure[v * b + u] { 0 } else { left(kind, v, u) }
    };
    let parts = (0..h * w).map(part).collect();
    laid(random, h, w, parts)
}

/// How far down the pieces of a stack begin in each column: no more than lets them hang together.
fn profile(random: &mut Random, tall: usize, wide: usize) -> Vec<usize> {
    let mut down = random.below(tall);
    let step = |_| {
        let steps = random.below(tall);
        down = if random.chance(1, 2) { (down + steps).min(tall - 1) } else { down.saturating_sub(steps) };
        down
    };
    (0..wide).map(step).collect()
}

/// Stacks side by side, each of pieces that are alike and fit into each other, so that a piece has its like above and below it; pieces
/// that the board cuts are left over. A stack may be as wide as the board, and its pieces half as high.
fn stacks(random: &mut Random, h: usize, w: usize) -> Standing {
    let (mut parts, kind) = (vec![0; h * w], random.below(4));
    let mut from = 0;
    while from < w {
        let wide = some(random, w - from);
        let tall = some(random, h.div_ceil(2));
        let profile = profile(random, tall, wide);
        let deepest = *profile.iter().max().expect("columns");
        for (y, x) in (0..h).flat_map(|y| (0..wide).map(move |x| (y, x))) {
            let piece = (y + tall - profile[x]) / tall;
            let is_whole = piece > 0 && piece * tall + deepest <= h;
            let number = (64 * piece + from) * FIGURE;
            parts[y * w + from + x] = if is_whole { number } else { left(kind, y, from + x) };
        }
        from += wide;
    }
    laid(random, h, w, parts)
}

/// A path over all cells, to and fro or round and round, cut into pieces of the same length.
fn coils(random: &mut Random, h: usize, w: usize) -> Standing {
    let long = *random.pick(&[w, w, 2 * w, h, h * w / 2, h * w / 3, w + 1, 5]);
    let is_even = |cell: usize| cell / w % 2 == 0;
    let snake = |cell: usize| if is_even(cell) { cell } else { cell / w * w + w - 1 - cell % w };
    let path = if random.chance(1, 2) { spiral(h, w) } else { (0..h * w).map(snake).collect() };
    let parts = path.iter().map(|place| place / long.max(1) * FIGURE).collect();
    laid(random, h, w, parts)
}

/// A straight unit in a row, and a gap of its length in another row where it fits. Elsewhere Walls stand between the columns, or pairs of
/// cells are Connected up and down, on which its upper and lower sides may not land.
fn hidden(random: &mut Random, h: usize, w: usize) -> Standing {
    let (long, pairs) = (some(random, w), random.chance(1, 2));
    let (row, there) = (at_end(random, h), at_end(random, h));
    let (from, to) = (at_end(random, w - long + 1), at_end(random, w - long + 1));
    let own = |(y, x): (usize, usize)| y == row && (from..from + long).contains(&x);
    let gap = |(y, x): (usize, usize)| y == there && (to..to + long).contains(&x);
    Standing::by(h, w, |a, b| match (a.0 == b.0, pairs) {
        _ if own(a) && own(b) => CONNECTED,
        _ if own(a) || own(b) => WALL,
        (true, false) if gap(a) && gap(b) => UNDECIDED,
        (true, false) => WALL,
        (false, true) if a.0 % 2 == 0 && !gap(a) && !gap(b) => CONNECTED,
        _ => UNDECIDED,
    })
}

/// Rows cut into strips, each with a straight unit at its front and undecided behind it: half a strip is as much as fits beside itself.
fn strips(random: &mut Random, h: usize, w: usize) -> Standing {
    let mut parts = vec![];
    while parts.len() < h {
        let (strip, more) = (some(random, w), random.below(2));
        let unit = strip / 2 + if random.chance(1, 4) { random.below(strip / 2 + 1) } else { more };
        parts.extend(vec![(strip, unit); random.within(1, 3)]);
    }
    Standing::by(h, w, |a, b| match parts[a.0] {
        _ if a.0 != b.0 => WALL,
        (strip, _) if a.1 / strip != b.1 / strip => WALL,
        (strip, unit) if b.1 % strip < unit => CONNECTED,
        _ => UNDECIDED,
    })
}

/// A figure in half of the board or in a corner, and all else undecided.
fn lone(random: &mut Random, h: usize, w: usize) -> Standing {
    let (a, b) = if random.chance(1, 2) { ((h / 2).max(1), w) } else { (some(random, h), some(random, w)) };
    let figure = if random.chance(1, 4) { vec![true; a * b] } else { figure(random, a, b) };
    let own = |(y, x): (usize, usize)| y < a && x < b && figure[y * b + x];
    Standing::by(h, w, |a, b| match (own(a), own(b)) {
        (true, true) => CONNECTED,
        (false, false) => UNDECIDED,
        _ => WALL,
    })
}

/// With rows for columns where `turned`, and with the last row or column first.
fn flipped(board: &Standing, turned: bool, up: bool, left: bool) -> Standing {
    let (h, w) = (board.height, board.width);
    let cell = |(y, x): (usize, usize)| {
        let (y, x) = if turned { (x, y) } else { (y, x) };
        (if up { h - 1 - y } else { y }) * w + if left { w - 1 - x } else { x }
    };
    let state = |a, b| board.states[board.between(cell(a).min(cell(b)), cell(a).max(cell(b)))];
    if turned { Standing::by(w, h, state) } else { Standing::by(h, w, state) }
}

/// Whether a border touches a cell of the first or the last row or column.
fn at_side(board: &Standing, border: usize) -> bool {
    let (a, b) = board.beside(border);
    [a, b].iter().any(|cell| {
        let (y, x) = (cell / board.width, cell % board.width);
        y == 0 || y == board.height - 1 || x == 0 || x == board.width - 1
    })
}

/// With some borders taken back, and some at the sides set anew.
fn worn(random: &mut Random, mut board: Standing) -> Standing {
    let (open, sides) = (*random.pick(&[0, 0, 0, 1, 2, 8]), *random.pick(&[0, 0, 0, 1, 4]));
    for border in 0..board.states.len() {
        if random.chance(open, 32) {
            board.states[border] = UNDECIDED;
        } else if sides > 0 && at_side(&board, border) && random.chance(sides, 32) {
            board.states[border] = random.below(3) as u8;
        }
    }
    board
}

/// With no Wall inside a unit, at which the check would end: it is Connected.
pub fn mended(mut board: Standing) -> Standing {
    let units = board.units();
    for border in 0..board.states.len() {
        let (a, b) = board.beside(border);
        if board.states[border] == WALL && units[a] == units[b] {
            board.states[border] = CONNECTED;
        }
    }
    board
}

/// Wherever a unit fits, one border is set so that it no longer does, but for one place at times: each of these borders decides the answer.
fn spoilt(random: &mut Random, mut board: Standing) -> Standing {
    let fits = Fits::on(&board);
    let units: Vec<&[u16]> = fits.units().collect();
    let largest = units.iter().max_by_key(|cells| cells.len()).expect("a unit");
    let cells = if random.chance(1, 2) { largest } else { *random.pick(&units) };
    let mut good = fits.good(cells);
    random.shuffle(&mut good);
    good.truncate(good.len() - random.below(2).min(good.len()));
    // on a board that is all but undecided, as many borders would leave little of it
    good.truncate(256);
    let landings: Vec<Vec<(usize, u8)>> = good.iter().map(|&to| fits.spoiling(cells, to)).collect();
    for list in landings.iter().filter(|list| !list.is_empty()) {
        let &(border, state) = random.pick(list);
        board.states[border] = state;
    }
    board
}

/// A board of a kind and a size, which may lie on its side or on its head.
pub fn drawn(random: &mut Random, kind: usize, h: usize, w: usize) -> Standing {
    let (turned, up, left) = (random.chance(1, 2), random.chance(1, 2), random.chance(1, 2));
    let board = if turned { KINDS[kind](random, w, h) } else { KINDS[kind](random, h, w) };
    let board = worn(random, flipped(&board, turned, up, left));
    match random.below(16) {
        0 => board,
        1..8 => mended(board),
        _ => mended(spoilt(random, mended(board))),
    }
}
