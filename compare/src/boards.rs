//! Boards to compare on: every one of a small size, random ones, and structured ones up to 32 by 32.
use crate::random::Random;

pub const UNDECIDED: u8 = 0;
pub const CONNECTED: u8 = 1;
pub const WALL: u8 = 2;

/// Which borders stand, by number, as SPEC 1 numbers states and borders.
#[derive(Clone, Debug, PartialEq, Eq)]
pub struct Standing {
    pub height: usize,
    pub width: usize,
    pub states: Vec<u8>,
}

pub fn border_count(height: usize, width: usize) -> usize {
    height * (width - 1) + (height - 1) * width
}

impl Standing {
    pub fn all(height: usize, width: usize, state: u8) -> Standing {
        Standing { height, width, states: vec![state; border_count(height, width)] }
    }

    pub fn cells(&self) -> usize {
        self.height * self.width
    }

    /// The two cells beside a border, the first in row order first.
    pub fn beside(&self, border: usize) -> (usize, usize) {
        let (right, width) = (self.height * (self.width - 1), self.width);
        if border < right {
            let cell = border / (width - 1) * width + border % (width - 1);
            (cell, cell + 1)
        } else {
            (border - right, border - right + width)
        }
    }

    /// The border between a cell and the one right of it or under it.
    pub fn between(&self, cell: usize, next: usize) -> usize {
        if self.width > 1 && next == cell + 1 {
            cell - cell / self.width
        } else {
            self.height * (self.width - 1) + cell
        }
    }

    /// The unit of each cell.
    pub fn units(&self) -> Vec<usize> {
        let mut unit: Vec<usize> = (0..self.cells()).collect();
        for (border, _) in self.states.iter().enumerate().filter(|(_, &state)| state == CONNECTED) {
            let (a, b) = self.beside(border);
            let (from, to) = (unit[a], unit[b]);
            if from != to {
                unit.iter_mut().filter(|u| **u == from).for_each(|u| *u = to);
            }
        }
        unit
    }

    /// The border's state is given by its two cells.
    pub fn by(height: usize, width: usize, state: impl Fn((usize, usize), (usize, usize)) -> u8) -> Standing {
        let right = (0..height).flat_map(|y| (0..width - 1).map(move |x| ((y, x), (y, x + 1))));
        let down = (0..height - 1).flat_map(|y| (0..width).map(move |x| ((y, x), (y + 1, x))));
        let states = right.chain(down).map(|(a, b)| state(a, b)).collect();
        Standing { height, width, states }
    }

    /// Walls between cells of different parts, and `inside` in a part.
    pub fn parted(height: usize, width: usize, inside: u8, part: impl Fn(usize, usize) -> usize) -> Standing {
        Standing::by(height, width, |a, b| if part(a.0, a.1) == part(b.0, b.1) { inside } else { WALL })
    }

    /// Connected along an order of the cells, and `off` elsewhere.
    pub fn along(height: usize, width: usize, off: u8, place: impl Fn(usize, usize) -> usize) -> Standing {
        Standing::by(height, width, |a, b| {
            if place(a.0, a.1).abs_diff(place(b.0, b.1)) == 1 { CONNECTED } else { off }
        })
    }

    /// With some borders set anew.
    pub fn stirred(mut self, random: &mut Random, times: usize) -> Standing {
        for _ in 0..times.min(self.states.len()) {
            let border = random.below(self.states.len());
            self.states[border] = random.below(3) as u8;
        }
        self
    }
}

/// Every board of a size, 3 to the number of its borders.
pub fn every(height: usize, width: usize) -> impl Iterator<Item = Standing> {
    let mut next = Some(Standing::all(height, width, UNDECIDED));
    std::iter::from_fn(move || {
        let board = next.take()?;
        let mut after = board.clone();
        for state in &mut after.states {
            if *state < WALL {
                *state += 1;
                next = Some(after);
                break;
            }
            *state = UNDECIDED;
        }
        Some(board)
    })
}

/// All sizes with at most so many borders.
pub fn sizes(borders: usize) -> Vec<(usize, usize)> {
    let all = (1..=32).flat_map(|h| (1..=32).map(move |w| (h, w)));
    all.filter(|&(h, w)| border_count(h, w) <= borders).collect()
}

/// The cell's place on a path that goes round the board from the outside in.
pub fn spiral(height: usize, width: usize) -> Vec<usize> {
    let mut place = vec![usize::MAX; height * width];
    let (mut y, mut x, mut turn) = (0i32, 0i32, 0);
    let steps = [(0, 1), (1, 0), (0, -1), (-1, 0)];
    for at in 0..height * width {
        place[y as usize * width + x as usize] = at;
        for _ in 0..2 {
            let (v, u) = (y + steps[turn].0, x + steps[turn].1);
            let inside = 0 <= v && v < height as i32 && 0 <= u && u < width as i32;
            if inside && place[v as usize * width + u as usize] == usize::MAX {
                (y, x) = (v, u);
                break;
            }
            turn = (turn + 1) % 4;
        }
    }
    place
}

/// The shapes of the parts of a tiling: rectangles a by b, shifted by some columns with each row of rectangles.
const TILES: [(usize, usize, usize); 11] = [
    (1, 2, 0),
    (2, 1, 0),
    (1, 2, 1),
    (2, 2, 0),
    (2, 2, 1),
    (1, 3, 0),
    (3, 2, 0),
    (1, 4, 2),
    (4, 4, 0),
    (1, 32, 0),
    (32, 1, 0),
];

/// Boards with a structure, of any size.
pub fn structured(h: usize, w: usize) -> Vec<(String, Standing)> {
    let mut list = vec![
        ("all undecided".into(), Standing::all(h, w, UNDECIDED)),
        ("all Connected".into(), Standing::all(h, w, CONNECTED)),
        ("all Walls".into(), Standing::all(h, w, WALL)),
    ];
    for (a, b, shift) in TILES {
        let part = |y: usize, x: usize| (y / a) * 64 + (x + y / a * shift) / b;
        list.push((format!("{a} by {b} shifted {shift}"), Standing::parted(h, w, CONNECTED, part)));
        list.push((format!("{a} by {b} shifted {shift}, open inside"), Standing::parted(h, w, UNDECIDED, part)));
    }
    // two corners of three cells in each 2 by 3
    let corners = |y: usize, x: usize| (y / 2) * 64 + x / 3 * 2 + (x % 3 + y % 2) / 2;
    // one comb, whose teeth are the even rows, with the odd rows between them; and two combs in each other
    let comb = |y: usize, x: usize| if x == 0 || y % 2 == 0 { 0 } else { y };
    let combs = |y: usize, x: usize| if x == 0 || (y % 2 == 0 && x + 1 < w) { 0 } else { 1 };
    let snake = |y: usize, x: usize| y * w + if y % 2 == 0 { x } else { w - 1 - x };
    let round = spiral(h, w);
    let spiral = |y: usize, x: usize| round[y * w + x];
    for (name, inside) in [("", CONNECTED), (", open inside", UNDECIDED)] {
        list.push((format!("corners{name}"), Standing::parted(h, w, inside, corners)));
        list.push((format!("comb{name}"), Standing::parted(h, w, inside, comb)));
        list.push((format!("combs{name}"), Standing::parted(h, w, inside, combs)));
    }
    for (name, off) in [("", WALL), (", open beside", UNDECIDED)] {
        list.push((format!("snake{name}"), Standing::along(h, w, off, snake)));
        list.push((format!("spiral{name}"), Standing::along(h, w, off, spiral)));
    }
    list
}

/// Parts that are grown at random: no Wall inside a part, some borders undecided.
fn grown(random: &mut Random, h: usize, w: usize) -> Standing {
    let mut part: Vec<usize> = (0..h * w).collect();
    let joins = random.below(2 * h * w + 1);
    for _ in 0..joins {
        let (y, x, down) = (random.below(h), random.below(w), random.chance(1, 2));
        let (v, u) = if down { (y + 1, x) } else { (y, x + 1) };
        if v < h && u < w {
            let (from, to) = (part[y * w + x], part[v * w + u]);
            if part.iter().filter(|&&p| p == from || p == to).count() <= 12 {
                part.iter_mut().filter(|p| **p == from).for_each(|p| *p = to);
            }
        }
    }
    let mut board = Standing::parted(h, w, CONNECTED, |y, x| part[y * w + x]);
    let open = random.below(4);
    for state in &mut board.states {
        if random.chance(open, 8) {
            *state = UNDECIDED;
        }
    }
    board
}

/// How often each state is drawn: undecided, Connected, Wall.
const WEIGHTS: [[usize; 3]; 9] =
    [[1, 1, 1], [0, 1, 1], [8, 1, 1], [1, 8, 1], [1, 1, 8], [1, 3, 0], [1, 0, 1], [3, 0, 1], [0, 5, 1]];

fn drawn(random: &mut Random, h: usize, w: usize) -> Standing {
    let weights = *random.pick(&WEIGHTS);
    let mut board = Standing::all(h, w, UNDECIDED);
    for state in &mut board.states {
        let at = random.below(weights.iter().sum());
        *state = if at < weights[0] {
            UNDECIDED
        } else if at < weights[0] + weights[1] {
            CONNECTED
        } else {
            WALL
        };
    }
    board
}

/// A random board with sides from `low` to `high`: drawn border by border, grown in parts, or structured and stirred.
pub fn random(random: &mut Random, low: usize, high: usize) -> Standing {
    let (h, w) = (random.within(low, high), random.within(low, high));
    sized(random, h, w)
}

/// The same of a size.
pub fn sized(random: &mut Random, h: usize, w: usize) -> Standing {
    match random.below(3) {
        0 => drawn(random, h, w),
        1 => grown(random, h, w),
        _ => {
            let list = structured(h, w);
            let times = random.below(4);
            list[random.below(list.len())].1.clone().stirred(random, times)
        }
    }
}
