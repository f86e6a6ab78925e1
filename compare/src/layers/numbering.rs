//! Border numbers: `horizontal_idx`, `vertical_idx` and `idx_to_border` beside `grid::neighbour`, for every size.
use super::Limits;
use crate::port::{neighbour, Beyond, DOWN, LEFT, RIGHT, UP};
use crate::reference::{numbering, Numbering};
use crate::sample::Sample;
use crate::tally::Tally;

/// The neighbour and the border as the Rust's loops name them.
fn beyond(rust: &Numbering, (h, w): (usize, usize), (y, x): (usize, usize), direction: u8) -> Beyond {
    let at = |y: usize, x: usize, border: usize| Beyond::At { cell: y * w + x, border };
    match direction {
        UP if y > 0 => at(y - 1, x, rust.under(y - 1, x)),
        DOWN if y < h - 1 => at(y + 1, x, rust.under(y, x)),
        LEFT if x > 0 => at(y, x - 1, rust.right_of(y, x - 1)),
        RIGHT if x < w - 1 => at(y, x + 1, rust.right_of(y, x)),
        _ => Beyond::End,
    }
}

fn compare(tally: &mut Tally, height: usize, width: usize) {
    tally.case();
    let rust = numbering(height, width);
    for cell in 0..height * width {
        let place = (cell / width, cell % width);
        for direction in [UP, DOWN, LEFT, RIGHT] {
            let ours = neighbour(height, width, cell, direction);
            let theirs = beyond(&rust, (height, width), place, direction);
            tally.same(&theirs, &ours, || format!("{height} by {width}, cell {cell}, direction {direction}"));
        }
    }
    for border in 0..height * (width - 1) + (height - 1) * width {
        let (under, y, x) = rust.place(border);
        let direction = if under { DOWN } else { RIGHT };
        let ours = match neighbour(height, width, y * width + x, direction) {
            Beyond::At { border, .. } => Some(border),
            _ => None,
        };
        tally.same(&Some(border), &ours, || format!("{height} by {width}, border {border}"));
    }
    for cell in [height * width, 1024, usize::MAX] {
        let ours = neighbour(height, width, cell, UP);
        if cell >= height * width {
            tally.same(&Beyond::Refused(3), &ours, || format!("{height} by {width}, cell {cell}"));
        }
    }
}

pub fn run(_: &Limits) -> Tally {
    let mut tally = Tally::new("numbering");
    for height in 1..=32 {
        for width in 1..=32 {
            compare(&mut tally, height, width);
        }
    }
    for (height, width) in [(0, 1), (1, 0), (0, 0), (33, 1), (1, 33), (usize::MAX, 2), (2, usize::MAX)] {
        let ours = neighbour(height, width, 0, UP);
        tally.same(&Beyond::Refused(1), &ours, || format!("{height} by {width}"));
    }
    tally.done()
}

/// A size, and the neighbours of its cells and of one that does not exist; of a large size those under and right of each cell.
pub fn sample(sample: &mut Sample) {
    for (height, width) in [(1, 1), (1, 2), (2, 1), (1, 32), (32, 1), (2, 2), (2, 3), (3, 2), (5, 7), (7, 5), (32, 32)] {
        sample.call("gm", height, width, 0);
        let rust = numbering(height, width);
        for cell in 0..height * width {
            let directions = if height * width < 1024 { &[UP, DOWN, LEFT, RIGHT][..] } else { &[DOWN, RIGHT] };
            for &direction in directions {
                let answer = match beyond(&rust, (height, width), (cell / width, cell % width), direction) {
                    Beyond::At { cell, border } => format!("0 {cell} {border}"),
                    _ => "0".into(),
                };
                sample.call("gn", cell, direction as usize, answer);
            }
        }
        sample.call("gn", height * width, UP as usize, 3);
    }
    sample.call("gm", 33, 1, 0);
    sample.call("gn", 0, UP as usize, 1);
}
