//! What is asked: boards and puzzles of any side that four divides.
use super::calls::Laid;
use crate::boards::{Standing, CONNECTED, UNDECIDED, WALL};
use crate::fits::Fits;
use crate::random::Random;

pub const SIDES: [usize; 4] = [4, 8, 16, 32];

/// The shape check's eight boards, of any side.
pub fn boards(side: usize) -> Vec<(&'static str, Standing)> {
    let all = |state| Standing::all(side, side, state);
    let tiled = |a: usize, b: usize, inside| Standing::parted(side, side, inside, |y, x| y / a * 64 + x / b);
    let mut random = Random::new(32);
    let mut drawn = |undecided: usize, connected: usize| {
        let mut board = all(WALL);
        for state in &mut board.states {
            let at = random.below(3);
            *state = if at < undecided { UNDECIDED } else if at < undecided + connected { CONNECTED } else { WALL };
        }
        board
    };
    vec![
        ("all Walls", all(WALL)),
        ("dominoes", tiled(1, 2, CONNECTED)),
        ("4 by 4 squares", tiled(4, 4, CONNECTED)),
        ("rows walled off, open inside", tiled(1, 64, UNDECIDED)),
        ("random Walls", drawn(2, 0)),
        ("all undecided", all(UNDECIDED)),
        ("all Connected", all(CONNECTED)),
        ("random thirds", drawn(1, 1)),
    ]
}

/// Blocks of 4 by 4 squares of so many cells a side, a letter a unit, each a right board. In the first the lower of two like rows fits above
/// alone, in the others the like of a corner is two squares down and one to the side.
const CORNERS: [&[u8; 4]; 4] = [b"abbc", b"aabd", b"efgg", b"hffg"];
const BLOCKS: [(&str, usize, [&[u8; 4]; 4]); 3] = [
    ("rows of 1 and 3 cells in pairs", 1, [b"abbb", b"cddd", b"eeef", b"gggh"]),
    ("corners in pairs on the slant", 1, CORNERS),
    ("corners of 12 cells in pairs on the slant", 2, CORNERS),
];

/// Boards on which, where they are whole, each unit fits, but many at none of the offsets that the port tries before it looks at rows of them;
/// and one with large units that fit beside themselves.
pub fn later(side: usize) -> Vec<(&'static str, Standing)> {
    let tiled = |scale: usize, block: [&[u8; 4]; 4]| {
        let part = |y: usize, x: usize| (y / 4 * 64 + x / 4) * 256 + block[y % 4][x % 4] as usize;
        Standing::parted(side, side, CONNECTED, |y, x| part(y / scale, x / scale))
    };
    // a column of four cells beside one that begins two rows higher; some of these are cut in the first and the last rows
    let skew = Standing::parted(side, side, CONNECTED, |y, x| (y + 1 + x % 2 * 2) / 4 * 64 + x / 2);
    let mut list: Vec<(&str, Standing)> = BLOCKS.iter().map(|&(name, scale, block)| (name, tiled(scale, block))).collect();
    list.push(("skew pieces of 8 cells", skew));
    list
}

/// Boards on which the shape check finds a unit that fits nowhere, in the middle row, once it is done with those before it.
pub fn unfit(side: usize) -> Vec<(&'static str, Standing)> {
    let joined = |y: usize, x: usize| y == side / 2 && x < 4;
    let part = |y: usize, x: usize| y * 64 + if joined(y, x) { 63 } else { x / 2 };
    vec![("dominoes, two of them joined, a fault", Standing::parted(side, side, CONNECTED, part))]
}

/// Blocks of 4 by 4 cells, whose two units are each the other's image; where a block has no letter each cell is a unit.
const TURNED: [(&str, [&[u8; 4]; 4]); 2] = [
    ("dominoes in turned pairs", [b"....", b".aa.", b".b..", b".b.."]),
    ("pieces of 4 cells in mirrored pairs", [b".ab.", b".ab.", b"aabb", b"...."]),
];

/// Boards on which units fit on what is turned or mirrored, and on nothing else: clear for images alone.
pub fn turned(side: usize) -> Vec<(&'static str, Standing)> {
    let part = |block: &[&[u8; 4]; 4], y: usize, x: usize| match block[y % 4][x % 4] {
        b'.' => 64 * y + x,
        letter => (y / 4 * 64 + x / 4) * 256 + 65536 + usize::from(letter),
    };
    TURNED.map(|(name, block)| (name, Standing::parted(side, side, CONNECTED, |y, x| part(&block, y, x)))).to_vec()
}

/// Of how many units in 100 that is so, for each of these boards.
pub fn about_later(side: usize) -> String {
    let told = |(name, board): &(&str, Standing)| {
        let fits = Fits::on(board);
        let later: Vec<&[u16]> = fits.units().filter(|cells| !fits.fits_soon(cells)).collect();
        assert!(later.iter().all(|cells| !fits.good(cells).is_empty()), "each unit fits: {name}");
        format!("{name} {}", 100 * later.len() / fits.units().count())
    };
    let list: Vec<String> = later(side).iter().map(told).collect();
    format!(
        "Some units fit, but neither beside themselves, nor under their last row, nor at the first offset, where the port tries first. Of 100\n\
         units these are on {}.\n",
        list.join(", on ")
    )
}

/// Puzzles of a side: rooms of 4 by 4 cells that given walls part, all clued; and one room with a clue.
pub fn puzzles(side: usize) -> Vec<(&'static str, Laid)> {
    let squares = |inside, clue| Laid::squares(side, clue, |_, _| inside);
    let dominoes = |a: (usize, usize), b: (usize, usize)| if a.0 == b.0 && a.1 / 2 == b.1 / 2 { CONNECTED } else { WALL };
    vec![
        ("puzzle, rooms of 4 by 4, open inside", squares(UNDECIDED, 8)),
        ("puzzle, rooms of 4 by 4, Connected inside", squares(CONNECTED, 1)),
        ("puzzle, rooms of 4 by 4, dominoes", Laid::squares(side, 8, dominoes)),
        ("puzzle, rooms of 4 by 4, all Walls", squares(WALL, 16)),
        ("puzzle, rooms of 4 by 4, all Walls, the last count wrong", squares(WALL, 16).with_last_clue(15)),
        ("puzzle, one room, all undecided", Laid::one_room(side, UNDECIDED, side * side / 2)),
        ("puzzle, one room, all Walls", Laid::one_room(side, WALL, side * side)),
    ]
}
