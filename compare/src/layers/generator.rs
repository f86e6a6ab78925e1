//! Case files drawn from a seed, byte for byte beside those that SPEC 11's words give, and what they print beside the Rust.
//! - Sizes to 3 by 3 with 0 to 6 calls: all seeds to `SEEDS`.
//! - Seeds at the edges of 32 bits; all sizes; files at the limit of length, and counts up to 64 bits behind it.
//! - Seeds, sizes and counts drawn for so long, sizes and seeds that are refused among them.
//! - Refusals and their order; and buffers that are too short in each accepted case above.
//! - Files on small boards through the functions over slices and through the program, and a few on the largest board.
//! - The generated files of crate `examples`, by their names.
use super::files::{hexadecimal, in_folder, Compared, ROOT};
use super::{until, Limits, SIZES};
use crate::files::MOST;
use crate::generator::Load;
use crate::port::file::generate;
use crate::random::Random;
use crate::sample::{listed, Sample};
use crate::tally::Tally;
use std::fmt::{Debug, Formatter, Result as Formatted};
use std::path::Path;

/// The seeds of the exhaustive part.
const SEEDS: u32 = 10_000;

/// A buffer that would hold any file of fewer than 65,536 calls, those that are too long included.
const AMPLE: usize = 13 + 3 * 65_535;

/// A file or a refusal, printed short.
#[derive(PartialEq, Eq)]
struct Drawn(Result<Vec<u8>, u8>);

impl Debug for Drawn {
    fn fmt(&self, f: &mut Formatter) -> Formatted {
        match &self.0 {
            Ok(file) => f.write_str(&hexadecimal(file)),
            Err(code) => write!(f, "refused {code}"),
        }
    }
}

/// The first byte in which two files differ: what is printed of them may end before it.
fn first_difference(one: &Drawn, other: &Drawn) -> String {
    match (&one.0, &other.0) {
        (Ok(one), Ok(other)) => {
            let at = one.iter().zip(other).position(|(a, b)| a != b);
            format!(", at byte {}", at.unwrap_or(one.len().min(other.len())))
        }
        _ => String::new(),
    }
}

/// The files beside the Rust; and how many loads were drawn, and how many of their files were run.
struct Generated {
    compared: Compared,
    loads: u64,
    files: u64,
}

impl Generated {
    fn same(&mut self, expected: Result<Vec<u8>, u8>, load: Load, room: usize) {
        let (expected, drawn) = (Drawn(expected), Drawn(generate(load, room)));
        let on = || format!("{load:?} into {room} bytes{}", first_difference(&expected, &drawn));
        self.compared.tally.same(&expected, &drawn, on);
    }

    /// A load into just the bytes of its file, some more, one less and any less; where it is refused, into buffers of several sizes. The
    /// file, if there is one.
    fn load(&mut self, load: Load) -> Option<Vec<u8>> {
        self.compared.tally.case();
        self.loads += 1;
        let expected = load.file();
        let Ok(file) = &expected else {
            [0, 13, MOST + 3, AMPLE].into_iter().for_each(|room| self.same(expected.clone(), load, room));
            return None;
        };
        let (length, random) = (file.len(), &mut self.compared.random);
        let (more, less) = (length + random.within(1, 40), random.below(length));
        [length, more].into_iter().for_each(|room| self.same(expected.clone(), load, room));
        [length - 1, less].into_iter().for_each(|room| self.same(Err(6), load, room));
        expected.ok()
    }

    /// A load's file is run, by the functions or, in a folder, also by the program. It is sound, its puzzle is made and every border
    /// exists: only a decided border (4) and an empty ledger (5) refuse a call.
    fn run(&mut self, load: Load, folder: Option<&Path>) {
        let Some(file) = self.load(load) else { return };
        self.files += 1;
        let (refused, lines) = match folder {
            Some(folder) => self.compared.program(folder, Some(&file)),
            None => self.compared.file(&file, true),
        };
        let well = |line: &str| !line.starts_with("refused") || line == "refused 4" || line == "refused 5";
        self.compared.tally.same(&true, &(refused == 0 && lines.lines().all(well)), || format!("the lines of {load:?}"));
    }

    /// The files of crate `examples` whose names tell a seed, a size and a count, as seed_4_size_4_4_calls_60.bin.
    fn stored(&mut self) {
        let folder = Path::new(ROOT).join("crates/examples/data");
        let mut found = 0;
        for file in std::fs::read_dir(folder).expect("crates/examples/data") {
            let path = file.expect("a file").path();
            let name = path.file_stem().and_then(|name| name.to_str()).expect("a name");
            if !name.starts_with("seed_") {
                continue;
            }
            let load = named(name).unwrap_or_else(|| panic!("{name} tells no seed, size and count"));
            let file = self.load(load);
            self.compared.tally.same(&file, &std::fs::read(&path).ok(), || path.display().to_string());
            found += 1;
        }
        self.compared.tally.same(&true, &(found > 0), || "generated files in crates/examples/data".into());
    }
}

/// The load that a file's name tells.
fn named(name: &str) -> Option<Load> {
    let words: Vec<&str> = name.split('_').collect();
    let ["seed", seed, "size", height, width, "calls", count] = words[..] else { return None };
    let number = |word: &str| word.parse().ok();
    Some(Load { seed: seed.parse().ok()?, height: number(height)?, width: number(width)?, count: number(count)? })
}

/// Seed, height, width and count, and the bytes of the calls, where a wrong reading would give others: that all shifts are of the old
/// state; that the one to the right is signed; that without borders kinds 1 and 2 replace the state twice.
const TELLING: [(u32, usize, usize, usize, &[u8]); 3] =
    [(16, 1, 1, 1, &[3]), (1, 1, 2, 2, &[1, 0, 0, 1, 0, 0]), (9, 1, 1, 2, &[3, 3])];

/// Holds both generators to the files that stand written out.
fn telling(generated: &mut Generated) {
    for (seed, height, width, count, calls) in TELLING {
        let load = Load { seed, height, width, count };
        let head = [1, 0, 10 + calls.len() as u8, height as u8, width as u8, 0, 0, 0, 1, 255, 255, 0, count as u8];
        let file = [&head, calls].concat();
        generated.compared.tally.same(&Ok(file.clone()), &load.file(), || format!("{load:?} by SPEC 11"));
        generated.same(Ok(file), load, AMPLE);
    }
}

/// Seeds at the edges: powers of two, numbers beside some of them, and the largest.
fn edges() -> impl Iterator<Item = u32> {
    (0..32).map(|bit| 1 << bit).chain([3, 0xffff, 0x1_0001, 0x7fff_ffff, 0x8000_0001, 0xffff_fffe, 0xffff_ffff])
}

/// All sizes up to a side.
fn sizes(side: usize) -> impl Iterator<Item = (usize, usize)> {
    (1..=side).flat_map(move |height| (1..=side).map(move |width| (height, width)))
}

/// All seeds to `SEEDS` on the smallest sizes; the edges on some sizes, with counts about 256; and all sizes.
fn every(generated: &mut Generated) {
    for seed in 1..=SEEDS {
        for (height, width) in sizes(3) {
            (0..=6).for_each(|count| drop(generated.load(Load { seed, height, width, count })));
        }
    }
    for seed in edges() {
        for (height, width) in SIZES {
            for count in [0, 1, 2, 40, 255, 256, 257, 1000] {
                generated.load(Load { seed, height, width, count });
            }
        }
    }
    for (height, width) in sizes(32) {
        for seed in [1, 1 << 31, u32::MAX, generated.compared.random.next() as u32] {
            generated.load(Load { seed, height, width, count: 100 });
        }
    }
}

/// The most calls that a file of this seed and size has.
fn most_calls(load: Load) -> usize {
    let (mut fits, mut too_many) = (0, MOST);
    while fits + 1 < too_many {
        let count = (fits + too_many) / 2;
        if (Load { count, ..load }).file().is_ok() {
            fits = count;
        } else {
            too_many = count;
        }
    }
    fits
}

/// Counts above the limit, some that would fit without their upper bits, and some whose bytes are beyond 64 bits.
fn beyond(most: usize) -> [usize; 11] {
    [most + 1, most + 2, 65_535, 65_536, 65_537, 65_536 + most, 1 << 32, (1 << 32) + 1, 1 << 63, usize::MAX / 3 + 1, usize::MAX]
}

/// Files at the limit of length: the last count that fits, the one before it, and counts above.
fn lengths(generated: &mut Generated) {
    let mut just = 0;
    for (height, width) in SIZES {
        let drawn = [(); 6].map(|()| generated.compared.random.next() as u32 | 1);
        for seed in [1, u32::MAX].into_iter().chain(drawn) {
            let load = Load { seed, height, width, count: 0 };
            let most = most_calls(load);
            generated.load(Load { count: most - 1, ..load });
            let longest = generated.load(Load { count: most, ..load }).expect("accepted");
            just += usize::from(longest.len() == MOST + 3);
            beyond(most).into_iter().for_each(|count| drop(generated.load(Load { count, ..load })));
        }
    }
    println!("generator: {just} files of the greatest length, {}", MOST + 3);
}

/// A refusal's number or 0, and seed, height, width, count and buffer: each refusal, what stands just before it, and their order.
const REFUSALS: [(u8, u32, usize, usize, usize, usize); 24] = [
    (1, 1, 0, 1, 0, AMPLE),
    (1, 1, 1, 0, 0, AMPLE),
    (1, 1, 33, 32, 0, AMPLE),
    (1, 1, 32, 33, 0, AMPLE),
    (1, 1, 257, 1, 0, AMPLE),
    (1, 1, 1, (1 << 32) + 1, 0, AMPLE),
    (1, 1, usize::MAX, usize::MAX, 0, AMPLE),
    (1, 0, 33, 1, 0, AMPLE),
    (1, 1, 33, 1, 0, 0),
    (1, 0, 1, 33, usize::MAX, 0),
    (13, 0, 1, 1, 0, AMPLE),
    (13, 0, 32, 32, 1, AMPLE),
    (13, 0, 1, 1, 0, 0),
    (13, 0, 1, 1, 59_991, AMPLE),
    (13, 0, 32, 32, usize::MAX, 0),
    (0, 1, 32, 32, 0, 13),
    (6, 1, 32, 32, 0, 12),
    (6, 1, 1, 1, 0, 0),
    (0, 1, 1, 1, 59_990, 60_003),
    (6, 1, 1, 1, 59_990, 60_002),
    (6, 1, 1, 1, 59_991, 60_004),
    (6, 1, 1, 1, 59_991, AMPLE),
    (6, 1, 1, 1, 65_536, AMPLE),
    (6, 1, 1, 1, usize::MAX, AMPLE),
];

fn refusals(generated: &mut Generated) {
    for (code, seed, height, width, count, room) in REFUSALS {
        let load = Load { seed, height, width, count };
        generated.compared.tally.case();
        generated.loads += 1;
        let told = generate(load, room).err().unwrap_or(0);
        generated.compared.tally.same(&code, &told, || format!("{load:?} into {room} bytes"));
    }
}

/// A seed of any number of bits; now and then 0.
fn seed(random: &mut Random) -> u32 {
    random.next() as u32 >> random.below(32)
}

/// A load of any size, now and then one that does not exist, with a count up to the limit of the file's length.
fn drawn(random: &mut Random) -> Load {
    let most = *random.pick(&[3, 8, 32, 32]);
    let mut side = || if random.chance(1, 200) { *random.pick(&[0, 33, 256, usize::MAX]) } else { random.within(1, most) };
    let (height, width) = (side(), side());
    let calls = *random.pick(&[8, 60, 400, 3_000, 30_000, MOST]);
    Load { seed: seed(random), height, width, count: random.within(0, calls) }
}

/// A load on a small board with some tens of calls.
fn small(random: &mut Random) -> Load {
    let most = *random.pick(&[2, 4, 6, 8]);
    let (height, width) = (random.within(1, most), random.within(1, most));
    Load { seed: seed(random).max(1), height, width, count: random.within(0, 60) }
}

/// The counts of the files on the largest board that are run.
const LARGE: [usize; 4] = [1_000, 2_000, 5_000, 20_000];

pub fn run(limits: &Limits) -> Tally {
    let mut all = Generated { compared: Compared::new("generator", limits), loads: 0, files: 0 };
    let generated = &mut all;
    generated.stored();
    telling(generated);
    every(generated);
    lengths(generated);
    refusals(generated);
    until(limits.time / 4, || {
        let load = drawn(&mut generated.compared.random);
        generated.load(load);
    });
    until(limits.time / 4, || {
        let load = small(&mut generated.compared.random);
        generated.run(load, None);
    });
    in_folder("generator", |folder| {
        until(limits.time, || {
            let load = small(&mut generated.compared.random);
            generated.run(load, Some(folder));
        });
        for count in LARGE {
            let seed = seed(&mut generated.compared.random).max(1);
            generated.run(Load { seed, height: 32, width: 32, count }, Some(folder));
        }
    });
    let Generated { compared, loads, files } = all;
    compared.told(&format!("{loads} loads, {files} files run"))
}

/// A load's size and seed, for the calls that draw its file.
fn put_down(sample: &mut Sample, load: Load) {
    sample.call("gm", load.height, load.width, 0);
    sample.call("cs", (load.seed >> 16) as usize, (load.seed & 0xffff) as usize, 0);
}

/// A load that is accepted, into just the bytes of its file and into one less.
fn store(sample: &mut Sample, load: Load) {
    put_down(sample, load);
    let file = load.file().expect("accepted");
    sample.call("cg", load.count, file.len() - 1, 6);
    sample.call("cg", load.count, file.len(), listed(&Ok(file)));
}

/// The telling loads; seeds at the edges on sizes in turn; drawn loads; one of 600 calls on the largest board; and refusals.
pub fn sample(sample: &mut Sample) {
    TELLING.into_iter().for_each(|(seed, height, width, count, _)| store(sample, Load { seed, height, width, count }));
    for (seed, (height, width)) in edges().zip(SIZES.into_iter().cycle()) {
        store(sample, Load { seed, height, width, count: 12 });
    }
    let random = &mut Random::new(32);
    (0..40).for_each(|_| store(sample, small(random)));
    store(sample, Load { seed: 1, height: 32, width: 32, count: 600 });
    for (code, seed, height, width, count, room) in REFUSALS.into_iter().filter(|&(code, ..)| code != 0) {
        put_down(sample, Load { seed, height, width, count });
        sample.call("cg", count, room, code);
    }
}
