//! Case files, sound and damaged: what is read of them and what is printed for them, beside SPEC 5 and the Rust's
//! answers.
use super::{until, Limits};
use crate::files::{self, Case, Line};
use crate::kinds::Kind;
use crate::port::file::{self as port, Lent, Parts, LINE_ROOM};
use crate::port::PuzzleRecord;
use crate::random::Random;
use crate::said;
use crate::tally::Tally;
use std::path::{Path, PathBuf};
use std::process::Command;

pub(super) const ROOT: &str = concat!(env!("CARGO_MANIFEST_DIR"), "/..");

/// The number that refuses a file that is unsound.
const UNSOUND: u8 = 11;

/// How many calls at once are run at most.
const AT_ONCE: usize = 6;

/// What was compared beside the tally's numbers.
#[derive(Default)]
struct Counts {
    /// Files that were damaged, and those of them that are sound all the same.
    damaged: u64,
    still_sound: u64,
    /// Those whose calls were run on puzzles of images.
    images: u64,
    /// Files that were run through the program.
    programs: u64,
    /// Lines by kind.
    lines: [u64; 6],
}

/// A layer's files beside the Rust.
pub(super) struct Compared {
    pub(super) tally: Tally,
    pub(super) random: Random,
    lent: Lent,
    counts: Counts,
}

pub(super) fn hexadecimal(bytes: &[u8]) -> String {
    let digits: String = bytes.iter().take(400).map(|b| format!("{b:02x}")).collect();
    format!("{} bytes {digits}", bytes.len())
}

fn text(bytes: &[u8]) -> String {
    String::from_utf8_lossy(bytes).into_owned()
}

/// Where the parts of a sound file stand.
fn parts(case: Option<&Case>) -> Parts {
    let Some(Case { making, calls }) = case else { return Parts { code: 11, ..Parts::default() } };
    let clues_at = 7 + 2 * making.given.len() + 2;
    Parts {
        code: 0,
        height: making.height,
        width: making.width,
        walls_at: 7,
        walls_count: making.given.len(),
        clues_at,
        clues_count: making.clues.len(),
        calls_at: clues_at + 2 * making.clues.len() + 2,
        calls_count: calls.len(),
    }
}

impl Compared {
    pub(super) fn new(layer: &'static str, limits: &Limits) -> Compared {
        let (random, lent) = (Random::new(limits.seed), Lent::new(AT_ONCE * LINE_ROOM));
        Compared { tally: Tally::new(layer), random, lent, counts: Counts::default() }
    }

    /// A printed line: the Rust's, and one of SPEC 5.4 by its look alone.
    fn line(&mut self, expected: &Line, printed: &[u8], on: impl Fn() -> String) {
        self.counts.lines[expected.fields().0 as usize] += 1;
        self.tally.same(&expected.text(), &text(printed), &on);
        self.tally.same(&true, &files::is_line(printed), on);
    }

    /// The numbers of a list of a file, one by one and into buffers of several sizes.
    fn list(&mut self, bytes: &[u8], at: usize, list: &[u16]) {
        let on = || format!("the list at {at} of {}", hexadecimal(bytes));
        for room in [list.len(), list.len() + 3, list.len() / 2] {
            let numbers = port::numbers(bytes, at, list.len(), room);
            self.tally.same(&port::in_buffer(list, room), &numbers, on);
        }
        let k = self.random.below(list.len() + 2);
        let expected = list.get(k).map_or(0, |&n| n as usize);
        self.tally.same(&expected, &port::number(bytes, at, list.len(), k), on);
    }

    /// What is read of a sound file.
    fn readings(&mut self, bytes: &[u8], case: &Case, parts: Parts) {
        self.list(bytes, parts.walls_at, &case.making.given);
        self.list(bytes, parts.clues_at, &case.making.clues);
        let mut at = parts.calls_at;
        for &call in &case.calls {
            let (kind, border) = call.coded();
            let behind = at + if border.is_some() { 3 } else { 1 };
            let expected = Ok((kind, border.unwrap_or(0) as usize, behind));
            self.tally.same(&expected, &port::call_at(bytes, at), || format!("byte {at} of {}", hexadecimal(bytes)));
            at = behind;
        }
        self.tally.same(&Err(11), &port::call_at(bytes, at), || format!("the end of {}", hexadecimal(bytes)));
    }

    /// Each line by itself, with a buffer that is just long enough and one that is a place short.
    fn written(&mut self, lines: &[Line]) {
        for line in lines {
            let (kind, number, entries) = line.fields();
            let room = 27 + 6 * entries.len();
            let printed = port::line(kind, number, entries, &mut self.lent, room);
            self.tally.same(&Ok(line.text()), &printed.map(|line| text(&line)), || format!("{line:?}"));
            let short = port::line(kind, number, entries, &mut self.lent, room - 1);
            self.tally.same(&Err(6), &short, || format!("{line:?} in {} places", room - 1));
        }
    }

    /// The calls of a file one by one, as the program runs them.
    fn one_by_one(&mut self, bytes: &[u8], first: &port::Opened, lines: &[Line], left: &PuzzleRecord) {
        let (mut puzzle, mut at) = (first.puzzle, first.at);
        for (k, line) in lines.iter().enumerate() {
            let on = || format!("call {k} of {}", hexadecimal(bytes));
            let (ran, printed) = port::run(bytes, at, 1, puzzle, &mut self.lent, LINE_ROOM);
            self.line(line, &printed, on);
            self.tally.same(&(0, 1), &(ran.code, ran.done), on);
            (puzzle, at) = (ran.puzzle, ran.at);
        }
        self.tally.same(&(bytes.len(), left), &(at, &puzzle), || hexadecimal(bytes));
    }

    /// The calls of a file some at once, more than there are among them, and with a place too few, where nothing is done.
    fn at_once(&mut self, bytes: &[u8], first: &port::Opened, lines: &[Line], left: &PuzzleRecord) {
        let (mut puzzle, mut at, mut done) = (first.puzzle, first.at, 0);
        while done < lines.len() {
            let count = self.random.within(1, AT_ONCE);
            let on = || format!("{count} calls from call {done} of {}", hexadecimal(bytes));
            let (ran, printed) = port::run(bytes, at, count, puzzle, &mut self.lent, count * LINE_ROOM - 1);
            self.tally.same(&(6, puzzle, at, 0, String::new()), &(ran.code, ran.puzzle, ran.at, ran.done, text(&printed)), on);
            let (ran, printed) = port::run(bytes, at, count, puzzle, &mut self.lent, count * LINE_ROOM);
            let some = &lines[done..lines.len().min(done + count)];
            let expected: String = some.iter().map(Line::text).collect();
            self.tally.same(&(0, some.len(), expected), &(ran.code, ran.done, text(&printed)), on);
            if ran.done == 0 {
                return;
            }
            (puzzle, at, done) = (ran.puzzle, ran.at, done + ran.done);
        }
        self.tally.same(&(bytes.len(), left), &(at, &puzzle), || hexadecimal(bytes));
    }

    /// A file through the functions over slices: the number that refuses it or its puzzle, 0 where none does, and its lines. With `whole`
    /// also what is read of it, each line by itself, and the calls some at once.
    pub(super) fn file(&mut self, bytes: &[u8], whole: bool) -> (u8, String) {
        self.tally.case();
        let on = || hexadecimal(bytes);
        let case = files::decode(bytes);
        let parts = parts(case.as_ref());
        self.tally.same(&parts, &port::decode(bytes), on);
        let opened = port::open(bytes);
        match files::printed(case.as_ref()) {
            Err(number) => {
                self.tally.same(&(number, 0, 0), &(opened.code, opened.at, opened.count), on);
                let line = Line::Refused(number);
                // one line is printed, of what the port answered
                let printed = port::line(5, opened.code as usize, &[], &mut self.lent, 27).unwrap_or_default();
                self.line(&line, &printed, on);
                (number, line.text())
            }
            Ok((lines, left)) => {
                self.tally.same(&(0, parts.calls_at, lines.len()), &(opened.code, opened.at, opened.count), on);
                self.one_by_one(bytes, &opened, &lines, &left);
                if whole {
                    self.readings(bytes, case.as_ref().expect("sound"), parts);
                    self.written(&lines);
                    self.at_once(bytes, &opened, &lines, &left);
                }
                (0, lines.iter().map(Line::text).collect())
            }
        }
    }

    /// A damaged file.
    fn damaged(&mut self, bytes: &[u8]) {
        let whole = self.random.chance(1, 16);
        let (refused, _) = self.file(bytes, whole);
        self.counts.damaged += 1;
        self.counts.still_sound += (refused != UNSOUND) as u64;
    }

    /// A sound file, and so many damaged ones of it.
    fn case(&mut self, low: usize, high: usize, length: usize, times: usize) {
        let case = files::sound(&mut self.random, low, high, length);
        let bytes = files::encode(&case);
        self.file(&bytes, true);
        for _ in 0..times {
            let bytes = files::damaged(&mut self.random, &case, &bytes);
            self.damaged(&bytes);
        }
    }

    /// The calls of a sound file on a puzzle of images, which the caller hands in.
    fn on_images(&mut self, low: usize, high: usize, length: usize) {
        let mut case = files::sound(&mut self.random, low, high, length);
        case.making = case.making.of_kind(Kind::Images);
        let Ok((lines, left)) = files::printed(Some(&case)) else { return };
        self.tally.case();
        self.counts.images += 1;
        let bytes = files::encode(&case);
        let mut opened = port::open(&bytes);
        opened.puzzle.kind = Kind::Images.number();
        self.one_by_one(&bytes, &opened, &lines, &left);
        self.at_once(&bytes, &opened, &lines, &left);
    }

    /// A file through the functions and through the program, which finds it, or none, in a folder of its own: what refuses it, and its lines.
    /// The program's status and standard error are held to SPEC 5.8 and 5.9.
    pub(super) fn program(&mut self, folder: &Path, bytes: Option<&[u8]>) -> (u8, String) {
        let file = folder.join("sendai.bin");
        let (refused, expected) = match bytes {
            Some(bytes) => {
                std::fs::write(&file, bytes).expect("a temporary folder");
                self.file(bytes, false)
            }
            None => (UNSOUND, Line::Refused(UNSOUND).text()),
        };
        let program = Path::new(ROOT).join("target/bin/sendai").canonicalize().expect("the program");
        let output = Command::new(program).current_dir(folder).output().expect("the program runs");
        self.counts.programs += 1;
        let told = (output.status.code(), text(&output.stdout), text(&output.stderr));
        let on = || format!("the program on {}", bytes.map_or("no file".into(), hexadecimal));
        let due = (Some((refused != 0) as i32), expected, said::line(bytes, refused));
        self.tally.same(&due, &told, on);
        drop(std::fs::remove_file(file));
        (refused, due.1)
    }

    /// Says what of some files was compared, and how many lines of each kind.
    pub(super) fn told(self, files: &str) -> Tally {
        let (layer, Counts { programs, lines, .. }) = (self.tally.layer, self.counts);
        println!("{layer}: {files}, {programs} through the program");
        let [decided, undone, clear, shape, room, refused] = lines;
        println!("{layer}: lines: {decided} decided, {undone} undone, {clear} clear, {shape} shape, {room} room, {refused} refused");
        self.tally.done()
    }

    /// The files that a crate is run on: its `stdout` is what the Rust's side prints.
    fn stored(&mut self) {
        let of = |name: &str| PathBuf::from(ROOT).join("crates").join(name);
        let read = |path: PathBuf| std::fs::read(&path).unwrap_or_else(|_| panic!("{}", path.display()));
        let expected = files::printed_text(&read(of("sendai/data/sendai.bin")));
        let stdout = text(&read(of("sendai/stdout")));
        self.tally.same(&expected, &stdout, || "crates/sendai/stdout".into());

        let stdout = text(&read(of("examples/stdout")));
        let names: Vec<&str> = stdout.lines().filter(|line| line.ends_with(".bin")).collect();
        let shown = |name: &&str| {
            let bytes = std::fs::read(of("examples/data").join(name)).unwrap_or_default();
            format!("{name}\n{}", files::printed_text(&bytes))
        };
        let expected: String = names.iter().map(shown).collect();
        self.tally.same(&expected, &stdout, || "crates/examples/stdout".into());
        for file in std::fs::read_dir(of("examples/data")).expect("crates/examples/data") {
            let name = file.expect("a file").file_name().into_string().expect("a name");
            self.tally.same(&true, &names.contains(&name.as_str()), || format!("{name} in crates/examples/stdout"));
        }
    }

    /// Files at the limit of length (SPEC 5.1).
    fn lengths(&mut self) {
        for rest in [59_999, 60_000, 60_001, 65_535] {
            let bytes = files::of_length(rest);
            self.file(&bytes, rest == 60_000);
        }
        for extra in [65_536, 65_537, 131_072] {
            let mut bytes = files::of_length(60_000);
            bytes.resize(extra, 3);
            self.file(&bytes, false);
        }
    }
}

/// Lends a folder to a layer's runs of the program; where the program is not built there are none.
pub(super) fn in_folder(layer: &str, runs: impl FnOnce(&Path)) {
    if !Path::new(ROOT).join("target/bin/sendai").exists() {
        return println!("{layer}: target/bin/sendai is not there: the program was not run");
    }
    let folder = std::env::temp_dir().join(format!("sendai-compare-{}", std::process::id()));
    std::fs::create_dir_all(&folder).expect("a temporary folder");
    runs(&folder);
    drop(std::fs::remove_dir_all(folder));
}

/// Files that the program is run on: sound and damaged ones, none, an empty one and ones that are too long.
fn programs(compared: &mut Compared, folder: &Path, limits: &Limits) {
    compared.program(folder, None);
    compared.program(folder, Some(&[]));
    for rest in [60_000, 60_001, 65_535] {
        compared.program(folder, Some(&files::of_length(rest)));
    }
    for length in [65_536, 65_537, 300_000] {
        let mut bytes = files::of_length(60_000);
        bytes.resize(length, 3);
        compared.program(folder, Some(&bytes));
    }
    until(limits.time / 4, || {
        let (most, length) = *compared.random.pick(&[(4, 20), (8, 80), (8, 80), (32, 300)]);
        let case = files::sound(&mut compared.random, 1, most, length);
        let bytes = files::encode(&case);
        compared.program(folder, Some(&bytes));
        let bytes = files::damaged(&mut compared.random, &case, &bytes);
        compared.program(folder, Some(&bytes));
    });
}

pub fn run(limits: &Limits) -> Tally {
    let mut compared = Compared::new("files", limits);
    compared.stored();
    compared.lengths();
    in_folder("files", |folder| programs(&mut compared, folder, limits));
    until(limits.time / 4, || compared.case(1, 8, 60, 0));
    until(limits.time / 4, || compared.case(9, 32, 2000, 1));
    until(limits.time, || {
        let (most, length) = *compared.random.pick(&[(2, 4), (3, 12), (5, 12), (8, 20)]);
        compared.case(1, most, length, 100);
        let bytes = files::scrap(&mut compared.random);
        compared.damaged(&bytes);
    });
    until(limits.time / 4, || compared.on_images(1, 8, 60));
    until(limits.time / 4, || compared.on_images(25, 32, 60));
    let Counts { damaged, still_sound, images, .. } = compared.counts;
    compared.told(&format!("{damaged} damaged ({still_sound} of them sound), {images} on puzzles of images"))
}
