//! Case files by SPEC 5: what a file says, what is printed for it, and files to compare on, sound and damaged.
use crate::boards::Standing;
use crate::kinds::Puzzle;
use crate::ledger::{self, Reference};
use crate::port::PuzzleRecord;
use crate::puzzles::{self, Making};
use crate::random::Random;
use crate::runs;

/// The most bytes behind a file's length (SPEC 5.1).
pub const MOST: usize = 60_000;

/// A call of a file.
#[derive(Clone, Copy, Debug, PartialEq, Eq)]
pub enum Call {
    Undo,
    Decide { border: u16, wall: bool },
    Ask,
}

impl Call {
    /// Its kind's byte, and its border where it has one.
    pub fn coded(self) -> (u8, Option<u16>) {
        match self {
            Call::Undo => (0, None),
            Call::Decide { border, wall } => (1 + wall as u8, Some(border)),
            Call::Ask => (3, None),
        }
    }
}

/// What a sound file says.
#[derive(Clone, Debug)]
pub struct Case {
    pub making: Making,
    pub calls: Vec<Call>,
}

/// Takes a file's parts off its front.
struct Reader<'a>(&'a [u8]);

impl Reader<'_> {
    fn byte(&mut self) -> Option<u8> {
        let (&first, others) = self.0.split_first()?;
        self.0 = others;
        Some(first)
    }

    /// 16 bits, big-endian.
    fn word(&mut self) -> Option<u16> {
        Some(u16::from_be_bytes([self.byte()?, self.byte()?]))
    }

    /// A list with a 16-bit count in front.
    fn list<T>(&mut self, mut item: impl FnMut(&mut Self) -> Option<T>) -> Option<Vec<T>> {
        let count = self.word()?;
        (0..count).map(|_| item(self)).collect()
    }

    fn call(&mut self) -> Option<Call> {
        match self.byte()? {
            0 => Some(Call::Undo),
            kind @ (1 | 2) => Some(Call::Decide { border: self.word()?, wall: kind == 2 }),
            3 => Some(Call::Ask),
            _ => None,
        }
    }
}

/// What the file says, or none where it is unsound.
pub fn decode(bytes: &[u8]) -> Option<Case> {
    let mut file = Reader(bytes);
    let (version, length) = (file.byte()?, file.word()? as usize);
    if version != 1 || length > MOST || length != file.0.len() {
        return None;
    }
    let (height, width) = (file.byte()? as usize, file.byte()? as usize);
    let given = file.list(Reader::word)?;
    let clues = file.list(Reader::word)?;
    let calls = file.list(Reader::call)?;
    let making = Making { given, clues, ..Making::empty(height, width) };
    file.0.is_empty().then_some(Case { making, calls })
}

/// A file that says this.
pub fn encode(case: &Case) -> Vec<u8> {
    let making = &case.making;
    let mut bytes = vec![1, 0, 0, making.height as u8, making.width as u8];
    for list in [&making.given, &making.clues] {
        bytes.extend((list.len() as u16).to_be_bytes());
        list.iter().for_each(|n| bytes.extend(n.to_be_bytes()));
    }
    bytes.extend((case.calls.len() as u16).to_be_bytes());
    for call in &case.calls {
        let (kind, border) = call.coded();
        bytes.push(kind);
        border.iter().for_each(|b| bytes.extend(b.to_be_bytes()));
    }
    told(bytes)
}

/// With the length of the rest as it is.
fn told(mut bytes: Vec<u8>) -> Vec<u8> {
    if bytes.len() >= 3 {
        let rest = (bytes.len() - 3) as u16;
        bytes[1..3].copy_from_slice(&rest.to_be_bytes());
    }
    bytes
}

/// What is printed for a call, or for a refused file or puzzle.
#[derive(Clone, Debug, PartialEq, Eq)]
pub enum Line {
    Decided,
    Undone,
    Clear,
    Shape(Vec<u16>),
    Room(usize, Vec<u16>),
    Refused(u8),
}

impl Line {
    /// Its kind's number, its own number and its entries.
    pub fn fields(&self) -> (u8, usize, &[u16]) {
        match self {
            Line::Decided => (0, 0, &[]),
            Line::Undone => (1, 0, &[]),
            Line::Clear => (2, 0, &[]),
            Line::Shape(entries) => (3, 0, entries),
            Line::Room(room, entries) => (4, *room, entries),
            Line::Refused(number) => (5, *number as usize, &[]),
        }
    }

    pub fn text(&self) -> String {
        let spaced = |entries: &[u16]| entries.iter().map(|entry| format!(" {entry}")).collect::<String>();
        match self {
            Line::Decided => "decided\n".into(),
            Line::Undone => "undone\n".into(),
            Line::Clear => "clear\n".into(),
            Line::Shape(entries) => format!("shape:{}\n", spaced(entries)),
            Line::Room(room, entries) => format!("room {room}:{}\n", spaced(entries)),
            Line::Refused(number) => format!("refused {number}\n"),
        }
    }
}

/// Sorted and without repeats, as `CustomConstraintWrapperForGlucose::propagate` hands a list over.
fn handed_over(mut list: Vec<u16>) -> Vec<u16> {
    list.sort();
    list.dedup();
    list
}

/// What is printed for a call on a puzzle.
pub fn line(rust: &mut impl Reference, call: Call) -> Line {
    let (done, well) = match call {
        Call::Undo => (rust.undo(), Line::Undone),
        Call::Decide { border, wall } => (rust.decide(border as usize, wall), Line::Decided),
        Call::Ask => {
            return match rust.fault() {
                None => Line::Clear,
                Some((0, list)) => Line::Shape(handed_over(list)),
                Some((room, list)) => Line::Room(room - 1, handed_over(list)),
            };
        }
    };
    done.map_or_else(Line::Refused, |()| well)
}

/// What the Rust's side prints for a file: the number that refuses it, or a line a call and the record that the calls leave. A file says nothing of a
/// kind; its calls may be run on a puzzle of images that the caller has.
pub fn printed(case: Option<&Case>) -> Result<(Vec<Line>, PuzzleRecord), u8> {
    let Case { making, calls } = case.ok_or(11)?;
    match making.refusal() {
        0 => {}
        number => return Err(number),
    }
    let mut rust = Puzzle::new(making, true)?;
    let lines = calls.iter().map(|&call| line(&mut rust, call)).collect();
    let names = ledger::singles(&rust.ledger());
    Ok((lines, PuzzleRecord::of(making, &rust.states(), &names)))
}

/// The same as text.
pub fn printed_text(bytes: &[u8]) -> String {
    match printed(decode(bytes).as_ref()) {
        Ok((lines, _)) => lines.iter().map(Line::text).collect(),
        Err(number) => Line::Refused(number).text(),
    }
}

/// A number in decimal, without a zero in front.
fn number(text: &str) -> Option<usize> {
    let digits = !text.is_empty() && text.bytes().all(|b| b.is_ascii_digit());
    if digits && (text == "0" || !text.starts_with('0')) { text.parse().ok() } else { None }
}

/// Entries of the largest board, each after a space, rising.
fn are_entries(text: &str) -> bool {
    let mut words = text.split(' ');
    let list: Option<Vec<usize>> = if words.next() == Some("") { words.map(number).collect() } else { None };
    list.is_some_and(|list| list.windows(2).all(|pair| pair[0] < pair[1]) && list.iter().all(|&n| n < 2 * 1984))
}

/// Whether the bytes are one of the lines of SPEC 5.4. It looks at nothing but them.
pub fn is_line(bytes: &[u8]) -> bool {
    let text = std::str::from_utf8(bytes).ok().and_then(|text| text.strip_suffix('\n'));
    let Some(text) = text else { return false };
    if let Some(n) = text.strip_prefix("refused ") {
        return number(n).is_some_and(|n| (1..=11).contains(&n));
    }
    if let Some(entries) = text.strip_prefix("shape:") {
        return are_entries(entries);
    }
    match text.strip_prefix("room ").and_then(|others| others.split_once(':')) {
        Some((room, entries)) => number(room).is_some_and(|n| n < 1024) && are_entries(entries),
        None => ["decided", "undone", "clear"].contains(&text),
    }
}

/// A call of a run as the file has it; a border that 16 bits do not hold is the largest.
fn filed(call: runs::Call) -> Call {
    match call {
        runs::Call::Undo => Call::Undo,
        runs::Call::Decide { border, wall } => Call::Decide { border: border.min(65535) as u16, wall },
    }
}

/// Calls towards a board, with asks among them.
fn calls(random: &mut Random, board: &Standing, length: usize) -> Vec<Call> {
    let asks = *random.pick(&[0, 1, 4, 12]);
    let mut calls = vec![];
    for call in puzzles::towards(random, board, length) {
        calls.push(filed(call));
        if random.chance(asks, 16) {
            calls.push(Call::Ask);
        }
    }
    calls.extend([Call::Ask; 3].into_iter().take(random.within(0, 3)));
    calls
}

/// A sound file; its puzzle may be refused.
pub fn sound(random: &mut Random, low: usize, high: usize, length: usize) -> Case {
    let (board, making) = puzzles::drawn(random, low, high);
    let making = if random.chance(1, 8) { puzzles::spoilt(random, making) } else { making };
    let making = Making { height: making.height.min(255), ..making };
    Case { making, calls: calls(random, &board, length) }
}

/// The bytes at which the counts and the calls' kinds stand.
fn marks(case: &Case) -> ([usize; 3], Vec<usize>) {
    let clues = 7 + 2 * case.making.given.len();
    let calls = clues + 2 + 2 * case.making.clues.len();
    let mut at = calls + 2;
    let mut kinds = vec![];
    for call in &case.calls {
        kinds.push(at);
        at += if call.coded().1.is_some() { 3 } else { 1 };
    }
    ([5, clues, calls], kinds)
}

fn word_at(bytes: &[u8], at: usize) -> u16 {
    u16::from_be_bytes([bytes[at], bytes[at + 1]])
}

/// A number beside another, or far from it.
fn other(random: &mut Random, n: u16) -> u16 {
    let any = random.below(65536) as u16;
    *random.pick(&[n.wrapping_add(1), n.wrapping_sub(1), 0, 65535, any, n ^ 256])
}

fn noise(random: &mut Random, most: usize) -> Vec<u8> {
    (0..random.within(1, most)).map(|_| random.below(256) as u8).collect()
}

/// Cut, lengthened, or with a byte too many or too few; as often as not with the length that it then has.
fn resized(random: &mut Random, mut bytes: Vec<u8>) -> Vec<u8> {
    let (any, byte) = (random.below(bytes.len()), random.below(256) as u8);
    match random.below(4) {
        0 => bytes.truncate(any),
        1 => bytes.extend(noise(random, 8)),
        2 => drop(bytes.splice(any..any + 1, [])),
        _ => bytes.insert(any, byte),
    }
    if random.chance(1, 2) { told(bytes) } else { bytes }
}

/// The file, damaged: of another size, with a wrong count, kind, version or length, or with some bytes changed.
pub fn damaged(random: &mut Random, case: &Case, file: &[u8]) -> Vec<u8> {
    let mut bytes = file.to_vec();
    let (counts, kinds) = marks(case);
    let (any, byte) = (random.below(bytes.len()), random.below(256) as u8);
    match random.below(12) {
        0..=3 => return resized(random, bytes),
        4 => {
            let at = *random.pick(&counts);
            let count = other(random, word_at(&bytes, at));
            bytes[at..at + 2].copy_from_slice(&count.to_be_bytes());
        }
        5 => {
            let at = if kinds.is_empty() { any } else { *random.pick(&kinds) };
            bytes[at] = *random.pick(&[0, 1, 2, 3, 4, 5, 255, byte]);
        }
        6 => bytes[0] = *random.pick(&[0, 2, 255, byte]),
        7 => {
            let length = other(random, word_at(&bytes, 1));
            bytes[1..3].copy_from_slice(&length.to_be_bytes());
        }
        8 => bytes[any] = byte,
        9 => bytes[any] ^= 1 << random.below(8),
        _ => {
            for _ in 0..random.within(2, 5) {
                let at = random.below(bytes.len());
                bytes[at] = random.below(256) as u8;
            }
        }
    }
    bytes
}

/// Bytes that are no file, most of them with a version and a length that are right.
pub fn scrap(random: &mut Random) -> Vec<u8> {
    let mut bytes = if random.chance(1, 4) { vec![] } else { vec![1, 0, 0] };
    let most = *random.pick(&[4, 16, 64]);
    let top = *random.pick(&[2, 4, 256]);
    bytes.extend((0..random.within(0, most)).map(|_| random.below(top) as u8));
    if random.chance(7, 8) { told(bytes) } else { bytes }
}

/// A file of just so many bytes behind its length, with undos and asks.
pub fn of_length(rest: usize) -> Vec<u8> {
    let making = Making { clues: vec![1], ..Making::empty(1, 2) };
    let mut calls = vec![Call::Undo; rest - 10];
    calls.iter_mut().step_by(7).for_each(|call| *call = Call::Ask);
    encode(&Case { making, calls })
}
