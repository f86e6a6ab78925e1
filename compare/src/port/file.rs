//! The case file's calls.
use super::{c, UNTOUCHED};
use crate::generator::Load;

pub use c::{Opened, Parts, Ran};

/// The places that a run needs for each call's line.
pub const LINE_ROOM: usize = 55_323;

/// What the places of a buffer of bytes hold before a call.
const BLANK: u8 = 0xbe;

/// How many bytes behind a buffer are looked at.
pub(super) const BEHIND: usize = 9;

/// Bytes that are lent again and again; behind what a call wrote they must be untouched.
pub struct Lent {
    bytes: Vec<u8>,
    blank: Vec<u8>,
}

impl Lent {
    pub fn new(places: usize) -> Lent {
        Lent { bytes: vec![BLANK; places], blank: vec![BLANK; places] }
    }

    /// Lends so many places to a call that answers how many it wrote, and takes those out.
    pub(super) fn lend<T>(&mut self, room: usize, call: impl FnOnce(*mut u8, usize) -> (T, usize)) -> (T, Vec<u8>) {
        let lent = &mut self.bytes[..room];
        let (answer, used) = call(lent.as_mut_ptr(), room);
        assert!(used <= room && self.bytes[used..] == self.blank[used..], "places behind what was written were touched");
        let written = self.bytes[..used].to_vec();
        self.bytes[..used].fill(BLANK);
        (answer, written)
    }
}

/// A load's file in so many bytes; those behind it, and some behind the buffer, must be untouched.
pub fn generate(load: Load, room: usize) -> Result<Vec<u8>, u8> {
    let Load { seed, height, width, count } = load;
    let (told, file) = Lent::new(room + BEHIND).lend(room, |buffer, room| {
        // the buffer lives through the call
        let told = unsafe { c::sendai_case_generate(seed, height, width, count, buffer, room) };
        let length = told.length;
        (told, length)
    });
    match (told.code, told.fault, told.length) {
        (0, false, _) => Ok(file),
        (code, false, 0) => Err(code),
        numbers => panic!("{numbers:?} are no answer"),
    }
}

pub fn open(file: &[u8]) -> Opened {
    // the file lives through the call
    unsafe { c::sendai_case_open(file.as_ptr(), file.len()) }
}

/// Runs so many calls from a byte on, with so many places for their lines.
pub fn run(file: &[u8], at: usize, count: usize, from: c::Puzzle, lent: &mut Lent, room: usize) -> (Ran, Vec<u8>) {
    lent.lend(room, |out, room| {
        // both slices live through the call, and neither overlaps the other
        let ran = unsafe { c::sendai_case_run(file.as_ptr(), file.len(), at, count, from, out, room) };
        let len = ran.len;
        (ran, len)
    })
}

/// A line with so many places for it.
pub fn line(kind: u8, number: usize, entries: &[u16], lent: &mut Lent, room: usize) -> Result<Vec<u8>, u8> {
    let (code, written) = lent.lend(room, |out, room| {
        // both slices live through the call, and neither overlaps the other
        let told = unsafe { c::sendai_line(kind, number, entries.as_ptr(), entries.len(), out, room) };
        (told.code, told.length)
    });
    if code == 0 { Ok(written) } else { Err(code) }
}

/// Where the file's parts stand.
pub fn decode(file: &[u8]) -> Parts {
    // the file lives through the call
    unsafe { c::sendai_file_decode(file.as_ptr(), file.len()) }
}

/// A call's kind and border, and the byte behind it.
pub fn call_at(file: &[u8], at: usize) -> Result<(u8, usize, usize), u8> {
    // the file lives through the call
    let told = unsafe { c::sendai_file_call(file.as_ptr(), file.len(), at) };
    match (told.code, told.kind, told.border, told.behind) {
        (0, kind, border, behind) => Ok((kind, border, behind)),
        (code, 0, 0, 0) => Err(code),
        numbers => panic!("{numbers:?} are no answer"),
    }
}

/// The k-th number of a list.
pub fn number(file: &[u8], at: usize, count: usize, k: usize) -> usize {
    // the file lives through the call
    unsafe { c::sendai_file_number(file.as_ptr(), file.len(), at, count, k) }
}

/// The numbers of a list, lent so many places: the code, how many there are, and the buffer that the call left.
pub fn numbers(file: &[u8], at: usize, count: usize, room: usize) -> (u8, usize, Vec<u16>) {
    let mut buffer = vec![UNTOUCHED; room];
    // both slices live through the call, and neither overlaps the other
    let told = unsafe { c::sendai_file_numbers(file.as_ptr(), file.len(), at, count, buffer.as_mut_ptr(), room) };
    (told.code, told.length, buffer)
}

/// What `numbers` is to answer for this list.
pub fn in_buffer(list: &[u16], room: usize) -> (u8, usize, Vec<u16>) {
    let mut buffer = vec![UNTOUCHED; room];
    if room < list.len() {
        return (6, 0, buffer);
    }
    buffer[..list.len()].copy_from_slice(list);
    (0, list.len(), buffer)
}
