//! How much stack a call takes.
use std::hint::black_box;
use std::thread;

/// How far down the measure looks.
const DEPTH: usize = 2 << 20;
/// The measure's own frames, which are not painted.
const OWN: usize = 4096;
const PAINT: u64 = 0x5ee4_a15e_a111_57ac;

/// Writes the paint below a place of this thread's stack.
#[inline(never)]
fn paint(here: usize) {
    for at in (here - DEPTH..here - OWN).step_by(8) {
        // below every frame that lives, and within the thread's stack
        unsafe { (at as *mut u64).write_volatile(PAINT) };
    }
}

/// How far below a place the paint is gone.
#[inline(never)]
fn reached(here: usize) -> usize {
    let gone = |&at: &usize| unsafe { (at as *const u64).read_volatile() } != PAINT;
    let lowest = (here - DEPTH..here - OWN).step_by(8).find(gone);
    lowest.map_or(OWN, |at| here - at)
}

/// Keeps the call's copies of its arguments out of the measure's own frame.
#[inline(never)]
fn apart<T>(call: impl FnOnce() -> T) {
    black_box(call());
}

/// The bytes of stack that a call takes, its arguments included; those below 4 KB count as 4 KB.
pub fn used<T>(call: impl FnOnce() -> T + Send) -> usize {
    let measured = || {
        let mark = 0u64;
        let here = black_box(&mark) as *const u64 as usize & !7;
        paint(here);
        apart(call);
        reached(here)
    };
    let large = || thread::Builder::new().stack_size(2 * DEPTH);
    thread::scope(|scope| large().spawn_scoped(scope, measured).expect("a thread").join().expect("measured"))
}
