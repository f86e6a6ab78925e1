//! Hand-over beside `sort` and `dedup`, which `CustomConstraintWrapperForGlucose::propagate` calls on a fault's list.
use super::{until, Limits};
use crate::boards;
use crate::port;
use crate::random::Random;
use crate::reference::Board;
use crate::sample::{listed, Sample};
use crate::tally::Tally;

fn sorted(entries: &[u16]) -> Vec<u16> {
    let mut list = entries.to_vec();
    list.sort();
    list.dedup();
    list
}

/// With a buffer that is just long enough, a longer one, and one that is too short.
fn compare(tally: &mut Tally, entries: &[u16]) {
    tally.case();
    for room in [entries.len(), entries.len() + 7] {
        let on = || format!("{entries:?} into {room} places");
        tally.same(&Ok(sorted(entries)), &port::hand_over(entries, room), on);
    }
    if let Some(room) = entries.len().checked_sub(1) {
        tally.same(&Err(6), &port::hand_over(entries, room), || format!("{entries:?} into {room} places"));
    }
}

fn drawn(random: &mut Random, most: usize) -> Vec<u16> {
    let values = *random.pick(&[2, 40, 3968, 65536]);
    (0..random.within(0, most)).map(|_| random.below(values) as u16).collect()
}

pub fn run(limits: &Limits) -> Tally {
    let mut tally = Tally::new("hand_over");
    let few = [0, 1, 2, 65534, 65535];
    for length in 0..=4 {
        for number in 0..few.len().pow(length) {
            let digits = (0..length).map(|place| few[number / few.len().pow(place) % few.len()]);
            compare(&mut tally, &digits.collect::<Vec<u16>>());
        }
    }
    let random = &mut Random::new(limits.seed);
    until(limits.time / 2, || compare(&mut tally, &drawn(random, 300)));
    until(limits.time / 2, || {
        let board = boards::random(random, 1, 16);
        let fault = Board::standing(board.height, board.width, &board.states).ask();
        compare(&mut tally, &fault.unwrap_or_default());
    });
    compare(&mut tally, &(0..=65535).rev().collect::<Vec<u16>>());
    tally.done()
}

/// A list, and what is handed over of it, into as many places and into one less.
pub fn sample(sample: &mut Sample) {
    let random = &mut Random::new(10);
    for _ in 0..60 {
        let entries = drawn(random, 40);
        sample.lists(&entries, &[]);
        sample.call("lh", entries.len(), 0, listed(&Ok(sorted(&entries))));
        if let Some(short) = entries.len().checked_sub(1) {
            sample.call("lh", short, 0, 6);
        }
    }
}
