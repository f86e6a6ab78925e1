//! `UnionFind`: answers and parents after each call of find and unite.
use super::{until, Limits};
use crate::port;
use crate::random::Random;
use crate::reference::Union;
use crate::sample::{code, numbers, Sample, LARGEST};
use crate::tally::Tally;

#[derive(Clone, Copy, Debug)]
enum Call {
    Find(usize),
    Unite(usize, usize),
}

fn compare(tally: &mut Tally, vertices: usize, calls: &[Call]) {
    tally.case();
    let mut rust = Union::new(vertices);
    let mut ours = port::Union::make(vertices).expect("a size within the limits");
    for (at, &call) in calls.iter().enumerate() {
        let on = || format!("{vertices} vertices, call {at} of {calls:?}");
        match call {
            Call::Find(x) => tally.same(&rust.find(x), &ours.find(x), on),
            Call::Unite(x, y) => tally.same(&rust.unite(x, y), &ours.unite(x, y), on),
        }
        tally.same(&rust.parents(), &ours.parents(), on);
    }
}

/// Every list of so many calls on so few vertices, one that does not exist among them.
fn every(tally: &mut Tally, vertices: usize, length: u32) {
    let finds = (0..=vertices).map(Call::Find);
    let unites = (0..=vertices).flat_map(|x| (0..=vertices).map(move |y| Call::Unite(x, y)));
    let calls: Vec<Call> = finds.chain(unites).collect();
    for number in 0..calls.len().pow(length) {
        let digits = (0..length).map(|place| number / calls.len().pow(place) % calls.len());
        let list: Vec<Call> = digits.map(|digit| calls[digit]).collect();
        compare(tally, vertices, &list);
    }
}

fn drawn(random: &mut Random, vertices: usize, length: usize) -> Vec<Call> {
    let vertex = |random: &mut Random| match random.below(50) {
        0 => vertices,
        1 => *random.pick(&[1024, 65536, usize::MAX]),
        _ => random.below(vertices.max(1)),
    };
    let call = |random: &mut Random| match random.below(4) {
        0 => Call::Find(vertex(random)),
        1 => {
            let x = vertex(random);
            Call::Unite(x, x.saturating_add(1))
        }
        _ => Call::Unite(vertex(random), vertex(random)),
    };
    (0..length).map(|_| call(random)).collect()
}

pub fn run(limits: &Limits) -> Tally {
    let mut tally = Tally::new("union_find");
    for (vertices, length) in [(0, 3), (1, 4), (2, 3), (3, 3)] {
        every(&mut tally, vertices, length);
    }
    // one chain of all vertices, found from its end
    for vertices in [2, 100, 1024] {
        let chain = (1..vertices).map(|x| Call::Unite(x - 1, x));
        let calls: Vec<Call> = chain.chain([Call::Find(0), Call::Find(vertices - 1)]).collect();
        compare(&mut tally, vertices, &calls);
    }
    let random = &mut Random::new(limits.seed);
    until(limits.time, || {
        let most = *random.pick(&[5, 30, 1024]);
        let vertices = random.within(0, most);
        let length = random.within(1, 60);
        let calls = drawn(random, vertices, length);
        compare(&mut tally, vertices, &calls);
    });
    for vertices in [1025, 65536, usize::MAX] {
        tally.same(&Some(1), &port::Union::make(vertices).err(), || format!("{vertices} vertices"));
    }
    tally.done()
}

/// The vertices, calls, and the parents that they left.
pub fn sample(sample: &mut Sample) {
    let random = &mut Random::new(7);
    for at in 0..40 {
        let vertices = if at == 0 { 1024 } else { random.within(0, 12) };
        sample.call("um", vertices, 0, 0);
        let mut rust = Union::new(vertices);
        for call in drawn(random, vertices, 20) {
            let (name, x, y, answer) = match call {
                Call::Find(x) => ("uf", x, 0, rust.find(x.min(LARGEST))),
                Call::Unite(x, y) => ("uu", x, y, rust.unite(x.min(LARGEST), y.min(LARGEST)).map(usize::from)),
            };
            sample.call(name, x, y, format!("{} {}", code(&answer), answer.unwrap_or(0)));
        }
        let parents = rust.parents();
        sample.call("up", 0, 0, format!("{}{}", parents.len(), numbers(&parents)));
    }
}
