//! `CityCountConstraint`: making, decide, undo and ask on room graphs, loops and repeated edges included; strokes by the model.
use super::{stroke_of_one, until, Limits};
use crate::ledger::{Ledger, Reference, Told};
use crate::lone::{self, Lone};
use crate::port::{self, Record};
use crate::random::Random;
use crate::runs::{self, Call, Turn};
use crate::sample::{code, fault, Sample, LARGEST};
use crate::tally::Tally;

type Edges = Vec<(usize, usize)>;

/// A graph on which states stand is asked, with a place for each edge and with one place less. Gives what is to be answered.
fn ask(tally: &mut Tally, vertices: usize, edges: &Edges, count: u32, states: &[u8]) -> Option<Vec<u16>> {
    tally.case();
    let on = || format!("{vertices} vertices, {edges:?}, count {count}, {states:?}");
    let theirs = Lone::new(vertices, edges, count);
    let ours = port::City::make(vertices, edges, count);
    tally.same(&theirs.as_ref().err(), &ours.as_ref().err(), on);
    let (Ok(mut rust), Ok(mut ours)) = (theirs, ours) else { return None };
    tally.leave_out(rust.left_out());
    for (edge, &state) in states.iter().enumerate() {
        if state != 0 {
            tally.same(&rust.decide(edge, state == 2), &ours.decide(edge, state == 2), on);
        }
    }
    let answer = rust.ask();
    tally.same(&Ok(answer.as_ref()), &ours.ask().as_ref().map(Option::as_ref).map_err(|&code| code), on);
    if !edges.is_empty() {
        tally.same(&Err(6), &ours.ask_within(edges.len() - 1), on);
    }
    answer
}

/// A list of turns on a graph, with an ask after each.
fn compare(tally: &mut Tally, vertices: usize, edges: &Edges, count: u32, turns: &[Turn]) {
    tally.case();
    let made = |city: Result<port::City, u8>| (city.err(), city.ok());
    let whole = made(port::City::make(vertices, edges, count)) == made(port::City::make_of_edges(vertices, edges, count));
    tally.same(&true, &whole, || format!("{vertices} vertices, {edges:?} as records, count {count}"));
    let (mut rust, fresh) = match (Lone::new(vertices, edges, count), port::City::make(vertices, edges, count)) {
        (Ok(rust), Ok(ours)) => (Told::new(rust, &[]), ours),
        (theirs, ours) => {
            let on = || format!("{vertices} vertices, {edges:?}, count {count}");
            return tally.same(&theirs.err(), &ours.err(), on);
        }
    };
    tally.leave_out(rust.rust.left_out());
    let mut ours = fresh;
    for (at, turn) in turns.iter().enumerate() {
        let on = || format!("{vertices} vertices, {edges:?}, count {count}, turn {at} of {turns:?}");
        let before = ours;
        let (theirs, answer) = (rust.turn(turn), ours.turn(turn));
        tally.same(&theirs, &answer, on);
        stroke_of_one(tally, before, turn, (answer, ours), on);
        let (states, names) = rust.record();
        let whole = fresh.with(&states, &names, names.len());
        tally.same(&(states, names), &(ours.states(), ours.names()), on);
        tally.same(&true, &(ours == whole), on);
        tally.same(&Ok(()), &ours.check(), on);
        tally.same(&Ok(rust.rust.ask()), &ours.ask(), on);
    }
}

/// All graphs with so many vertices and edges, an edge being any two vertices or one, in a rising order of edges.
fn graphs(vertices: usize, edges: usize) -> Vec<Edges> {
    let pairs: Edges = (0..vertices).flat_map(|a| (a..vertices).map(move |b| (a, b))).collect();
    let mut lists: Vec<Vec<usize>> = vec![vec![]];
    for _ in 0..edges {
        let longer = |list: &Vec<usize>| {
            let (from, list) = (list.last().copied().unwrap_or(0), list.clone());
            (from..pairs.len()).map(move |pair| [&list[..], &[pair]].concat()).collect::<Vec<_>>()
        };
        lists = lists.iter().flat_map(longer).collect();
    }
    lists.into_iter().map(|list| list.into_iter().map(|pair| pairs[pair]).collect()).collect()
}

fn states(edges: usize) -> impl Iterator<Item = Vec<u8>> {
    (0..3usize.pow(edges as u32)).map(move |number| (0..edges as u32).map(|e| (number / 3usize.pow(e) % 3) as u8).collect())
}

fn drawn(random: &mut Random, vertices: usize, edges: usize) -> Edges {
    let near = random.chance(1, 2);
    let edge = |random: &mut Random| {
        let a = random.below(vertices);
        let b = if near { (a + random.below(3)).min(vertices - 1) } else { random.below(vertices) };
        if random.chance(1, 2) { (a, b) } else { (b, a) }
    };
    let mut list: Edges = (0..edges).map(|_| edge(random)).collect();
    if random.chance(1, 40) && !list.is_empty() {
        let at = random.below(list.len());
        list[at].1 = vertices;
    }
    list
}

pub fn run(limits: &Limits) -> Tally {
    let mut tally = Tally::new("city_count");
    for vertices in 0..=4 {
        for edges in 0..=5 {
            for graph in graphs(vertices, edges) {
                let parts = lone::parts(vertices, &graph);
                for states in states(edges) {
                    for count in [0, 1, 2, 3, 4, 5, 65536, u32::MAX] {
                        let answer = ask(&mut tally, vertices, &graph, count, &states);
                        let lawful = lone::lawful(&parts, count, &states, &answer);
                        tally.same(&true, &lawful, || format!("{vertices} vertices, {graph:?}, count {count}, {states:?}: {answer:?}"));
                    }
                }
            }
        }
    }
    // the largest graph: one path and repeats of it, which the walk goes down in one piece
    let path: Edges = (0..1984).map(|e| (e % 1023, e % 1023 + 1)).collect();
    for count in [0, 1, 2, 1023, 1024, u32::MAX] {
        for state in 0..3 {
            ask(&mut tally, 1024, &path, count, &[state; 1984]);
        }
    }
    let random = &mut Random::new(limits.seed);
    until(limits.time, || {
        let most = *random.pick(&[4, 12, 60, 1024]);
        let vertices = random.within(1, most);
        let edges = random.below(2 * vertices.min(990) + 2);
        let graph = drawn(random, vertices, edges);
        let count = if random.chance(1, 20) { u32::MAX } else { random.below(vertices + 3) as u32 };
        let length = random.within(1, 40);
        let turns = runs::turns(random, Ledger::fresh(edges, &[]), length, 4);
        compare(&mut tally, vertices, &graph, count, &turns);
    });
    until(limits.time, || {
        let most = *random.pick(&[4, 12, 60, 1024]);
        let vertices = random.within(1, most);
        let edges = random.below(2 * vertices.min(990) + 2);
        let graph = drawn(random, vertices, edges);
        let weights = [random.below(4), random.below(4), random.below(4) + 1];
        let state = |random: &mut Random| {
            let at = random.below(weights.iter().sum());
            if at < weights[0] { 1 } else if at < weights[0] + weights[1] { 2 } else { 0 }
        };
        let states: Vec<u8> = (0..edges).map(|_| state(random)).collect();
        ask(&mut tally, vertices, &graph, random.below(vertices + 3) as u32, &states);
    });
    for (vertices, edges) in [(1025, 0), (2, 1985), (usize::MAX, 0)] {
        let list = vec![(0, 1); edges];
        let ours = [port::City::make(vertices, &list, 1).err(), port::City::make_of_edges(vertices, &list, 1).err()];
        tally.same(&[Some(1); 2], &ours, || format!("{vertices} vertices, {edges} edges"));
    }
    tally.done()
}

/// The edges, the vertices and the count, and calls with an ask after each.
pub fn sample(sample: &mut Sample) {
    let random = &mut Random::new(8);
    for _ in 0..60 {
        let vertices = random.within(1, 9);
        let edges = random.below(12);
        let graph = drawn(random, vertices, edges);
        let count = random.below(vertices + 2);
        let ends = |end: fn(&(usize, usize)) -> usize| graph.iter().map(|e| end(e) as u16).collect::<Vec<u16>>();
        sample.lists(&ends(|e| e.0), &ends(|e| e.1));
        let made = Lone::new(vertices, &graph, count as u32);
        sample.call("rm", vertices, count, code(&made));
        let Ok(mut rust) = made else { continue };
        for call in runs::random(random, edges, 12, 4) {
            match call {
                Call::Decide { border, wall } => {
                    let answer = rust.decide(border.min(LARGEST), wall);
                    sample.call("rd", border, 1 + wall as usize, code(&answer));
                }
                Call::Undo => sample.call("ru", 0, 0, code(&rust.undo())),
            }
            sample.call("ra", 0, 0, fault(&rust.ask()));
        }
    }
}
