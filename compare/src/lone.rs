//! The lone room check beside the Rust. Where the count is above the vertices the Rust has no answer of SPEC 15.1's: there the words stand in, and the
//! input is left out of what is compared with the Rust.
use crate::ledger::{Fault, Reference};
use crate::reference::City;

pub struct Lone {
    rust: City,
    above: bool,
}

impl Lone {
    pub fn new(vertices: usize, edges: &[(usize, usize)], count: u32) -> Result<Lone, u8> {
        let above = vertices < count as usize;
        City::new(vertices, edges, count).map(|rust| Lone { rust, above })
    }

    pub fn ask(&mut self) -> Option<Vec<u16>> {
        if self.above { Some(vec![]) } else { self.rust.ask() }
    }
}

impl Reference for Lone {
    fn decide(&mut self, edge: usize, wall: bool) -> Result<(), u8> {
        self.rust.decide(edge, wall)
    }
    fn undo(&mut self) -> Result<(), u8> {
        self.rust.undo()
    }
    fn states(&self) -> Vec<u8> {
        self.rust.states()
    }
    fn fault(&mut self) -> Fault {
        self.ask().map(|list| (0, list))
    }
    fn left_out(&self) -> bool {
        self.above
    }
}

/// How many parts each full graph with these edges has: edge e is Connected where bit e of its number is 1.
pub fn parts(vertices: usize, edges: &[(usize, usize)]) -> Vec<usize> {
    let of_full = |number: usize| {
        let mut part: Vec<usize> = (0..vertices).collect();
        for (_, &(u, v)) in edges.iter().enumerate().filter(|(edge, _)| number >> edge & 1 == 1) {
            let (from, to) = (part[u], part[v]);
            part.iter_mut().filter(|p| **p == from).for_each(|p| *p = to);
        }
        part.sort();
        part.dedup();
        part.len()
    };
    (0..1 << edges.len()).map(of_full).collect()
}

/// Whether an answer is true by these numbers alone: no full graph with a fault's list has as many parts as the count, and a full one is clear
/// exactly if it has.
pub fn lawful(parts: &[usize], count: u32, states: &[u8], answer: &Option<Vec<u16>>) -> bool {
    let holds = |number: usize, edge: usize, wall: bool| (number >> edge & 1 == 0) == wall;
    let right = |number: usize| parts[number] == count as usize;
    let excluded = answer.as_ref().is_none_or(|list| {
        let listed = |number: usize| list.iter().all(|&entry| holds(number, entry as usize / 2, entry % 2 == 1));
        !(0..parts.len()).any(|number| listed(number) && right(number))
    });
    let stands = |number: usize| states.iter().enumerate().all(|(edge, &state)| holds(number, edge, state == 2));
    let full = states.iter().all(|&state| state != 0);
    let exact = !full || (0..parts.len()).filter(|&number| stands(number)).all(|number| answer.is_none() == right(number));
    excluded && exact
}
