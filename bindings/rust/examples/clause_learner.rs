//! A clause learner on top of the checker: counts the right boards of small Sendai puzzles. Its clauses come from handed-over lists
//! alone; that it loses no board is checked by trying every full board. Run: `cargo run --example clause_learner`.
//!
//! The search has one puzzle, and two buffers that it makes once. Each stroke, ask and undo is lent the puzzle: it is changed or read where
//! it is, and no record is copied from step to step.
use sendai::{hand_over, Kind, Puzzle, Refusal, State, NO_CLUE};

/// "One of these holds": borders, each with whether it is a Wall.
type Clause = Vec<(usize, bool)>;

/// A border to be drawn, and whether as a Wall; a forced one with the clause that forced it, a chosen one without.
type Step = (usize, bool, Option<usize>);

struct Learner {
    puzzle: Puzzle,
    /// Lent to each ask and each hand-over.
    list: Vec<u16>,
    handed: Vec<u16>,
    clauses: Vec<Clause>,
    /// The strokes in order, as they stand on the puzzle. A chosen border is the first of its stroke.
    trail: Vec<Vec<Step>>,
    asks: usize,
}

impl Learner {
    fn new(puzzle: Puzzle) -> Learner {
        let (list, handed) = (vec![0; puzzle.list_len()], vec![0; puzzle.list_len()]);
        Learner { puzzle, list, handed, clauses: vec![], trail: vec![], asks: 0 }
    }

    /// How many right boards there are.
    fn count(&mut self) -> Result<usize, Refusal> {
        let (mut found, mut chosen) = (0, None);
        loop {
            let clause = if let Some(clause) = self.draw(chosen.take())? {
                clause
            } else if let Some(clause) = self.ask()? {
                clause
            } else if let Some(border) = self.open() {
                chosen = Some(border);
                continue;
            } else {
                // a right board: its clause asks for any other
                found += 1;
                self.puzzle.ledger().map(|(border, wall)| (border, !wall)).collect()
            };
            if !self.learn(clause)? {
                return Ok(found);
            }
        }
    }

    /// The first undecided border.
    fn open(&self) -> Option<usize> {
        self.puzzle.states().position(|state| state == State::Undecided)
    }

    /// Draws a chosen border as a Wall, and all that the clauses force then, in one stroke; the clause that is broken by it, if one is.
    fn draw(&mut self, chosen: Option<usize>) -> Result<Option<Clause>, Refusal> {
        let mut stroke: Vec<Step> = chosen.map(|border| (border, true, None)).into_iter().collect();
        let broken = loop {
            if let Some(clause) = self.broken(&stroke) {
                break Some(clause);
            }
            let Some(step) = self.forced(&stroke) else { break None };
            stroke.push(step);
        };
        self.puzzle.stroke(&stroke.iter().map(|&(border, wall, _)| (border, wall)).collect::<Vec<_>>())?;
        // an empty stroke is accepted, but there is nothing to undo then
        if !stroke.is_empty() {
            self.trail.push(stroke);
        }
        Ok(broken)
    }

    /// Asks, hands the list over and turns it into a clause: one of the listed borders is otherwise. A given wall never is.
    fn ask(&mut self) -> Result<Option<Clause>, Refusal> {
        self.asks += 1;
        let Some(fault) = self.puzzle.ask(&mut self.list)? else { return Ok(None) };
        let listed = sendai::entries(hand_over(fault.list, &mut self.handed)?);
        let given = |border| self.puzzle.given().iter().any(|&wall| usize::from(wall) == border);
        Ok(Some(listed.filter(|&(border, _)| !given(border)).map(|(border, wall)| (border, !wall)).collect()))
    }

    /// Undoes strokes until the clause's last border is open again. A forced border gives way to the rest of the clause that forced it,
    /// so the one that stays open was chosen, and the clause forces it next. `false`: no board is left.
    fn learn(&mut self, mut clause: Clause) -> Result<bool, Refusal> {
        while let Some(stroke) = self.trail.pop() {
            self.puzzle.undo()?;
            for (border, _, forced) in stroke.into_iter().rev() {
                if !clause.iter().any(|literal| literal.0 == border) {
                    continue;
                }
                let Some(reason) = forced else {
                    self.clauses.push(clause);
                    return Ok(true);
                };
                clause.extend(&self.clauses[reason]);
                clause.retain(|literal| literal.0 != border);
                clause.sort();
                clause.dedup();
            }
        }
        Ok(false)
    }

    /// Whether a literal holds once the stroke is drawn, `None` while its border is undecided.
    fn holds(&self, stroke: &[Step], (border, wall): (usize, bool)) -> Option<bool> {
        if let Some(step) = stroke.iter().find(|step| step.0 == border) {
            return Some(step.1 == wall);
        }
        match self.puzzle.state(border)? {
            State::Undecided => None,
            state => Some((state == State::Wall) == wall),
        }
    }

    /// A clause of which no literal holds or is open.
    fn broken(&self, stroke: &[Step]) -> Option<Clause> {
        self.clauses.iter().find(|clause| clause.iter().all(|&literal| self.holds(stroke, literal) == Some(false))).cloned()
    }

    /// The one open literal of a clause whose others don't hold, and the clause.
    fn forced(&self, stroke: &[Step]) -> Option<Step> {
        self.clauses.iter().enumerate().find_map(|(number, clause)| {
            let mut left = clause.iter().filter(|&&literal| self.holds(stroke, literal) != Some(false));
            match (left.next(), left.next()) {
                (Some(&open), None) if self.holds(stroke, open).is_none() => Some((open.0, open.1, Some(number))),
                _ => None,
            }
        })
    }
}

/// The laws of a full board, in this example's own words: a second opinion that calls nothing of the checker.
mod laws {
    use sendai::Kind;
    use std::collections::{BTreeMap, BTreeSet};

    type Cell = (usize, usize);
    type Border = (Cell, Cell);
    type Unit = BTreeSet<Cell>;

    /// The borders of a board in the order of their numbers, each as the cells on its two sides.
    fn borders(height: usize, width: usize) -> Vec<Border> {
        let cells = |height, width| (0..height).flat_map(move |y| (0..width).map(move |x| (y, x)));
        let right = cells(height, width - 1).map(|(y, x)| ((y, x), (y, x + 1)));
        right.chain(cells(height - 1, width).map(|(y, x)| ((y, x), (y + 1, x)))).collect()
    }

    /// The Walls, and the borders that are none.
    fn parted(borders: &[Border], wall: impl Fn(usize) -> bool) -> (Vec<Border>, Vec<Border>) {
        let pick = |kept: bool| (0..borders.len()).filter(|&n| wall(n) == kept).map(|n| borders[n]).collect();
        (pick(true), pick(false))
    }

    /// The largest sets of cells that these borders join, by first cell.
    fn joined(height: usize, width: usize, over: &[Border]) -> Vec<Unit> {
        let mut name: BTreeMap<Cell, Cell> = (0..height * width).map(|c| (c / width, c % width)).map(|c| (c, c)).collect();
        for (one, other) in over {
            let (low, high) = (name[one].min(name[other]), name[one].max(name[other]));
            name.values_mut().filter(|name| **name == high).for_each(|name| *name = low);
        }
        let mut sets: BTreeMap<Cell, Unit> = BTreeMap::new();
        for (cell, name) in name {
            sets.entry(name).or_default().insert(cell);
        }
        sets.into_values().collect()
    }

    /// A unit moved to the top left corner: equal for translates alone.
    fn corner(unit: &Unit) -> Unit {
        let (top, left) = (unit.iter().map(|c| c.0).min().unwrap(), unit.iter().map(|c| c.1).min().unwrap());
        unit.iter().map(|&(y, x)| (y - top, x - left)).collect()
    }

    /// A unit's shape, which its partner must have: of images the least of the eight, so that it is equal for them alone.
    fn shape(kind: Kind, unit: &Unit) -> Unit {
        let far = unit.iter().map(|c| c.0.max(c.1)).max().unwrap();
        let (mut images, mut turned) = (vec![corner(unit)], unit.clone());
        for _ in 0..4 {
            turned = turned.iter().map(|&(y, x)| (x, far - y)).collect();
            images.extend([corner(&turned), corner(&turned.iter().map(|&(y, x)| (y, far - x)).collect())]);
        }
        if kind == Kind::Images {
            images.into_iter().min().unwrap()
        } else {
            images.swap_remove(0)
        }
    }

    /// Whether a Wall has one unit on one side and the other on the other.
    fn share(walls: &[Border], a: &Unit, b: &Unit) -> bool {
        walls.iter().any(|(c, d)| a.contains(c) && b.contains(d) || a.contains(d) && b.contains(c))
    }

    /// How many full boards obey the laws, by trying each: border n is a Wall where bit n of the board's number is set.
    pub fn count(kind: Kind, height: usize, width: usize, given: &[u16], clues: &[u16]) -> usize {
        let borders = borders(height, width);
        let rooms = joined(height, width, &parted(&borders, |border| given.contains(&(border as u16))).1);
        let right = |board: usize| {
            let wall = |border: usize| board >> border & 1 == 1;
            if !given.iter().all(|&border| wall(border.into())) {
                return false;
            }
            let (walls, connected) = parted(&borders, wall);
            let units = joined(height, width, &connected);
            let partners = |a: &Unit, b: &Unit| a != b && shape(kind, a) == shape(kind, b) && share(&walls, a, b);
            let within = |room: &Unit| units.iter().filter(|unit| unit.is_subset(room)).count();
            units.iter().all(|unit| !share(&walls, unit, unit))
                && units.iter().all(|a| units.iter().any(|b| partners(a, b)))
                && rooms.iter().zip(clues).all(|(room, &clue)| clue == super::NO_CLUE || within(room) == clue.into())
        };
        (0..1 << borders.len()).filter(|&board| right(board)).count()
    }
}

fn main() -> Result<(), Refusal> {
    let puzzles: [(usize, usize, &[u16], &[u16]); 4] = [
        (2, 4, &[], &[4]),              // one room, four units
        (2, 4, &[1, 4], &[2, NO_CLUE]), // two rooms of 2 by 2, the left one with two units
        (2, 4, &[], &[NO_CLUE]),
        (3, 4, &[2, 5, 8], &[NO_CLUE, 3]), // the last column is a room of three units
    ];
    let kinds = [Kind::Translates, Kind::Images];
    for ((height, width, given, clues), kind) in puzzles.into_iter().flat_map(|puzzle| kinds.map(|kind| (puzzle, kind))) {
        let puzzle = Puzzle::of_kind(kind, height, width, given, clues)?;
        let free = puzzle.borders() - given.len();
        let mut learner = Learner::new(puzzle);
        let found = learner.count()?;
        assert_eq!(found, laws::count(kind, height, width, given, clues), "the learner lost a board, or took a wrong one");
        // every stroke is undone by now, and the checker's own search finds as many
        let mut boards = vec![0; learner.puzzle.boards_len(found)?];
        let right = learner.puzzle.right_boards(found, &mut boards)?;
        assert_eq!((right.len(), right.more()), (found, false), "all answers are others");
        print!("{kind:?}, {height} by {width}, given {given:?}, clues {clues:?}: {found} right boards of {}; ", 1 << free);
        println!("{} asks, {} clauses", learner.asks, learner.clauses.len());
    }
    Ok(())
}
