//! A clause learner that keeps what it calls. Its clauses come from the checker's lists; the puzzle and the seed tell all that it does.
use crate::answers::Answer;
use crate::boards::border_count;
use crate::ledger::{border, is_wall};
use crate::port::Puzzle;
use crate::puzzles::Making;
use crate::random::Random;

/// A move on the puzzle. A stroke has a chosen border and what the clauses force then, in their order; one `Back` takes one back.
#[derive(Clone, Debug, PartialEq, Eq)]
pub enum Move {
    Stroke(Vec<u16>),
    Back,
    Ask,
}

/// What a learner did on a puzzle, from the fresh puzzle to the fresh puzzle again.
pub struct Trace {
    pub making: Making,
    pub moves: Vec<Move>,
    /// The right boards that it came by.
    pub boards: usize,
    /// Whether none was left before its asks were used up.
    pub ended: bool,
}

/// Who decided a border.
#[derive(Clone, Copy, PartialEq, Eq)]
enum Why {
    Chosen,
    Forced(usize),
}

/// "One of these holds": entries.
type Clause = Vec<u16>;

struct Learner {
    puzzle: Puzzle,
    clauses: Vec<Clause>,
    /// The clauses that watch an entry, which is one of their first two.
    watching: Vec<Vec<usize>>,
    /// What holds beside the given walls, in order; how much of it has its consequences, and how much stands on the puzzle.
    trail: Vec<u16>,
    followed: usize,
    drawn: usize,
    /// Where each stroke and each choice stands on the trail.
    strokes: Vec<usize>,
    choices: Vec<usize>,
    /// By border: what stands there, the choices before it, and who decided it.
    states: Vec<Option<bool>>,
    levels: Vec<usize>,
    whys: Vec<Why>,
    /// By border: how much it had to do with faults of late, and what it stood at last.
    weights: Vec<f64>,
    values: Vec<bool>,
    /// How much more the next fault adds to a weight; 0 where faults are not to tell what is chosen.
    gain: f64,
    moves: Vec<Move>,
    boards: usize,
}

/// How much less a fault weighs than the next one.
const FADING: f64 = 0.95;

/// What a learner chooses.
#[derive(Clone, Copy, PartialEq, Eq)]
pub enum Habit {
    /// The first undecided border, as a Wall, always: so does the clause learner example of the bindings.
    WallFirst,
    /// Any border, as anything, until faults tell which border had most to do with them; that is chosen as it stood last.
    Drawn,
    /// The first border, as Connected, until then: a solver's variables in order, each false.
    ConnectedFirst,
}

/// Runs a learner, and keeps so many of its asks behind the `first` ones: what stands then is drawn in its strokes.
pub fn trace(making: &Making, seed: u64, habit: Habit, first: usize, asks: usize) -> Trace {
    let mut learner = Learner::new(making, seed, habit);
    let ended = learner.run(first) || {
        learner.forget();
        learner.run(asks)
    };
    learner.back_to(0);
    while !learner.strokes.is_empty() {
        learner.take_stroke();
    }
    Trace { making: making.clone(), moves: learner.moves, boards: learner.boards, ended }
}

impl Learner {
    fn new(making: &Making, seed: u64, habit: Habit) -> Learner {
        let puzzle = Puzzle::make(making).expect("made");
        let borders = border_count(making.height, making.width);
        let mut random = Random::new(seed);
        // each below 1, as much as one fault adds
        let in_order = (0..borders).map(|border| (borders - border) as f64 / 2000.0).collect();
        let (weights, values, gain) = match habit {
            Habit::WallFirst => (in_order, vec![true; borders], 0.0),
            Habit::ConnectedFirst => (in_order, vec![false; borders], 1.0),
            Habit::Drawn => {
                let (weights, values) = (0..borders).map(|_| (random.below(2000) as f64 / 2000.0, random.chance(1, 2))).unzip();
                (weights, values, 1.0)
            }
        };
        let mut states = vec![None; borders];
        making.walls().into_iter().for_each(|wall| states[wall] = Some(true));
        Learner {
            puzzle,
            clauses: vec![],
            watching: vec![vec![]; 2 * borders],
            trail: vec![],
            followed: 0,
            drawn: 0,
            strokes: vec![],
            choices: vec![],
            states,
            levels: vec![0; borders],
            whys: vec![Why::Chosen; borders],
            weights,
            values,
            gain,
            moves: vec![],
            boards: 0,
        }
    }

    /// Whether no board was left.
    fn run(&mut self, asks: usize) -> bool {
        let mut asked = 0;
        while asked < asks {
            let broken = self.follow();
            self.draw();
            let clause = if let Some(broken) = broken {
                self.clauses[broken].clone()
            } else {
                asked += 1;
                match (self.ask(), self.open()) {
                    (Some(clause), _) => clause,
                    (None, Some(border)) => {
                        self.choices.push(self.trail.len());
                        self.set(2 * border as u16 + u16::from(self.values[border]), Why::Chosen);
                        continue;
                    }
                    (None, None) => {
                        self.boards += 1;
                        self.choices.iter().map(|&at| self.trail[at] ^ 1).collect()
                    }
                }
            };
            if !self.learn(&clause) {
                return true;
            }
        }
        false
    }

    /// Keeps the strokes that stand alone of all moves.
    fn forget(&mut self) {
        let ends = self.strokes.iter().skip(1).copied().chain([self.drawn]);
        self.moves = self.strokes.iter().zip(ends).map(|(&start, end)| Move::Stroke(self.trail[start..end].to_vec())).collect();
    }

    /// The undecided border of most weight.
    fn open(&self) -> Option<usize> {
        let open = (0..self.states.len()).filter(|&border| self.states[border].is_none());
        open.max_by(|&a, &b| self.weights[a].total_cmp(&self.weights[b]))
    }

    fn holds(&self, entry: u16) -> Option<bool> {
        self.states[border(entry)].map(|wall| wall == is_wall(entry))
    }

    fn set(&mut self, entry: u16, why: Why) {
        let at = border(entry);
        (self.states[at], self.levels[at], self.whys[at]) = (Some(is_wall(entry)), self.choices.len(), why);
        if self.gain > 0.0 {
            self.values[at] = is_wall(entry);
        }
        self.trail.push(entry);
    }

    /// Sets all that the clauses force, until one is broken.
    fn follow(&mut self) -> Option<usize> {
        while let Some(&entry) = self.trail.get(self.followed) {
            self.followed += 1;
            let gone = usize::from(entry ^ 1);
            let watching = std::mem::take(&mut self.watching[gone]);
            for (at, &clause) in watching.iter().enumerate() {
                if !self.looked_at(clause, entry ^ 1) {
                    // those from here on watch as before
                    self.watching[gone].extend(&watching[at..]);
                    return Some(clause);
                }
            }
        }
        None
    }

    /// One of two watched entries holds no more: another is watched, or the other one is forced. Where that can't be the clause is broken.
    fn looked_at(&mut self, clause: usize, gone: u16) -> bool {
        if self.clauses[clause][0] == gone {
            self.clauses[clause].swap(0, 1);
        }
        let other = self.clauses[clause][0];
        let held = self.holds(other);
        let left = |entry: &u16| self.holds(*entry) != Some(false);
        if held == Some(true) {
            self.watching[usize::from(gone)].push(clause);
        } else if let Some(at) = self.clauses[clause][2..].iter().position(left) {
            self.clauses[clause].swap(1, 2 + at);
            self.watching[usize::from(self.clauses[clause][1])].push(clause);
        } else if held.is_none() {
            self.watching[usize::from(gone)].push(clause);
            self.set(other, Why::Forced(clause));
        } else {
            return false;
        }
        true
    }

    /// Puts on the puzzle what is new on the trail.
    fn draw(&mut self) {
        let stroke = self.trail[self.drawn..].to_vec();
        if !stroke.is_empty() {
            self.puzzle.stroke(&stroke).expect("drawn");
            self.strokes.push(self.drawn);
            self.drawn = self.trail.len();
            self.moves.push(Move::Stroke(stroke));
        }
    }

    /// Asks, and turns a fault's list into a clause: one of the listed borders is otherwise.
    fn ask(&mut self) -> Option<Clause> {
        self.moves.push(Move::Ask);
        match self.puzzle.ask(9216).expect("asked") {
            Answer::Clear => None,
            Answer::Shape(list) | Answer::Room(_, list) => Some(list.iter().map(|entry| entry ^ 1).collect()),
        }
    }

    /// Learns from a clause of which nothing holds, takes back to where what is learned forces a border, and sets that. `false`: no
    /// board is left.
    fn learn(&mut self, broken: &[u16]) -> bool {
        let level = |entry: &u16| self.levels[border(*entry)];
        let top = broken.iter().map(level).max().unwrap_or(0);
        if top == 0 {
            return false;
        }
        let mut clause = self.first_point(broken, top);
        clause[1..].sort_by_key(|&entry| (std::cmp::Reverse(self.levels[border(entry)]), entry));
        self.back_to(clause.get(1).map_or(0, |&entry| self.levels[border(entry)]));
        let (first, number) = (clause[0], self.clauses.len());
        // one that has one entry alone holds from now on, and is never looked at
        let watched = if clause.len() > 1 { &clause[..2] } else { &[] };
        watched.iter().for_each(|&entry| self.watching[usize::from(entry)].push(number));
        self.clauses.push(clause);
        self.set(first, Why::Forced(number));
        self.gain /= FADING;
        true
    }

    /// A clause that follows, with one border of the top level alone, which is its first: forced ones give way to their clauses, the
    /// last one first.
    fn first_point(&mut self, broken: &[u16], top: usize) -> Clause {
        let mut seen = vec![false; self.states.len()];
        let (mut clause, mut left) = (vec![0], 0);
        let mut more = broken.to_vec();
        for at in (0..self.trail.len()).rev() {
            for entry in more.drain(..) {
                let border = border(entry);
                if self.levels[border] == 0 || std::mem::replace(&mut seen[border], true) {
                    continue;
                }
                self.weights[border] += self.gain;
                if self.levels[border] == top {
                    left += 1;
                } else {
                    clause.push(entry);
                }
            }
            let entry = self.trail[at];
            if !seen[border(entry)] || self.levels[border(entry)] != top {
                continue;
            }
            left -= 1;
            match self.whys[border(entry)] {
                Why::Forced(reason) if left > 0 => more.extend(self.clauses[reason].iter().filter(|&&other| other != entry)),
                _ => {
                    clause[0] = entry ^ 1;
                    break;
                }
            }
        }
        clause
    }

    /// Takes back the choices above a level, stroke by stroke.
    fn back_to(&mut self, level: usize) {
        let Some(&start) = self.choices.get(level) else { return };
        while self.strokes.last().is_some_and(|&stroke| stroke >= start) {
            self.take_stroke();
        }
        self.choices.truncate(level);
    }

    fn take_stroke(&mut self) {
        let start = self.strokes.pop().expect("a stroke");
        self.puzzle.undo().expect("undone");
        self.moves.push(Move::Back);
        self.trail[start..].iter().for_each(|&entry| self.states[border(entry)] = None);
        self.trail.truncate(start);
        (self.followed, self.drawn) = (start, start);
    }
}
