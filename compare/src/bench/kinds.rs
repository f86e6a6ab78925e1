//! Asks of puzzles of both kinds on the same boards, in one run.
use super::asked::{boards, later, turned, unfit};
use super::both;
use super::calls::Laid;
use super::goals::Goal;
use super::paper::{micros, number, Pair};
use crate::boards::Standing;
use crate::kinds::KINDS;
use crate::port::{LentPuzzle, Played};
use crate::reference::NO_CLUE;

/// How much longer an ask of images may take than that of translates.
const GOAL: f64 = 8.0;

/// An ask's nanoseconds on a board in one room without a clue, where the puzzle is.
pub struct Asked {
    name: &'static str,
    /// What each kind answers.
    told: [&'static str; 2],
    translates: f64,
    images: f64,
}

impl Asked {
    fn times(&self) -> f64 {
        self.images / self.translates
    }

    fn line(&self) -> String {
        let Asked { name, told: [one, other], translates, images } = self;
        let (told, times) = if one == other { (one.to_string(), number(self.times())) } else { (format!("{one}, {other}"), "".into()) };
        format!("| {name} | {told} | {} | {} | {times} |\n", micros(*translates), micros(*images))
    }
}

fn asked((name, board): (&'static str, Standing)) -> Asked {
    let laid = Laid { board, given: vec![], clues: vec![NO_CLUE] };
    let puzzles = KINDS.map(|kind| LentPuzzle(laid.port_of(kind)));
    let buffers = &mut KINDS.map(|kind| vec![0; kind.places(laid.board.cells())]);
    let told = [0, 1].map(|at| if puzzles[at].kind_in(&mut buffers[at]) == 0 { "clear" } else { "a fault" });
    let ([translates, images], [of_translates, of_images]) = (puzzles, buffers);
    let Pair { rust, port } = both(|| translates.kind_in(of_translates), || images.kind_in(of_images));
    let asked = Asked { name, told, translates: rust, images: port };
    println!("{name}, images: {} µs, {} times as long as translates", micros(port), number(asked.times()));
    asked
}

/// The eight boards of 32 by 32, and others.
pub struct Kinds {
    eight: Vec<Asked>,
    others: Vec<Asked>,
}

pub fn all() -> Kinds {
    let others = later(32).into_iter().chain(unfit(32)).chain(turned(32));
    Kinds { eight: boards(32).into_iter().map(asked).collect(), others: others.map(asked).collect() }
}

/// Prints the table and the goal alone.
pub fn run() {
    let kinds = all();
    println!("\n{}\n{}", kinds.table(), super::goals::table(&[kinds.goal()]));
}

impl Kinds {
    /// Of the eight.
    fn sum(&self) -> Asked {
        let sum = |time: fn(&Asked) -> f64| self.eight.iter().map(time).sum();
        Asked { name: "the eight together", told: [""; 2], translates: sum(|a| a.translates), images: sum(|a| a.images) }
    }

    pub fn table(&self) -> String {
        let rows = self.eight.iter().map(Asked::line).chain([self.sum().line()]).chain(self.others.iter().map(Asked::line));
        let head = "| a puzzle in one room, lent | answer | translates, µs | images, µs | times |\n|---|---|---|---|---|\n";
        format!("{head}{}", rows.collect::<String>())
    }

    pub fn goal(&self) -> Goal {
        let dearest = self.eight.iter().max_by(|a, b| a.times().total_cmp(&b.times())).expect("boards");
        let sum = self.sum();
        let found = format!(
            "up to {} times ({}); the eight together {} times: translates {} µs, images {} µs",
            number(dearest.times()),
            dearest.name,
            number(sum.times()),
            micros(sum.translates),
            micros(sum.images)
        );
        let goal = format!("an ask of images takes at most {GOAL} times that of translates on each of the eight boards of 32 by 32");
        Goal::new(goal, found, dearest.times() <= GOAL)
    }
}
