//! The goals: each with what was found, and whether it is met.
use super::paper::{number, Pair};
use super::searches::Searched;
use super::turns::Turned;
use super::{archive, at_32, traces, Measured};
use std::process::Command;

pub struct Goal {
    goal: String,
    found: String,
    met: bool,
}

impl Goal {
    pub fn new(goal: impl Into<String>, found: String, met: bool) -> Goal {
        Goal { goal: goal.into(), found, met }
    }
}

pub fn table(goals: &[Goal]) -> String {
    let line = |Goal { goal, found, met }: &Goal| format!("| {goal} | {found} | {} |\n", if *met { "yes" } else { "no" });
    format!("| goal | found | met |\n|---|---|---|\n{}", goals.iter().map(line).collect::<String>())
}

/// What the archive takes from elsewhere, where `nm` is at hand.
fn foreign() -> Option<Vec<String>> {
    let told = Command::new("nm").arg("-u").arg(archive()).output().ok()?;
    let text = String::from_utf8(told.stdout).ok()?;
    let mut names: Vec<String> = text.lines().filter_map(|line| Some(line.trim().strip_prefix("U ")?.to_string())).collect();
    names.sort();
    names.dedup();
    Some(names)
}

type Ask = (String, Pair);

/// The ask with the least ratio.
fn slowest<'a>(asks: impl IntoIterator<Item = &'a Ask>) -> &'a Ask {
    asks.into_iter().min_by(|a, b| a.1.ratio().total_cmp(&b.1.ratio())).expect("asks")
}

fn found(ask: &Ask) -> String {
    format!("least ratio {} ({})", number(ask.1.ratio()), ask.0)
}

/// Boards on which almost every unit fits beside itself or under itself, where the Rust comes after all offsets before it.
const NEAR: [&str; 4] = ["all Walls", "dominoes", "4 by 4 squares", "rows walled off, open inside"];

/// Boards without a Wall.
pub const OPEN: [&str; 2] = ["all undecided", "all Connected"];

/// Of asks, by value and lent.
fn of_asks(measured: &Measured) -> Vec<Goal> {
    let at_32 = at_32(&measured.asks);
    let named = |names: &[&str]| slowest(at_32.iter().filter(|ask| names.contains(&ask.0.as_str()))).clone();
    let otherwise = |side: usize, part: &str| {
        let rows = measured.otherwise.iter().filter(|row| row.name.contains(part));
        slowest(&rows.map(|row| (row.name.clone(), row.times[side])).collect::<Vec<_>>()).clone()
    };
    let every = measured.every_ask();
    let (least, near, open) = (slowest(&every), named(&NEAR), named(&OPEN));
    let (lent, by_value) = (otherwise(3, "lent"), otherwise(0, "puzzle"));
    let small = slowest(every.iter().filter(|ask| ask.0.starts_with("4 by 4, puzzle") && !ask.0.ends_with("by value")));
    let beside = |ask: &Ask, other: &Ask| format!("{}; {}: {}", found(ask), other.0, number(other.1.ratio()));
    vec![
        Goal::new("an ask is never slower than the Rust", found(least), least.1.ratio() >= 1.0),
        Goal::new(
            "at 32 by 32 at least 100 times as fast on all Walls, dominoes, 4 by 4 squares and rows walled off",
            found(&near),
            near.1.ratio() >= 100.0,
        ),
        Goal::new(
            "at 32 by 32 at least twice as fast on boards that are all undecided or all Connected",
            beside(&open, &lent),
            open.1.ratio() >= 2.0,
        ),
        Goal::new("a puzzle of 4 by 4 is asked at least as fast", beside(small, &by_value), small.1.ratio() >= 1.0),
    ]
}

fn of_turns(turned: &[Turned]) -> Goal {
    let dearest = |in_place: bool| {
        let some = turned.iter().filter(|turned| turned.in_place == in_place);
        some.max_by(|a, b| a.in_asks().total_cmp(&b.in_asks())).expect("boards")
    };
    let (by_value, in_place) = (dearest(false), dearest(true));
    Goal::new(
        "a decide and an undo together take below a twentieth of an ask on the same board",
        format!("by value {}; in place {}", by_value.told(), in_place.told()),
        by_value.in_asks().max(in_place.in_asks()) < 0.05,
    )
}

fn of_searches(searched: &[Searched]) -> Goal {
    let dearest = searched.iter().max_by(|a, b| a.in_asks().total_cmp(&b.in_asks())).expect("grids");
    let found = format!("up to {:.2} times ({})", dearest.in_asks(), dearest.name);
    Goal::new("all right boards take at most 1.3 times the asks of their search", found, dearest.in_asks() <= 1.3)
}

fn of_memory(stacks: &[(String, usize)]) -> Vec<Goal> {
    let deepest = stacks.iter().max_by_key(|stack| stack.1).expect("calls");
    let kilobytes = deepest.1.div_ceil(1024);
    let heap = foreign().map(|names| {
        let found = format!("the archive takes {} from elsewhere, and nothing more", names.join(" and "));
        Goal::new("no heap", found, !names.iter().any(|name| name.contains("alloc")))
    });
    let stack =
        Goal::new("under 512 KB of stack for any call", format!("at most {kilobytes} KB ({})", deepest.0), kilobytes < 512);
    heap.into_iter().chain([stack]).collect()
}

pub fn all(measured: &Measured) -> Vec<Goal> {
    let mut goals = of_asks(measured);
    goals.push(measured.kinds.goal());
    goals.extend(traces::goals(&measured.traced));
    goals.push(of_turns(&measured.turned));
    goals.push(of_searches(&measured.searched));
    goals.extend(of_memory(&measured.stacks));
    goals
}
