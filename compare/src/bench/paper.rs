//! Times as tables in Markdown.

/// Nanoseconds a turn.
#[derive(Clone, Copy)]
pub struct Pair {
    pub rust: f64,
    pub port: f64,
}

impl Pair {
    pub fn ratio(self) -> f64 {
        self.rust / self.port
    }
}

pub struct Row<T> {
    pub name: String,
    pub times: T,
}

/// With decimals where there are few digits.
pub fn number(n: f64) -> String {
    commas(match n {
        n if n >= 9.95 => format!("{n:.0}"),
        n if n >= 0.995 => format!("{n:.1}"),
        n if n >= 0.0995 => format!("{n:.2}"),
        n if n >= 0.00995 => format!("{n:.3}"),
        n => format!("{n:.4}"),
    })
}

pub fn count(n: usize) -> String {
    commas(n.to_string())
}

/// With a comma before each three digits.
fn commas(text: String) -> String {
    let whole = text.split('.').next().unwrap_or_default().len();
    let comma = |(at, digit): (usize, char)| {
        let before = at > 0 && at < whole && (whole - at) % 3 == 0;
        if before { vec![',', digit] } else { vec![digit] }
    };
    text.chars().enumerate().flat_map(comma).collect()
}

pub fn micros(nanoseconds: f64) -> String {
    number(nanoseconds / 1000.0)
}

/// A row a call: both times and their ratio.
pub fn pairs(title: &str, rows: &[Row<Pair>]) -> String {
    let mut text = format!("| {title} | the Rust, µs | the port, µs | ratio |\n|---|---|---|---|\n");
    for Row { name, times } in rows {
        text += &format!("| {name} | {} | {} | {} |\n", micros(times.rust), micros(times.port), number(times.ratio()));
    }
    text
}

/// A row a board and a column a call: the port's time, and the ratio behind it.
pub fn grid(title: &str, columns: &[String], rows: &[Row<Vec<Pair>>]) -> String {
    let mut text = format!("| {title} | {} |\n|---{}|\n", columns.join(" | "), "|---".repeat(columns.len()));
    for Row { name, times } in rows {
        let cells: Vec<String> = times.iter().map(|t| format!("{} ({})", micros(t.port), number(t.ratio()))).collect();
        text += &format!("| {name} | {} |\n", cells.join(" | "));
    }
    text
}
