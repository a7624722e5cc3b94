//! Tables of the times of both sides.

use crate::measure::Time;

/// Characters before the times of a line.
const START: usize = 31;

/// The head of a table, with these words before the times.
pub fn print_head(start: &str) {
    print_head_of("tuned", start);
}

/// The head of a table of the engine beside this yardstick.
pub fn print_head_of(yardstick: &str, start: &str) {
    println!("{:<START$}{:^30}{:^30}", "", "median", "least");
    let columns = format!("{:>11}{yardstick:>11}{:>8}", "engine", "ratio");
    println!("{start:<START$}{columns}{columns}");
}

/// A line with these words before the times; none where the engine was not
/// measured.
pub fn print_times(start: &str, engine: Option<Time>, tuned: Time) {
    println!(
        "{start:<START$}{}{}",
        columns(engine.map(|time| time.median), tuned.median),
        columns(engine.map(|time| time.least), tuned.least)
    );
}

/// The engine's time, the yardstick's, and engine / yardstick, which a
/// difference of times need not have.
fn columns(engine: Option<f64>, tuned: f64) -> String {
    match engine {
        Some(engine) if engine > 0.0 && tuned > 0.0 => {
            format!("{engine:>11.3}{tuned:>11.3}{:>8.1}", engine / tuned)
        }
        Some(engine) => format!("{engine:>11.3}{tuned:>11.3}{:>8}", "-"),
        None => format!("{:>11}{tuned:>11.3}{:>8}", "-", "-"),
    }
}
