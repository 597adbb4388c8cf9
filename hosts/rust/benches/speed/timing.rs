//! Times in nanoseconds: the best of many short rounds.

use std::time::Instant;

/// Times one round.
pub fn round(run: impl FnOnce()) -> f64 {
    let begun = Instant::now();
    run();
    begun.elapsed().as_nanos() as f64
}

/// The best of so many rounds.
pub fn best(rounds: usize, mut run: impl FnMut() -> f64) -> f64 {
    (0..rounds).map(|_| run()).fold(f64::INFINITY, f64::min)
}

/// What taking the time costs by itself.
pub fn nothing() -> f64 {
    best(10_000, || round(|| {}))
}

/// Prints a table's head.
pub fn head(title: &str, columns: &[&str]) {
    println!("\n{title}\n");
    println!("| {} |", columns.join(" | "));
    println!("|{}", "---|".repeat(columns.len()));
}

/// Prints a row.
pub fn row(cells: &[String]) {
    println!("| {} |", cells.join(" | "));
}

/// Nanoseconds, with a digit behind the point where they are few.
pub fn ns(time: f64) -> String {
    if time < 100.0 {
        format!("{time:.1}")
    } else {
        format!("{time:.0}")
    }
}

/// How many times the other's time.
pub fn ratio(time: f64, other: f64) -> String {
    format!("{:.2}", time / other)
}
