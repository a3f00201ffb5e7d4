//! Times of the original and of this library over the same dots, in one run.

mod canvas;
mod colour;
mod decoders;
mod jobs;

use std::time::Instant;

const ROUNDS: usize = 11;

pub fn measure() {
    colour::measure();
    println!();
    decoders::measure();
    println!();
    canvas::measure();
    println!();
    jobs::measure();
}

/// The times of one work, a round each.
struct Row {
    name: &'static str,
    rust: Vec<f64>,
    ours: Vec<f64>,
}

impl Row {
    fn new(name: &'static str) -> Self {
        Row {
            name,
            rust: Vec::new(),
            ours: Vec::new(),
        }
    }
}

/// Prints medians; `clear` is the time to clear as much memory as this library writes.
fn print(dots: &str, rows: impl IntoIterator<Item = Row>, clear: Vec<f64>) {
    let clear = median(clear);
    println!("{dots}, the median of {ROUNDS} rounds; times in ms");
    println!(
        "{:<36} {:>9} {:>9} {:>10} {:>11}",
        "work", "Rust", "this", "Rust/this", "this/clear"
    );
    for row in rows {
        let (rust, ours) = (median(row.rust), median(row.ours));
        println!(
            "{:<36} {rust:>9.2} {ours:>9.2} {:>10.1} {:>11.2}",
            row.name,
            rust / ours,
            ours / clear
        );
    }
    println!(
        "{:<36} {:>9} {clear:>9.2} {:>10} {:>11.2}",
        "clear the same memory", "", "", 1.0
    );
}

fn time(work: impl FnOnce()) -> f64 {
    let start = Instant::now();
    work();
    start.elapsed().as_secs_f64() * 1e3
}

fn median(mut times: Vec<f64>) -> f64 {
    times.sort_by(f64::total_cmp);
    times[times.len() / 2]
}
