//! Measures the proved tape reader against one that was written in Rust from the same description, and compares their answers.

mod answers;
mod bridge;
mod compare;
mod deck;
mod image;
mod random;
mod reader;
mod sets;
mod survey;
mod timing;
mod turner;

use std::process::ExitCode;

fn main() -> ExitCode {
    let words: Vec<String> = std::env::args().skip(1).collect();
    let number = |at: usize, default: u64| words.get(at).and_then(|w| w.parse().ok()).unwrap_or(default);
    match words.first().map(String::as_str) {
        Some("compare") => {
            if compare::run(number(1, 1), number(2, 2_000), words.len() > 3) {
                ExitCode::SUCCESS
            } else {
                ExitCode::FAILURE
            }
        }
        Some("time") => {
            timing::run(words.len() == 1);
            ExitCode::SUCCESS
        }
        _ => {
            println!("bench compare [FIRST [COUNT [long]]] | bench time [short]");
            ExitCode::from(2)
        }
    }
}
