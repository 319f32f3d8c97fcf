//! Measures the proved code beside the reference, same inputs, same run, by turns: calls through the C face, beside the
//! reference behind the same boundary and beside the reference's own functions, the summary's calls beside the sender's own,
//! and the player beside the reference's and another build's. Prints tables; `docs/PERFORMANCE.md` explains them.
//! Exit status: 0 measured, 2 bad usage or a program that is missing.

mod around;
mod count;
mod ends;
mod measure;
mod player;
mod summary;

use std::path::{Path, PathBuf};
use std::process::ExitCode;

use measure::Row;

const USAGE: &str = "usage: benchmark [--rounds N] [--before CHECKOUT] | --calls N | --packs FOLDER
    --rounds N          how often each is measured (default 21)
    --before CHECKOUT   measures the player that was built there, too, by turns with this one
for tools/instructions, and without timing:
    --calls N           makes each call N times
    --packs FOLDER      writes the player's packs of 60000 events there";

enum Task {
    Measure(usize, Option<PathBuf>),
    Count(u64),
    Write(PathBuf),
}

fn task(words: impl Iterator<Item = String>) -> Option<Task> {
    let words: Vec<String> = words.collect();
    let words: Vec<&str> = words.iter().map(String::as_str).collect();
    match words[..] {
        ["--calls", count] => return Some(Task::Count(positive(count)? as u64)),
        ["--packs", folder] => return Some(Task::Write(folder.into())),
        _ => (),
    }
    let (mut rounds, mut before) = (21, None);
    for pair in words.chunks(2) {
        match pair {
            ["--rounds", count] => rounds = positive(count)?,
            ["--before", checkout] => before = Some(PathBuf::from(checkout)),
            _ => return None,
        }
    }
    Some(Task::Measure(rounds, before))
}

fn positive(word: &str) -> Option<usize> {
    word.parse().ok().filter(|&number| number > 0)
}

/// Every table of calls, by its title.
fn tables() -> [(&'static str, Vec<Row>); 5] {
    [
        ("the sender", ends::sender_rows()),
        ("the summary", summary::rows()),
        ("the receiver", ends::receiver_rows()),
        ("whole transfers", ends::transfer_rows()),
        ("around the transport", around::rows()),
    ]
}

/// The title of the table in which the proved code alone is measured.
const BESIDE: &str = "the summary beside the sender alone";

fn measure(rounds: usize, before: Option<&Path>) -> Result<(), String> {
    let programs = player::programs(before)?;
    for (title, rows) in tables() {
        measure::print_table(title, rows, rounds);
    }
    measure::print_beside(BESIDE, summary::beside(), rounds);
    player::print_table(&programs, rounds)
}

fn count(calls: u64) {
    for (title, rows) in tables() {
        count::count_table(title, rows, calls);
    }
    count::count_table(BESIDE, summary::beside(), calls);
}

fn main() -> ExitCode {
    let done = match task(std::env::args().skip(1)) {
        Some(Task::Measure(rounds, before)) => measure(rounds, before.as_deref()),
        Some(Task::Count(calls)) => {
            count(calls);
            Ok(())
        }
        Some(Task::Write(folder)) => player::write_packs(&folder),
        None => Err(USAGE.to_string()),
    };
    match done {
        Ok(()) => ExitCode::SUCCESS,
        Err(problem) => {
            eprintln!("{problem}");
            ExitCode::from(2)
        }
    }
}
