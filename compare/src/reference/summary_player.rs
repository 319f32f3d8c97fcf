//! The player's run with the summary of its sender (document 02, E6).

use std::fmt::Write;

use super::line::{Bench, Call, Outcome};
use super::player::{run, told};
use super::summary::{self, Most, SUMMARY_LENGTH};
use super::Refused;

/// The summary that the sender of this pack is left with: `NUMBER COUNT` for each count above 0, the
/// numbers rising, then `most NUMBER COUNT`. Or `refused n` alone, as the player prints it.
pub fn summarize(pack: &[u8]) -> String {
    let mut counts = [0; SUMMARY_LENGTH];
    let played = run(pack, |bench, call, message, buffer| {
        step(bench, call, message, buffer, &mut counts)
    });
    told(played.and_then(|_| print(&counts)))
}

/// One call on the bench; those at the sender keep the summary.
fn step(
    bench: &mut Bench,
    call: Call,
    message: &[u8],
    buffer: &mut [u8],
    counts: &mut [u8],
) -> Result<Outcome, Refused> {
    let given = match call {
        Call::Begin => {
            let answer = summary::begin(&mut bench.sender, message, counts)?;
            return Ok(bench.join_forward(answer));
        }
        Call::SenderTick => {
            let answer = summary::tick(&mut bench.sender, message, counts)?;
            return Ok(bench.join_forward(answer));
        }
        Call::BackHear => bench.back.hear(),
        Call::BackRepeat => bench.back.repeat(),
        _ => return bench.call(call, message, buffer),
    };
    let Some(frame) = given else {
        return Ok(Outcome::Nothing);
    };
    let answer = summary::hear(&mut bench.sender, frame, counts)?;
    Ok(bench.join_forward(answer))
}

fn print(counts: &[u8]) -> Result<String, Refused> {
    let mut lines = String::new();
    for number in 0..=255 {
        let count = summary::count(counts, number)?;
        if count > 0 {
            writeln!(lines, "{number} {count}").expect("a string takes every line");
        }
    }
    let Most { number, count } = summary::most(counts)?;
    writeln!(lines, "most {number} {count}").expect("a string takes every line");
    Ok(lines)
}
