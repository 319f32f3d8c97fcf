//! Plays random runs with a sender and holds its summary to the claims of E6.

use std::fmt;
use std::mem::discriminant;

use super::claims::{Claims, Violation};
use super::counts::{Counter, Counts, Reached};
use super::generate;
use super::run::{Bench, Run, Settings};
use super::SummarySender;

/// A fresh sender of these settings, which are within their limits.
pub type Make<'a> = &'a dyn Fn(Settings) -> Box<dyn SummarySender>;

/// A run that breaks a claim.
#[derive(Clone, Debug, PartialEq, Eq)]
pub struct Fault {
    /// `generate::run` of this seed breaks it.
    pub seed: u64,
    /// That run without the turns that it does not need.
    pub run: Run,
    /// What the shortened run breaks.
    pub violation: Violation,
}

/// Why a check does not pass.
#[derive(Clone, Debug, PartialEq, Eq)]
pub enum Error {
    Fault(Box<Fault>),
    /// No fault, but these were never reached.
    Empty(Vec<Reached>, Box<Counts>),
}

impl fmt::Display for Error {
    fn fmt(&self, f: &mut fmt::Formatter<'_>) -> fmt::Result {
        match self {
            Error::Empty(missing, counts) => write!(f, "never reached: {missing:?}\n{counts}"),
            Error::Fault(fault) => {
                let Fault {
                    seed,
                    run,
                    violation,
                } = &**fault;
                write!(f, "seed {seed}, shortened:\n{run}{violation}")
            }
        }
    }
}

/// The reference.
pub fn reference(settings: Settings) -> Box<dyn SummarySender> {
    Box::new(settings.sender())
}

/// Plays one run and counts what it reaches.
pub fn play_run(run: &Run, make: Make, counts: &mut Counts) -> Result<(), Violation> {
    let mut bench = Bench::new(make(run.settings), run.settings);
    let mut claims = Claims::new(run.settings.sending_time);
    let mut counter = Counter::new(counts, run.settings.sending_time);
    for (call, lent) in run.calls() {
        let event = bench.call(call, &run.bytes, lent);
        claims.see(&event)?;
        counter.see(&event, claims.sent());
    }
    Ok(())
}

/// Plays runs of the seeds from this one on until so many calls are made, and demands that all was
/// reached.
pub fn play(seed: u64, calls: u64, make: Make) -> Result<Counts, Error> {
    let mut counts = Counts::default();
    let mut seed = seed;
    while counts.calls < calls {
        let run = generate::run(seed);
        if let Err(violation) = play_run(&run, make, &mut counts) {
            return Err(Error::Fault(Box::new(shorten(seed, run, violation, make))));
        }
        seed = seed.wrapping_add(1);
    }
    match counts.missing() {
        missing if missing.is_empty() => Ok(counts),
        missing => Err(Error::Empty(missing, Box::new(counts))),
    }
}

/// Trials of one shortening; each plays a run.
const TRIALS: usize = 200;

/// The fault of this run. What comes after it goes; then turns are dropped, half of them, a quarter, and
/// so on to one, while the same kind of claim stays broken.
fn shorten(seed: u64, mut run: Run, violation: Violation, make: Make) -> Fault {
    let kind = discriminant(&violation.broken);
    run.turns.truncate(turns_to(&run, violation.call));
    let mut fault = Fault {
        seed,
        run,
        violation,
    };
    let mut trials = 0;
    let mut size = fault.run.turns.len();
    while size >= 1 {
        let mut start = 0;
        while start < fault.run.turns.len() && trials < TRIALS {
            trials += 1;
            let mut fewer = fault.run.clone();
            let end = (start + size).min(fewer.turns.len());
            fewer.turns.drain(start..end);
            match play_run(&fewer, make, &mut Counts::default()) {
                Err(violation) if discriminant(&violation.broken) == kind => {
                    fault.run = fewer;
                    fault.violation = violation;
                }
                _ => start += size,
            }
        }
        size /= 2;
    }
    fault
}

/// How many turns it takes to make so many calls.
fn turns_to(run: &Run, calls: usize) -> usize {
    let mut made = 0;
    let before = run.turns.iter().take_while(|turn| {
        made += usize::from(turn.times);
        made < calls
    });
    before.count() + 1
}
