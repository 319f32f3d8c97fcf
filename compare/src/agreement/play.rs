//! Plays random runs with one implementation, or with two side by side, and holds them to the claims
//! of E5.

use std::fmt;

use super::claims::{Broken, Claims, Exceptions, Violation};
use super::counts::{Counter, Counts, Reached};
use super::generate;
use super::run::{Bench, Event, Run, Unmade};
use super::shorten::shorten;
use super::talker::VersionTalker;

/// What is wrong in a run.
#[derive(Clone, Copy, Debug, PartialEq, Eq)]
pub enum Wrong {
    /// A good list is refused.
    Unmade(Unmade),
    /// A claim is broken.
    Claim(Violation),
    /// Two implementations answer differently at this event; the first is 1.
    Differs {
        event: usize,
        first: Event,
        second: Event,
    },
}

impl Wrong {
    /// A number for each kind, so that shortening keeps to one.
    fn kind(self) -> u8 {
        match self {
            Wrong::Unmade(_) => 0,
            Wrong::Differs { .. } => 1,
            Wrong::Claim(violation) => match violation.broken {
                Broken::Differ { .. } => 2,
                Broken::Unlisted { .. } => 3,
                Broken::Higher { .. } => 4,
                Broken::Failed { .. } => 5,
            },
        }
    }
}

/// A run in which something is wrong.
#[derive(Clone, Debug, PartialEq, Eq)]
pub struct Fault {
    /// `generate::run` of this seed has it.
    pub seed: u64,
    /// Its calls before it was shortened.
    pub calls: usize,
    /// The shortened run.
    pub run: Run,
    /// What is wrong in the shortened run.
    pub wrong: Wrong,
}

/// Why a check does not pass.
#[derive(Clone, Debug, PartialEq, Eq)]
pub enum Error {
    Fault(Box<Fault>),
    /// No fault, but these were never reached.
    Empty(Vec<Reached>, Box<Counts>),
}

impl fmt::Display for Error {
    fn fmt(&self, f: &mut fmt::Formatter<'_>) -> fmt::Result {
        match self {
            Error::Empty(missing, counts) => write!(f, "never reached: {missing:?}\n{counts}"),
            Error::Fault(fault) => {
                let (seed, calls) = (fault.seed, fault.calls);
                writeln!(f, "seed {seed}, {calls} calls, shortened:\n{}", fault.run)?;
                match fault.wrong {
                    Wrong::Claim(violation) => write!(f, "{violation}"),
                    wrong => write!(f, "{wrong:?}"),
                }
            }
        }
    }
}

/// Plays one run and counts what it reaches.
pub fn play_run<T: VersionTalker>(
    run: &Run,
    exceptions: Exceptions,
    counts: &mut Counts,
) -> Result<(), Wrong> {
    let mut bench = Bench::<T>::make(&run.lists, run.pilots).map_err(Wrong::Unmade)?;
    let mut claims = Claims::excepting(&run.lists, exceptions);
    let mut counter = Counter::new(counts, &run.lists);
    for (side, act) in run.calls() {
        let event = bench.call(side, act);
        counter.see(&event);
        claims.see(&event).map_err(Wrong::Claim)?;
    }
    Ok(())
}

/// Plays one run with two implementations, each over its own line; what they answer is compared, and
/// the claims are held to both.
pub fn play_run_beside<A: VersionTalker, B: VersionTalker>(
    run: &Run,
    counts: &mut Counts,
) -> Result<(), Wrong> {
    let mut a = Bench::<A>::make(&run.lists, run.pilots).map_err(Wrong::Unmade)?;
    let mut b = Bench::<B>::make(&run.lists, run.pilots).map_err(Wrong::Unmade)?;
    let mut claims = [Claims::new(&run.lists), Claims::new(&run.lists)];
    let mut counter = Counter::new(counts, &run.lists);
    for (place, (side, act)) in run.calls().enumerate() {
        let (first, second) = (a.call(side, act), b.call(side, act));
        let event = place + 1;
        if first != second {
            return Err(Wrong::Differs {
                event,
                first,
                second,
            });
        }
        counter.see(&first);
        claims[0].see(&first).map_err(Wrong::Claim)?;
        claims[1].see(&second).map_err(Wrong::Claim)?;
    }
    Ok(())
}

/// Plays runs of the seeds from this one on until so many calls are made, and demands that all was
/// reached.
pub fn play<T: VersionTalker>(seed: u64, calls: u64) -> Result<Counts, Error> {
    play_excepting::<T>(seed, calls, Exceptions::ALL)
}

/// The same with these exceptions of claim 2 only.
pub fn play_excepting<T: VersionTalker>(
    seed: u64,
    calls: u64,
    exceptions: Exceptions,
) -> Result<Counts, Error> {
    play_with(seed, calls, &|run, counts| {
        play_run::<T>(run, exceptions, counts)
    })
}

/// The same with two implementations side by side.
pub fn play_beside<A: VersionTalker, B: VersionTalker>(
    seed: u64,
    calls: u64,
) -> Result<Counts, Error> {
    play_with(seed, calls, &|run, counts| {
        play_run_beside::<A, B>(run, counts)
    })
}

/// The same with any way to play a run.
pub fn play_with(
    seed: u64,
    calls: u64,
    play: &dyn Fn(&Run, &mut Counts) -> Result<(), Wrong>,
) -> Result<Counts, Error> {
    let mut counts = Counts::default();
    let mut seed = seed;
    while counts.calls < calls {
        let run = generate::run(seed);
        if let Err(wrong) = play(&run, &mut counts) {
            return Err(Error::Fault(Box::new(fault(seed, run, wrong, play))));
        }
        seed = seed.wrapping_add(1);
    }
    match counts.missing() {
        missing if missing.is_empty() => Ok(counts),
        missing => Err(Error::Empty(missing, Box::new(counts))),
    }
}

/// The fault of this run, shortened to the same kind of fault.
fn fault(
    seed: u64,
    run: Run,
    wrong: Wrong,
    play: &dyn Fn(&Run, &mut Counts) -> Result<(), Wrong>,
) -> Fault {
    let calls = run.calls().count();
    let found = |run: &Run| play(run, &mut Counts::default()).err();
    let kind = Some(wrong.kind());
    let short = shorten(run, &mut |run| found(run).map(Wrong::kind) == kind);
    let wrong = found(&short).unwrap_or(wrong);
    Fault {
        seed,
        calls,
        run: short,
        wrong,
    }
}
