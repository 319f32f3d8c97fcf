//! Lets the proved code and the reference each settle on a version over a line that loses and repeats, with the same random
//! calls, compares all that they answer and say, and holds each to the claims of document 02, E5.
//! Exit status: 0 all alike and as claimed, 1 a difference or a broken claim, 2 bad usage, 3 something was never met in a run
//! of usual size.

use std::process::ExitCode;
use std::time::Instant;

use compare::agreement::counts::{Counts, Reached};
use compare::agreement::play::{play_beside, Error};
use compare::reference::version::Talker;
use face::agreement::{choose, FaceTalker};
use face::broken::Broken;
use face::ffi::Proved;
use face::options::Options;

const USAGE: &str = "usage: agreement [--count N] [--seed S] [--mistake NAME]
    --count N        how many calls, at least (default 5000000)
    --seed S         the first talk's seed (default 1)
    --mistake NAME   in place of the proved code a reference with this mistake, to see it found; the names are in
                     src/broken/";

/// From so many calls on all must be met.
const USUAL: u64 = 1_000_000;

fn played(options: &Options) -> Result<Counts, Error> {
    let (seed, count) = (options.seed, options.count);
    match options.mistake {
        None => play_beside::<FaceTalker<Proved>, Talker>(seed, count),
        Some(mistake) => {
            choose(mistake);
            play_beside::<FaceTalker<Broken>, Talker>(seed, count)
        }
    }
}

fn tell(counts: &Counts, seed: u64, start: Instant) {
    let [two, three, none, limit, stopped, unconnected, connected] = [
        Reached::BothInS2,
        Reached::BothInS3,
        Reached::NoneLower,
        Reached::AtLimit,
        Reached::Stopped,
        Reached::GreetingInS0,
        Reached::GreetingInS1,
    ]
    .map(|reached| counts.of(reached));
    println!(
        "agreement: {} calls in {} talks from seed {seed} alike and as claimed, in {:.1} s: both agreed in S2 {two}, in S3 \
         {three}, no common version {none}, sides at their limit {limit}, stopped {stopped}, greeted {}",
        counts.calls,
        counts.runs,
        start.elapsed().as_secs_f64(),
        unconnected + connected
    );
}

fn main() -> ExitCode {
    let Some(options) = Options::read(std::env::args().skip(1), 5_000_000) else {
        eprintln!("{USAGE}");
        return ExitCode::from(2);
    };
    let start = Instant::now();
    match played(&options) {
        Ok(counts) => tell(&counts, options.seed, start),
        Err(Error::Empty(_, counts)) if counts.calls < USUAL => tell(&counts, options.seed, start),
        Err(Error::Empty(missing, _)) => {
            println!("agreement: never met: {missing:?}");
            return ExitCode::from(3);
        }
        Err(Error::Fault(fault)) => {
            let seed = fault.seed;
            println!("DIFFERENT OR NOT AS CLAIMED at seed {seed} (--seed {seed} --count 1)");
            println!("{}", Error::Fault(fault));
            return ExitCode::from(1);
        }
    }
    ExitCode::SUCCESS
}
