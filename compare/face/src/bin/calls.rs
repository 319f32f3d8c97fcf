//! Makes random calls on the proved code and on the reference, and compares all that they answer.
//! Exit status: 0 all alike, 1 a difference, 2 bad usage, 3 something was never met in a run of usual size.

use std::process::ExitCode;
use std::time::Instant;

use face::broken::Broken;
use face::call::NAMES;
use face::counting::Counting;
use face::differences::first_difference;
use face::ffi::Proved;
use face::filling::Filling;
use face::holding::Met;
use face::options::Options;
use face::tally::Tally;
use face::typing::Typing;
use face::Reference;

const USAGE: &str = "usage: calls [--count N] [--seed S] [--mistake NAME]
    --count N        how many calls, at least (default 12500000)
    --seed S         the first case's seed (default 1)
    --mistake NAME   in place of the proved code a reference with this mistake, to see a difference; the names are in
                     src/broken/";

/// A line for each function: calls, and answers by outcome.
fn print(tally: &Tally) {
    for (place, name) in NAMES.iter().enumerate() {
        let outcomes: Vec<String> = tally.outcomes[place]
            .iter()
            .enumerate()
            .filter(|(_, &count)| count > 0)
            .map(|(outcome, count)| format!("{outcome}: {count}"))
            .collect();
        println!(
            "calls: kospelna_{name:27} {:9}   by outcome {}",
            tally.calls[place],
            outcomes.join(", ")
        );
    }
}

/// A line for each thing met of a hold, of a last frame's filler by the places behind the message, of misses by number, and of
/// counts.
fn print_met(tally: &Tally) {
    for met in Met::ALL {
        println!("calls: of a hold: {met:24?} {:9}", tally.met[met as usize]);
    }
    for filling in Filling::ALL {
        let counts = tally.fillings[filling as usize];
        println!(
            "calls: of filler: {filling:24?} {:9}   by places 0 to 7: {counts:?}",
            counts.iter().sum::<u64>()
        );
    }
    for typing in Typing::ALL {
        let counts = tally.typings[typing as usize];
        println!(
            "calls: of misses: {typing:24?} {:9}   by numbers 0 to 4, and others: {counts:?}",
            counts.iter().sum::<u64>()
        );
    }
    for counting in Counting::ALL {
        let count = tally.countings[counting as usize];
        println!("calls: of counts: {counting:24?} {count:9}");
    }
}

fn main() -> ExitCode {
    let Some(options) = Options::read(std::env::args().skip(1), 12_500_000) else {
        eprintln!("{USAGE}");
        return ExitCode::from(2);
    };
    let start = Instant::now();
    let (seed, count) = (options.seed, options.count);
    let (tally, difference) = match options.mistake {
        None => first_difference(&Proved, &Reference, seed, count),
        Some(mistake) => first_difference(&Broken(mistake), &Reference, seed, count),
    };
    if let Some(difference) = difference {
        print!("{difference}");
        return ExitCode::from(1);
    }
    print(&tally);
    print_met(&tally);
    let unmet = tally.unmet();
    if !unmet.is_empty() {
        println!("calls: never met: {}", unmet.join(", "));
        return ExitCode::from(3);
    }
    println!(
        "calls: {} calls from seed {} alike, in {:.1} s",
        tally.total(),
        seed,
        start.elapsed().as_secs_f64()
    );
    ExitCode::SUCCESS
}
