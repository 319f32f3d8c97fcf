//! Rows of a table: the same call on the proved code, on the reference behind the same boundary and on the reference
//! directly, or a call of the summary and the sender's own, timed by turns.

use std::fmt::Debug;
use std::hint::black_box;
use std::time::{Duration, Instant};

/// A round of one side lasts about so long.
const ROUND: Duration = Duration::from_millis(1);

/// Makes so many calls.
pub type Calls = Box<dyn FnMut(u64)>;

/// The sides of a row are the proved code, the reference behind the same boundary, and the reference directly; where there are
/// two, a call of the summary and the sender's own, both of the proved code.
pub struct Row<const SIDES: usize = 3> {
    pub name: String,
    pub sides: [Calls; SIDES],
}

impl Row {
    /// The first two must answer alike.
    pub fn new<T: PartialEq + Debug, U>(
        name: &str,
        mut proved: impl FnMut() -> T + 'static,
        mut behind: impl FnMut() -> T + 'static,
        direct: impl FnMut() -> U + 'static,
    ) -> Row {
        assert_eq!(proved(), behind(), "{name}");
        Row {
            name: name.to_string(),
            sides: [many(proved), many(behind), many(direct)],
        }
    }
}

impl Row<2> {
    /// Both must answer alike.
    pub fn beside<T: PartialEq + Debug>(
        name: &str,
        mut summary: impl FnMut() -> T + 'static,
        mut plain: impl FnMut() -> T + 'static,
    ) -> Row<2> {
        assert_eq!(summary(), plain(), "{name}");
        Row {
            name: name.to_string(),
            sides: [many(summary), many(plain)],
        }
    }
}

/// Nanoseconds of a call of each side, round by round, by turns.
fn by_turns<const SIDES: usize>(sides: &mut [Calls; SIDES], rounds: usize) -> [Vec<f64>; SIDES] {
    let counts = sides.each_mut().map(enough);
    let mut times = [const { Vec::new() }; SIDES];
    for _ in 0..rounds {
        for (side, calls) in sides.iter_mut().enumerate() {
            times[side].push(nanoseconds(calls, counts[side]));
        }
    }
    times
}

/// A call of which the compiler does not know what it is given. That is hidden all at once and where it lies, so that nothing
/// of it is copied but by the call.
pub fn given<G, T>(given: G, call: impl Fn(&G) -> T) -> impl FnMut() -> T {
    move || call(black_box(&given))
}

/// The answer of every call counts as used.
fn many<T>(mut call: impl FnMut() -> T + 'static) -> Calls {
    Box::new(move |count| {
        for _ in 0..count {
            black_box(&call());
        }
    })
}

fn nanoseconds(calls: &mut Calls, count: u64) -> f64 {
    let start = Instant::now();
    calls(count);
    start.elapsed().as_nanos() as f64 / count as f64
}

/// So many calls that they fill a round.
fn enough(calls: &mut Calls) -> u64 {
    let mut count = 1;
    loop {
        let start = Instant::now();
        calls(count);
        if start.elapsed() >= ROUND {
            return count;
        }
        count *= 2;
    }
}

/// Least, median and greatest.
pub struct Spread {
    pub least: f64,
    pub median: f64,
    pub most: f64,
}

pub fn spread(mut numbers: Vec<f64>) -> Spread {
    numbers.sort_by(f64::total_cmp);
    Spread {
        least: numbers[0],
        median: numbers[numbers.len() / 2],
        most: numbers[numbers.len() - 1],
    }
}

/// Of the ratios within a round.
pub fn ratio(upper: &[f64], lower: &[f64]) -> Spread {
    let pairs = upper.iter().zip(lower);
    spread(pairs.map(|(upper, lower)| upper / lower).collect())
}

pub fn print_table(title: &str, rows: Vec<Row>, rounds: usize) {
    println!("\n{title}: ns, median of {rounds} rounds; the ratios are proved to reference");
    println!();
    println!(
        "| | proved | reference, same face | reference, direct | ratio, same face | least | greatest | ratio, direct |"
    );
    println!("|---|---:|---:|---:|---:|---:|---:|---:|");
    for mut row in rows {
        let [proved, behind, direct] = by_turns(&mut row.sides, rounds);
        let (same, own) = (ratio(&proved, &behind), ratio(&proved, &direct));
        println!(
            "| {} | {:.1} | {:.1} | {:.1} | {:.2} | {:.2} | {:.2} | {:.2} |",
            row.name,
            spread(proved).median,
            spread(behind).median,
            spread(direct).median,
            same.median,
            same.least,
            same.most,
            own.median
        );
    }
}

pub fn print_beside(title: &str, rows: Vec<Row<2>>, rounds: usize) {
    println!("\n{title}: ns, median of {rounds} rounds; the ratio is that of a call of the summary to the sender's own");
    println!();
    println!("| | with the summary | sender alone | ratio | least | greatest |");
    println!("|---|---:|---:|---:|---:|---:|");
    for mut row in rows {
        let [summary, plain] = by_turns(&mut row.sides, rounds);
        let same = ratio(&summary, &plain);
        println!(
            "| {} | {:.1} | {:.1} | {:.2} | {:.2} | {:.2} |",
            row.name,
            spread(summary).median,
            spread(plain).median,
            same.median,
            same.least,
            same.most
        );
    }
}
