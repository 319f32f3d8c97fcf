//! The player beside the reference's: programs run on run packs, from a file to nowhere.

use std::fs::File;
use std::path::{Path, PathBuf};
use std::process::{Command, Stdio};
use std::time::Instant;

use compare::reference::player::{build, play, Settings};
use face::call::pool;

use crate::measure::{ratio, spread};

const COUNTS: [usize; 2] = [10000, 60000];
/// Runs of each program on each pack in a round, of which the quickest counts.
const RUNS: usize = 5;
const REPOSITORY: &str = concat!(env!("CARGO_MANIFEST_DIR"), "/../..");

/// A sort of pack: its name, and its settings and events for so many events.
struct Sort(&'static str, fn(usize) -> (Settings, Vec<u8>));

const SORTS: [Sort; 6] = [
    Sort("ticks of both ends", ticks),
    Sort("both lines empty, heard", empty_lines),
    Sort("a transfer without loss, spread by ticks", without_loss),
    Sort("a transfer, each frame lost twice", lossy),
    Sort("a transfer, frames repeated and ignored", ignored),
    Sort("frame 0 repeated, LM_ACK each time", answered),
];

const SETTINGS: Settings = Settings {
    gap: 1,
    sender_timeout: 10000,
    sending_time: 60000,
    receiver_timeout: 10000,
    window: 1,
    capacity: 1785,
};

/// Sender and receiver by turns.
fn ticks(count: usize) -> (Settings, Vec<u8>) {
    (SETTINGS, (0..count).map(|n| 1 + (n % 2) as u8).collect())
}

/// Forward and back by turns. After the announcement and its LM_ACK nothing is there to be heard.
fn empty_lines(count: usize) -> (Settings, Vec<u8>) {
    (SETTINGS, [3, 6].into_iter().cycle().take(count).collect())
}

/// A window is one frame: LM_ACK is heard, the frame goes out, both ends tick, the frame is heard.
fn without_loss(count: usize) -> (Settings, Vec<u8>) {
    let spare = (count / 255).saturating_sub(3);
    let (_, between) = ticks(spare);
    (
        SETTINGS,
        transfer(count, &[&[6, 1], &between[..], &[3]].concat()),
    )
}

/// Twice the frame is lost and the receiver asks again after its timeout.
fn lossy(count: usize) -> (Settings, Vec<u8>) {
    let timeout = ((count / 255).saturating_sub(9) / 2).max(1);
    let lost = [&[6, 1, 4][..], &vec![2; timeout][..]].concat();
    let settings = Settings {
        receiver_timeout: timeout as u16,
        ..SETTINGS
    };
    let frame = [&lost[..], &lost[..], &[6, 1, 3]].concat();
    (settings, transfer(count, &frame))
}

/// A frame is stored when it is first heard, and ignored after that.
fn ignored(count: usize) -> (Settings, Vec<u8>) {
    let spare = (count / 255).saturating_sub(3);
    (
        SETTINGS,
        transfer(count, &[&[6, 1], &vec![5; spare][..], &[3]].concat()),
    )
}

fn answered(count: usize) -> (Settings, Vec<u8>) {
    (SETTINGS, vec![5; count])
}

/// The announcement is heard, then the events of each frame.
fn transfer(count: usize, frame: &[u8]) -> Vec<u8> {
    let frames = frame.iter().copied().cycle();
    std::iter::once(3).chain(frames).take(count).collect()
}

/// The player, the reference's, and that of another checkout where one is given.
pub fn programs(before: Option<&Path>) -> Result<Vec<PathBuf>, String> {
    let here = Path::new(REPOSITORY);
    let play = ("crates/play/out/play", "run `rt run` in crates/play");
    let reference = (
        "compare/target/release/reference_player",
        "run `cargo build --release` in compare/",
    );
    let mut wanted = vec![(here, play), (here, reference)];
    wanted.extend(before.map(|checkout| (checkout, play)));
    let found = wanted.into_iter().map(|(checkout, (place, how))| {
        let program = checkout.join(place);
        match program.is_file() {
            true => Ok(program),
            false => Err(format!("{} is missing: {how}", program.display())),
        }
    });
    found.collect()
}

/// A pack in a file that goes with the value.
struct Kept(PathBuf);

impl Kept {
    fn new(name: &str, pack: &[u8]) -> Result<Kept, String> {
        let name = format!("kospelna-benchmark-{}-{name}.pack", std::process::id());
        let path = std::env::temp_dir().join(name);
        std::fs::write(&path, pack).map_err(|problem| problem.to_string())?;
        Ok(Kept(path))
    }
}

impl Drop for Kept {
    fn drop(&mut self) {
        let _ = std::fs::remove_file(&self.0);
    }
}

/// Nanoseconds of a run, start and end of the process included.
fn run(program: &Path, pack: &Kept) -> Result<f64, String> {
    let told = |problem: std::io::Error| format!("{}: {problem}", program.display());
    let input = File::open(&pack.0).map_err(told)?;
    let start = Instant::now();
    let status = Command::new(program)
        .stdin(input)
        .stdout(Stdio::null())
        .status()
        .map_err(told)?;
    let time = start.elapsed().as_nanos() as f64;
    match status.success() {
        true => Ok(time),
        false => Err(format!("{}: {status}", program.display())),
    }
}

/// The quickest of a few runs, which other work on the machine disturbed least.
fn quickest(program: &Path, pack: &Kept) -> Result<f64, String> {
    let mut least = f64::INFINITY;
    for _ in 0..RUNS {
        least = least.min(run(program, pack)?);
    }
    Ok(least)
}

/// Nanoseconds of an event, for each program round by round: what a pack takes beyond one without events.
fn measure(
    programs: &[PathBuf],
    pack: &Kept,
    empty: &Kept,
    count: usize,
    rounds: usize,
) -> Result<Vec<Vec<f64>>, String> {
    let mut times = vec![Vec::new(); programs.len()];
    for _ in 0..rounds {
        for (program, times) in programs.iter().zip(&mut times) {
            let beyond = quickest(program, pack)? - quickest(program, empty)?;
            times.push(beyond / count as f64);
        }
    }
    Ok(times)
}

/// The ratio's median, least and greatest.
fn told_ratio(upper: &[f64], lower: &[f64]) -> String {
    let ratio = ratio(upper, lower);
    format!(
        "{:.2} | {:.2} | {:.2}",
        ratio.median, ratio.least, ratio.most
    )
}

fn print_row(name: &str, count: usize, lines: usize, times: &[Vec<f64>]) {
    let [proved, reference, before @ ..] = times else {
        panic!("two programs or more");
    };
    let median = |times: &Vec<f64>| spread(times.clone()).median;
    let (ns, other) = (median(proved), median(reference));
    let told = told_ratio(proved, reference);
    print!("| {name} | {count} | {lines} | {ns:.1} | {other:.1} | ");
    print!("{:.1} | {:.1} | {told} |", 1e3 / ns, 1e3 / other);
    for before in before {
        print!(" {:.1} | {} |", median(before), told_ratio(proved, before));
    }
    println!();
}

fn print_head(rounds: usize, before: bool) {
    println!("\nthe player: ns an event and million events a second, median of {rounds} rounds, each the quickest of");
    println!("{RUNS} runs; ratio proved to reference, and to the build before; start and end of the process, as");
    println!("measured on a pack without events, are taken off");
    println!();
    let (names, rule) = match before {
        true => (
            " before ns | to before | least | greatest |",
            "---:|---:|---:|---:|",
        ),
        false => ("", ""),
    };
    println!("| pack | events | lines | proved ns | reference ns | proved M/s | reference M/s | ratio | least | greatest |{names}");
    println!("|---|---:|---:|---:|---:|---:|---:|---:|---:|---:|{rule}");
}

/// The pack with so many events, and the one without.
fn packs(Sort(_, events): &Sort, count: usize) -> [Vec<u8>; 2] {
    let (settings, events) = events(count);
    [&events[..], &[]].map(|events| build(&settings, &pool()[..1785], events))
}

pub fn print_table(programs: &[PathBuf], rounds: usize) -> Result<(), String> {
    print_head(rounds, programs.len() > 2);
    for sort in &SORTS {
        for count in COUNTS {
            let [bytes, without] = packs(sort, count);
            let lines = play(&bytes).lines().count();
            let pack = Kept::new("events", &bytes)?;
            let empty = Kept::new("empty", &without)?;
            let times = measure(programs, &pack, &empty, count, rounds)?;
            print_row(sort.0, count, lines, &times);
        }
    }
    Ok(())
}

/// For each sort its pack of 60000 events, by its name, and beside it the one without events.
pub fn write_packs(folder: &Path) -> Result<(), String> {
    for (place, sort) in SORTS.iter().enumerate() {
        let [bytes, without] = packs(sort, 60000);
        let name = |ending: &str| folder.join(format!("{place} {}.{ending}", sort.0));
        for (path, pack) in [(name("pack"), bytes), (name("empty"), without)] {
            std::fs::write(&path, pack)
                .map_err(|problem| format!("{}: {problem}", path.display()))?;
        }
    }
    Ok(())
}
