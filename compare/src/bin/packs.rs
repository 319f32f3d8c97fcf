//! Plays random run packs, the sessions and clean run packs with a player program and with the
//! reference, and compares the texts. The reports of the clean packs are held to the clean figures.
//! Exit status: 0 all as it must be, 1 a difference, 2 bad usage or a program that cannot be run.

use std::io::Write;
use std::process::{Command, ExitCode, Stdio};

use compare::packs::clean::first_fault;
use compare::packs::differences::{first_difference, Tally};
use compare::reference::player::play;
use compare::sessions::SESSIONS;

const USAGE: &str = "usage: packs [--player PATH] [--count N] [--clean N] [--seed S]
    --player PATH   the program (default crates/play/out/play)
    --count N       how many packs (default 2000)
    --clean N       how many clean packs after them (default 300)
    --seed S        the first pack's seed, and the first clean one's (default 1)";

struct Options {
    player: String,
    count: u64,
    clean: u64,
    seed: u64,
}

fn options(mut words: impl Iterator<Item = String>) -> Option<Options> {
    let mut options = Options {
        player: "crates/play/out/play".to_string(),
        count: 2000,
        clean: 300,
        seed: 1,
    };
    while let Some(name) = words.next() {
        let value = words.next()?;
        match name.as_str() {
            "--player" => options.player = value,
            "--count" => options.count = value.parse().ok()?,
            "--clean" => options.clean = value.parse().ok()?,
            "--seed" => options.seed = value.parse().ok()?,
            _ => return None,
        }
    }
    Some(options)
}

/// What the program prints for this pack; an exit status other than 0 is told in a last line.
fn run(program: &str, pack: &[u8]) -> Result<String, String> {
    let told = |problem: std::io::Error| format!("{program}: {problem}");
    let mut child = Command::new(program)
        .stdin(Stdio::piped())
        .stdout(Stdio::piped())
        .spawn()
        .map_err(told)?;
    let mut input = child.stdin.take().expect("standard input is piped");
    // Written beside the reading, as a program may print before it has read all. It may also end
    // before it has read all; what it printed is compared all the same.
    let output = std::thread::scope(|scope| {
        scope.spawn(move || {
            let _ = input.write_all(pack);
        });
        child.wait_with_output()
    })
    .map_err(told)?;
    let mut text = String::from_utf8_lossy(&output.stdout).into_owned();
    if !output.status.success() {
        text += &format!("({})\n", output.status);
    }
    Ok(text)
}

/// What is said where all is as it must be, or else the difference; an error where the program
/// cannot be run.
type Found = Result<Result<String, String>, String>;

fn random_packs(options: &Options) -> Found {
    let player = |pack: &[u8]| run(&options.player, pack);
    let (seed, count) = (options.seed, options.count);
    let mut tally = Tally::new();
    let difference = first_difference(&player, seed, count, &mut tally)?;
    let sorts: Vec<String> = tally
        .iter()
        .map(|(sort, n)| format!("{sort}: {n}"))
        .collect();
    let sorts = sorts.join(", ");
    Ok(match difference {
        Some(difference) => Err(difference.to_string()),
        None => Ok(format!(
            "packs: {count} packs from seed {seed} alike\npacks: packs with {sorts}\n"
        )),
    })
}

fn sessions(options: &Options) -> Found {
    for session in &SESSIONS {
        let pack = session.pack();
        if run(&options.player, &pack)? != play(&pack) {
            let name = session.name;
            return Ok(Err(format!("packs: session {name}: DIFFERENT\n")));
        }
    }
    Ok(Ok(format!("packs: {} sessions alike\n", SESSIONS.len())))
}

fn clean_packs(options: &Options) -> Found {
    let player = |pack: &[u8]| run(&options.player, pack);
    let (seed, count) = (options.seed, options.clean);
    Ok(match first_fault(&player, seed, count)? {
        Some(fault) => Err(fault.to_string()),
        None => Ok(format!(
            "packs: {count} clean packs from seed {seed} alike, with the clean figures\n"
        )),
    })
}

fn main() -> ExitCode {
    let Some(options) = options(std::env::args().skip(1)) else {
        eprintln!("{USAGE}");
        return ExitCode::from(2);
    };
    for step in [random_packs, sessions, clean_packs] {
        match step(&options) {
            Ok(Ok(text)) => print!("{text}"),
            Ok(Err(difference)) => {
                print!("{difference}");
                return ExitCode::from(1);
            }
            Err(problem) => {
                eprintln!("packs: {problem}");
                return ExitCode::from(2);
            }
        }
    }
    ExitCode::SUCCESS
}
