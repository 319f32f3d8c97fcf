//! Clean run packs from a seed (document 02, E1): a long message whose frames are each heard before
//! the next tick, none lost or repeated, the ends ticking by turns. What a player prints for them
//! has the clean figures.

use std::fmt;

use super::case::Case;
use super::differences::{shortened, sort, Difference, Player};
use super::generate::{made, message};
use super::random::Random;
use crate::reference::clean::figures;
use crate::reference::frame::{frames_for, BUFFER_LENGTH};
use crate::reference::line::Bench;
use crate::reference::player::{event, play, Settings};

/// The events of a clean list: ticks and hearings, and on an empty list losses and repeats too.
pub const SENDER_TICK: u8 = 1;
pub const RECEIVER_TICK: u8 = 2;
pub const FORWARD_HEAR: u8 = 3;
pub const FORWARD_LOSE: u8 = 4;
pub const FORWARD_REPEAT: u8 = 5;
pub const BACK_HEAR: u8 = 6;
pub const BACK_LOSE: u8 = 7;
pub const BACK_REPEAT: u8 = 8;

/// The clean pack of this seed.
pub fn case(seed: u64) -> Case {
    let mut random = Random::new(seed);
    let length = length(&mut random);
    let mut case = Case {
        settings: settings(&mut random, length as u16),
        message: message(&mut random, length),
        events: Vec::new(),
        damage: None,
    };
    case.events = events(&mut random, &case);
    // At times the list ends before the report.
    if random.percent(15) {
        case.events.truncate(random.between(0, case.events.len()));
    }
    case
}

fn length(random: &mut Random) -> usize {
    match random.weighted(&[40, 30, 10, 20]) {
        0 => random.between(9, 40),
        1 => random.between(41, 300),
        2 => random.between(301, 1785),
        _ => random.pick(&[9, 13, 14, 15, 21, 1778, 1779, 1785]),
    }
}

/// Settings within E1's conditions, often just within.
fn settings(random: &mut Random, length: u16) -> Settings {
    let gap = random.between(1, 10) as u8;
    let least = u16::from(gap) + 1;
    let ticks = frames_for(length) * u16::from(gap);
    let timeout = |random: &mut Random| match random.percent(60) {
        true => least,
        false => random.between(least.into(), 10000) as u16,
    };
    Settings {
        gap,
        sender_timeout: timeout(random),
        sending_time: match random.percent(60) {
            true => ticks + 1,
            false => random.between(usize::from(ticks) + 1, 60000) as u16,
        },
        receiver_timeout: timeout(random),
        window: match random.percent(60) {
            true => random.pick(&[1, 2, 3, 254, 255]),
            false => random.between(1, 255) as u8,
        },
        capacity: match random.percent(60) {
            true => length,
            false => random.between(length.into(), 1785) as u16,
        },
    }
}

/// A clean list that goes on to the report and often beyond it. Either end ticks first.
fn events(random: &mut Random, case: &Case) -> Vec<u8> {
    let mut bench = made(case).expect("settings and message are within their limits");
    let mut buffer = [0; BUFFER_LENGTH];
    let mut ticks = 2 * case.message.len().div_ceil(7) * usize::from(case.settings.gap);
    ticks += random.between(0, 12);
    let mut turn = random.pick(&[SENDER_TICK, RECEIVER_TICK]);
    let mut events = Vec::new();
    while ticks > 0 || !bench.line_is_empty() {
        let number = next(random, &bench, turn);
        if number == turn {
            turn = SENDER_TICK + RECEIVER_TICK - turn;
            ticks = ticks.saturating_sub(1);
        }
        let call = event(number).expect("an event of a clean list");
        bench
            .call(call, &case.message, &mut buffer)
            .expect("calls of a clean list are not refused");
        events.push(number);
    }
    events
}

/// A hearing while a frame is on the line; else a tick, of the end whose turn it is. At times
/// something else that is clean.
fn next(random: &mut Random, bench: &Bench, turn: u8) -> u8 {
    if random.percent(12) {
        return aside(random, bench);
    }
    match (bench.forward.is_empty(), bench.back.is_empty()) {
        (true, true) => turn,
        (false, true) => FORWARD_HEAR,
        (true, false) => BACK_HEAR,
        (false, false) => random.pick(&[FORWARD_HEAR, BACK_HEAR]),
    }
}

/// A hearing of either list, be it empty; a loss or a repeat where the list is empty.
fn aside(random: &mut Random, bench: &Bench) -> u8 {
    let mut numbers = vec![FORWARD_HEAR, BACK_HEAR];
    if bench.forward.is_empty() {
        numbers.extend([FORWARD_LOSE, FORWARD_REPEAT]);
    }
    if bench.back.is_empty() {
        numbers.extend([BACK_LOSE, BACK_REPEAT]);
    }
    random.pick(&numbers)
}

/// The reports that E1 promises for a clean list, by its events alone. With the sender's tick N × G
/// goes frame N; its hearing delivers the message, and the next hearing back ends the transfer.
pub fn promised(case: &Case) -> Vec<String> {
    let length = case.message.len();
    let clean = figures(length as u32, case.settings.gap.into()).expect("a clean pack");
    let mut events = (1..).zip(&case.events);
    let mut next = |number: u8| events.find(|(_, &event)| event == number);
    for _ in 0..clean.ticks {
        next(SENDER_TICK);
    }
    let delivered = next(FORWARD_HEAR).map(|(place, _)| format!("{place} R delivered {length}"));
    let sent = next(BACK_HEAR)
        .map(|(place, _)| format!("{place} S sent {} {}", clean.ticks, clean.frames));
    delivered.into_iter().chain(sent).collect()
}

/// The lines of a text that are no frames.
fn reports(text: &str) -> Vec<&str> {
    text.lines().filter(|line| sort(line).is_some()).collect()
}

/// A clean pack that a player plays with other reports than the promised ones, or otherwise than
/// the reference.
#[derive(Debug)]
pub struct Fault {
    pub seed: u64,
    /// The promised reports and the player's, where they differ.
    pub unmet: Option<[Vec<String>; 2]>,
    pub difference: Option<Difference>,
}

/// Plays `count` clean packs, the first of them that of `seed`, the next of `seed + 1`, and so on.
pub fn first_fault(player: &Player, seed: u64, count: u64) -> Result<Option<Fault>, String> {
    for seed in seed..seed.saturating_add(count) {
        let case = case(seed);
        let pack = case.pack();
        let printed = player(&pack)?;
        let promised = promised(&case);
        let reports = reports(&printed);
        let unmet = (reports != promised).then(|| {
            let reports = reports.into_iter().map(str::to_string).collect();
            [promised, reports]
        });
        let difference = match printed != play(&pack) {
            true => Some(shortened(player, seed, case)?),
            false => None,
        };
        if unmet.is_some() || difference.is_some() {
            return Ok(Some(Fault {
                seed,
                unmet,
                difference,
            }));
        }
    }
    Ok(None)
}

impl fmt::Display for Fault {
    fn fmt(&self, f: &mut fmt::Formatter) -> fmt::Result {
        let seed = self.seed;
        writeln!(
            f,
            "A CLEAN PACK GOES WRONG at seed {seed} (--seed {seed} --count 0 --clean 1)"
        )?;
        if let Some([promised, reports]) = &self.unmet {
            writeln!(f, "promised:  {}", promised.join("; "))?;
            writeln!(f, "reported:  {}", reports.join("; "))?;
        }
        match &self.difference {
            Some(difference) => difference.tell(f),
            None => Ok(()),
        }
    }
}
