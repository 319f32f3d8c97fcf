//! Random runs. Most go on as a real talk does, ticks in bursts and most messages heard, so that
//! they get somewhere; some are wild.

use super::counts::EDGES;
use super::run::{Act, Run, Turn};
use super::{Lists, Pair, SIDES};
use crate::packs::random::Random;
use crate::reference::version::{Side, Version};

/// How often hear, lose and repeat come in a manner of run.
type Shares = [usize; 3];

const ORDERLY: Shares = [1, 0, 0];
const ROUGH: Shares = [70, 15, 15];
const DEAF: Shares = [40, 55, 5];

/// The run of this seed.
pub fn run(seed: u64) -> Run {
    let random = &mut Random::new(seed);
    let lists = lists(random);
    let pilots = Pair {
        charger: random.byte(),
        vehicle: random.byte(),
    };
    let turns = match random.weighted(&[34, 45, 3, 18]) {
        0 => talk(random, ORDERLY, 0),
        1 => talk(random, ROUGH, 4),
        2 => to_the_limit(random),
        _ => wild(random),
    };
    Run {
        lists,
        pilots,
        turns,
    }
}

/// Two lists of 1 to 8 rising versions that share none, one, several, or all.
fn lists(random: &mut Random) -> Lists {
    let mut pool = pool(random);
    let sharing = random.weighted(&[20, 35, 40, 5]);
    let both = [0, 0, random.between(20, 70), 100][sharing];
    // Neither list is left empty: one version for both, or one for each.
    let in_both = sharing == 1 || sharing == 3;
    let mut lists = Lists::default();
    let for_charger = pool.remove(0);
    let for_vehicle = if in_both { for_charger } else { pool.remove(0) };
    lists.charger.push(for_charger);
    lists.vehicle.push(for_vehicle);
    deal(random, &mut lists, &pool, both);
    lists.charger.sort();
    lists.vehicle.sort();
    lists
}

/// Gives each version to one side, or to both so many times in a hundred, as long as there is room.
fn deal(random: &mut Random, lists: &mut Lists, pool: &[Version], both: usize) {
    for &version in pool {
        let one = random.pick(&SIDES);
        let to_both = random.percent(both);
        for side in SIDES {
            let list = lists.of_mut(side);
            if (to_both || side == one) && list.len() < 8 {
                list.push(version);
            }
        }
    }
}

/// Different versions in no order: edges, the first mostly one of them, near ones and any.
fn pool(random: &mut Random) -> Vec<Version> {
    let size = random.between(2, 13);
    let mut pool: Vec<Version> = Vec::new();
    if random.percent(75) {
        // The low ones more often, since a talk settles on them less easily.
        let place = random.weighted(&[8, 1, 5, 3, 1, 2, 1]);
        pool.push(EDGES[place]);
    }
    while pool.len() < size {
        let version = match random.weighted(&[35, 45, 20]) {
            0 => random.pick(&EDGES),
            1 => [1, 2, 3].map(|most| random.between(0, most) as u8),
            _ => [random.byte(), random.byte(), random.byte()],
        };
        if !pool.contains(&version) {
            pool.push(version);
        }
    }
    pool
}

fn turn(side: Side, act: Act, times: usize) -> Turn {
    let times = u16::try_from(times).expect("no turn is that long");
    Turn { side, act, times }
}

/// Both connect, then rounds of ticks and hearings at both sides; so many in a hundred of the rounds
/// have something odd in them.
fn talk(random: &mut Random, shares: Shares, odd: usize) -> Vec<Turn> {
    let mut turns = Vec::new();
    if random.percent(odd) {
        turns.push(turn(Side::Vehicle, Act::Greeting, 1));
    }
    let late = random.percent(3 * odd);
    connect(random, &mut turns, late);
    for _ in 0..random.between(3, 12) {
        let first = random.between(0, 1);
        for side in [SIDES[first], SIDES[1 - first]] {
            let ticks = if random.percent(80) {
                50
            } else {
                random.between(1, 50)
            };
            turns.push(turn(side, Act::Tick, ticks));
            hearings(random, &mut turns, side, shares);
        }
        if random.percent(odd) {
            turns.push(odd_turn(random));
        }
        if random.percent(odd) {
            turns.push(turn(Side::Vehicle, Act::Functions, 1));
        }
    }
    turns
}

/// Both sides connect, one of them late if so.
fn connect(random: &mut Random, turns: &mut Vec<Turn>, late: bool) {
    let first = random.between(0, 1);
    turns.push(turn(SIDES[first], Act::Connect, 1));
    if late {
        let ticks = random.between(1, 400);
        turns.push(turn(SIDES[first], Act::Tick, ticks));
        turns.push(turn(SIDES[1 - first], Act::Hear, 1));
    }
    turns.push(turn(SIDES[1 - first], Act::Connect, 1));
}

/// What happens to the messages that may be there: mostly one, mostly heard.
fn hearings(random: &mut Random, turns: &mut Vec<Turn>, side: Side, shares: Shares) {
    for _ in 0..random.weighted(&[10, 60, 20, 10]) {
        let act = [Act::Hear, Act::Lose, Act::Repeat][random.weighted(&shares)];
        turns.push(turn(side, act, 1));
    }
}

fn odd_turn(random: &mut Random) -> Turn {
    let side = random.pick(&SIDES);
    match random.weighted(&[30, 30, 15, 25]) {
        0 => turn(side, Act::Stop, 1),
        1 => turn(side, Act::Greeting, 1),
        2 => turn(side, Act::Connect, 1),
        _ => turn(side, Act::Tick, random.between(100, 3000)),
    }
}

/// A talk of which little is heard, then a burst up to about the limit at one side or at both, and
/// hearings of what piled up.
fn to_the_limit(random: &mut Random) -> Vec<Turn> {
    let mut turns = talk(random, DEAF, 2);
    for _ in 0..random.weighted(&[0, 3, 1]) {
        let side = random.pick(&SIDES);
        let short = random.percent(20);
        let burst = if short { 14000 } else { 15000 };
        turns.push(turn(side, Act::Tick, burst));
        turns.push(turn(SIDES[0], Act::Hear, random.between(0, 400)));
        turns.push(turn(SIDES[1], Act::Hear, random.between(0, 400)));
        turns.push(turn(side, Act::Lose, random.between(0, 400)));
    }
    turns
}

/// Any call at any time.
fn wild(random: &mut Random) -> Vec<Turn> {
    let acts = [
        (Act::Connect, 6, 1),
        (Act::Tick, 35, 60),
        (Act::Hear, 35, 3),
        (Act::Lose, 8, 2),
        (Act::Repeat, 10, 3),
        (Act::Stop, 1, 1),
        (Act::Greeting, 1, 1),
        (Act::Functions, 4, 1),
    ];
    let weights = acts.map(|(_, weight, _)| weight);
    let count = random.between(5, 80);
    let mut turns = Vec::new();
    for _ in 0..count {
        let (act, _, most) = acts[random.weighted(&weights)];
        turns.push(turn(random.pick(&SIDES), act, random.between(1, most)));
    }
    turns
}
