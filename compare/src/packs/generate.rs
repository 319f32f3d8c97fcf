//! Makes a run pack from a seed. Sessions are played while they are made, so that events can be
//! drawn by what is on the line and transfers go forward.

use super::case::{Case, Damage};
use super::random::Random;
use crate::reference::frame::BUFFER_LENGTH;
use crate::reference::line::{Bench, Call};
use crate::reference::player::{event, Settings, LINE_ROOM, PACK_MOST};
use crate::reference::receiver::Receiver;
use crate::reference::sender::Sender;

/// How a session's events are drawn.
#[derive(Clone, Copy)]
struct Manner {
    /// So many times in a hundred the event is the one that brings the transfer forward.
    forward: usize,
    /// Otherwise by these weights for events 1 to 8, in the first and in the second half.
    weights: [[usize; 8]; 2],
    /// Events beyond those that the message's length asks for.
    extra: usize,
}

/// Losses and repeats are rare.
const FORWARD: Manner = Manner {
    forward: 96,
    weights: [[3, 3, 2, 1, 1, 2, 1, 1]; 2],
    extra: 20,
};
const LOSSY: Manner = Manner {
    forward: 70,
    weights: [[4, 6, 1, 3, 3, 1, 3, 3]; 2],
    extra: 60,
};
/// Ticks and losses: timeouts.
const QUIET: Manner = Manner {
    forward: 15,
    weights: [[8, 8, 1, 1, 0, 1, 1, 0]; 2],
    extra: 80,
};
/// First repeats and ticks that fill the line, then hearings that empty it.
const FLOOD: Manner = Manner {
    forward: 0,
    weights: [[10, 3, 0, 0, 10, 0, 0, 4], [4, 2, 10, 1, 0, 10, 1, 0]],
    extra: 700,
};
const EVEN: Manner = Manner {
    forward: 0,
    weights: [[1; 8]; 2],
    extra: 100,
};

impl Manner {
    /// The event at this place of so many, by the weights alone.
    fn event(&self, random: &mut Random, place: usize, count: usize) -> u8 {
        let half = usize::from(2 * place >= count);
        random.weighted(&self.weights[half]) as u8 + 1
    }
}

/// The pack of this seed.
pub fn case(seed: u64) -> Case {
    let mut random = Random::new(seed);
    let length = length(&mut random);
    let mut case = Case {
        settings: settings(&mut random, length),
        message: message(&mut random, length),
        events: Vec::new(),
        damage: None,
    };
    match random.weighted(&[80, 6, 3, 10, 1]) {
        0 => {}
        1 => case.settings = edge_settings(&mut random, case.settings),
        2 => spoil_length(&mut random, &mut case),
        3 => {
            add_events(&mut random, &mut case);
            spoil_shape(&mut random, &mut case);
            return case;
        }
        _ => {
            case.events = full_events(&mut random, case.message.len());
            return case;
        }
    }
    add_events(&mut random, &mut case);
    case
}

fn length(random: &mut Random) -> usize {
    match random.weighted(&[15, 50, 15, 8, 12]) {
        0 => random.between(1, 8),
        1 => random.between(9, 40),
        2 => random.between(41, 300),
        3 => random.between(301, 1785),
        _ => random.pick(&[1, 7, 8, 9, 13, 14, 15, 1784, 1785]),
    }
}

pub(super) fn message(random: &mut Random, length: usize) -> Vec<u8> {
    (0..length)
        .map(|_| match random.percent(20) {
            true => random.pick(&[0x00, 0xFF, 0xAF]),
            false => random.byte(),
        })
        .collect()
}

/// Settings within their limits, mostly small so that timeouts come.
fn settings(random: &mut Random, length: usize) -> Settings {
    let near = random.between(length.saturating_sub(2), length + 2);
    Settings {
        gap: random.pick(&[1, 1, 1, 1, 2, 3, 10]),
        sender_timeout: random.pick(&[1, 2, 3, 4, 6, 10, 30, 10000]),
        sending_time: random.pick(&[1, 4, 12, 30, 100, 300, 2000, 60000, 60000]),
        receiver_timeout: random.pick(&[1, 2, 3, 4, 6, 10, 30, 10000]),
        window: random.pick(&[1, 2, 3, 4, 7, 40, 100, 255]),
        capacity: match random.percent(15) {
            true => near.clamp(9, 1785) as u16,
            false => 1785,
        },
    }
}

/// One setting at an edge of its limits or of its field.
fn edge_settings(random: &mut Random, settings: Settings) -> Settings {
    let mut edged = settings;
    match random.between(0, 5) {
        0 => edged.gap = random.pick(&[0, 1, 10, 11, 255]),
        1 => edged.sender_timeout = random.pick(&[0, 1, 10000, 10001, 65535]),
        2 => edged.sending_time = random.pick(&[0, 1, 60000, 60001, 65535]),
        3 => edged.receiver_timeout = random.pick(&[0, 1, 10000, 10001, 65535]),
        4 => edged.window = random.pick(&[0, 1, 255]),
        _ => edged.capacity = random.pick(&[0, 8, 9, 1785, 1786, 65535]),
    }
    edged
}

/// A message of bad length, at times with a bad setting, too.
fn spoil_length(random: &mut Random, case: &mut Case) {
    let length = random.pick(&[0, 0, 1786, 1786, 1787, 2048, 3000]);
    case.message = message(random, length);
    if random.percent(30) {
        case.settings = edge_settings(random, case.settings);
    }
}

/// Damage to the shape, at times with bad settings or a bad length, too.
fn spoil_shape(random: &mut Random, case: &mut Case) {
    if random.percent(20) {
        case.settings = edge_settings(random, case.settings);
    }
    if random.percent(20) {
        spoil_length(random, case);
    }
    let size = 23 + case.message.len() + case.events.len();
    let sizes = [0, 9, 10, 11, case.message.len(), case.events.len(), 65535];
    case.damage = match random.between(0, 6) {
        0 => Some(Damage::Count(random.pick(&[0, 1, 2, 4, 255]))),
        1 => Some(Damage::Row {
            place: random.between(0, 5),
            value: (random.pick(&sizes) + random.between(0, 30)) as u16,
        }),
        2 => Some(Damage::SettingsBody(match random.pick(&[1, 9, 11, 20]) {
            length if random.percent(50) => vec![1; length],
            length => message(random, length),
        })),
        3 => Some(Damage::MessageFirst),
        4 => Some(Damage::Trailing(vec![random.pick(&[0, 1, 3, 8, 255])])),
        5 => Some(Damage::CutAfter(match random.percent(50) {
            true => random.between(0, size.min(24)),
            false => size - random.between(1, 3).min(size),
        })),
        _ => {
            let place = random.between(0, case.events.len());
            case.events
                .insert(place, random.pick(&[0, 9, 10, 128, 255]));
            None
        }
    };
}

/// Events of a session in a manner drawn for it.
fn add_events(random: &mut Random, case: &mut Case) {
    let manners = [FORWARD, LOSSY, QUIET, FLOOD, EVEN];
    let manner = manners[random.weighted(&[25, 40, 20, 10, 5])];
    let frames = case.message.len().div_ceil(7);
    let most = match random.percent(5) {
        true => 3,
        false => 4 * frames + manner.extra,
    };
    let count = random.between(most / 2, most);
    case.events = match made(case) {
        Some(bench) => played(random, bench, &case.message, manner, count),
        None => by_weights(random, manner, count),
    };
}

/// Both ends after the begin, unless a setting or the message is refused.
pub(super) fn made(case: &Case) -> Option<Bench> {
    let s = &case.settings;
    let sender = Sender::make(s.gap, s.sender_timeout, s.sending_time).ok()?;
    let receiver = Receiver::make(s.receiver_timeout, s.window, s.capacity).ok()?;
    let mut bench = Bench::with_room(sender, receiver, LINE_ROOM);
    let mut buffer = [0; BUFFER_LENGTH];
    bench.call(Call::Begin, &case.message, &mut buffer).ok()?;
    Some(bench)
}

fn played(
    random: &mut Random,
    mut bench: Bench,
    message: &[u8],
    manner: Manner,
    count: usize,
) -> Vec<u8> {
    let mut buffer = [0; BUFFER_LENGTH];
    let mut events = Vec::new();
    for place in 0..count {
        let number = match random.percent(manner.forward) {
            true => bringing_forward(&bench),
            false => manner.event(random, place, count),
        };
        let call = event(number).expect("events drawn here are 1 to 8");
        bench
            .call(call, message, &mut buffer)
            .expect("calls of a sound session are not refused");
        events.push(number);
    }
    events
}

fn bringing_forward(bench: &Bench) -> u8 {
    match (bench.forward.is_empty(), bench.back.is_empty()) {
        (false, _) => 3,
        (true, false) => 6,
        (true, true) => 1,
    }
}

fn by_weights(random: &mut Random, manner: Manner, count: usize) -> Vec<u8> {
    (0..count)
        .map(|place| manner.event(random, place, count))
        .collect()
}

/// Events up to the most that a pack can hold, or nearly.
fn full_events(random: &mut Random, message: usize) -> Vec<u8> {
    let room = PACK_MOST - 23 - message;
    let manner = random.pick(&[QUIET, FLOOD, EVEN]);
    let count = room - random.pick(&[0, 0, 1, 5000]);
    by_weights(random, manner, count)
}
