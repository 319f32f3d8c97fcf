//! Random sessions of the ends. A session is played while it is drawn, so that steps can be drawn by what is on the line
//! and transfers go through.

use compare::packs::random::Random;

use crate::call::{Mismatch, Pair, Part};
use crate::frames::{self, EDGE_LENGTHS};
use crate::interface::Face;
use crate::session::{Session, Step, Way, World};

/// The length of a buffer that is not refused.
pub const BUFFER: usize = 1785;
/// Places in a session's list of messages: two to begin, one as long as the first with other bytes, one of any length, one
/// short enough to be posted or just too long.
const FIRST: usize = 0;
const SECOND: usize = 1;
const ALIKE: usize = 2;
const ODD: usize = 3;
const SHORT: usize = 4;

/// In a session with a summary so many steps in a hundred read the counts, and of the others so many in a hundred lend the next
/// call another length.
const READ: usize = 3;
const LENT_OTHERWISE: usize = 4;

/// How a session's steps are drawn: where a last frame comes next, so many times in a hundred with dirt behind the message;
/// where the receiver has waited and its timeout is near, so many times in a hundred its next tick; so many times in a hundred
/// the step that brings the transfer forward, else by weights:
/// 0 sender tick, 1 receiver tick, 2 to 4 forward hear, lose, repeat, 5 to 7 back hear, lose, repeat, 8 begin, 9 post,
/// 10 a tick lent another message, 11 a hearing lent another buffer, 12, 13 the sender, the receiver hears a frame from
/// elsewhere, 14 hold, 15 resume.
struct Manner {
    dirty: usize,
    silent: usize,
    forward: usize,
    weights: [usize; 16],
}

const MANNERS: [Manner; 8] = [
    // Mostly forward.
    Manner {
        dirty: 15,
        silent: 0,
        forward: 97,
        weights: [4, 4, 2, 1, 1, 2, 1, 1, 1, 1, 1, 1, 1, 1, 1, 1],
    },
    // Lossy.
    Manner {
        dirty: 30,
        silent: 0,
        forward: 75,
        weights: [8, 8, 2, 6, 6, 2, 6, 6, 1, 1, 1, 1, 0, 0, 2, 1],
    },
    // Quiet: timeouts.
    Manner {
        dirty: 15,
        silent: 0,
        forward: 20,
        weights: [30, 30, 2, 2, 1, 2, 2, 1, 1, 1, 1, 1, 1, 1, 1, 1],
    },
    // Repeats.
    Manner {
        dirty: 40,
        silent: 0,
        forward: 55,
        weights: [6, 4, 1, 0, 12, 1, 0, 12, 1, 0, 0, 0, 0, 0, 1, 1],
    },
    // Odd calls and frames.
    Manner {
        dirty: 30,
        silent: 0,
        forward: 60,
        weights: [4, 4, 1, 1, 1, 1, 1, 1, 2, 3, 3, 3, 8, 8, 2, 1],
    },
    // Held and resumed.
    Manner {
        dirty: 80,
        silent: 0,
        forward: 75,
        weights: [3, 8, 1, 2, 2, 1, 2, 2, 1, 1, 0, 1, 3, 16, 12, 4],
    },
    // Held for long: the receiver's time passes.
    Manner {
        dirty: 80,
        silent: 0,
        forward: 50,
        weights: [2, 80, 1, 1, 1, 1, 1, 1, 0, 0, 0, 0, 0, 3, 12, 1],
    },
    // Silent gaps: the receiver times out between frames, and is held and resumed meanwhile.
    Manner {
        dirty: 40,
        silent: 85,
        forward: 70,
        weights: [2, 60, 1, 3, 3, 1, 3, 3, 1, 1, 0, 1, 0, 6, 6, 8],
    },
];

/// Draws and plays a session; with it, the mismatch in its last step if there is one.
pub fn run<L: Face, R: Face>(
    random: &mut Random,
    pair: &mut Pair<L, R>,
) -> (Session, Result<(), Box<Mismatch>>) {
    let mut session = unplayed(random);
    let result = draw_steps(random, &mut session, pair);
    (session, result)
}

/// The same with a summary.
pub fn run_counted<L: Face, R: Face>(
    random: &mut Random,
    pair: &mut Pair<L, R>,
) -> (Session, Result<(), Box<Mismatch>>) {
    let mut session = unplayed(random);
    session.summary = Some(first_counts(random));
    let result = draw_steps(random, &mut session, pair);
    (session, result)
}

fn unplayed(random: &mut Random) -> Session {
    let length = length(random);
    let other = self::length(random);
    let odd = match random.percent(50) {
        true => random.pick(&EDGE_LENGTHS),
        false => (length + random.between(0, 2)).saturating_sub(1),
    };
    let short = random.between(0, 9);
    let messages = [length, other, length, odd, short].map(|length| part(random, length));
    let mut session = Session {
        sender: sender_settings(random),
        receiver: receiver_settings(random, length),
        summary: None,
        messages: messages.to_vec(),
        steps: Vec::new(),
    };
    if random.percent(4) {
        spoil(random, &mut session);
    }
    session
}

/// What each byte of the counts is at first: 0, seldom anything else.
fn first_counts(random: &mut Random) -> u8 {
    match random.percent(90) {
        true => 0,
        false => random.pick(&[0x01, 0xAA, 0xFF]),
    }
}

pub fn part(random: &mut Random, length: usize) -> Part {
    Part {
        from: random.between(0, 2000),
        length,
    }
}

fn length(random: &mut Random) -> usize {
    match random.weighted(&[15, 55, 14, 4, 12]) {
        0 => random.between(1, 8),
        1 => random.between(9, 40),
        2 => random.between(41, 300),
        3 => random.between(301, 1785),
        _ => random.pick(&EDGE_LENGTHS),
    }
}

/// Within their limits, mostly small so that timeouts come.
fn sender_settings(random: &mut Random) -> [u16; 3] {
    [
        random.pick(&[1, 1, 1, 1, 2, 3, 10]),
        random.pick(&[1, 2, 3, 4, 6, 10, 30, 10000]),
        random.pick(&[1, 4, 12, 30, 100, 300, 2000, 60000, 60000]),
    ]
}

fn receiver_settings(random: &mut Random, length: usize) -> [u16; 3] {
    let near = (length + random.between(0, 2)).saturating_sub(1);
    [
        random.pick(&[1, 2, 3, 4, 6, 10, 30, 10000]),
        random.pick(&[1, 2, 3, 4, 7, 40, 100, 255]),
        match random.percent(15) {
            true => near.clamp(9, 1785) as u16,
            false => 1785,
        },
    ]
}

/// One setting at an edge of its limits or of its field.
fn spoil(random: &mut Random, session: &mut Session) {
    let place = random.between(0, 2);
    let edges = [
        &[0, 1, 10, 11, 256, 257, 65535][..],
        &[0, 1, 10000, 10001, 65535][..],
        &[0, 1, 60000, 60001, 65535][..],
        &[0, 1, 10000, 10001, 65535][..],
        &[0, 1, 255, 256, 257, 65535][..],
        &[0, 8, 9, 1785, 1786, 65535][..],
    ];
    match random.percent(50) {
        true => session.sender[place] = random.pick(edges[place]),
        false => session.receiver[place] = random.pick(edges[3 + place]),
    }
}

fn draw_steps<L: Face, R: Face>(
    random: &mut Random,
    session: &mut Session,
    pair: &mut Pair<L, R>,
) -> Result<(), Box<Mismatch>> {
    let Some(mut world) = World::start(session, pair)? else {
        return Ok(());
    };
    let manner = &MANNERS[random.weighted(&[30, 15, 10, 9, 9, 11, 11, 16])];
    let needed = 4 * session.messages[FIRST].length.div_ceil(7);
    let count = random.between(20, 60 + 2 * needed);
    let mut begun = FIRST;
    for _ in 0..count {
        let step = draw(random, manner, &world, begun);
        session.steps.push(step);
        let idle = world.sender.phase == 0;
        world.step(step, &session.messages, pair)?;
        if let (Step::Begin(which), true) = (step, idle && world.sender.phase != 0) {
            begun = which;
        }
    }
    Ok(())
}

/// A step that reads the counts, or lends the next call another length; not where there is no summary.
fn counts_step(random: &mut Random, world: &World) -> Option<Step> {
    world.counts.as_ref()?;
    match random.percent(READ) {
        true => Some(match random.percent(50) {
            true => Step::Most,
            false => Step::Count(random.pick(&[0, 1, 2, world.sender.last, 255])),
        }),
        false => {
            let lend = Step::Lend(frames::other_counts(random));
            random.percent(LENT_OTHERWISE).then_some(lend)
        }
    }
}

fn draw(random: &mut Random, manner: &Manner, world: &World, begun: usize) -> Step {
    if let Some(step) = counts_step(random, world) {
        return step;
    }
    if comes_last(world) && random.percent(manner.dirty) {
        let lent = mostly_right_buffer(random, 80);
        return Step::ForwardDirty(frames::dirt(random), lent);
    }
    if is_waiting(world) && random.percent(manner.silent) {
        return Step::ReceiverTick;
    }
    if random.percent(manner.forward) {
        return onward(random, world, begun);
    }
    match random.weighted(&manner.weights) {
        0 => Step::SenderTick(begun),
        1 => Step::ReceiverTick,
        2 => Step::Forward(Way::Hear, BUFFER),
        3 => Step::Forward(Way::Lose, BUFFER),
        4 => Step::Forward(Way::Repeat, BUFFER),
        5 => Step::Back(Way::Hear),
        6 => Step::Back(Way::Lose),
        7 => Step::Back(Way::Repeat),
        8 => Step::Begin(random.pick(&[FIRST, SECOND, ODD, SHORT])),
        9 => Step::Post(random.pick(&[SHORT, SHORT, SHORT, FIRST])),
        10 => Step::SenderTick(random.pick(&[SECOND, ALIKE, ALIKE, ODD, SHORT])),
        11 => {
            let way = random.pick(&[Way::Hear, Way::Repeat]);
            Step::Forward(way, wrong_buffer(random))
        }
        12 => Step::SenderHears(frames::any(random, &world.sender, &world.receiver)),
        14 => Step::Hold,
        15 => Step::Resume,
        _ => {
            let frame = frames::any(random, &world.sender, &world.receiver);
            Step::ReceiverHears(frame, mostly_right_buffer(random, 90))
        }
    }
}

/// The receiver has waited, and need not wait for long.
fn is_waiting(world: &World) -> bool {
    world.receiver.wait > 0 && world.receiver.timeout <= 10
}

/// The next frame is the last of the message that the receiver takes or has taken.
fn comes_last(world: &World) -> bool {
    let (next, last) = (world.forward.front(), world.receiver.frames);
    last != 0 && next.is_some_and(|frame| frame.kind == 1 && frame.bytes[0] == last)
}

/// The length that a buffer has to have, so many times in a hundred.
pub fn mostly_right_buffer(random: &mut Random, share: usize) -> usize {
    match random.percent(share) {
        true => BUFFER,
        false => wrong_buffer(random),
    }
}

fn wrong_buffer(random: &mut Random) -> usize {
    random.pick(&[0, 1, 7, 8, 9, 14, 15, 1784, 1786, 2048])
}

/// What brings the transfer forward: frames on the line are heard; with none there a held receiver has its time and
/// resumes in the end, and the sender begins or ticks.
fn onward(random: &mut Random, world: &World, begun: usize) -> Step {
    if !world.back.is_empty() {
        Step::Back(Way::Hear)
    } else if !world.forward.is_empty() {
        Step::Forward(Way::Hear, BUFFER)
    } else if world.receiver.held && random.percent(60) {
        match random.percent(12) {
            true => Step::Resume,
            false => Step::ReceiverTick,
        }
    } else if world.sender.phase != 0 {
        Step::SenderTick(begun)
    } else {
        Step::Begin(random.pick(&[FIRST, FIRST, FIRST, SECOND]))
    }
}
