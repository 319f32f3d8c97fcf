//! Single calls of the ends and of talkers on forged states: states that a caller can build and calls need not lead to.
//!
//! Fields are drawn freely, those that a phase has not included, but only as far as the documents speak of them. Beyond that
//! the face and the reference read "= M", "at T" and the like each in its own way (`compare/NOTES.md`, 13;
//! `docs/DECISIONS.md`, "States that no calls make"), so these hold of every forged state:
//! - the counts are below their limits: age < M, wait < T, gap count < G, a sender's misses < 3; a talker's period < 50,
//!   age < 15000;
//! - a held receiver has had at most its 20 held timeouts;
//! - a receiver that expects frame 1 and hears something does not wait after a frame: none has been accepted, and whether the
//!   LM_ACK to an announcement that comes again is then the later of the two, nothing says;
//! - N is that of L at the sender, which is 1785 at most (the reference counts N from L), 1 in Short;
//! - the gap is 1 to 255 and the window 1 to 255 (bytes in the reference, and no end has 0);
//! - at a receiver's tick and resume the number expected is 1 to N (w − e + 1 is below 0 otherwise);
//! - a talker's timers stand as its state has them; its versions are below 2^24; and where the version at its place is not
//!   in its list, it hears no continue with that version (the reference keeps it after the list, and finds it there).

use compare::packs::random::Random;
use compare::reference::frame::frames_for;

use crate::call::{Call, Counts};
use crate::frames::{self, EDGE_LENGTHS};
use crate::lists::{self, message, standing, three, unjudged, version_at};
use crate::sessions::{mostly_right_buffer, part};
use crate::values::*;

/// A call of an end in a forged state.
pub fn end_call(random: &mut Random) -> Call {
    let (sender, receiver) = (sender(random), receiver(random));
    match random.weighted(&[8, 6, 32, 22, 16, 6, 6, 24, 20, 4]) {
        0 => Call::SenderBegin(sender, any_part(random, sender.length)),
        1 => {
            let length = random.between(0, 10);
            Call::SenderPost(sender, part(random, length))
        }
        2 => Call::SenderTick(sender, any_part(random, sender.length)),
        3 => Call::SenderHear(sender, frames::any(random, &sender, &receiver)),
        4 => Call::ReceiverTick(expecting(random, receiver)),
        5 => Call::ReceiverHold(receiver),
        6 => Call::ReceiverResume(expecting(random, receiver)),
        7 => {
            let frame = frames::any(random, &sender, &receiver);
            Call::ReceiverHear(begun(receiver), frame, mostly_right_buffer(random, 96))
        }
        9 => {
            let receiver = just_opened(receiver);
            let frame = frames::announcement(&receiver);
            Call::ReceiverHear(begun(receiver), frame, mostly_right_buffer(random, 96))
        }
        _ => {
            let (receiver, number) = ending(random, receiver);
            let frame = frames::last(random, number, receiver.length);
            Call::ReceiverHear(begun(receiver), frame, mostly_right_buffer(random, 85))
        }
    }
}

/// A call of the summary, with a sender in a forged state or counts that a caller has written.
pub fn summary_call(random: &mut Random) -> Call {
    let sender = sender(random);
    match random.weighted(&[16, 8, 34, 16, 8, 18]) {
        0 => {
            let length = random.pick(&EDGE_LENGTHS);
            let phase = random.pick(&[0, sender.phase]);
            let sender = FlatSender { phase, ..sender };
            Call::SummaryBegin(sender, part(random, length), counts(random, &sender))
        }
        1 => {
            let length = random.between(0, 12);
            Call::SummaryPost(sender, part(random, length), counts(random, &sender))
        }
        2 => {
            // Mostly with time left, so that frames go out.
            let age = random.pick(&[0, 0, 0, sender.age]);
            let sender = FlatSender { age, ..sender };
            let part = any_part(random, sender.length);
            Call::SummaryTick(sender, part, counts(random, &sender))
        }
        3 => {
            let frame = frames::any(random, &sender, &FlatReceiver::default());
            Call::SummaryHear(sender, frame, counts(random, &sender))
        }
        4 => {
            let number = random.pick(&[0, 1, 127, 128, 254, 255, sender.last]);
            Call::SummaryCount(number, counts(random, &sender))
        }
        _ => Call::SummaryMost(counts(random, &sender)),
    }
}

/// Counts, mostly of the right length: all alike, a few of them set, any bytes, or those of the numbers that may go out next
/// at an edge.
fn counts(random: &mut Random, sender: &FlatSender) -> Counts {
    let mut bytes = match random.weighted(&[15, 5, 40, 10, 30]) {
        0 => vec![0; COUNTS],
        1 => vec![random.byte(); COUNTS],
        2 => few_counts(random),
        3 => (0..COUNTS).map(|_| random.byte()).collect(),
        _ => edge_counts(random, sender),
    };
    if random.percent(15) {
        bytes.resize(frames::other_counts(random), 0);
    }
    Counts(bytes)
}

fn set_count(bytes: &mut [u8], number: u8, count: u16) {
    let place = 2 * usize::from(number);
    bytes[place..place + 2].copy_from_slice(&count.to_le_bytes());
}

/// One to three numbers that were sent, two of them mostly equally often.
fn few_counts(random: &mut Random) -> Vec<u8> {
    let mut bytes = vec![random.pick(&[0, 0, 0, 1]); COUNTS];
    let count = random.pick(&[1, 2, 7, 255, 256, 257, 512, 65534, 65535]);
    for _ in 0..random.between(1, 3) {
        let number = match random.percent(70) {
            true => random.pick(&[0, 1, 127, 128, 254, 255, 255]),
            false => random.byte(),
        };
        let beside = random.pick(&[0, 0, 0, 1, 255]);
        set_count(&mut bytes, number, count - beside.min(count));
    }
    bytes
}

fn edge_counts(random: &mut Random, sender: &FlatSender) -> Vec<u8> {
    let mut bytes = vec![random.pick(&[0x00, 0xFF]); COUNTS];
    for number in [0, sender.due, sender.last] {
        let count = random.pick(&[0, 254, 255, 255, 255, 256, 511, 65534, 65535, 65535, 65535]);
        set_count(&mut bytes, number, count);
    }
    bytes
}

/// Settings at making, within their limits, at them and past them.
pub fn make_call(random: &mut Random) -> Call {
    let timeout = edge(random, &[0, 1, 10000, 10001, 65535]);
    match random.percent(50) {
        true => Call::SenderMake([
            edge(random, &[0, 1, 10, 11, 255, 256, 257, 266, 65535]),
            timeout,
            edge(random, &[0, 1, 60000, 60001, 65535]),
        ]),
        false => Call::ReceiverMake([
            timeout,
            edge(random, &[0, 1, 255, 256, 257, 511, 65535]),
            edge(random, &[0, 8, 9, 1785, 1786, 65535]),
        ]),
    }
}

/// One of these numbers, one beside it, or any.
fn edge(random: &mut Random, numbers: &[u16]) -> u16 {
    let number = random.pick(numbers);
    match random.weighted(&[70, 10, 10, 10]) {
        0 => number,
        1 => number.wrapping_add(1),
        2 => number.wrapping_sub(1),
        _ => random.between(0, 65535) as u16,
    }
}

/// Mostly of this length.
fn any_part(random: &mut Random, length: u16) -> crate::call::Part {
    let length = match random.percent(85) {
        true => length.into(),
        false => random.pick(&EDGE_LENGTHS),
    };
    part(random, length)
}

/// A count below its limit, mostly by one.
fn below(random: &mut Random, limit: u16) -> u16 {
    match random.percent(50) {
        true => limit - 1,
        false => random.between(0, usize::from(limit) - 1) as u16,
    }
}

fn setting(random: &mut Random) -> u16 {
    match random.percent(70) {
        true => random.between(1, 10) as u16,
        false => random.between(1, 65535) as u16,
    }
}

fn sender(random: &mut Random) -> FlatSender {
    let (gap, timeout) = (random.between(1, 255) as u16, setting(random));
    let limit = setting(random);
    let phase = match random.weighted(&[10, 20, 30, 20, 18, 2]) {
        5 => random.between(5, 255) as u8,
        phase => phase as u8,
    };
    let length = match random.percent(30) {
        true => random.pick(&EDGE_LENGTHS).min(1785),
        false => random.between(0, 1785),
    } as u16;
    let frames = match phase {
        4 => 1,
        _ => frames_for(length) as u8,
    };
    let number = |random: &mut Random| match random.percent(60) {
        true => random.between(0, usize::from(frames)) as u8,
        false => random.byte(),
    };
    FlatSender {
        gap,
        timeout,
        limit,
        phase,
        length,
        frames,
        first: random.byte(),
        age: below(random, limit),
        emitted: random.pick(&[0, 1, 60000, 65534, 65535]),
        wait: below(random, timeout),
        misses: random.between(0, 2) as u16,
        start: number(random),
        due: number(random),
        last: number(random),
        count: below(random, gap),
    }
}

fn receiver(random: &mut Random) -> FlatReceiver {
    let timeout = setting(random);
    let phase = match random.weighted(&[15, 20, 63, 2]) {
        3 => random.between(3, 255) as u8,
        phase => phase as u8,
    };
    let length = match random.weighted(&[25, 60, 15]) {
        0 => random.pick(&EDGE_LENGTHS),
        1 => random.between(9, 1785),
        _ => random.between(0, 65535),
    } as u16;
    let frames = match random.percent(80) {
        true => frames_for(length) as u8,
        false => random.byte(),
    };
    let expected = match random.weighted(&[30, 50, 20]) {
        0 => frames,
        1 => random.between(1, frames.max(1).into()) as u8,
        _ => random.byte(),
    };
    let held = random.percent(40);
    FlatReceiver {
        timeout,
        window: random.between(1, 255) as u8,
        capacity: edge(random, &[0, 9, 1785, 65535, length]),
        phase,
        frames,
        length,
        expected,
        last: random.pick(&[expected, frames, 0, 255]),
        wait: below(random, timeout),
        misses: any_misses(random),
        held,
        holds: any_holds(random, held),
    }
}

fn any_holds(random: &mut Random, held: bool) -> u8 {
    match (random.percent(50), held) {
        (true, _) => random.pick(&[0, 19, 20]),
        (false, true) => random.between(0, 20) as u8,
        (false, false) => random.byte(),
    }
}

/// One of the five numbers, seldom another, which is read as 0.
fn any_misses(random: &mut Random) -> u8 {
    match random.percent(88) {
        true => random.between(0, 4) as u8,
        false => random.between(5, 255) as u8,
    }
}

/// The same before its first frame, and not held.
fn just_opened(receiver: FlatReceiver) -> FlatReceiver {
    FlatReceiver {
        phase: 2,
        expected: 1,
        held: false,
        ..receiver
    }
}

/// The same, which waits after a frame only if one came before the frame that it expects.
fn begun(receiver: FlatReceiver) -> FlatReceiver {
    match (receiver.expected, receiver.misses) {
        (1, misses::NONE_AFTER_FRAME) => FlatReceiver {
            misses: misses::NONE_AFTER_ACK,
            ..receiver
        },
        _ => receiver,
    }
}

/// The same with a number expected that the message has.
fn expecting(random: &mut Random, receiver: FlatReceiver) -> FlatReceiver {
    let frames = receiver.frames.max(1);
    FlatReceiver {
        expected: random.between(1, frames.into()) as u8,
        frames,
        ..receiver
    }
}

/// Mostly an open receiver at the end of its message, and a frame's number: N, mostly expected; or, where N lies further on
/// than L asks for, the frame in which L ends or the one after it, expected too, and at times at a window's end.
fn ending(random: &mut Random, receiver: FlatReceiver) -> (FlatReceiver, u8) {
    let end = frames_for(receiver.length).min(255) as u8;
    let (frames, expected, number) = match random.weighted(&[60, 10, 25, 5]) {
        0 => (end, end, end),
        1 => (end, receiver.expected, end),
        place => {
            let number = end.saturating_add(place as u8 - 2);
            (random.between(end.into(), 255) as u8, number, number)
        }
    };
    let phase = match random.percent(70) {
        true => 2,
        false => receiver.phase,
    };
    let receiver = FlatReceiver {
        phase,
        frames,
        expected,
        last: random.pick(&[expected, receiver.last]),
        held: random.percent(20),
        holds: receiver.holds.min(20),
        ..receiver
    };
    (receiver, number)
}

/// A call of a talker in a forged state.
pub fn talker_call(random: &mut Random) -> Call {
    let talker = talker(random);
    match random.weighted(&[10, 35, 35, 7, 7, 6]) {
        0 => Call::TalkerConnect(talker),
        1 => Call::TalkerTick(talker),
        2 => Call::TalkerHear(talker, heard(random, &talker)),
        3 => Call::TalkerStop(talker),
        4 => Call::TalkerGreet(talker),
        _ => Call::TalkerFunctionsHeard(talker),
    }
}

/// A message, at times with the version at Ns, which is no continue where the list has not that version.
fn heard(random: &mut Random, talker: &FlatTalker) -> FlatVersionBytes {
    let own = version_at(&talker.versions, talker.place);
    let mut heard = message(random, &talker.versions);
    let [_, result, version @ .., _, _, _] = &mut heard.bytes;
    if random.percent(20) {
        *version = three(own);
    }
    if *version == three(own) && *result == 0 && !standing(&talker.versions).contains(&own) {
        *result = 1;
    }
    heard
}

fn talker(random: &mut Random) -> FlatTalker {
    let versions = lists::forged(random);
    let place = match random.percent(80) {
        true => random.between(0, standing(&versions).len().max(1) - 1) as u32,
        false => unjudged(random),
    };
    let number = |random: &mut Random, most: usize| match random.percent(95) {
        true => random.between(0, most) as u8,
        false => random.byte(),
    };
    let side = number(random, 1);
    let state = match random.percent(60) {
        true => 1,
        false => number(random, 5),
    };
    let timing = side == 1 && state == 3 && random.percent(70);
    let (period, age) = (below(random, 50), below(random, 15000));
    FlatTalker {
        side,
        versions,
        control: random.byte(),
        state,
        place,
        verdict: number(random, 2),
        period: if state == 1 || timing { period } else { 0 },
        age: if state == 1 { age } else { 0 },
        timing,
    }
}
