//! Frames near what the ends hold: of every kind, with right and with wrong filler.

use compare::packs::random::Random;
use compare::reference::frame::{carried, frames_for};

use crate::values::*;

/// Lengths at the edges of short and long, of frames and of the buffer.
pub const EDGE_LENGTHS: [usize; 12] = [0, 1, 7, 8, 9, 13, 14, 15, 1784, 1785, 1786, 1787];

/// A length that the counts may not have.
pub fn other_counts(random: &mut Random) -> usize {
    random.pick(&[0, 1, 2, 510, 511, 513, 514, 1024])
}

/// A frame that either end may hear, or must refuse.
pub fn any(random: &mut Random, sender: &FlatSender, receiver: &FlatReceiver) -> FlatFrame {
    let kind = match random.weighted(&[30, 30, 5, 10, 5, 5, 5, 10]) {
        7 => random.pick(&[0, 8, 9, 10, 127, 128, 129, 254, 255]),
        place => place as u8 + 1,
    };
    let mut bytes = [0xFF; 8];
    match kind {
        1 => information(random, &mut bytes, sender, receiver),
        2 => bytes[..2].copy_from_slice(&asked(random, sender)),
        3 => bytes[0] = random.byte(),
        4 => {
            let [n, low, high] = size(random, sender, receiver);
            bytes[..3].copy_from_slice(&[n, low, high]);
        }
        6 => bytes[0] = near(random, &[sender.first]),
        _ => bytes = random_bytes(random),
    }
    if random.percent(8) {
        bytes[random.between(0, 7)] = random.byte();
    }
    FlatFrame { kind, bytes }
}

/// Start and count of an LM_ACK; at times as a held receiver asks, for the frame before the last start.
fn asked(random: &mut Random, sender: &FlatSender) -> [u8; 2] {
    let before = sender.start.wrapping_sub(1);
    let starts = [0, 1, before, sender.start, sender.last, sender.frames];
    match random.percent(20) {
        true => [before, 1],
        false => [
            near(random, &starts),
            near(random, &[0, 1, 2, 255, sender.frames]),
        ],
    }
}

fn information(
    random: &mut Random,
    bytes: &mut [u8; 8],
    sender: &FlatSender,
    receiver: &FlatReceiver,
) {
    let number = match random.weighted(&[25, 15, 60]) {
        0 => 0,
        1 => return *bytes = last(random, receiver.frames, receiver.length).bytes,
        _ => {
            let above = receiver.frames.wrapping_add(1);
            let ends = [receiver.expected, receiver.last, receiver.frames, above];
            near(random, &ends)
        }
    };
    if number == 0 {
        let [n, low, high] = size(random, sender, receiver);
        bytes[..4].copy_from_slice(&[0, n, low, high]);
    } else {
        *bytes = random_bytes(random);
        bytes[0] = number;
    }
}

/// Frame 0 of the connection that a receiver has.
pub fn announcement(receiver: &FlatReceiver) -> FlatFrame {
    let [low, high] = receiver.length.to_le_bytes();
    let mut bytes = [0xFF; 8];
    bytes[..4].copy_from_slice(&[0, receiver.frames, low, high]);
    FlatFrame { kind: 1, bytes }
}

/// A frame of a message of this length: any bytes of it, and behind them filler, or mostly what a card left there.
pub fn last(random: &mut Random, number: u8, length: u16) -> FlatFrame {
    let mut bytes = random_bytes(random);
    bytes[0] = number;
    let filled = soiled(FlatFrame { kind: 1, bytes }, length, Dirt::All(0xFF));
    match random.percent(30) {
        true => filled,
        false => soiled(filled, length, dirt(random)),
    }
}

/// What a card leaves behind the message: a byte at the first place there, at the middle one, at the last, at all, or at each
/// that has its bit set, that of d1 the lowest.
#[derive(Clone, Copy, Debug, PartialEq, Eq)]
pub enum Dirt {
    First(u8),
    Middle(u8),
    Last(u8),
    All(u8),
    At(u8, u8),
}

pub fn dirt(random: &mut Random) -> Dirt {
    let byte = match random.percent(50) {
        true => random.pick(&[0x00, 0x01, 0x7F, 0x80, 0xFE]),
        false => random.between(0, 254) as u8,
    };
    match random.weighted(&[20, 20, 20, 10, 30]) {
        0 => Dirt::First(byte),
        1 => Dirt::Middle(byte),
        2 => Dirt::Last(byte),
        3 => Dirt::All(byte),
        _ => Dirt::At(random.between(1, 127) as u8, byte),
    }
}

/// The places behind a message of this length in an information frame with a number; none in any other frame.
pub fn behind(frame: &FlatFrame, length: u16) -> std::ops::Range<usize> {
    match (frame.kind, frame.bytes[0]) {
        (1, number @ 1..) => 1 + carried(number, length)..8,
        _ => 8..8,
    }
}

/// The frame with this dirt behind a message of this length.
pub fn soiled(mut frame: FlatFrame, length: u16, dirt: Dirt) -> FlatFrame {
    let places = behind(&frame, length);
    for place in places.clone() {
        let left = match dirt {
            Dirt::First(byte) => (place == places.start).then_some(byte),
            Dirt::Middle(byte) => (place == places.start + places.len() / 2).then_some(byte),
            Dirt::Last(byte) => (place == 7).then_some(byte),
            Dirt::All(byte) => Some(byte),
            Dirt::At(mask, byte) => (mask >> (place - 1) & 1 == 1).then_some(byte),
        };
        frame.bytes[place] = left.unwrap_or(frame.bytes[place]);
    }
    frame
}

/// One of these numbers, one beside it, or any.
fn near(random: &mut Random, numbers: &[u8]) -> u8 {
    let number = random.pick(numbers);
    match random.weighted(&[60, 12, 12, 16]) {
        0 => number,
        1 => number.wrapping_add(1),
        2 => number.wrapping_sub(1),
        _ => random.byte(),
    }
}

/// N and L: an end's, those of an edge or of any length, now and then with one of them off.
fn size(random: &mut Random, sender: &FlatSender, receiver: &FlatReceiver) -> [u8; 3] {
    let length = match random.weighted(&[35, 35, 20, 8, 2]) {
        0 => sender.length,
        1 => receiver.length,
        2 => random.pick(&EDGE_LENGTHS) as u16,
        3 => random.between(9, 1785) as u16,
        _ => random.between(0, 65535) as u16,
    };
    let [low, high] = length.to_le_bytes();
    let n = frames_for(length) as u8;
    match random.weighted(&[80, 8, 6, 6]) {
        0 => [n, low, high],
        1 => [near(random, &[n]), low, high],
        2 => [n, low.wrapping_add(1), high],
        _ => [n, high, low],
    }
}

pub fn random_bytes<const N: usize>(random: &mut Random) -> [u8; N] {
    std::array::from_fn(|_| random.byte())
}
