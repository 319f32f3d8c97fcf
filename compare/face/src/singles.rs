//! Single calls of the clean figures, identifiers, version lists and messages, and parameter groups.

use compare::packs::random::Random;
use compare::reference::groups::ROWS;

use crate::call::Call;
use crate::frames::random_bytes;
use crate::lists::{accepted, lent, message, offered};
use crate::values::*;

/// Mostly a long message's length and a sender's gap; else at their edges, wide numbers among them.
pub fn figures_call(random: &mut Random) -> Call {
    let wide = [255, 256, 257, 65535, 65536, 65545, u32::MAX];
    let length = match random.weighted(&[70, 20, 10]) {
        0 => random.between(9, 1785) as u32,
        1 => random.pick(&[0, 1, 7, 8, 9, 14, 15, 1784, 1785, 1786, 1787, 1792]),
        _ => random.pick(&wide),
    };
    let gap = match random.weighted(&[80, 10, 10]) {
        0 => random.between(1, 10) as u32,
        1 => random.pick(&[0, 11, 12]),
        _ => random.pick(&wide),
    };
    Call::CleanFigures(length, gap)
}

pub fn identifier_call(random: &mut Random) -> Call {
    match random.weighted(&[48, 48, 1, 1, 1, 1]) {
        0 => Call::Join(parts(random)),
        1 => Call::Split(identifier(random)),
        2 => Call::ChargerAddress,
        3 => Call::VehicleAddress,
        4 => Call::ChargerVersion,
        _ => Call::VehicleVersion,
    }
}

/// Mostly within their widths; EDP and DP mostly 0.
fn parts(random: &mut Random) -> FlatIdentifierParts {
    let part = |random: &mut Random, most: usize| match random.percent(92) {
        true => random.between(0, most) as u32,
        false => {
            let most = most as u32;
            random.pick(&[most, most + 1, 255, 256, 65536, 1 << 31, u32::MAX])
        }
    };
    FlatIdentifierParts {
        p: part(random, 7),
        edp: part(random, 0),
        dp: part(random, 0),
        pf: part(random, 255),
        ps: part(random, 255),
        sa: part(random, 255),
    }
}

fn identifier(random: &mut Random) -> u32 {
    let any = u32::from_le_bytes(random_bytes(random));
    match random.weighted(&[60, 20, 10, 10]) {
        0 => any & 0x1CFF_FFFF,
        1 => any & 0x1FFF_FFFF,
        2 => any,
        _ => random.pick(&[
            0,
            0x0C38_F456,
            0x00FF_FFFF,
            0x0100_0000,
            0x0200_0000,
            0x1CFF_FFFF,
            0x1FFF_FFFF,
            0x2000_0000,
            u32::MAX,
        ]),
    }
}

pub fn version_call(random: &mut Random) -> Call {
    match random.weighted(&[30, 25, 25, 20]) {
        0 => Call::List(lent(random)),
        1 => Call::MessageWrite(FlatVersionMessage {
            verdict: match random.percent(75) {
                true => random.between(0, 2) as u8,
                false => random.pick(&[3, 4, 128, 255]),
            },
            version: u32::from_le_bytes(random_bytes(random)) & 0x00FF_FFFF,
            control: random.byte(),
        }),
        2 => {
            let versions = accepted(random);
            Call::MessageRead(message(random, &versions))
        }
        _ => Call::TalkerMake(random.pick(&[0, 1, 2, 255]), offered(random), random.byte()),
    }
}

pub fn group_call(random: &mut Random) -> Call {
    match random.weighted(&[48, 48, 4]) {
        0 => Call::GroupRead(group_bytes(random)),
        1 => Call::GroupWrite(group(random), lent_bytes(random)),
        _ => Call::GroupFind(code(random)),
    }
}

/// Mostly a group's.
fn code(random: &mut Random) -> u8 {
    match random.percent(92) {
        true => random.between(0x71, 0x79) as u8,
        false => random.pick(&[0x00, 0x31, 0x33, 0x70, 0x7A, 0xF1, 0xFF]),
    }
}

/// Numbers at the edges of the fields' ranges, or any within a range.
fn value(random: &mut Random) -> u16 {
    match random.weighted(&[30, 20, 20, 20, 10]) {
        0 => random.pick(&[0, 1, 2, 3, 0xAA, 0xFF, 0x00FE, 250, 251]),
        1 => random.pick(&[999, 1000, 1001, 64999, 65000, 65001]),
        2 => random.pick(&[0xFFFD, 0xFFFE, 0xFFFF, 256, 257, 0xAA00, 0x01FF, 0x0100]),
        3 => random.between(0, 1000) as u16,
        _ => random.between(0, 65535) as u16,
    }
}

/// The fields' widths of 0x71 to 0x79, by 001 tables H.3 to H.11.
const WIDTHS: [[usize; 4]; 9] = [
    [1, 0, 0, 0],
    [1, 2, 0, 0],
    [2, 2, 1, 0],
    [2, 2, 0, 0],
    [2, 1, 0, 0],
    [2, 2, 0, 0],
    [2, 2, 1, 1],
    [1, 0, 0, 0],
    [1, 0, 0, 0],
];

/// A value that a field of this width may hold, so that not every group is refused.
fn fitting(random: &mut Random, width: usize) -> u16 {
    match width {
        0 => 0,
        1 => random.pick(&[0, 1, 1, 2, 0xAA, 0xFF, 0xFE, 250]),
        _ => random.between(0, 1000) as u16,
    }
}

fn group(random: &mut Random) -> FlatGroup {
    let code = code(random);
    let place = usize::from(code).wrapping_sub(0x71);
    let widths = WIDTHS.get(place).copied().unwrap_or([2; 4]);
    let [first, second, third, fourth] = widths.map(|width| match random.percent(80) {
        true => fitting(random, width),
        false => value(random),
    });
    FlatGroup {
        code,
        first,
        second,
        third,
        fourth,
    }
}

/// Eight bytes as they may stand where a group is to be written, seldom more or fewer.
fn lent_bytes(random: &mut Random) -> Vec<u8> {
    let length = match random.percent(95) {
        true => 8,
        false => random.pick(&[0, 1, 7, 9, 16]),
    };
    (0..length).map(|_| random.byte()).collect()
}

/// The bytes of a group, and filler after them, with something wrong now and then.
fn group_bytes(random: &mut Random) -> Vec<u8> {
    let group = group(random);
    let place = usize::from(group.code).wrapping_sub(0x71);
    let length = ROWS.get(place).map_or(2, |row| row.length);
    let mut bytes = vec![group.code];
    let values = [group.first, group.second, group.third, group.fourth];
    let widths = WIDTHS.get(place).copied().unwrap_or([2; 4]);
    for (value, width) in values.iter().zip(widths) {
        bytes.extend(&value.to_le_bytes()[..width]);
    }
    bytes.truncate(length);
    bytes.resize(8, 0xFF);
    match random.weighted(&[85, 7, 3, 3, 2]) {
        0 => {}
        1 => bytes[random.between(0, 7)] = random.byte(),
        2 => bytes.truncate(random.between(0, 7)),
        3 => bytes.resize(random.between(9, 16), 0xFF),
        _ => bytes.fill_with(|| random.byte()),
    }
    bytes
}
