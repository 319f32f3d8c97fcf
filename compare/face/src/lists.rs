//! Version lists and messages, drawn from few numbers so that two lists have some in common.

use compare::packs::random::Random;

use crate::frames::random_bytes;
use crate::values::*;

/// Versions below, at and above 2.0.0, one apart from each other in each of the three bytes.
const VERSIONS: [u32; 14] = [
    0x000000, 0x000001, 0x010100, 0x010101, 0x01FFFF, 0x020000, 0x020001, 0x0200FF, 0x020100,
    0x030000, 0x7F0000, 0x800000, 0xFFFFFE, 0xFFFFFF,
];

/// So many different versions, rising.
fn rising(random: &mut Random, count: usize) -> Vec<u32> {
    let mut versions: Vec<u32> = Vec::new();
    while versions.len() < count {
        let version = match random.percent(85) {
            true => random.pick(&VERSIONS),
            false => u32::from_be_bytes(random_bytes(random)) >> 8,
        };
        if !versions.contains(&version) {
            versions.push(version);
        }
    }
    versions.sort();
    versions
}

/// A list as listing answers it.
pub fn accepted(random: &mut Random) -> FlatVersions {
    let count = random.between(1, 8);
    let mut numbers = [0; 8];
    numbers[..count].copy_from_slice(&rising(random, count));
    FlatVersions {
        count: count as u32,
        numbers,
    }
}

/// Past the eight places of a list, and where fewer bytes would hold another number.
const WIDE: [u32; 10] = [
    8,
    9,
    255,
    256,
    257,
    258,
    65535,
    65536,
    0x8000_0000,
    u32::MAX,
];

/// A count or a place of any size.
pub fn unjudged(random: &mut Random) -> u32 {
    match random.weighted(&[30, 60, 10]) {
        0 => random.between(0, 8) as u32,
        1 => random.pick(&WIDE),
        _ => u32::from_be_bytes(random_bytes(random)),
    }
}

/// A list as listing answers it, at times with another count.
pub fn forged(random: &mut Random) -> FlatVersions {
    let list = accepted(random);
    match random.percent(80) {
        true => list,
        false => FlatVersions {
            count: unjudged(random),
            ..list
        },
    }
}

/// What a talker may be made of: a list as listing answers it, or one with another count, with two versions equal or
/// exchanged, with a number of four bytes, or with another number at any place, past its count too.
pub fn offered(random: &mut Random) -> FlatVersions {
    let mut list = accepted(random);
    let count = list.count as usize;
    let later = random.between(1, count.max(2) - 1);
    match random.weighted(&[30, 30, 10, 10, 10, 10]) {
        0 => {}
        1 => {
            list.numbers.copy_from_slice(&rising(random, 8));
            list.count = unjudged(random);
        }
        2 => list.numbers[later] = list.numbers[later - 1],
        3 => list.numbers.swap(later - 1, later),
        4 => list.numbers[random.between(0, count - 1)] |= random.pick(&[1 << 24, 1 << 31]),
        _ => list.numbers[random.between(0, 7)] = u32::from_be_bytes(random_bytes(random)),
    }
    list
}

/// The versions that stand in a list: as many as it counts, eight at most.
pub fn standing(list: &FlatVersions) -> &[u32] {
    &list.numbers[..list.count.min(8) as usize]
}

/// The version at a place of a list, 0 past the eighth.
pub fn version_at(list: &FlatVersions, place: u32) -> u32 {
    list.numbers.get(place as usize).copied().unwrap_or(0)
}

/// The lent bytes of a list: good, of too few or too many versions, not rising, or with bytes left over.
pub fn lent(random: &mut Random) -> Vec<u8> {
    let count = match random.weighted(&[80, 15, 5]) {
        0 => random.between(1, 8),
        1 => random.pick(&[0, 9, 10, 11]),
        _ => random.pick(&[16, 255, 256, 257, 264]),
    };
    let mut versions = rising(random, count);
    if count > 1 && random.percent(25) {
        let place = random.between(1, count - 1);
        match random.percent(50) {
            true => versions[place] = versions[place - 1],
            false => versions.swap(place - 1, place),
        }
    }
    let mut bytes: Vec<u8> = versions
        .iter()
        .flat_map(|&version| three(version))
        .collect();
    match random.weighted(&[85, 10, 5]) {
        0 => {}
        1 => bytes.extend(&random_bytes::<2>(random)[..random.between(1, 2)]),
        _ => bytes.truncate(bytes.len().saturating_sub(random.between(1, 2))),
    }
    bytes
}

/// Main, minor and temporary number.
pub fn three(version: u32) -> [u8; 3] {
    let [_, main, minor, temporary] = version.to_be_bytes();
    [main, minor, temporary]
}

/// A message with a version of the list or another, seldom one that cannot be read.
pub fn message(random: &mut Random, versions: &FlatVersions) -> FlatVersionBytes {
    let version = match random.weighted(&[60, 30, 10]) {
        0 => versions.numbers[random.between(0, standing(versions).len().max(1) - 1)],
        1 => random.pick(&VERSIONS),
        _ => u32::from_be_bytes(random_bytes(random)),
    };
    let [main, minor, temporary] = three(version);
    let can = match random.percent(95) {
        true => 0,
        false => random.pick(&[1, 2, 128, 255]),
    };
    let result = match random.percent(95) {
        true => random.pick(&[0, 0, 0, 1, 1, 1, 1, 2]),
        false => random.pick(&[3, 4, 128, 255]),
    };
    let [control, transport, reserved] = random_bytes(random);
    FlatVersionBytes {
        bytes: [
            can, result, main, minor, temporary, control, transport, reserved,
        ],
    }
}
