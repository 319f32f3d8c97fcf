//! Mistakes in identifiers, version talk and parameter groups.

use super::Mistake;
use crate::interface::Around;
use crate::values::*;
use crate::Reference;

pub const MISTAKES: &[(&str, Mistake)] = &[
    ("PF and PS swapped in joining", Mistake::Join(pf_ps_swapped)),
    ("P of four bits", Mistake::Join(p_of_4_bits)),
    (
        "PF and PS swapped in splitting",
        Mistake::Split(split_swapped),
    ),
    ("DP is not judged", Mistake::Split(dp_unjudged)),
    ("30 bits are taken", Mistake::Split(thirty_bits)),
    (
        "the addresses swapped",
        Mistake::Named(|[a, b, c, d]| [b, a, c, d]),
    ),
    (
        "the version messages swapped",
        Mistake::Named(|[a, b, c, d]| [a, b, d, c]),
    ),
    ("a list of nine is taken", Mistake::List(nine)),
    ("equal versions are taken", Mistake::List(equal)),
    (
        "a list is counted modulo 256",
        Mistake::List(counted_modulo),
    ),
    (
        "a failure names the own version",
        Mistake::MessageWrite(failure_names),
    ),
    (
        "the control byte in the transport's place",
        Mistake::MessageWrite(control_moved),
    ),
    (
        "result 3 is written",
        Mistake::MessageWrite(result_3_written),
    ),
    (
        "result 2 is not written",
        Mistake::MessageWrite(result_2_refused),
    ),
    ("result 3 is read", Mistake::MessageRead(result_3)),
    ("CAN type 1 is read", Mistake::MessageRead(can_1)),
    ("made at the lowest version", Mistake::TalkerMake(at_lowest)),
    ("made of no versions", Mistake::TalkerMake(count_0)),
    ("made of a count of nine", Mistake::TalkerMake(count_9)),
    (
        "made of a count modulo 256",
        Mistake::TalkerMake(count_modulo),
    ),
    ("made of an unsorted list", Mistake::TalkerMake(unsorted)),
    (
        "made of two equal versions",
        Mistake::TalkerMake(equal_made),
    ),
    (
        "made of a version of four bytes",
        Mistake::TalkerMake(four_bytes),
    ),
    (
        "what stands past the count is judged",
        Mistake::TalkerMake(past_the_count),
    ),
    (
        "a refused making leaves the list",
        Mistake::TalkerMake(refused_kept),
    ),
    (
        "connect says success",
        Mistake::TalkerConnect(connect_success),
    ),
    ("a period of 49", Mistake::TalkerTick(period_49)),
    (
        "a place is taken modulo 256",
        Mistake::TalkerTick(place_modulo),
    ),
    (
        "the period before the limit",
        Mistake::TalkerTick(period_first),
    ),
    ("the limit a tick late", Mistake::TalkerTick(limit_late)),
    ("the vehicle's S3 is silent", Mistake::TalkerTick(s3_silent)),
    ("2.0.0 ends in S2", Mistake::TalkerHear(two_in_s2)),
    (
        "a hearing restarts the period",
        Mistake::TalkerHear(hearing_restarts),
    ),
    (
        "success with another version is passed over",
        Mistake::TalkerHear(not_resumed),
    ),
    ("none lower stays", Mistake::TalkerHear(none_lower)),
    (
        "stop is reported as a failure",
        Mistake::TalkerStop(stop_fails),
    ),
    (
        "the charger takes the greeting",
        Mistake::TalkerGreet(charger_greeted),
    ),
    (
        "functions heard keep the timers",
        Mistake::TalkerFunctionsHeard(timers_kept),
    ),
    (
        "a state of charge of 1001 is read",
        Mistake::GroupRead(charge_1001),
    ),
    ("0xFFFE is refused in 77", Mistake::GroupRead(mark_refused)),
    (
        "a temperature of 251 is read",
        Mistake::GroupRead(temperature_251),
    ),
    ("10 before 9", Mistake::GroupRead(value_first)),
    ("nine bytes are read", Mistake::GroupRead(nine_bytes)),
    (
        "a voltage of 65001 is written",
        Mistake::GroupWrite(voltage_65001),
    ),
    ("mode 0 is written", Mistake::GroupWrite(mode_0)),
    ("a byte over 255 is cut", Mistake::GroupWrite(byte_cut)),
    (
        "a refused write leaves the code",
        Mistake::GroupWrite(refused_writes),
    ),
    ("78 is not reliable", Mistake::GroupFind(unreliable)),
];

fn pf_ps_swapped(parts: FlatIdentifierParts, joined: &mut FlatIdentifierJoining) {
    let (pf, ps) = (parts.ps, parts.pf);
    *joined = Reference.identifier_join(FlatIdentifierParts { pf, ps, ..parts });
}

fn p_of_4_bits(parts: FlatIdentifierParts, joined: &mut FlatIdentifierJoining) {
    if parts.p == 8 {
        *joined = Reference.identifier_join(FlatIdentifierParts { p: 0, ..parts });
    }
}

fn split_swapped(_: u32, split: &mut FlatIdentifierSplitting) {
    std::mem::swap(&mut split.parts.pf, &mut split.parts.ps);
}

fn dp_unjudged(identifier: u32, split: &mut FlatIdentifierSplitting) {
    if identifier >> 24 & 1 == 1 {
        *split = Reference.identifier_split(identifier & !(1 << 24));
    }
}

fn thirty_bits(identifier: u32, split: &mut FlatIdentifierSplitting) {
    if identifier >> 29 == 1 {
        *split = Reference.identifier_split(identifier & 0x1FFF_FFFF);
    }
}

fn nine(bytes: &[u8], listing: &mut FlatVersionListing) {
    if bytes.len() == 27 {
        *listing = Reference.version_list(&bytes[..24]);
    }
}

fn equal(bytes: &[u8], listing: &mut FlatVersionListing) {
    if bytes.len() == 6 && bytes[..3] == bytes[3..] {
        *listing = Reference.version_list(&bytes[..3]);
    }
}

fn counted_modulo(bytes: &[u8], listing: &mut FlatVersionListing) {
    if bytes.len() > 768 {
        *listing = Reference.version_list(&bytes[..bytes.len() - 768]);
    }
}

fn failure_names(message: FlatVersionMessage, writing: &mut FlatVersionWriting) {
    if message.verdict == 2 {
        let [_, main, minor, temporary] = message.version.to_be_bytes();
        writing.bytes.bytes[2..5].copy_from_slice(&[main, minor, temporary]);
    }
}

fn control_moved(_: FlatVersionMessage, writing: &mut FlatVersionWriting) {
    writing.bytes.bytes.swap(5, 6);
}

/// As continue.
fn result_3_written(message: FlatVersionMessage, writing: &mut FlatVersionWriting) {
    if message.verdict == 3 {
        *writing = Reference.version_message_write(FlatVersionMessage {
            verdict: 0,
            ..message
        });
    }
}

fn result_2_refused(message: FlatVersionMessage, writing: &mut FlatVersionWriting) {
    if message.verdict == 2 {
        *writing = Reference.version_message_write(FlatVersionMessage {
            verdict: 3,
            ..message
        });
    }
}

fn result_3(bytes: FlatVersionBytes, reading: &mut FlatVersionReading) {
    if bytes.bytes[1] == 3 {
        reading.refusal = 0;
    }
}

fn can_1(bytes: FlatVersionBytes, reading: &mut FlatVersionReading) {
    let mut other = bytes;
    if bytes.bytes[0] == 1 {
        other.bytes[0] = 0;
        *reading = Reference.version_message_read(other);
    }
}

fn at_lowest(_: u8, _: FlatVersions, made: &mut FlatTalkerMade) {
    made.talker.place = 0;
}

/// Made of another list, and kept with the given one.
fn made_of(side: u8, list: FlatVersions, versions: FlatVersions, made: &mut FlatTalkerMade) {
    let control = made.talker.control;
    *made = Reference.talker_make(side, list, control);
    if made.refusal == 0 {
        made.talker.versions = versions;
    }
}

/// With version 0.0.0.
fn count_0(side: u8, versions: FlatVersions, made: &mut FlatTalkerMade) {
    if versions.count == 0 {
        let list = FlatVersions {
            count: 1,
            numbers: [0; 8],
        };
        made_of(side, list, versions, made);
    }
}

fn count_9(side: u8, versions: FlatVersions, made: &mut FlatTalkerMade) {
    if versions.count == 9 {
        let list = FlatVersions {
            count: 8,
            ..versions
        };
        made_of(side, list, versions, made);
    }
}

fn count_modulo(side: u8, versions: FlatVersions, made: &mut FlatTalkerMade) {
    let list = FlatVersions {
        count: versions.count % 256,
        ..versions
    };
    made_of(side, list, versions, made);
}

fn unsorted(side: u8, versions: FlatVersions, made: &mut FlatTalkerMade) {
    let mut list = versions;
    list.numbers[..versions.count.min(8) as usize].sort();
    made_of(side, list, versions, made);
}

fn equal_made(side: u8, versions: FlatVersions, made: &mut FlatTalkerMade) {
    let [first, second, ..] = versions.numbers;
    if versions.count == 2 && first == second {
        let list = FlatVersions {
            count: 1,
            ..versions
        };
        made_of(side, list, versions, made);
    }
}

/// Judged by its three bytes.
fn four_bytes(side: u8, versions: FlatVersions, made: &mut FlatTalkerMade) {
    let list = FlatVersions {
        numbers: versions.numbers.map(|number| number & 0x00FF_FFFF),
        ..versions
    };
    made_of(side, list, versions, made);
}

fn past_the_count(side: u8, versions: FlatVersions, made: &mut FlatTalkerMade) {
    let past = versions.numbers.iter().skip(versions.count as usize);
    if past.into_iter().any(|&number| number != 0) {
        let none = FlatVersions::default();
        made_of(side, none, versions, made);
    }
}

fn refused_kept(side: u8, versions: FlatVersions, made: &mut FlatTalkerMade) {
    if made.refusal != 0 {
        (made.talker.side, made.talker.versions) = (side, versions);
    }
}

fn connect_success(_: FlatTalker, a: &mut FlatTalkerAnswer) {
    if a.emits {
        (a.next.verdict, a.bytes.bytes[1]) = (1, 1);
    }
}

fn period_49(t: FlatTalker, a: &mut FlatTalkerAnswer) {
    if t.state == 1 && t.period == 48 && a.outcome == 0 {
        *a = Reference.talker_tick(FlatTalker { period: 49, ..t });
    }
}

fn place_modulo(t: FlatTalker, a: &mut FlatTalkerAnswer) {
    let place = t.place % 256;
    *a = Reference.talker_tick(FlatTalker { place, ..t });
    a.next.place = t.place;
}

fn period_first(t: FlatTalker, a: &mut FlatTalkerAnswer) {
    if t.state == 1 && t.period == 49 && a.outcome == 3 {
        *a = Reference.talker_tick(FlatTalker { age: 0, ..t });
    }
}

fn limit_late(t: FlatTalker, a: &mut FlatTalkerAnswer) {
    if t.state == 1 && t.age == 14999 {
        *a = Reference.talker_tick(FlatTalker { age: 14998, ..t });
        a.next.age = 15000;
    }
}

fn s3_silent(t: FlatTalker, a: &mut FlatTalkerAnswer) {
    if t.state == 3 {
        (a.emits, a.bytes) = (false, FlatVersionBytes::default());
    }
}

fn two_in_s2(_: FlatTalker, _: FlatVersionBytes, a: &mut FlatTalkerAnswer) {
    if a.version == 0x020000 {
        (a.next.state, a.next.timing) = (2, false);
    }
}

fn hearing_restarts(t: FlatTalker, _: FlatVersionBytes, a: &mut FlatTalkerAnswer) {
    if t.state == 1 && a.outcome == 0 {
        a.next.period = 0;
    }
}

fn not_resumed(t: FlatTalker, bytes: FlatVersionBytes, a: &mut FlatTalkerAnswer) {
    if t.state == 1 && t.verdict == 1 && bytes.bytes[1] == 1 && a.outcome == 0 {
        a.next.verdict = 1;
    }
}

fn none_lower(t: FlatTalker, bytes: FlatVersionBytes, a: &mut FlatTalkerAnswer) {
    if bytes.bytes[1] == 0 && a.outcome == 3 {
        let none = FlatVersionBytes::default();
        (a.next, a.emits, a.bytes, a.outcome) = (t, false, none, 0);
    }
}

fn stop_fails(_: FlatTalker, a: &mut FlatTalkerAnswer) {
    if a.outcome == 7 {
        a.outcome = 3;
    }
}

fn charger_greeted(t: FlatTalker, a: &mut FlatTalkerAnswer) {
    if t.side == 0 {
        *a = Reference.talker_greet(FlatTalker { side: 1, ..t });
        a.next.side = 0;
    }
}

fn timers_kept(t: FlatTalker, a: &mut FlatTalkerAnswer) {
    a.next = FlatTalker {
        timing: t.timing,
        period: a.next.period,
        ..a.next
    };
}

/// Reads these bytes instead, if they are eight of this code.
fn instead(bytes: &[u8], code: u8, change: &dyn Fn(&mut [u8])) -> Option<FlatGroupReading> {
    if bytes.len() != 8 || bytes[0] != code {
        return None;
    }
    let mut changed = bytes.to_vec();
    change(&mut changed);
    (changed != bytes).then(|| Reference.group_read(&changed))
}

fn charge_1001(bytes: &[u8], reading: &mut FlatGroupReading) {
    let put = |changed: &mut [u8]| {
        if changed[1..3] == 1001u16.to_le_bytes() {
            changed[1..3].copy_from_slice(&1000u16.to_le_bytes());
        }
    };
    if let Some(taken) = instead(bytes, 0x74, &put) {
        *reading = taken;
    }
}

fn mark_refused(bytes: &[u8], reading: &mut FlatGroupReading) {
    let marked = reading.group.code == 0x77 && reading.group.first == 0xFFFE;
    if bytes.len() == 8 && marked {
        reading.refusal = 10;
        reading.group = FlatGroup::default();
    }
}

fn temperature_251(bytes: &[u8], reading: &mut FlatGroupReading) {
    let put = |changed: &mut [u8]| {
        if changed[5] == 251 {
            changed[5] = 250;
        }
    };
    if let Some(taken) = instead(bytes, 0x77, &put) {
        *reading = taken;
    }
}

fn value_first(bytes: &[u8], reading: &mut FlatGroupReading) {
    let put = |changed: &mut [u8]| changed[2..].fill(0xFF);
    if let (Some(taken), 9) = (instead(bytes, 0x71, &put), reading.refusal) {
        if taken.refusal == 10 {
            *reading = taken;
        }
    }
}

fn nine_bytes(bytes: &[u8], reading: &mut FlatGroupReading) {
    if bytes.len() == 9 {
        *reading = Reference.group_read(&bytes[..8]);
    }
}

fn voltage_65001(group: FlatGroup, bytes: &mut [u8], done: &mut FlatGroupWriting) {
    if group.code == 0x76 && group.first == 65001 {
        let first = 65000;
        *done = Reference.group_write(FlatGroup { first, ..group }, bytes);
    }
}

fn mode_0(group: FlatGroup, bytes: &mut [u8], done: &mut FlatGroupWriting) {
    if group.code == 0x73 && group.third == 0 {
        let third = 1;
        *done = Reference.group_write(FlatGroup { third, ..group }, bytes);
    }
}

fn byte_cut(group: FlatGroup, bytes: &mut [u8], done: &mut FlatGroupWriting) {
    if group.code == 0x71 && group.first > 255 {
        let first = group.first % 256;
        *done = Reference.group_write(FlatGroup { first, ..group }, bytes);
    }
}

fn refused_writes(group: FlatGroup, bytes: &mut [u8], done: &mut FlatGroupWriting) {
    if done.refusal == 10 {
        bytes[0] = group.code;
    }
}

fn unreliable(code: u8, finding: &mut FlatGroupFinding) {
    if code == 0x78 {
        finding.row.reliable = false;
    }
}
