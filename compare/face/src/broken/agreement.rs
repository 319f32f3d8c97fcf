//! Mistakes in version talk that show where both sides talk over one line. Those of `BREAKING` also break a claim on what two
//! talkers guarantee together (document 02, E5): two agree otherwise than on the highest version that they share, or fail
//! though they share one. Those of `DIFFERING` only answer otherwise.

use super::Mistake;
use crate::interface::Around;
use crate::lists::{standing, three, version_at};
use crate::values::*;
use crate::Reference;

pub const BREAKING: &[(&str, Mistake)] = &[
    (
        "a step goes to the lowest version",
        Mistake::TalkerHear(to_the_lowest),
    ),
    (
        "a step passes over a version",
        Mistake::TalkerHear(one_too_low),
    ),
    (
        "a lower version heard fails",
        Mistake::TalkerHear(lower_fails),
    ),
    (
        "a higher version heard fails",
        Mistake::TalkerHear(higher_fails),
    ),
    (
        "the same version is looked for at Ns alone",
        Mistake::TalkerHear(same_at_ns_alone),
    ),
    (
        "a version heard is taken into the list",
        Mistake::TalkerHear(taken_in),
    ),
    (
        "agreed names the highest version",
        Mistake::TalkerHear(names_the_highest),
    ),
    (
        "the vehicle's agreed names the version below",
        Mistake::TalkerHear(vehicle_names_below),
    ),
    (
        "made one below the highest",
        Mistake::TalkerMake(made_below),
    ),
];

pub const DIFFERING: &[(&str, Mistake)] = &[
    (
        "a failure heard is passed over",
        Mistake::TalkerHear(failure_passed_over),
    ),
    (
        "a failure said names the own version",
        Mistake::TalkerHear(failure_with_version),
    ),
    (
        "the vehicle agrees in silence",
        Mistake::TalkerHear(agrees_in_silence),
    ),
    (
        "the charger's S3 goes on",
        Mistake::TalkerHear(charger_goes_on),
    ),
    (
        "success is said at once",
        Mistake::TalkerHear(success_at_once),
    ),
    (
        "the last period before the limit is passed over",
        Mistake::TalkerTick(last_period_lost),
    ),
];

const CONTINUE: u8 = 0;
const FAILURE: u8 = 2;

/// A continue of a version that S1 has not in its list; the version.
fn other_version(t: FlatTalker, bytes: FlatVersionBytes) -> Option<u32> {
    let [can, result, main, minor, temporary, ..] = bytes.bytes;
    let version = u32::from_be_bytes([0, main, minor, temporary]);
    let other = t.state == 1 && can == 0 && result == CONTINUE;
    (other && !standing(&t.versions).contains(&version)).then_some(version)
}

/// It went down to another version of its list.
fn stepped(t: FlatTalker, bytes: FlatVersionBytes, a: &FlatTalkerAnswer) -> bool {
    other_version(t, bytes).is_some() && a.outcome == 0 && a.next.place != t.place
}

/// As if the other side had said failure.
fn failing(t: FlatTalker, mut bytes: FlatVersionBytes) -> FlatTalkerAnswer {
    bytes.bytes[1] = FAILURE;
    Reference.talker_hear(t, bytes)
}

fn to_the_lowest(t: FlatTalker, bytes: FlatVersionBytes, a: &mut FlatTalkerAnswer) {
    if stepped(t, bytes, a) {
        a.next.place = 0;
    }
}

fn one_too_low(t: FlatTalker, bytes: FlatVersionBytes, a: &mut FlatTalkerAnswer) {
    if stepped(t, bytes, a) {
        a.next.place = a.next.place.saturating_sub(1);
    }
}

fn lower_fails(t: FlatTalker, bytes: FlatVersionBytes, a: &mut FlatTalkerAnswer) {
    if stepped(t, bytes, a) {
        *a = failing(t, bytes);
    }
}

fn higher_fails(t: FlatTalker, bytes: FlatVersionBytes, a: &mut FlatTalkerAnswer) {
    let own = version_at(&t.versions, t.place);
    if other_version(t, bytes).is_some_and(|version| version > own) {
        *a = failing(t, bytes);
    }
}

/// A version of its list below Ns is passed over as if it were not there.
fn same_at_ns_alone(t: FlatTalker, bytes: FlatVersionBytes, a: &mut FlatTalkerAnswer) {
    if t.state != 1 || bytes.bytes[1] != CONTINUE || a.next.verdict != 1 || a.next.place >= t.place
    {
        return;
    }
    match a.next.place.checked_sub(1) {
        Some(below) => (a.next.place, a.next.verdict) = (below, t.verdict),
        None => *a = failing(t, bytes),
    }
}

/// In the place of the version at Ns, where that is higher.
fn taken_in(t: FlatTalker, bytes: FlatVersionBytes, a: &mut FlatTalkerAnswer) {
    let own = version_at(&t.versions, t.place);
    if let Some(version) = other_version(t, bytes).filter(|&version| version < own) {
        let mut versions = t.versions;
        versions.numbers[t.place.min(7) as usize] = version;
        *a = Reference.talker_hear(FlatTalker { versions, ..t }, bytes);
    }
}

fn names_the_highest(_: FlatTalker, _: FlatVersionBytes, a: &mut FlatTalkerAnswer) {
    if let (6, Some(&highest)) = (a.outcome, standing(&a.next.versions).last()) {
        a.version = highest;
    }
}

fn vehicle_names_below(t: FlatTalker, _: FlatVersionBytes, a: &mut FlatTalkerAnswer) {
    if a.outcome == 6 && t.side == 1 && a.next.place > 0 {
        a.version = version_at(&a.next.versions, a.next.place - 1);
    }
}

fn made_below(_: u8, _: FlatVersions, made: &mut FlatTalkerMade) {
    made.talker.place = made.talker.place.saturating_sub(1);
}

fn failure_passed_over(t: FlatTalker, bytes: FlatVersionBytes, a: &mut FlatTalkerAnswer) {
    if a.outcome == 3 && bytes.bytes[1] == FAILURE {
        let none = FlatVersionBytes::default();
        (a.next, a.emits, a.bytes, a.outcome) = (t, false, none, 0);
    }
}

fn failure_with_version(t: FlatTalker, _: FlatVersionBytes, a: &mut FlatTalkerAnswer) {
    if a.outcome == 3 {
        let own = version_at(&t.versions, t.place);
        a.bytes.bytes[2..5].copy_from_slice(&three(own));
    }
}

fn agrees_in_silence(t: FlatTalker, _: FlatVersionBytes, a: &mut FlatTalkerAnswer) {
    if a.outcome == 6 && t.side == 1 {
        (a.emits, a.bytes) = (false, FlatVersionBytes::default());
    }
}

fn charger_goes_on(t: FlatTalker, _: FlatVersionBytes, a: &mut FlatTalkerAnswer) {
    if a.next.state == 3 && a.outcome == 6 && t.side == 0 {
        a.next.timing = true;
    }
}

/// Not with the next period.
fn success_at_once(t: FlatTalker, _: FlatVersionBytes, a: &mut FlatTalkerAnswer) {
    if a.next.state == 1 && a.next.verdict == 1 && t.verdict != 1 {
        let due = FlatTalker {
            period: 49,
            age: 0,
            ..a.next
        };
        let said = Reference.talker_tick(due);
        (a.emits, a.bytes, a.next.period) = (said.emits, said.bytes, 0);
    }
}

fn last_period_lost(t: FlatTalker, a: &mut FlatTalkerAnswer) {
    if t.state == 1 && t.age == 14949 {
        (a.emits, a.bytes) = (false, FlatVersionBytes::default());
    }
}
