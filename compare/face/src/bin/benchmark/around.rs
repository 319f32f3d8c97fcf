//! Rows of the clean figures, identifiers, version talk and parameter groups.

use std::hint::black_box;

use compare::reference::clean;
use compare::reference::groups::{self, Group, Reading};
use compare::reference::identifier;
use compare::reference::version::{self, Message, Outcome, Side, Talker, Version};
use face::around::{talker_of, versions};
use face::behind::Behind;
use face::ffi::Proved;
use face::interface::Around;
use face::values::*;

use crate::measure::{given, Row};

const CHARGER: [Version; 4] = [[1, 1, 0], [2, 0, 0], [2, 0, 1], [3, 0, 0]];
const IDENTIFIER: u32 = 0x0C38_F456;
const VEHICLE: [Version; 3] = [[1, 1, 0], [2, 0, 1], [2, 1, 0]];

/// Length and gap of the longest clean transfer.
const LONGEST: (u32, u32) = (1785, 10);

fn tells_figures(face: impl Around) -> impl FnMut() -> FlatCleanFigures {
    given(LONGEST, move |&(length, gap)| {
        face.clean_figures_of(length, gap)
    })
}

fn figures_row() -> Row {
    Row::new(
        "clean figures, 1785 bytes",
        tells_figures(Proved),
        tells_figures(Behind),
        given(LONGEST, |&(length, gap)| clean::figures(length, gap)),
    )
}

fn joins(face: impl Around) -> impl FnMut() -> FlatIdentifierJoining {
    let parts = face.identifier_split(IDENTIFIER).parts;
    given(parts, move |parts| face.identifier_join(*parts))
}

fn divides(face: impl Around) -> impl FnMut() -> FlatIdentifierSplitting {
    given(IDENTIFIER, move |&identifier| {
        face.identifier_split(identifier)
    })
}

fn identifier_rows() -> Vec<Row> {
    let parts = identifier::read(IDENTIFIER).expect("a good identifier");
    vec![
        Row::new(
            "identifier, join",
            joins(Proved),
            joins(Behind),
            given(parts, |parts| identifier::build(*parts)),
        ),
        Row::new(
            "identifier, part",
            divides(Proved),
            divides(Behind),
            given(IDENTIFIER, |&identifier| identifier::read(identifier)),
        ),
    ]
}

const MESSAGE: FlatVersionMessage = FlatVersionMessage {
    verdict: 1,
    version: 0x020001,
    control: 9,
};

fn lists(face: impl Around) -> impl FnMut() -> FlatVersionListing {
    let bytes = CHARGER.concat();
    given(bytes, move |bytes| face.version_list(bytes))
}

fn writes_message(face: impl Around) -> impl FnMut() -> FlatVersionWriting {
    given(MESSAGE, move |message| face.version_message_write(*message))
}

fn reads_message(face: impl Around) -> impl FnMut() -> FlatVersionReading {
    let bytes = face.version_message_write(MESSAGE).bytes;
    given(bytes, move |bytes| face.version_message_read(*bytes))
}

fn version_rows() -> Vec<Row> {
    let message = Message {
        outcome: Outcome::Success,
        version: [2, 0, 1],
    };
    let bytes = version::build(message, 9);
    let list = CHARGER.concat();
    vec![
        Row::new(
            "version list of four",
            lists(Proved),
            lists(Behind),
            given(list, |list| versions(list)),
        ),
        Row::new(
            "version message, write",
            writes_message(Proved),
            writes_message(Behind),
            given((message, 9), |&(message, control)| {
                version::build(message, control)
            }),
        ),
        Row::new(
            "version message, read",
            reads_message(Proved),
            reads_message(Behind),
            given(bytes, |bytes| version::read(*bytes)),
        ),
    ]
}

/// A charger with four versions that has connected: S1.
fn talking() -> FlatTalker {
    let list = Proved.version_list(&CHARGER.concat()).versions;
    Proved
        .talker_connect(Proved.talker_make(0, list, 1).talker)
        .next
}

fn talker_ticks(face: impl Around, talker: FlatTalker) -> impl FnMut() -> FlatTalkerAnswer {
    given(talker, move |talker| face.talker_tick(*talker))
}

fn talker_hears(
    face: impl Around,
    talker: FlatTalker,
    bytes: [u8; 8],
) -> impl FnMut() -> FlatTalkerAnswer {
    given(
        (talker, FlatVersionBytes { bytes }),
        move |(talker, bytes)| face.talker_hear(*talker, *bytes),
    )
}

/// The reference's talker is changed in place and its counts put back: a copy would be an allocation.
fn talker_tick(name: &str, talker: FlatTalker) -> Row {
    let mut end = talker_of(talker);
    let (period, limit) = (end.period, end.limit);
    Row::new(
        name,
        talker_ticks(Proved, talker),
        talker_ticks(Behind, talker),
        move || {
            (end.period, end.limit) = (period, limit);
            black_box(&mut end).tick()
        },
    )
}

fn talker_rows() -> Vec<Row> {
    let talker = talking();
    let due = FlatTalker {
        period: 49,
        ..talker
    };
    let said = Message {
        outcome: Outcome::Continue,
        version: [2, 0, 1],
    };
    let bytes = version::build(said, 9);
    let mut end = talker_of(talker);
    let place = end.ns;
    vec![
        talker_tick("talker's tick, S1", talker),
        talker_tick("talker's tick, S1: message", due),
        Row::new(
            "talker hears a version of its own, S1",
            talker_hears(Proved, talker, bytes),
            talker_hears(Behind, talker, bytes),
            move || {
                (end.ns, end.outcome) = (place, Outcome::Continue);
                black_box(&mut end).hear(*black_box(&bytes))
            },
        ),
        talk_row(),
    ]
}

/// Both sides connect, tick, and hear every message until both have agreed; the calls that it took.
fn talk(face: impl Around, charger: &[u8], vehicle: &[u8]) -> u64 {
    let lists = [charger, vehicle].map(|bytes| face.version_list(bytes).versions);
    let mut said = [0, 1].map(|side| {
        let made = face.talker_make(side, lists[usize::from(side)], 1);
        face.talker_connect(made.talker)
    });
    let mut calls = 6;
    while said.iter().any(|answer| answer.next.state == 1) {
        for side in [0, 1] {
            let other = said[1 - side];
            if other.emits {
                let answer = face.talker_hear(said[side].next, other.bytes);
                calls += 1;
                said[1 - side].emits = false;
                said[side].next = answer.next;
                if answer.emits {
                    said[side] = answer;
                }
            }
        }
        for answer in said.iter_mut().filter(|answer| !answer.emits) {
            *answer = face.talker_tick(answer.next);
            calls += 1;
        }
    }
    calls
}

/// The same with the reference's own functions.
fn direct_talk(charger: &[u8], vehicle: &[u8]) -> u64 {
    let lists = [charger, vehicle].map(|bytes| versions(bytes).expect("a good list"));
    let sides = [Side::Charger, Side::Vehicle];
    let mut talkers =
        [0, 1].map(|side: usize| Talker::make(sides[side], &lists[side], 1).expect("a good list"));
    let mut said = [None, None];
    for side in [0, 1] {
        said[side] = talkers[side].connect();
    }
    let mut calls = 6;
    while talkers
        .iter()
        .any(|talker| talker.state == version::State::S1)
    {
        for side in [0, 1] {
            if let Some(bytes) = said[1 - side].take() {
                let answer = talkers[side].hear(bytes).expect("a good message");
                calls += 1;
                said[side] = answer.or(said[side]);
            }
        }
        for side in [0, 1] {
            if said[side].is_none() {
                said[side] = talkers[side].tick();
                calls += 1;
            }
        }
    }
    calls
}

fn talks(face: impl Around + Copy) -> impl FnMut() -> u64 {
    let (charger, vehicle) = (CHARGER.concat(), VEHICLE.concat());
    assert_eq!(
        talk(face, &charger, &vehicle),
        direct_talk(&charger, &vehicle)
    );
    given((charger, vehicle), move |(charger, vehicle)| {
        talk(face, charger, vehicle)
    })
}

fn talk_row() -> Row {
    let (charger, vehicle) = (CHARGER.concat(), VEHICLE.concat());
    let calls = direct_talk(&charger, &vehicle);
    Row::new(
        &format!("a version talk, {calls} calls"),
        talks(Proved),
        talks(Behind),
        given((charger, vehicle), |(charger, vehicle)| {
            direct_talk(charger, vehicle)
        }),
    )
}

fn reads_group(face: impl Around, bytes: [u8; 8]) -> impl FnMut() -> FlatGroupReading {
    given(bytes, move |bytes| face.group_read(bytes))
}

fn writes_group(face: impl Around, group: FlatGroup) -> impl FnMut() -> FlatGroupWriting {
    let mut bytes = [0; 8];
    move || {
        let bytes = black_box(&mut bytes);
        face.group_write(*black_box(&group), bytes)
    }
}

fn finds_group(face: impl Around, code: u8) -> impl FnMut() -> FlatGroupFinding {
    given(code, move |&code| face.group_find(code))
}

/// Finding, reading and writing a group.
fn group_calls(flat: FlatGroup, group: Group) -> [Row; 3] {
    let (mut lent, mut other) = ([0; 8], [0; 8]);
    Proved.group_write(flat, &mut lent);
    groups::write(group, &mut other).expect("a good group");
    assert_eq!(lent, other);
    let code = flat.code;
    let bytes = lent;
    [
        Row::new(
            &format!("group {code:x}, find its row"),
            finds_group(Proved, code),
            finds_group(Behind, code),
            given(code, |&code| groups::row_of(code)),
        ),
        Row::new(
            &format!("group {code:x}, read"),
            reads_group(Proved, bytes),
            reads_group(Behind, bytes),
            given(bytes, |bytes| groups::read(bytes)),
        ),
        Row::new(
            &format!("group {code:x}, write"),
            writes_group(Proved, flat),
            writes_group(Behind, flat),
            move || {
                let bytes = black_box(&mut other);
                groups::write(*black_box(&group), bytes)
            },
        ),
    ]
}

fn group_rows() -> Vec<Row> {
    let ready = FlatGroup {
        code: 0x71,
        first: 1,
        ..FlatGroup::default()
    };
    let battery = FlatGroup {
        code: 0x77,
        first: 40000,
        second: 0xFFFF,
        third: 90,
        fourth: 0xFE,
    };
    let calls = [
        group_calls(ready, Group::ChargerReady { ready: 1 }),
        group_calls(
            battery,
            Group::Battery {
                highest_voltage: Reading::Value(40000),
                lowest_voltage: Reading::Invalid,
                highest_temperature: Reading::Value(40),
                lowest_temperature: Reading::Abnormal,
            },
        ),
    ];
    calls.into_iter().flatten().collect()
}

pub fn rows() -> Vec<Row> {
    [
        vec![figures_row()],
        identifier_rows(),
        version_rows(),
        talker_rows(),
        group_rows(),
    ]
    .into_iter()
    .flatten()
    .collect()
}
