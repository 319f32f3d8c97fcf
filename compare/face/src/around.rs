//! The reference's clean figures, identifiers, version talk and parameter groups over plain values.
//!
//! Two things are kept otherwise. The reference's talker leaves the ticks of a closed timer where they stood and goes on
//! counting the limit in the vehicle's S3, where nothing comes of it; a flat talker has 0 there. The kinds of a group's
//! fields stand in no table of the reference, so `KINDS` has them, by 001 tables H.3 to H.11.

use compare::reference::clean::{figures, Figures};
use compare::reference::groups::row_of;
use compare::reference::identifier::{self, Parts, EVCC, SECC};
use compare::reference::version::{self, Message, Outcome, Side, State, Talker, Version};
use compare::reference::{refusal, Refused};

use crate::groups::{raw, write};
use crate::interface::Around;
use crate::lists::{standing, version_at};
use crate::values::*;
use crate::Reference;

/// For codes 0x71 to 0x79 the kinds of their fields: 1 ready, 2 voltage, 3 current, 4 mode, 5 state of charge, 6 minutes,
/// 7 reason, 8 a cell's voltage, 9 temperature, 10 pause, 0 no field.
const KINDS: [[usize; 4]; 9] = [
    [1, 0, 0, 0],
    [1, 2, 0, 0],
    [2, 3, 4, 0],
    [5, 6, 0, 0],
    [3, 7, 0, 0],
    [2, 3, 0, 0],
    [8, 8, 9, 9],
    [10, 0, 0, 0],
    [10, 0, 0, 0],
];

impl Around for Reference {
    fn clean_figures_of(&self, length: u32, gap: u32) -> FlatCleanFigures {
        let (refusal, Figures { ticks, frames }) = told(figures(length, gap));
        FlatCleanFigures {
            refusal,
            ticks,
            frames,
        }
    }

    fn identifier_join(&self, parts: FlatIdentifierParts) -> FlatIdentifierJoining {
        let FlatIdentifierParts {
            p,
            edp,
            dp,
            pf,
            ps,
            sa,
        } = parts;
        let joined = identifier::build(Parts {
            p,
            edp,
            dp,
            pf,
            ps,
            sa,
        });
        let (refusal, identifier) = told(joined);
        FlatIdentifierJoining {
            refusal,
            identifier,
        }
    }

    fn identifier_split(&self, identifier: u32) -> FlatIdentifierSplitting {
        let (refusal, parts) = told(identifier::read(identifier).map(flat_parts));
        FlatIdentifierSplitting { refusal, parts }
    }

    fn charger_address(&self) -> u32 {
        SECC.into()
    }

    fn vehicle_address(&self) -> u32 {
        EVCC.into()
    }

    fn charger_version_identifier(&self) -> u32 {
        version_message(0x38, EVCC, SECC)
    }

    fn vehicle_version_identifier(&self) -> u32 {
        version_message(0x36, SECC, EVCC)
    }

    fn version_list(&self, bytes: &[u8]) -> FlatVersionListing {
        let listed = versions(bytes).map(|list| flat_versions(&list));
        let (refusal, versions) = told(listed);
        FlatVersionListing { refusal, versions }
    }

    fn version_message_write(&self, message: FlatVersionMessage) -> FlatVersionWriting {
        let written = Outcome::of(message.verdict).map(|outcome| {
            let version = version_of(message.version);
            let said = Message { outcome, version };
            FlatVersionBytes {
                bytes: version::build(said, message.control),
            }
        });
        let (refusal, bytes) = told(written);
        FlatVersionWriting { refusal, bytes }
    }

    fn version_message_read(&self, bytes: FlatVersionBytes) -> FlatVersionReading {
        let read = version::read(bytes.bytes).map(|message| FlatVersionMessage {
            verdict: message.outcome.number(),
            version: number(message.version),
            control: bytes.bytes[5],
        });
        let (refusal, message) = told(read);
        FlatVersionReading { refusal, message }
    }

    /// A talker keeps its list as it is given, with what stands past the count.
    fn talker_make(&self, side: u8, versions: FlatVersions, control: u8) -> FlatTalkerMade {
        let FlatVersions { count, numbers } = versions;
        let made = Talker::make_listed(side_of(side), count, numbers, control);
        let (refusal, talker) = told(made.map(|end| FlatTalker {
            versions,
            ..flat_talker(&end)
        }));
        FlatTalkerMade { refusal, talker }
    }

    fn talker_connect(&self, talker: FlatTalker) -> FlatTalkerAnswer {
        called(talker, |end| Ok(end.connect()))
    }

    fn talker_tick(&self, talker: FlatTalker) -> FlatTalkerAnswer {
        called(talker, |end| Ok(end.tick()))
    }

    fn talker_hear(&self, talker: FlatTalker, bytes: FlatVersionBytes) -> FlatTalkerAnswer {
        called(talker, |end| end.hear(bytes.bytes))
    }

    fn talker_stop(&self, talker: FlatTalker) -> FlatTalkerAnswer {
        called(talker, |end| {
            end.fault();
            Ok(None)
        })
    }

    fn talker_greet(&self, talker: FlatTalker) -> FlatTalkerAnswer {
        called(talker, |end| Ok(end.chm()))
    }

    fn talker_functions_heard(&self, talker: FlatTalker) -> FlatTalkerAnswer {
        called(talker, |end| {
            end.functions();
            Ok(None)
        })
    }

    fn group_read(&self, bytes: &[u8]) -> FlatGroupReading {
        let read = compare::reference::groups::read(bytes).map(|group| {
            let [first, second, third, fourth] = raw(group);
            FlatGroup {
                code: group.code(),
                first,
                second,
                third,
                fourth,
            }
        });
        let (refusal, group) = told(read);
        FlatGroupReading { refusal, group }
    }

    fn group_write(&self, group: FlatGroup, bytes: &mut [u8]) -> FlatGroupWriting {
        let values = [group.first, group.second, group.third, group.fourth];
        let (refusal, ()) = told(write(group.code, values, bytes));
        FlatGroupWriting { refusal }
    }

    fn group_find(&self, code: u8) -> FlatGroupFinding {
        let (refusal, row) = told(row_of(code).map(flat_row).ok_or(refusal::GROUP));
        FlatGroupFinding { refusal, row }
    }
}

/// The refusal, 0 where there is none, and the value, zeros where refused.
fn told<T: Default>(answer: Result<T, Refused>) -> (u8, T) {
    match answer {
        Ok(value) => (0, value),
        Err(Refused(number)) => (number, T::default()),
    }
}

/// The identifier of a version message, tables 4 and 5.
fn version_message(pf: u32, ps: u8, sa: u8) -> u32 {
    let (ps, sa) = (ps.into(), sa.into());
    let parts = Parts {
        p: 3,
        edp: 0,
        dp: 0,
        pf,
        ps,
        sa,
    };
    identifier::build(parts).expect("the parts of table 4 or 5")
}

fn flat_parts(parts: Parts) -> FlatIdentifierParts {
    FlatIdentifierParts {
        p: parts.p,
        edp: parts.edp,
        dp: parts.dp,
        pf: parts.pf,
        ps: parts.ps,
        sa: parts.sa,
    }
}

fn flat_row(row: compare::reference::groups::Row) -> FlatGroupRow {
    let [first, second, third, fourth] = KINDS[usize::from(row.code - 0x71)];
    FlatGroupRow {
        code: row.code,
        length: row.length,
        side: row.from_vehicle.into(),
        reliable: row.reliable,
        first,
        second,
        third,
        fourth,
    }
}

/// The list in lent bytes; bytes that are no whole number of versions are no list.
pub fn versions(lent: &[u8]) -> Result<Vec<Version>, Refused> {
    let (whole, left) = lent.as_chunks::<3>();
    version::check_list(whole)?;
    if left.is_empty() {
        Ok(whole.to_vec())
    } else {
        Err(refusal::VERSIONS)
    }
}

fn number([main, minor, temporary]: Version) -> u32 {
    u32::from_be_bytes([0, main, minor, temporary])
}

/// Main, minor and temporary number, the lowest three bytes.
fn version_of(number: u32) -> Version {
    let [_, main, minor, temporary] = number.to_be_bytes();
    [main, minor, temporary]
}

fn list_of(versions: FlatVersions) -> Vec<Version> {
    let standing = standing(&versions).iter();
    standing.map(|&number| version_of(number)).collect()
}

fn flat_versions(list: &[Version]) -> FlatVersions {
    let mut numbers = [0; 8];
    for (place, &version) in numbers.iter_mut().zip(list) {
        *place = number(version);
    }
    FlatVersions {
        count: list.len() as u32,
        numbers,
    }
}

fn side_of(number: u8) -> Side {
    match number {
        1 => Side::Vehicle,
        _ => Side::Charger,
    }
}

fn verdict_of(number: u8) -> Outcome {
    match number {
        1 => Outcome::Success,
        2 => Outcome::Failure,
        _ => Outcome::Continue,
    }
}

fn state_of(number: u8) -> State {
    match number {
        1 => State::S1,
        2 => State::S2,
        3 => State::S3,
        4 => State::S4,
        5 => State::S5,
        _ => State::S0,
    }
}

fn state_number(state: State) -> u8 {
    match state {
        State::S0 => 0,
        State::S1 => 1,
        State::S2 => 2,
        State::S3 => 3,
        State::S4 => 4,
        State::S5 => 5,
    }
}

/// The list, and Ns in it. A version whose place is past the list goes to the list's end.
fn list_and_ns(flat: FlatTalker) -> (Vec<Version>, usize) {
    let mut list = list_of(flat.versions);
    let ns = list.len().min(flat.place as usize);
    if ns == list.len() {
        list.push(version_of(version_at(&flat.versions, flat.place)));
    }
    (list, ns)
}

/// In S1 the timers are open; in the vehicle's S3 `timing` says whether they are.
pub fn talker_of(flat: FlatTalker) -> Talker {
    let state = state_of(flat.state);
    let (versions, ns) = list_and_ns(flat);
    Talker {
        side: side_of(flat.side),
        versions,
        pilot: flat.control,
        state,
        ns,
        outcome: verdict_of(flat.verdict),
        period: flat.period,
        limit: flat.age,
        timers: state == State::S1 || flat.timing,
    }
}

/// The limit counts in S1 alone, the period there and in S3 while its timers are open.
pub fn flat_talker(end: &Talker) -> FlatTalker {
    let talking = end.state == State::S1;
    let timing = end.state == State::S3 && end.timers;
    FlatTalker {
        side: (end.side == Side::Vehicle).into(),
        versions: flat_versions(&end.versions),
        control: end.pilot,
        state: state_number(end.state),
        place: end.ns as u32,
        verdict: end.outcome.number(),
        period: if talking || timing { end.period } else { 0 },
        age: if talking { end.limit } else { 0 },
        timing,
    }
}

/// A call of a talker. Its report is the state entered: S2 and S3 agreed, S4 failed, S5 left. Its list stays, and
/// so does a place past the list where the reference leaves Ns.
fn called(
    talker: FlatTalker,
    call: impl Fn(&mut Talker) -> Result<Option<[u8; 8]>, Refused>,
) -> FlatTalkerAnswer {
    let mut end = talker_of(talker);
    let (before, ns) = (end.state, end.ns);
    let (said, refused) = match call(&mut end) {
        Ok(said) => (said, None),
        Err(Refused(number)) => (None, Some(number)),
    };
    let (outcome, version) = match end.state {
        _ if refused.is_some() => (1, 0),
        after if after == before => (0, 0),
        State::S2 | State::S3 => (6, number(end.at_ns())),
        State::S4 => (3, 0),
        State::S5 => (7, 0),
        State::S0 | State::S1 => (0, 0),
    };
    let next = flat_talker(&end);
    FlatTalkerAnswer {
        next: FlatTalker {
            versions: talker.versions,
            place: if end.ns == ns {
                talker.place
            } else {
                next.place
            },
            ..next
        },
        emits: said.is_some(),
        bytes: FlatVersionBytes {
            bytes: said.unwrap_or_default(),
        },
        outcome,
        refusal: refused.unwrap_or(0),
        version,
    }
}
