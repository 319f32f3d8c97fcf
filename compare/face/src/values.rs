//! The plain values that go through the face, in C's layout. Names and order of the fields are those of
//! `crates/kospelna/src/` and, of `FlatCount`, `crates/kospelna_summary/src/`, which `tests/declarations.rs` checks.

/// A kind and the bytes d0 to d7.
#[repr(C)]
#[derive(Clone, Copy, Debug, Default, PartialEq, Eq)]
pub struct FlatFrame {
    pub bytes: [u8; 8],
    pub kind: u8,
}

/// A sender. Phase 0 is Idle, 1 Opening, 2 Sending, 3 Waiting, 4 Short, any other is read as Idle. What a phase has not is
/// written as 0 and not read.
#[repr(C)]
#[derive(Clone, Copy, Debug, Default, PartialEq, Eq)]
pub struct FlatSender {
    pub gap: u16,
    pub timeout: u16,
    pub limit: u16,
    pub phase: u8,
    pub length: u16,
    pub frames: u8,
    pub first: u8,
    pub age: u16,
    pub emitted: u16,
    pub wait: u16,
    pub misses: u16,
    pub start: u8,
    pub due: u8,
    pub last: u8,
    pub count: u16,
}

#[repr(C)]
#[derive(Clone, Copy, Debug, PartialEq, Eq)]
pub struct FlatSenderMade {
    pub refusal: u8,
    pub sender: FlatSender,
}

/// Outcome 0 is quiet, 1 refused, 3 failed, 5 sent.
#[repr(C)]
#[derive(Clone, Copy, Debug, PartialEq, Eq)]
pub struct FlatSenderAnswer {
    pub next: FlatSender,
    pub emits: bool,
    pub frame: FlatFrame,
    pub outcome: u8,
    pub refusal: u8,
    pub cause: u8,
    pub ticks: u16,
    pub frames: u16,
}

/// Bytes that a summary's counts lie in: a word for each number 0 to 255, its low byte first.
pub const COUNTS: usize = 512;

/// A number, and how often information frames with it went out.
#[repr(C)]
#[derive(Clone, Copy, Debug, PartialEq, Eq)]
pub struct FlatCount {
    pub refusal: u8,
    pub number: u8,
    pub count: u16,
}

/// The numbers of a receiver's misses: how many timeouts in a row it has had, all of one type, after an LM_ACK of its own or
/// after an accepted frame that drew none; and where it has had none, what it waits after. Any other number is read as the
/// first. The names are those of `include/kospelna.h`, which `tests/declarations.rs` checks.
pub mod misses {
    pub const NONE_AFTER_ACK: u8 = 0;
    pub const ONE_AFTER_ACK: u8 = 1;
    pub const TWO_AFTER_ACK: u8 = 2;
    pub const NONE_AFTER_FRAME: u8 = 3;
    pub const ONE_AFTER_FRAME: u8 = 4;
}

/// A receiver. Phase 0 is Idle, 1 Idle with a delivery remembered, 2 Open, any other is read as Idle. What a phase has not
/// is written as 0 and not read. Its misses are one of `misses`.
#[repr(C)]
#[derive(Clone, Copy, Debug, Default, PartialEq, Eq)]
pub struct FlatReceiver {
    pub timeout: u16,
    pub capacity: u16,
    pub window: u8,
    pub phase: u8,
    pub length: u16,
    pub frames: u8,
    pub expected: u8,
    pub last: u8,
    pub misses: u8,
    pub wait: u16,
    pub held: bool,
    pub holds: u8,
}

#[repr(C)]
#[derive(Clone, Copy, Debug, PartialEq, Eq)]
pub struct FlatReceiverMade {
    pub refusal: u8,
    pub receiver: FlatReceiver,
}

/// Outcome 0 is quiet, 1 refused, 2 delivered, 3 failed, 4 short.
#[repr(C)]
#[derive(Clone, Copy, Debug, PartialEq, Eq)]
pub struct FlatReceiverAnswer {
    pub next: FlatReceiver,
    pub emits: bool,
    pub frame: FlatFrame,
    pub outcome: u8,
    pub refusal: u8,
    pub cause: u8,
    pub length: u16,
    pub bytes: [u8; 8],
}

/// Ticks and frames of a clean long transfer. Refusal 0 says that there is none, in this and what follows.
#[repr(C)]
#[derive(Clone, Copy, Debug, PartialEq, Eq)]
pub struct FlatCleanFigures {
    pub refusal: u8,
    pub ticks: u16,
    pub frames: u16,
}

#[repr(C)]
#[derive(Clone, Copy, Debug, Default, PartialEq, Eq)]
pub struct FlatIdentifierParts {
    pub p: u32,
    pub edp: u32,
    pub dp: u32,
    pub pf: u32,
    pub ps: u32,
    pub sa: u32,
}

#[repr(C)]
#[derive(Clone, Copy, Debug, PartialEq, Eq)]
pub struct FlatIdentifierJoining {
    pub refusal: u8,
    pub identifier: u32,
}

#[repr(C)]
#[derive(Clone, Copy, Debug, PartialEq, Eq)]
pub struct FlatIdentifierSplitting {
    pub refusal: u8,
    pub parts: FlatIdentifierParts,
}

/// The first `count` numbers stand; the others are 0.
#[repr(C)]
#[derive(Clone, Copy, Debug, Default, PartialEq, Eq)]
pub struct FlatVersions {
    pub count: u32,
    pub numbers: [u32; 8],
}

#[repr(C)]
#[derive(Clone, Copy, Debug, PartialEq, Eq)]
pub struct FlatVersionListing {
    pub refusal: u8,
    pub versions: FlatVersions,
}

/// Verdict 0 is continue, 1 success, 2 failure.
#[repr(C)]
#[derive(Clone, Copy, Debug, Default, PartialEq, Eq)]
pub struct FlatVersionMessage {
    pub verdict: u8,
    pub version: u32,
    pub control: u8,
}

#[repr(C)]
#[derive(Clone, Copy, Debug, Default, PartialEq, Eq)]
pub struct FlatVersionBytes {
    pub bytes: [u8; 8],
}

#[repr(C)]
#[derive(Clone, Copy, Debug, PartialEq, Eq)]
pub struct FlatVersionWriting {
    pub refusal: u8,
    pub bytes: FlatVersionBytes,
}

#[repr(C)]
#[derive(Clone, Copy, Debug, PartialEq, Eq)]
pub struct FlatVersionReading {
    pub refusal: u8,
    pub message: FlatVersionMessage,
}

/// Side 0 is the charger, 1 the vehicle; state 0 to 5 is S0 to S5; any other number is read as 0.
#[repr(C)]
#[derive(Clone, Copy, Debug, Default, PartialEq, Eq)]
pub struct FlatTalker {
    pub side: u8,
    pub versions: FlatVersions,
    pub control: u8,
    pub state: u8,
    pub place: u32,
    pub verdict: u8,
    pub period: u16,
    pub age: u16,
    pub timing: bool,
}

#[repr(C)]
#[derive(Clone, Copy, Debug, PartialEq, Eq)]
pub struct FlatTalkerMade {
    pub refusal: u8,
    pub talker: FlatTalker,
}

/// Outcome 0 is quiet, 1 refused, 3 failed, 6 agreed on the version, 7 left.
#[repr(C)]
#[derive(Clone, Copy, Debug, PartialEq, Eq)]
pub struct FlatTalkerAnswer {
    pub next: FlatTalker,
    pub emits: bool,
    pub bytes: FlatVersionBytes,
    pub outcome: u8,
    pub refusal: u8,
    pub version: u32,
}

#[repr(C)]
#[derive(Clone, Copy, Debug, Default, PartialEq, Eq)]
pub struct FlatGroup {
    pub code: u8,
    pub first: u16,
    pub second: u16,
    pub third: u16,
    pub fourth: u16,
}

#[repr(C)]
#[derive(Clone, Copy, Debug, PartialEq, Eq)]
pub struct FlatGroupReading {
    pub refusal: u8,
    pub group: FlatGroup,
}

#[repr(C)]
#[derive(Clone, Copy, Debug, PartialEq, Eq)]
pub struct FlatGroupWriting {
    pub refusal: u8,
}

/// Side 0 is the charger, 1 the vehicle; the four fields are kinds, 0 where there is no field.
#[repr(C)]
#[derive(Clone, Copy, Debug, Default, PartialEq, Eq)]
pub struct FlatGroupRow {
    pub code: u8,
    pub length: usize,
    pub side: u8,
    pub reliable: bool,
    pub first: usize,
    pub second: usize,
    pub third: usize,
    pub fourth: usize,
}

#[repr(C)]
#[derive(Clone, Copy, Debug, PartialEq, Eq)]
pub struct FlatGroupFinding {
    pub refusal: u8,
    pub row: FlatGroupRow,
}
