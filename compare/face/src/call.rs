//! One call of the face, what it answers, and the comparison of two faces on it.

use std::fmt;
use std::sync::OnceLock;

use compare::packs::random::Random;

use crate::interface::Face;
use crate::tally::Tally;
use crate::values::*;

/// A part of the pool of bytes that messages are taken from.
#[derive(Clone, Copy, Debug, PartialEq, Eq)]
pub struct Part {
    pub from: usize,
    pub length: usize,
}

/// The pool's length: a part may start anywhere below 2048 and have up to 2048 bytes.
const POOL: usize = 4096;
/// Bytes at hand for a lent buffer; a hearing is lent some of them, mostly 1785.
pub const BUFFER_ROOM: usize = 2048;

/// The same random bytes in every run, the filler and 0 among them more often.
pub fn pool() -> &'static [u8] {
    static BYTES: OnceLock<Vec<u8>> = OnceLock::new();
    BYTES.get_or_init(|| {
        let mut random = Random::new(0);
        let mut byte = || match random.percent(20) {
            true => random.pick(&[0x00, 0xFF]),
            false => random.byte(),
        };
        (0..POOL).map(|_| byte()).collect()
    })
}

impl Part {
    pub fn bytes(self) -> &'static [u8] {
        &pool()[self.from..self.from + self.length]
    }
}

/// The bytes that are lent for a summary's counts. Told by their length and by the counts that are not 0.
#[derive(Clone, PartialEq, Eq)]
pub struct Counts(pub Vec<u8>);

impl fmt::Debug for Counts {
    fn fmt(&self, f: &mut fmt::Formatter) -> fmt::Result {
        let words = self.0.chunks(2).enumerate();
        let counts = words.filter(|(_, word)| word.iter().any(|&byte| byte != 0));
        let counts: Vec<String> = counts
            .map(|(number, word)| format!("{number}: {word:02X?}"))
            .collect();
        write!(f, "{} bytes {{{}}}", self.0.len(), counts.join(", "))
    }
}

/// A call with all that it is given but the buffer.
#[derive(Clone, Debug, PartialEq, Eq)]
pub enum Call {
    /// Gap G, timeout T, sending time M.
    SenderMake([u16; 3]),
    SenderBegin(FlatSender, Part),
    SenderPost(FlatSender, Part),
    SenderTick(FlatSender, Part),
    SenderHear(FlatSender, FlatFrame),
    SummaryBegin(FlatSender, Part, Counts),
    SummaryPost(FlatSender, Part, Counts),
    SummaryTick(FlatSender, Part, Counts),
    SummaryHear(FlatSender, FlatFrame, Counts),
    SummaryCount(u8, Counts),
    SummaryMost(Counts),
    /// Timeout T, window C, capacity K.
    ReceiverMake([u16; 3]),
    ReceiverTick(FlatReceiver),
    ReceiverHold(FlatReceiver),
    ReceiverResume(FlatReceiver),
    /// With the length of the lent buffer.
    ReceiverHear(FlatReceiver, FlatFrame, usize),
    /// Length and gap.
    CleanFigures(u32, u32),
    Join(FlatIdentifierParts),
    Split(u32),
    ChargerAddress,
    VehicleAddress,
    ChargerVersion,
    VehicleVersion,
    List(Vec<u8>),
    MessageWrite(FlatVersionMessage),
    MessageRead(FlatVersionBytes),
    TalkerMake(u8, FlatVersions, u8),
    TalkerConnect(FlatTalker),
    TalkerTick(FlatTalker),
    TalkerHear(FlatTalker, FlatVersionBytes),
    TalkerStop(FlatTalker),
    TalkerGreet(FlatTalker),
    TalkerFunctionsHeard(FlatTalker),
    GroupRead(Vec<u8>),
    /// With the lent bytes.
    GroupWrite(FlatGroup, Vec<u8>),
    GroupFind(u8),
}

/// What a call answers.
#[derive(Clone, Debug, PartialEq, Eq)]
pub enum Answer {
    SenderMade(FlatSenderMade),
    Sender(FlatSenderAnswer),
    /// With the lent counts afterwards.
    Kept(FlatSenderAnswer, Counts),
    Counted(FlatCount),
    ReceiverMade(FlatReceiverMade),
    Receiver(FlatReceiverAnswer),
    Figures(FlatCleanFigures),
    Joining(FlatIdentifierJoining),
    Splitting(FlatIdentifierSplitting),
    Number(u32),
    Listing(FlatVersionListing),
    Bytes(FlatVersionWriting),
    Message(FlatVersionReading),
    TalkerMade(FlatTalkerMade),
    Talk(FlatTalkerAnswer),
    Group(FlatGroupReading),
    /// With the lent bytes afterwards.
    Written(FlatGroupWriting, Vec<u8>),
    Finding(FlatGroupFinding),
}

/// Makes the call; a hearing is lent the first bytes of `buffer`.
pub fn answer(face: &impl Face, call: &Call, buffer: &mut [u8]) -> Answer {
    match call {
        Call::SenderMake([gap, timeout, limit]) => {
            Answer::SenderMade(face.sender_make(*gap, *timeout, *limit))
        }
        Call::SenderBegin(end, message) => Answer::Sender(face.sender_begin(*end, message.bytes())),
        Call::SenderPost(end, message) => Answer::Sender(face.sender_post(*end, message.bytes())),
        Call::SenderTick(end, message) => Answer::Sender(face.sender_tick(*end, message.bytes())),
        Call::SenderHear(end, frame) => Answer::Sender(face.sender_hear(*end, *frame)),
        Call::ReceiverMake([timeout, window, capacity]) => {
            Answer::ReceiverMade(face.receiver_make(*timeout, *window, *capacity))
        }
        Call::ReceiverTick(end) => Answer::Receiver(face.receiver_tick(*end)),
        Call::ReceiverHold(end) => Answer::Receiver(face.receiver_hold(*end)),
        Call::ReceiverResume(end) => Answer::Receiver(face.receiver_resume(*end)),
        Call::ReceiverHear(end, frame, lent) => {
            Answer::Receiver(face.receiver_hear(*end, *frame, &mut buffer[..*lent]))
        }
        Call::SummaryBegin(..)
        | Call::SummaryPost(..)
        | Call::SummaryTick(..)
        | Call::SummaryHear(..) => answer_kept(face, call),
        Call::SummaryCount(number, counts) => {
            Answer::Counted(face.summary_count(*number, &counts.0))
        }
        Call::SummaryMost(counts) => Answer::Counted(face.summary_most(&counts.0)),
        around => answer_around(face, around),
    }
}

/// A call of the sender with a copy of the counts lent.
fn answer_kept(face: &impl Face, call: &Call) -> Answer {
    let (Call::SummaryBegin(_, _, lent)
    | Call::SummaryPost(_, _, lent)
    | Call::SummaryTick(_, _, lent)
    | Call::SummaryHear(_, _, lent)) = call
    else {
        unreachable!("`answer` has the other calls");
    };
    let Counts(mut counts) = lent.clone();
    let answer = match call {
        Call::SummaryBegin(end, message, _) => {
            face.summary_begin(*end, message.bytes(), &mut counts)
        }
        Call::SummaryPost(end, message, _) => face.summary_post(*end, message.bytes(), &mut counts),
        Call::SummaryTick(end, message, _) => face.summary_tick(*end, message.bytes(), &mut counts),
        Call::SummaryHear(end, frame, _) => face.summary_hear(*end, *frame, &mut counts),
        _ => unreachable!("the counts were lent"),
    };
    Answer::Kept(answer, Counts(counts))
}

fn answer_around(face: &impl Face, call: &Call) -> Answer {
    match call {
        Call::CleanFigures(length, gap) => Answer::Figures(face.clean_figures_of(*length, *gap)),
        Call::Join(parts) => Answer::Joining(face.identifier_join(*parts)),
        Call::Split(identifier) => Answer::Splitting(face.identifier_split(*identifier)),
        Call::ChargerAddress => Answer::Number(face.charger_address()),
        Call::VehicleAddress => Answer::Number(face.vehicle_address()),
        Call::ChargerVersion => Answer::Number(face.charger_version_identifier()),
        Call::VehicleVersion => Answer::Number(face.vehicle_version_identifier()),
        Call::List(bytes) => Answer::Listing(face.version_list(bytes)),
        Call::MessageWrite(message) => Answer::Bytes(face.version_message_write(*message)),
        Call::MessageRead(bytes) => Answer::Message(face.version_message_read(*bytes)),
        Call::TalkerMake(side, versions, control) => {
            Answer::TalkerMade(face.talker_make(*side, *versions, *control))
        }
        Call::TalkerConnect(talker) => Answer::Talk(face.talker_connect(*talker)),
        Call::TalkerTick(talker) => Answer::Talk(face.talker_tick(*talker)),
        Call::TalkerHear(talker, bytes) => Answer::Talk(face.talker_hear(*talker, *bytes)),
        Call::TalkerStop(talker) => Answer::Talk(face.talker_stop(*talker)),
        Call::TalkerGreet(talker) => Answer::Talk(face.talker_greet(*talker)),
        Call::TalkerFunctionsHeard(talker) => Answer::Talk(face.talker_functions_heard(*talker)),
        Call::GroupRead(bytes) => Answer::Group(face.group_read(bytes)),
        Call::GroupWrite(group, bytes) => {
            let mut bytes = bytes.clone();
            let done = face.group_write(*group, &mut bytes);
            Answer::Written(done, bytes)
        }
        Call::GroupFind(code) => Answer::Finding(face.group_find(*code)),
        _ => unreachable!("`answer` has the calls of the ends and of the summary"),
    }
}

/// The names of the functions, in the order of `Call`'s cases.
pub const NAMES: [&str; 36] = [
    "sender_make",
    "sender_begin",
    "sender_post",
    "sender_tick",
    "sender_hear",
    "summary_begin",
    "summary_post",
    "summary_tick",
    "summary_hear",
    "summary_count",
    "summary_most",
    "receiver_make",
    "receiver_tick",
    "receiver_hold",
    "receiver_resume",
    "receiver_hear",
    "clean_figures_of",
    "identifier_join",
    "identifier_split",
    "charger_address",
    "vehicle_address",
    "charger_version_identifier",
    "vehicle_version_identifier",
    "version_list",
    "version_message_write",
    "version_message_read",
    "talker_make",
    "talker_connect",
    "talker_tick",
    "talker_hear",
    "talker_stop",
    "talker_greet",
    "talker_functions_heard",
    "group_read",
    "group_write",
    "group_find",
];

impl Call {
    /// Its function's place in `NAMES`.
    pub fn place(&self) -> usize {
        match self {
            Call::SenderMake(_) => 0,
            Call::SenderBegin(..) => 1,
            Call::SenderPost(..) => 2,
            Call::SenderTick(..) => 3,
            Call::SenderHear(..) => 4,
            Call::SummaryBegin(..) => 5,
            Call::SummaryPost(..) => 6,
            Call::SummaryTick(..) => 7,
            Call::SummaryHear(..) => 8,
            Call::SummaryCount(..) => 9,
            Call::SummaryMost(_) => 10,
            Call::ReceiverMake(_) => 11,
            Call::ReceiverTick(_) => 12,
            Call::ReceiverHold(_) => 13,
            Call::ReceiverResume(_) => 14,
            Call::ReceiverHear(..) => 15,
            Call::CleanFigures(..) => 16,
            Call::Join(_) => 17,
            Call::Split(_) => 18,
            Call::ChargerAddress => 19,
            Call::VehicleAddress => 20,
            Call::ChargerVersion => 21,
            Call::VehicleVersion => 22,
            Call::List(_) => 23,
            Call::MessageWrite(_) => 24,
            Call::MessageRead(_) => 25,
            Call::TalkerMake(..) => 26,
            Call::TalkerConnect(_) => 27,
            Call::TalkerTick(_) => 28,
            Call::TalkerHear(..) => 29,
            Call::TalkerStop(_) => 30,
            Call::TalkerGreet(_) => 31,
            Call::TalkerFunctionsHeard(_) => 32,
            Call::GroupRead(_) => 33,
            Call::GroupWrite(..) => 34,
            Call::GroupFind(_) => 35,
        }
    }

    pub fn name(&self) -> &'static str {
        NAMES[self.place()]
    }
}

/// A call on which two faces differ.
#[derive(Clone, Debug, PartialEq, Eq)]
pub struct Mismatch {
    pub call: Call,
    pub left: Answer,
    pub right: Answer,
    /// The first place at which the buffers differ, and what stands there.
    pub buffers: Option<(usize, u8, u8)>,
}

impl fmt::Display for Mismatch {
    fn fmt(&self, f: &mut fmt::Formatter) -> fmt::Result {
        writeln!(f, "call:      {:?}", self.call)?;
        writeln!(f, "face:      {:?}", self.left)?;
        writeln!(f, "reference: {:?}", self.right)?;
        if let Some((place, left, right)) = self.buffers {
            writeln!(
                f,
                "buffer:    at place {place} the face leaves {left:02X}, the reference {right:02X}"
            )?;
        }
        Ok(())
    }
}

/// Two faces side by side, each with a buffer of its own, and how often each function was called and with what outcome.
pub struct Pair<'a, L, R> {
    pub left: &'a L,
    pub right: &'a R,
    buffers: [Vec<u8>; 2],
    pub tally: Tally,
}

impl<'a, L: Face, R: Face> Pair<'a, L, R> {
    pub fn new(left: &'a L, right: &'a R) -> Pair<'a, L, R> {
        Pair {
            left,
            right,
            buffers: [vec![0; BUFFER_ROOM], vec![0; BUFFER_ROOM]],
            tally: Tally::default(),
        }
    }

    /// Both buffers as at the start of a case: bytes of the pool.
    pub fn fill_buffers(&mut self) {
        for buffer in &mut self.buffers {
            buffer.copy_from_slice(&pool()[..BUFFER_ROOM]);
        }
    }

    /// Makes the call on both; the answer, where answers and buffers are alike.
    pub fn compare(&mut self, call: Call) -> Result<Answer, Box<Mismatch>> {
        let [ours, theirs] = &mut self.buffers;
        let left = answer(self.left, &call, ours);
        let right = answer(self.right, &call, theirs);
        self.tally.add(&call, &right);
        let written = matches!(call, Call::ReceiverHear(..)) && ours != theirs;
        if left == right && !written {
            return Ok(left);
        }
        let differs = (0..BUFFER_ROOM).find(|&place| ours[place] != theirs[place]);
        Err(Box::new(Mismatch {
            call,
            left,
            right,
            buffers: differs.map(|place| (place, ours[place], theirs[place])),
        }))
    }
}
