//! What a call meets of document 02's E6, to count how often each comes.

use crate::call::{Answer, Call, Counts};
use crate::interface::Ends;
use crate::values::*;
use crate::Reference;

/// A call of the summary.
#[derive(Clone, Copy, Debug, PartialEq, Eq)]
pub enum Counting {
    /// An accepted begin, long or short, over counts that are not all 0, and over counts that are.
    BeginClears,
    BeginFromZero,
    ShortClears,
    ShortFromZero,
    /// A refused begin over counts that are not all 0.
    BeginRefused3,
    BeginRefused2,
    /// The frame of a tick is counted, by the phase: frame 0 again, the next frame, the window's last again.
    CountsOpening,
    CountsSending,
    CountsWaiting,
    /// The same where the number's count was 255 before, and where it was 65535 and stays.
    PassesByte,
    Stays,
    /// A tick over counts that are not all 0: none goes out, SM_RM again, a closing NACK, in Idle, refused 4.
    TickQuiet,
    TickShort,
    TickNack,
    TickIdle,
    TickRefused4,
    /// A hearing over counts that are not all 0: no frame and no report, NACK 4, sent, failed, refused 6, refused 7.
    HearQuiet,
    HearNack,
    HearSent,
    HearFailed,
    HearRefused6,
    HearRefused7,
    /// A post over counts that are not all 0, and one refused 2.
    Posts,
    PostRefused2,
    /// Refused 5, by what else would have been refused: nothing, or that number.
    BeginRefused5,
    BeginRefused5Not3,
    BeginRefused5Not2,
    TickRefused5,
    TickRefused5Not4,
    HearRefused5,
    HearRefused5Not6,
    HearRefused5Not7,
    PostRefused5,
    PostRefused5Not2,
    /// All counts 0.
    MostOfNone,
    /// One number alone was sent most often: 0, one between, 255; several were, 0 among them or not.
    Most0,
    MostBetween,
    Most255,
    MostOfEquals0,
    MostOfEquals,
    MostRefused5,
    /// A count of 0, of one byte, of two, and refused.
    CountZero,
    CountByte,
    CountWord,
    CountRefused5,
}

impl Counting {
    pub const ALL: [Counting; 45] = [
        Counting::BeginClears,
        Counting::BeginFromZero,
        Counting::ShortClears,
        Counting::ShortFromZero,
        Counting::BeginRefused3,
        Counting::BeginRefused2,
        Counting::CountsOpening,
        Counting::CountsSending,
        Counting::CountsWaiting,
        Counting::PassesByte,
        Counting::Stays,
        Counting::TickQuiet,
        Counting::TickShort,
        Counting::TickNack,
        Counting::TickIdle,
        Counting::TickRefused4,
        Counting::HearQuiet,
        Counting::HearNack,
        Counting::HearSent,
        Counting::HearFailed,
        Counting::HearRefused6,
        Counting::HearRefused7,
        Counting::Posts,
        Counting::PostRefused2,
        Counting::BeginRefused5,
        Counting::BeginRefused5Not3,
        Counting::BeginRefused5Not2,
        Counting::TickRefused5,
        Counting::TickRefused5Not4,
        Counting::HearRefused5,
        Counting::HearRefused5Not6,
        Counting::HearRefused5Not7,
        Counting::PostRefused5,
        Counting::PostRefused5Not2,
        Counting::MostOfNone,
        Counting::Most0,
        Counting::MostBetween,
        Counting::Most255,
        Counting::MostOfEquals0,
        Counting::MostOfEquals,
        Counting::MostRefused5,
        Counting::CountZero,
        Counting::CountByte,
        Counting::CountWord,
        Counting::CountRefused5,
    ];

    /// By a call and its right answer.
    pub fn by(call: &Call, answer: &Answer) -> Option<Counting> {
        match (call, answer) {
            (Call::SummaryBegin(end, message, counts), Answer::Kept(answer, _)) => {
                let plain = || Reference.sender_begin(*end, message.bytes()).refusal;
                begin(counts, answer, plain)
            }
            (Call::SummaryTick(end, message, counts), Answer::Kept(answer, _)) => {
                let plain = || Reference.sender_tick(*end, message.bytes()).refusal;
                tick(end, counts, answer, plain)
            }
            (Call::SummaryHear(end, frame, counts), Answer::Kept(answer, _)) => {
                let plain = || Reference.sender_hear(*end, *frame).refusal;
                hear(counts, answer, plain)
            }
            (Call::SummaryPost(end, message, counts), Answer::Kept(answer, _)) => {
                let plain = || Reference.sender_post(*end, message.bytes()).refusal;
                post(counts, answer, plain)
            }
            (Call::SummaryMost(counts), Answer::Counted(most)) => Some(named(counts, most)),
            (Call::SummaryCount(..), Answer::Counted(counted)) => {
                Some(match (counted.refusal, counted.count) {
                    (0, 0) => Counting::CountZero,
                    (0, 1..=255) => Counting::CountByte,
                    (0, _) => Counting::CountWord,
                    _ => Counting::CountRefused5,
                })
            }
            _ => None,
        }
    }
}

fn all_zero(counts: &Counts) -> bool {
    counts.0.iter().all(|&byte| byte == 0)
}

fn word(counts: &Counts, number: u8) -> u16 {
    let place = 2 * usize::from(number);
    u16::from_le_bytes([counts.0[place], counts.0[place + 1]])
}

/// `plain` is what the sender's own call is refused with.
fn begin(counts: &Counts, answer: &FlatSenderAnswer, plain: impl Fn() -> u8) -> Option<Counting> {
    Some(match (answer.refusal, all_zero(counts)) {
        (0, false) if answer.frame.kind == 1 => Counting::BeginClears,
        (0, true) if answer.frame.kind == 1 => Counting::BeginFromZero,
        (0, false) => Counting::ShortClears,
        (0, true) => Counting::ShortFromZero,
        (3, false) => Counting::BeginRefused3,
        (2, false) => Counting::BeginRefused2,
        (5, _) => match plain() {
            3 => Counting::BeginRefused5Not3,
            2 => Counting::BeginRefused5Not2,
            _ => Counting::BeginRefused5,
        },
        _ => return None,
    })
}

fn tick(
    end: &FlatSender,
    counts: &Counts,
    answer: &FlatSenderAnswer,
    plain: impl Fn() -> u8,
) -> Option<Counting> {
    if answer.frame.kind == 1 {
        return match (word(counts, answer.frame.bytes[0]), end.phase) {
            (255, _) => Some(Counting::PassesByte),
            (65535, _) => Some(Counting::Stays),
            (_, 1) => Some(Counting::CountsOpening),
            (_, 2) => Some(Counting::CountsSending),
            _ => Some(Counting::CountsWaiting),
        };
    }
    if answer.refusal == 5 {
        return Some(match plain() {
            4 => Counting::TickRefused5Not4,
            _ => Counting::TickRefused5,
        });
    }
    let met = match (answer.refusal, answer.frame.kind, end.phase) {
        (0, 5, _) => Counting::TickShort,
        (0, 3, _) => Counting::TickNack,
        (0, _, 1..=4) => Counting::TickQuiet,
        (0, ..) => Counting::TickIdle,
        _ => Counting::TickRefused4,
    };
    (!all_zero(counts)).then_some(met)
}

fn hear(counts: &Counts, answer: &FlatSenderAnswer, plain: impl Fn() -> u8) -> Option<Counting> {
    if answer.refusal == 5 {
        return Some(match plain() {
            6 => Counting::HearRefused5Not6,
            7 => Counting::HearRefused5Not7,
            _ => Counting::HearRefused5,
        });
    }
    let met = match (answer.refusal, answer.outcome) {
        (0, 5) => Counting::HearSent,
        (0, 3) if answer.emits => Counting::HearNack,
        (0, 3) => Counting::HearFailed,
        (0, _) => Counting::HearQuiet,
        (6, _) => Counting::HearRefused6,
        _ => Counting::HearRefused7,
    };
    (!all_zero(counts)).then_some(met)
}

fn post(counts: &Counts, answer: &FlatSenderAnswer, plain: impl Fn() -> u8) -> Option<Counting> {
    match (answer.refusal, all_zero(counts)) {
        (0, false) => Some(Counting::Posts),
        (2, false) => Some(Counting::PostRefused2),
        (5, _) if plain() == 2 => Some(Counting::PostRefused5Not2),
        (5, _) => Some(Counting::PostRefused5),
        _ => None,
    }
}

fn named(counts: &Counts, most: &FlatCount) -> Counting {
    if most.refusal != 0 {
        return Counting::MostRefused5;
    }
    let alike = (0..=255).filter(|&number| word(counts, number) == most.count);
    match (most.count, alike.count(), most.number) {
        (0, ..) => Counting::MostOfNone,
        (_, 1, 0) => Counting::Most0,
        (_, 1, 255) => Counting::Most255,
        (_, 1, _) => Counting::MostBetween,
        (_, _, 0) => Counting::MostOfEquals0,
        _ => Counting::MostOfEquals,
    }
}
