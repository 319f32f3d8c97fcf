//! Senders whose summary has a mistake, in a table.

use compare::reference::frame::Frame;
use compare::reference::sender::{Answer, Phase, Sender};
use compare::reference::summary::{self, Most, SUMMARY_LENGTH};
use compare::reference::{refusal, Refused};
use compare::summary::claims::Broken;
use compare::summary::run::Settings;
use compare::summary::{plain_call, Given, SummarySender};

/// The three calls of a summary, of which one has a mistake.
#[derive(Clone, Copy)]
pub struct Variant {
    pub name: &'static str,
    pub call: fn(&mut Sender, Given<'_>, &mut [u8]) -> Result<Answer, Refused>,
    pub most: fn(&[u8]) -> Result<Most, Refused>,
    pub count: fn(&[u8], u8) -> Result<u16, Refused>,
    /// Whether this is what the check finds broken first.
    pub breaks: fn(&Broken) -> bool,
}

/// The reference, in the place of what a variant does not name.
pub const RIGHT: Variant = Variant {
    name: "right",
    call: right,
    most: summary::most,
    count: summary::count,
    breaks: |_| false,
};

struct With(Sender, Variant);

impl SummarySender for With {
    fn call(&mut self, given: Given<'_>, summary: &mut [u8]) -> Result<Answer, Refused> {
        (self.1.call)(&mut self.0, given, summary)
    }

    fn most(&self, summary: &[u8]) -> Result<Most, Refused> {
        (self.1.most)(summary)
    }

    fn count(&self, summary: &[u8], number: u8) -> Result<u16, Refused> {
        (self.1.count)(summary, number)
    }
}

pub fn make(variant: Variant, settings: Settings) -> Box<dyn SummarySender> {
    Box::new(With(settings.sender(), variant))
}

fn right(sender: &mut Sender, given: Given, summary: &mut [u8]) -> Result<Answer, Refused> {
    SummarySender::call(sender, given, summary)
}

/// A variant's row: which of the three is in place of the right one, and what is broken.
macro_rules! row {
    ($name:literal, $field:ident: $mistake:expr, $broken:pat) => {
        Variant {
            name: $name,
            $field: $mistake,
            breaks: |broken| matches!(broken, $broken),
            ..RIGHT
        }
    };
}

/// A count is wrong; which claim is the first to break depends on the run.
macro_rules! miscounted {
    () => {
        Broken::Short | Broken::Sum { .. } | Broken::AboveM { .. } | Broken::Count { .. }
    };
}

pub const VARIANTS: &[Variant] = &[
    // Clearing.
    row!("begin does not clear", call: begin_keeps, miscounted!()),
    row!("a long begin does not clear", call: long_begin_keeps, miscounted!()),
    row!("a short begin does not clear", call: short_begin_keeps, Broken::Short),
    row!("a refused begin clears", call: refused_begin_clears, Broken::RefusedChanges(_)),
    row!("begin clears all but number 0", call: keeps_0, miscounted!()),
    row!("begin clears the low bytes", call: keeps_high, miscounted!()),
    row!("begin clears after counting", call: clears_late, Broken::Count { number: 0, kept: 0, .. }),
    row!("a report clears", call: report_clears, Broken::Sum { .. }),
    row!("an Idle tick clears", call: idle_tick_clears, Broken::Count { .. }),
    row!("the first LM_ACK clears", call: opening_clears, Broken::Count { .. }),
    row!("a refused tick clears", call: refused_tick_clears, Broken::RefusedChanges(Refused(4))),
    row!("post clears", call: post_clears, Broken::PostChanges),
    // What is counted.
    row!("post counts", call: post_counts, Broken::PostChanges),
    row!("SM_RM counts", call: short_counts, Broken::BeforeLong | Broken::Short),
    row!("SM_RM of a later transfer counts", call: later_short_counts, Broken::Short),
    row!("NACK counts", call: nack_counts, Broken::Sum { .. }),
    row!("number 0 is not counted", call: not_0, Broken::Count { number: 0, kept: 0, .. }),
    row!("number 0 again is not counted", call: once_0, Broken::Count { number: 0, kept: 1, sent: 2 }),
    row!("a repeat is not counted", call: once, Broken::Count { kept: 1, sent: 2, .. }),
    row!("a miss's frame is not counted", call: not_misses, Broken::Count { kept: 1, sent: 2, .. }),
    row!("number 255 is not counted", call: not_255, Broken::Count { number: 255, .. }),
    row!("a frame that goes is counted twice", call: twice, Broken::Count { kept: 2, sent: 1, .. }),
    row!("frames are counted when asked for", call: when_asked, Broken::Count { .. }),
    row!("a refused hearing counts", call: refused_counts, Broken::RefusedChanges(_)),
    // Where it is counted.
    row!("the number is d1", call: by_d1, Broken::Count { .. }),
    row!("one number too high", call: one_too_high, Broken::Count { number: 0, .. }),
    row!("high byte first", call: high_first, miscounted!()),
    row!("the low byte alone", call: low_byte, Broken::Count { kept: 0, sent: 256, .. }),
    row!("stays at 255", call: stays_at_255, Broken::Count { kept: 255, sent: 256, .. }),
    // Refusals and answers.
    row!("5 after the sender's own", call: late_5, Broken::Answer { .. }),
    row!("513 bytes are taken", call: takes_513, Broken::Answer { due: Err(Refused(5)), .. }),
    row!("Idle ticks take any bytes", call: idle_takes_any, Broken::Answer { .. }),
    row!("5 clears", call: clears_at_5, Broken::RefusedChanges(Refused(5))),
    row!("the frame is held back", call: no_frame, Broken::Answer { .. }),
    // Naming.
    row!("of equals the highest", most: highest, Broken::BeforeLong | Broken::Named { .. }),
    row!("of equals the highest, 0 at 0", most: highest_or_0, Broken::Named { .. }),
    row!("number 0 is never named", most: from_1, Broken::BeforeLong | Broken::Named { .. }),
    row!("number 255 is never named", most: to_254, Broken::Named { .. }),
    row!("the low bytes decide", most: by_low_byte, Broken::Named { .. }),
    row!("the least is named", most: least, Broken::Named { .. }),
    row!("the last is named", most: last_sent, Broken::Named { .. }),
    row!("the low byte of the count", most: low_count, Broken::Named { .. }),
    row!("names of any bytes", most: names_any, Broken::OtherBytes),
    // Reading.
    row!("reads high byte first", count: reads_high_first, Broken::Read { .. }),
    row!("reads the next", count: reads_next, Broken::Read { .. }),
    row!("reads the low byte", count: reads_low, Broken::Read { .. }),
    row!("reads any bytes", count: reads_any, Broken::OtherBytes),
];

fn long(given: Given) -> bool {
    matches!(given, Given::Begin(message) if message.len() > 8)
}

fn short(given: Given) -> bool {
    matches!(given, Given::Begin(message) if message.len() <= 8)
}

/// Raises the count of a number.
fn raise(summary: &mut [u8], number: u8) {
    set(
        summary,
        number,
        summary::count(summary, number).unwrap() + 1,
    );
}

fn set(summary: &mut [u8], number: u8, count: u16) {
    let place = 2 * usize::from(number);
    summary[place..place + 2].copy_from_slice(&count.to_le_bytes());
}

/// The sender's call, after refusal 5.
fn judged(sender: &mut Sender, given: Given, summary: &[u8]) -> Result<Answer, Refused> {
    if summary.len() != SUMMARY_LENGTH {
        return Err(refusal::BUFFER);
    }
    plain_call(sender, given)
}

/// The right call, and then what a mistake adds to an accepted one: it has the bytes from before.
fn after(
    sender: &mut Sender,
    given: Given,
    summary: &mut [u8],
    mistake: fn(Given, Answer, &[u8], &mut [u8]),
) -> Result<Answer, Refused> {
    let before = summary.to_vec();
    let answer = right(sender, given, summary)?;
    mistake(given, answer, &before, summary);
    Ok(answer)
}

/// The right call, and the bytes cleared where it is refused so.
fn clearing(
    sender: &mut Sender,
    given: Given,
    summary: &mut [u8],
    so: fn(Given, Refused) -> bool,
) -> Result<Answer, Refused> {
    right(sender, given, summary).inspect_err(|&refused| {
        if so(given, refused) {
            summary.fill(0);
        }
    })
}

/// The right call, with other counting: `change` does it for each frame that went out.
fn counting(
    sender: &mut Sender,
    given: Given,
    summary: &mut [u8],
    change: fn(Frame, &mut [u8]),
) -> Result<Answer, Refused> {
    let answer = judged(sender, given, summary)?;
    if matches!(given, Given::Begin(_)) {
        summary.fill(0);
    }
    if let Some(frame) = answer.frame {
        change(frame, summary);
    }
    Ok(answer)
}

type Called = Result<Answer, Refused>;

fn begin_keeps(sender: &mut Sender, given: Given, summary: &mut [u8]) -> Called {
    after(sender, given, summary, |given, _, before, summary| {
        if matches!(given, Given::Begin(_)) {
            summary.copy_from_slice(before);
        }
        if long(given) {
            raise(summary, 0);
        }
    })
}

fn long_begin_keeps(sender: &mut Sender, given: Given, summary: &mut [u8]) -> Called {
    after(sender, given, summary, |given, _, before, summary| {
        if long(given) {
            summary.copy_from_slice(before);
            raise(summary, 0);
        }
    })
}

fn short_begin_keeps(sender: &mut Sender, given: Given, summary: &mut [u8]) -> Called {
    after(sender, given, summary, |given, _, before, summary| {
        if short(given) {
            summary.copy_from_slice(before);
        }
    })
}

fn refused_begin_clears(sender: &mut Sender, given: Given, summary: &mut [u8]) -> Called {
    clearing(sender, given, summary, |given, refused| {
        matches!(given, Given::Begin(_)) && refused != refusal::BUFFER
    })
}

fn keeps_0(sender: &mut Sender, given: Given, summary: &mut [u8]) -> Called {
    after(sender, given, summary, |given, _, before, summary| {
        if matches!(given, Given::Begin(_)) {
            summary[..2].copy_from_slice(&before[..2]);
        }
        if long(given) {
            raise(summary, 0);
        }
    })
}

fn keeps_high(sender: &mut Sender, given: Given, summary: &mut [u8]) -> Called {
    after(sender, given, summary, |given, _, before, summary| {
        if matches!(given, Given::Begin(_)) {
            for place in (1..SUMMARY_LENGTH).step_by(2) {
                summary[place] = before[place];
            }
        }
    })
}

fn clears_late(sender: &mut Sender, given: Given, summary: &mut [u8]) -> Called {
    after(sender, given, summary, |given, _, _, summary| {
        if long(given) {
            summary.fill(0);
        }
    })
}

fn report_clears(sender: &mut Sender, given: Given, summary: &mut [u8]) -> Called {
    after(sender, given, summary, |_, answer, _, summary| {
        if answer.report.is_some() {
            summary.fill(0);
        }
    })
}

fn idle_tick_clears(sender: &mut Sender, given: Given, summary: &mut [u8]) -> Called {
    let idle = sender.phase == Phase::Idle;
    let answer = right(sender, given, summary)?;
    if idle && matches!(given, Given::Tick(_)) {
        summary.fill(0);
    }
    Ok(answer)
}

fn opening_clears(sender: &mut Sender, given: Given, summary: &mut [u8]) -> Called {
    let fresh = sender.start.is_none();
    let answer = right(sender, given, summary)?;
    if fresh && sender.start.is_some() {
        summary.fill(0);
    }
    Ok(answer)
}

fn refused_tick_clears(sender: &mut Sender, given: Given, summary: &mut [u8]) -> Called {
    clearing(sender, given, summary, |_, refused| {
        refused == refusal::LENT_LENGTH
    })
}

fn clears_at_5(sender: &mut Sender, given: Given, summary: &mut [u8]) -> Called {
    clearing(sender, given, summary, |_, refused| {
        refused == refusal::BUFFER
    })
}

fn post_clears(sender: &mut Sender, given: Given, summary: &mut [u8]) -> Called {
    after(sender, given, summary, |given, _, _, summary| {
        if matches!(given, Given::Post(_)) {
            summary.fill(0);
        }
    })
}

fn post_counts(sender: &mut Sender, given: Given, summary: &mut [u8]) -> Called {
    counts_kind(sender, given, summary, 7)
}

fn short_counts(sender: &mut Sender, given: Given, summary: &mut [u8]) -> Called {
    counts_kind(sender, given, summary, 5)
}

fn nack_counts(sender: &mut Sender, given: Given, summary: &mut [u8]) -> Called {
    counts_kind(sender, given, summary, 3)
}

/// The right call, and a frame of this kind is counted, too.
fn counts_kind(sender: &mut Sender, given: Given, summary: &mut [u8], kind: u8) -> Called {
    let answer = right(sender, given, summary)?;
    match answer.frame {
        Some(frame) if frame.kind == kind => raise(summary, frame.data[0]),
        _ => {}
    }
    Ok(answer)
}

/// Not at begin, but where SM_RM goes again.
fn later_short_counts(sender: &mut Sender, given: Given, summary: &mut [u8]) -> Called {
    after(sender, given, summary, |given, answer, _, summary| {
        match (given, answer.frame) {
            (Given::Tick(_), Some(frame)) if frame.kind == 5 => raise(summary, 0),
            _ => {}
        }
    })
}

/// Counts an information frame, where this is so.
fn count_if(frame: Frame, summary: &mut [u8], so: bool) {
    if frame.kind == 1 && so {
        raise(summary, frame.data[0]);
    }
}

fn not_0(sender: &mut Sender, given: Given, summary: &mut [u8]) -> Called {
    counting(sender, given, summary, |frame, summary| {
        count_if(frame, summary, frame.data[0] != 0);
    })
}

fn not_255(sender: &mut Sender, given: Given, summary: &mut [u8]) -> Called {
    counting(sender, given, summary, |frame, summary| {
        count_if(frame, summary, frame.data[0] != 255);
    })
}

fn once_0(sender: &mut Sender, given: Given, summary: &mut [u8]) -> Called {
    counting(sender, given, summary, |frame, summary| {
        let again = frame.data[0] == 0 && summary[0] == 1;
        count_if(frame, summary, !again);
    })
}

fn once(sender: &mut Sender, given: Given, summary: &mut [u8]) -> Called {
    counting(sender, given, summary, |frame, summary| {
        let count = summary::count(summary, frame.data[0]).unwrap();
        count_if(frame, summary, count == 0);
    })
}

fn not_misses(sender: &mut Sender, given: Given, summary: &mut [u8]) -> Called {
    let (misses, before) = (sender.misses, summary.to_vec());
    let answer = right(sender, given, summary)?;
    if matches!(given, Given::Tick(_)) && sender.misses > misses {
        summary.copy_from_slice(&before);
    }
    Ok(answer)
}

fn twice(sender: &mut Sender, given: Given, summary: &mut [u8]) -> Called {
    counting(sender, given, summary, |frame, summary| {
        count_if(frame, summary, true);
        count_if(frame, summary, frame.data[0] != 0);
    })
}

/// A window is counted as a whole when its LM_ACK is taken.
fn when_asked(sender: &mut Sender, given: Given, summary: &mut [u8]) -> Called {
    let before = sender.phase;
    let answer = judged(sender, given, summary)?;
    if matches!(given, Given::Begin(_)) {
        summary.fill(0);
    }
    match (given, sender.phase) {
        (Given::Hear(_), Phase::Sending { next, last }) if before != sender.phase => {
            (next..=last).for_each(|number| raise(summary, number));
        }
        (_, Phase::Opening | Phase::Waiting { .. }) if before == sender.phase => {
            answer
                .frame
                .iter()
                .for_each(|&frame| count_if(frame, summary, true));
        }
        (Given::Begin(_), Phase::Opening) => raise(summary, 0),
        _ => {}
    }
    Ok(answer)
}

fn refused_counts(sender: &mut Sender, given: Given, summary: &mut [u8]) -> Called {
    let answer = right(sender, given, summary);
    if let (Given::Hear(heard), Err(Refused(6 | 7))) = (given, answer) {
        raise(summary, heard.data[0]);
    }
    answer
}

fn by_d1(sender: &mut Sender, given: Given, summary: &mut [u8]) -> Called {
    counting(sender, given, summary, |frame, summary| {
        if frame.kind == 1 {
            raise(summary, frame.data[1]);
        }
    })
}

fn one_too_high(sender: &mut Sender, given: Given, summary: &mut [u8]) -> Called {
    counting(sender, given, summary, |frame, summary| {
        if frame.kind == 1 {
            raise(summary, frame.data[0].saturating_add(1));
        }
    })
}

fn high_first(sender: &mut Sender, given: Given, summary: &mut [u8]) -> Called {
    counting(sender, given, summary, |frame, summary| {
        if frame.kind == 1 {
            let count = summary::count(summary, frame.data[0]).unwrap();
            set(
                summary,
                frame.data[0],
                (count.swap_bytes() + 1).swap_bytes(),
            );
        }
    })
}

fn low_byte(sender: &mut Sender, given: Given, summary: &mut [u8]) -> Called {
    counting(sender, given, summary, |frame, summary| {
        if frame.kind == 1 {
            let place = 2 * usize::from(frame.data[0]);
            summary[place] = summary[place].wrapping_add(1);
        }
    })
}

/// No history comes to 65535, so this is not found.
pub const WRAPS: Variant = Variant {
    name: "65535 and one more are 0",
    call: wraps,
    ..RIGHT
};

fn wraps(sender: &mut Sender, given: Given, summary: &mut [u8]) -> Called {
    counting(sender, given, summary, |frame, summary| {
        if frame.kind == 1 {
            let count = summary::count(summary, frame.data[0]).unwrap();
            set(summary, frame.data[0], count.wrapping_add(1));
        }
    })
}

fn stays_at_255(sender: &mut Sender, given: Given, summary: &mut [u8]) -> Called {
    counting(sender, given, summary, |frame, summary| {
        let count = summary::count(summary, frame.data[0]).unwrap();
        count_if(frame, summary, count < 255);
    })
}

fn late_5(sender: &mut Sender, given: Given, summary: &mut [u8]) -> Called {
    plain_call(&mut sender.clone(), given)?;
    right(sender, given, summary)
}

fn takes_513(sender: &mut Sender, given: Given, summary: &mut [u8]) -> Called {
    match summary.len() {
        513 => right(sender, given, &mut summary[..SUMMARY_LENGTH]),
        _ => right(sender, given, summary),
    }
}

fn idle_takes_any(sender: &mut Sender, given: Given, summary: &mut [u8]) -> Called {
    match (given, sender.phase) {
        (Given::Tick(_), Phase::Idle) => Ok(Answer::default()),
        _ => right(sender, given, summary),
    }
}

fn no_frame(sender: &mut Sender, given: Given, summary: &mut [u8]) -> Called {
    let answer = right(sender, given, summary)?;
    Ok(Answer {
        frame: None,
        ..answer
    })
}

/// What is named by the greatest key of a number and its count, the first of those that have it.
fn by_key<K: Ord>(summary: &[u8], key: fn(u8, u16) -> K) -> Result<Most, Refused> {
    let count = |number: u8| summary::count(summary, number);
    count(0)?;
    let most = |&number: &u8| key(number, count(number).unwrap());
    let number = (0..=255).rev().max_by_key(most).unwrap();
    let count = count(number)?;
    Ok(Most { number, count })
}

fn highest(summary: &[u8]) -> Result<Most, Refused> {
    by_key(summary, |number, count| (count, number))
}

fn highest_or_0(summary: &[u8]) -> Result<Most, Refused> {
    by_key(summary, |number, count| {
        (count, if count == 0 { 0 } else { number })
    })
}

fn from_1(summary: &[u8]) -> Result<Most, Refused> {
    by_key(summary, |number, count| (number > 0, count))
}

fn to_254(summary: &[u8]) -> Result<Most, Refused> {
    by_key(summary, |number, count| (number < 255, count))
}

fn by_low_byte(summary: &[u8]) -> Result<Most, Refused> {
    by_key(summary, |_, count| count % 256)
}

fn least(summary: &[u8]) -> Result<Most, Refused> {
    by_key(summary, |_, count| (count > 0, u16::MAX - count))
}

fn last_sent(summary: &[u8]) -> Result<Most, Refused> {
    by_key(summary, |number, count| if count == 0 { 0 } else { number })
}

fn low_count(summary: &[u8]) -> Result<Most, Refused> {
    let Most { number, count } = summary::most(summary)?;
    let count = count % 256;
    Ok(Most { number, count })
}

fn names_any(summary: &[u8]) -> Result<Most, Refused> {
    let nothing = Most {
        number: 0,
        count: 0,
    };
    summary::most(summary).or(Ok(nothing))
}

fn reads_high_first(summary: &[u8], number: u8) -> Result<u16, Refused> {
    summary::count(summary, number).map(u16::swap_bytes)
}

fn reads_next(summary: &[u8], number: u8) -> Result<u16, Refused> {
    summary::count(summary, number.saturating_add(1))
}

fn reads_low(summary: &[u8], number: u8) -> Result<u16, Refused> {
    summary::count(summary, number).map(|count| count % 256)
}

fn reads_any(summary: &[u8], number: u8) -> Result<u16, Refused> {
    summary::count(summary, number).or(Ok(0))
}
