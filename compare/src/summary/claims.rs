//! What E6 claims of a summary after every call, judged by the events and the sending time alone.

use std::fmt;

use super::run::{Call, Event};
use crate::reference::frame::{Frame, SHORT_MOST};
use crate::reference::sender::{Answer, Report};
use crate::reference::summary::{Most, SUMMARY_LENGTH};
use crate::reference::Refused;

/// How a claim is broken.
#[derive(Clone, Copy, Debug, PartialEq, Eq)]
pub enum Broken {
    /// The call answers otherwise than the sender's own does; where other bytes than 512 are lent, with
    /// anything but refusal 5.
    Answer {
        answer: Result<Answer, Refused>,
        due: Result<Answer, Refused>,
    },
    /// A refused call changed the lent bytes.
    RefusedChanges(Refused),
    /// Naming or reading took other bytes than 512.
    OtherBytes,
    /// Post changed a count.
    PostChanges,
    /// A count that is not 0, or another number than 0 named, before any long begin.
    BeforeLong,
    /// The same in or after a short transfer.
    Short,
    /// A count is not the one in the history.
    Count { number: u8, kept: u16, sent: u32 },
    /// Reading a count gives another than the bytes have.
    Read { number: u8, kept: u16 },
    /// A count is above the sending time M.
    AboveM { number: u8, kept: u16 },
    /// A report counts other frames than the history has.
    Frames { reported: u16, emitted: usize },
    /// At a report the sum is not the information frames among its frames.
    Sum { sum: u32, information: usize },
    /// Another number is named than the lowest of those sent most often, or with another count.
    Named { named: Most, due: Most },
}

/// A broken claim, and the call that broke it; the first is 1.
#[derive(Clone, Copy, Debug, PartialEq, Eq)]
pub struct Violation {
    pub call: usize,
    pub broken: Broken,
}

impl fmt::Display for Violation {
    fn fmt(&self, f: &mut fmt::Formatter<'_>) -> fmt::Result {
        write!(f, "call {}: {:?}", self.call, self.broken)
    }
}

/// A frame of the history.
#[derive(Clone, Copy, Debug)]
struct Emitted {
    frame: Frame,
    posted: bool,
}

/// The claims along a run.
#[derive(Clone, Debug)]
pub struct Claims {
    sending_time: u16,
    calls: usize,
    /// All frames since the sender was made.
    history: Vec<Emitted>,
    /// Where in it the last accepted begin stands, and whether that one was long.
    begun: usize,
    long: bool,
    /// An accepted begin was long.
    any_long: bool,
    /// Information frames of each number since the last accepted begin.
    sent: Vec<u32>,
}

impl Claims {
    pub fn new(sending_time: u16) -> Claims {
        Claims {
            sending_time,
            calls: 0,
            history: Vec::new(),
            begun: 0,
            long: false,
            any_long: false,
            sent: vec![0; 256],
        }
    }

    /// Takes the next event. An error if it breaks a claim.
    pub fn see(&mut self, event: &Event) -> Result<(), Violation> {
        self.calls += 1;
        self.record(event);
        let call = self.calls;
        self.judge(event)
            .map_err(|broken| Violation { call, broken })
    }

    /// How often each number was sent since the last accepted begin.
    pub fn sent(&self) -> &[u32] {
        &self.sent
    }

    fn record(&mut self, event: &Event) {
        let Ok(answer) = event.answer else {
            return;
        };
        if let Call::Begin(length) = event.call {
            self.begun = self.history.len();
            self.long = length > SHORT_MOST;
            self.any_long |= self.long;
        }
        if let Some(frame) = answer.frame {
            let posted = matches!(event.call, Call::Post(_));
            self.history.push(Emitted { frame, posted });
        }
        if answer.frame.is_some() || matches!(event.call, Call::Begin(_)) {
            self.recount();
        }
    }

    /// Goes through the history since the last accepted begin, from its first frame.
    fn recount(&mut self) {
        self.sent.fill(0);
        for emitted in &self.history[self.begun..] {
            if information(emitted) {
                self.sent[usize::from(emitted.frame.data[0])] += 1;
            }
        }
    }

    fn judge(&self, event: &Event) -> Result<(), Broken> {
        answered(event)?;
        if event.after.len() != SUMMARY_LENGTH {
            return other_bytes(event);
        }
        let (Ok(named), kept) = (event.most, words(&event.after)) else {
            return Err(Broken::OtherBytes);
        };
        self.all_zero(&kept, named)?;
        if let Some(report) = event.answer.ok().and_then(|answer| answer.report) {
            self.at_report(report, &kept)?;
        }
        self.within_m(&kept)?;
        self.each_count(&kept)?;
        each_reading(event, &kept)?;
        self.named(named)
    }

    /// Before any long begin, and since a short one: all counts are 0, and 0 is named.
    fn all_zero(&self, kept: &[u16], named: Most) -> Result<(), Broken> {
        let zero = Most {
            number: 0,
            count: 0,
        };
        if named == zero && kept.iter().all(|&count| count == 0) {
            return Ok(());
        }
        match (self.any_long, self.long) {
            (false, _) => Err(Broken::BeforeLong),
            (true, false) => Err(Broken::Short),
            (true, true) => Ok(()),
        }
    }

    /// No count is above M.
    fn within_m(&self, kept: &[u16]) -> Result<(), Broken> {
        let mut each = (0..=255).zip(kept);
        match each.find(|&(_, &kept)| kept > self.sending_time) {
            Some((number, &kept)) => Err(Broken::AboveM { number, kept }),
            None => Ok(()),
        }
    }

    /// Each count equals that in the history.
    fn each_count(&self, kept: &[u16]) -> Result<(), Broken> {
        for (number, (&kept, &sent)) in (0..=255).zip(kept.iter().zip(&self.sent)) {
            if u32::from(kept) != sent {
                return Err(Broken::Count { number, kept, sent });
            }
        }
        Ok(())
    }

    /// The frames that a report counts are those since begin that were not posted.
    fn at_report(&self, report: Report, kept: &[u16]) -> Result<(), Broken> {
        let (Report::Sent { frames, .. } | Report::Failed { frames, .. }) = report;
        let since = self.history[self.begun..].iter();
        let counted = since.filter(|emitted| !emitted.posted);
        let emitted = counted.clone().count();
        if usize::from(frames) != emitted {
            let reported = frames;
            return Err(Broken::Frames { reported, emitted });
        }
        let information = counted.filter(|emitted| information(emitted)).count();
        let sum = kept.iter().map(|&count| u32::from(count)).sum();
        if sum as usize != information {
            return Err(Broken::Sum { sum, information });
        }
        Ok(())
    }

    /// The highest count first, and then the first number that has it.
    fn named(&self, named: Most) -> Result<(), Broken> {
        let highest = self.sent.iter().copied().max().unwrap_or(0);
        let first = self.sent.iter().position(|&count| count == highest);
        let due = Most {
            number: first.unwrap_or(0) as u8,
            count: highest as u16,
        };
        if named != due {
            return Err(Broken::Named { named, due });
        }
        Ok(())
    }
}

/// "1 information."
fn information(emitted: &Emitted) -> bool {
    emitted.frame.kind == 1
}

/// The answer is the sender's own, a refused call leaves the lent bytes, and so does a post.
fn answered(event: &Event) -> Result<(), Broken> {
    let (answer, due) = (event.answer, event.plain);
    if answer != due {
        return Err(Broken::Answer { answer, due });
    }
    if event.before == event.after {
        return Ok(());
    }
    match (answer, event.call) {
        (Err(refused), _) => Err(Broken::RefusedChanges(refused)),
        (Ok(_), Call::Post(_)) => Err(Broken::PostChanges),
        _ => Ok(()),
    }
}

/// Nothing is named or read of other bytes than 512.
fn other_bytes(event: &Event) -> Result<(), Broken> {
    let refused = Refused(5);
    if event.most != Err(refused) || event.counts.iter().any(|&count| count != Err(refused)) {
        return Err(Broken::OtherBytes);
    }
    Ok(())
}

/// Reading gives what the bytes have.
fn each_reading(event: &Event, kept: &[u16]) -> Result<(), Broken> {
    for (number, (&kept, &read)) in (0..=255).zip(kept.iter().zip(&event.counts)) {
        if read != Ok(kept) {
            return Err(Broken::Read { number, kept });
        }
    }
    Ok(())
}

/// The lent bytes as words, low byte first.
fn words(bytes: &[u8]) -> Vec<u16> {
    let pairs = bytes.chunks(2);
    pairs
        .map(|pair| u16::from(pair[0]) + 256 * u16::from(pair[1]))
        .collect()
}
