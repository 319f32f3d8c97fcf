//! What the runs of a check reached. A check that never reaches one of these would be empty there.

use std::fmt;

use super::run::{Call, Event};
use crate::reference::frame::SHORT_MOST;
use crate::reference::sender::{Answer, Report};
use crate::reference::summary::SUMMARY_LENGTH;
use crate::reference::Refused;

/// What must come about. With counts means with one above 0.
#[derive(Clone, Copy, Debug, PartialEq, Eq)]
pub enum Reached {
    // Begins.
    LongBegin,
    LongBeginClearsCounts,
    ShortBeginBeforeLong,
    ShortBeginClearsCounts,
    // Calls that leave counts as they are.
    RefusedBeginWithCounts,
    PostWithCounts,
    OtherCallAfterReportWithCounts,
    ShortGoesAgain,
    // Counts.
    NumberAgain,
    AnnouncementAgain,
    Number255,
    Above255,
    CountIsM,
    NamedNot0,
    Named255,
    /// Two or more are equal, and 0 is not among them.
    EqualsWithout0,
    // Refusals.
    Refused2,
    Refused3,
    Refused4,
    Refused5,
    Refused6,
    Refused7,
    // Reports.
    SentLong,
    SentShort,
    NackHeard,
    ThreeTimeouts,
    TimeOverLong,
    TimeOverShort,
    NumberAboveN,
}

impl Reached {
    pub const ALL: [Reached; 29] = [
        Reached::LongBegin,
        Reached::LongBeginClearsCounts,
        Reached::ShortBeginBeforeLong,
        Reached::ShortBeginClearsCounts,
        Reached::RefusedBeginWithCounts,
        Reached::PostWithCounts,
        Reached::OtherCallAfterReportWithCounts,
        Reached::ShortGoesAgain,
        Reached::NumberAgain,
        Reached::AnnouncementAgain,
        Reached::Number255,
        Reached::Above255,
        Reached::CountIsM,
        Reached::NamedNot0,
        Reached::Named255,
        Reached::EqualsWithout0,
        Reached::Refused2,
        Reached::Refused3,
        Reached::Refused4,
        Reached::Refused5,
        Reached::Refused6,
        Reached::Refused7,
        Reached::SentLong,
        Reached::SentShort,
        Reached::NackHeard,
        Reached::ThreeTimeouts,
        Reached::TimeOverLong,
        Reached::TimeOverShort,
        Reached::NumberAboveN,
    ];
}

/// How often each was reached, over all runs so far.
#[derive(Clone, Debug, Default, PartialEq, Eq)]
pub struct Counts {
    pub runs: u64,
    pub calls: u64,
    reached: [u64; Reached::ALL.len()],
}

impl Counts {
    pub fn of(&self, reached: Reached) -> u64 {
        self.reached[reached as usize]
    }

    /// What was not reached once.
    pub fn missing(&self) -> Vec<Reached> {
        let all = Reached::ALL.into_iter();
        all.filter(|&reached| self.of(reached) == 0).collect()
    }

    fn add(&mut self, rows: &[(Reached, bool)]) {
        for &(reached, when) in rows {
            self.reached[reached as usize] += u64::from(when);
        }
    }
}

impl fmt::Display for Counts {
    fn fmt(&self, f: &mut fmt::Formatter<'_>) -> fmt::Result {
        writeln!(f, "runs {}, calls {}", self.runs, self.calls)?;
        for reached in Reached::ALL {
            writeln!(f, "{reached:?} {}", self.of(reached))?;
        }
        Ok(())
    }
}

/// Counts along one run, from its events and its sending time alone.
pub struct Counter<'a> {
    counts: &'a mut Counts,
    sending_time: u16,
    long: bool,
    any_long: bool,
    reported: bool,
}

impl<'a> Counter<'a> {
    pub fn new(counts: &'a mut Counts, sending_time: u16) -> Counter<'a> {
        counts.runs += 1;
        Counter {
            counts,
            sending_time,
            long: false,
            any_long: false,
            reported: false,
        }
    }

    /// Takes the next event; `sent` is how often each number was sent by the history.
    pub fn see(&mut self, event: &Event, sent: &[u32]) {
        self.counts.calls += 1;
        match event.answer {
            Err(Refused(number)) => self.refused(event, number),
            Ok(answer) => self.accepted(event, answer, sent),
        }
    }

    fn refused(&mut self, event: &Event, number: u8) {
        let begin = matches!(event.call, Call::Begin(_)) && number != 5;
        self.counts.add(&[
            (Reached::Refused2, number == 2),
            (Reached::Refused3, number == 3),
            (Reached::Refused4, number == 4),
            (Reached::Refused5, number == 5),
            (Reached::Refused6, number == 6),
            (Reached::Refused7, number == 7),
            (Reached::RefusedBeginWithCounts, begin && any(&event.before)),
        ]);
    }

    fn accepted(&mut self, event: &Event, answer: Answer, sent: &[u32]) {
        let counts = any(&event.before);
        match event.call {
            Call::Begin(length) => self.begun(length > SHORT_MOST, counts),
            Call::Post(_) => self.counts.add(&[(Reached::PostWithCounts, counts)]),
            Call::Tick(_) | Call::Hear(_) => self.counts.add(&[(
                Reached::OtherCallAfterReportWithCounts,
                self.reported && counts,
            )]),
        }
        if event.before != event.after {
            self.counted(event, sent);
        }
        let again = matches!(event.call, Call::Tick(_)) && answer.frame.is_some();
        let again = again && !self.long && answer.report.is_none();
        self.counts.add(&[(Reached::ShortGoesAgain, again)]);
        if let Some(report) = answer.report {
            self.reported(report);
        }
    }

    fn begun(&mut self, long: bool, counts: bool) {
        self.counts.add(&[
            (Reached::LongBegin, long),
            (Reached::LongBeginClearsCounts, long && counts),
            (Reached::ShortBeginBeforeLong, !long && !self.any_long),
            (Reached::ShortBeginClearsCounts, !long && counts),
        ]);
        self.long = long;
        self.any_long |= long;
        self.reported = false;
    }

    fn counted(&mut self, event: &Event, sent: &[u32]) {
        let highest = sent.iter().copied().max().unwrap_or(0);
        let equals = sent.iter().filter(|&&count| count == highest).count();
        let without_0 = sent[0] < highest;
        let tick = matches!(event.call, Call::Tick(_));
        self.counts.add(&[
            (Reached::NumberAgain, highest > 1),
            (Reached::AnnouncementAgain, sent[0] > 1),
            (Reached::Number255, tick && sent[255] > 0),
            (Reached::Above255, highest > 255),
            (Reached::CountIsM, highest == u32::from(self.sending_time)),
            (Reached::NamedNot0, without_0),
            (
                Reached::Named255,
                sent[..255].iter().all(|&count| count < highest),
            ),
            (Reached::EqualsWithout0, without_0 && equals > 1),
        ]);
    }

    fn reported(&mut self, report: Report) {
        self.reported = true;
        let sent = matches!(report, Report::Sent { .. });
        let failed = |number| matches!(report, Report::Failed { cause, .. } if cause == number);
        let long = self.long;
        self.counts.add(&[
            (Reached::SentLong, sent && long),
            (Reached::SentShort, sent && !long),
            (Reached::NackHeard, failed(1)),
            (Reached::ThreeTimeouts, failed(2)),
            (Reached::TimeOverLong, failed(3) && long),
            (Reached::TimeOverShort, failed(3) && !long),
            (Reached::NumberAboveN, failed(4)),
        ]);
    }
}

/// Whether a lent summary has a count above 0.
fn any(bytes: &[u8]) -> bool {
    bytes.len() == SUMMARY_LENGTH && bytes.iter().any(|&byte| byte != 0)
}
