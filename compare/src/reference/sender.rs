//! Chapter "The sender", and document 02, E2: what a held receiver asks for.

use super::frame::{self, Content, Frame};
use super::{refusal, Refused};

/// Where the sender stands.
#[derive(Clone, Copy, Debug, PartialEq, Eq)]
pub enum Phase {
    Idle,
    /// A long transfer is announced, and no LM_ACK has been taken.
    Opening,
    /// A window is being sent: the next frame to go and the last.
    Sending {
        next: u8,
        last: u8,
    },
    /// The window is sent; `last` is its last frame.
    Waiting {
        last: u8,
    },
    /// A short transfer.
    Short,
}

/// How a transfer went: its ticks, and its frames from the first to the closing NACK.
#[derive(Clone, Copy, Debug, PartialEq, Eq)]
pub enum Report {
    Sent { ticks: u16, frames: u16 },
    Failed { cause: u8, ticks: u16, frames: u16 },
}

/// What a call that is not refused gives.
#[derive(Clone, Copy, Debug, Default, PartialEq, Eq)]
pub struct Answer {
    pub frame: Option<Frame>,
    pub report: Option<Report>,
}

#[derive(Clone, Debug, PartialEq, Eq)]
pub struct Sender {
    /// "gap G 1 to 10"
    pub gap: u8,
    /// "timeout T 1 to 10000"
    pub timeout: u16,
    /// "sending time M 1 to 60000"
    pub sending_time: u16,
    pub phase: Phase,
    /// L of the begun message.
    pub length: u16,
    /// First byte of the begun message, which SM_ACK must name.
    pub first: u8,
    pub age: u16,
    pub wait: u16,
    pub misses: u16,
    pub gap_count: u16,
    /// "the last start taken", if one has been.
    pub start: Option<u8>,
    /// Frames emitted since begin.
    pub frames: u16,
}

impl Sender {
    /// An Idle sender; refusal 1 for a setting outside its limits.
    pub fn make(gap: u8, timeout: u16, sending_time: u16) -> Result<Sender, Refused> {
        let within = (1..=10).contains(&gap)
            && (1..=10000).contains(&timeout)
            && (1..=60000).contains(&sending_time);
        if !within {
            return Err(refusal::SETTING);
        }
        Ok(Sender {
            gap,
            timeout,
            sending_time,
            phase: Phase::Idle,
            length: 0,
            first: 0,
            age: 0,
            wait: 0,
            misses: 0,
            gap_count: 0,
            start: None,
            frames: 0,
        })
    }

    /// Starts a transfer. Refusal 3 while another is under way, before refusal 2 for the length.
    pub fn begin(&mut self, message: &[u8]) -> Result<Answer, Refused> {
        if self.phase != Phase::Idle {
            return Err(refusal::NOT_IDLE);
        }
        if message.is_empty() || message.len() > usize::from(frame::LONG_MOST) {
            return Err(refusal::LENGTH);
        }
        self.length = message.len() as u16;
        self.first = message[0];
        // All counts begin anew.
        self.age = 0;
        self.wait = 0;
        self.misses = 0;
        self.start = None;
        self.gap_count = 0;
        self.frames = 0;
        // A message that fits one frame goes whole, a longer one is announced.
        if message.len() <= frame::SHORT_MOST {
            self.phase = Phase::Short;
            Ok(self.emit(frame::sm_rm(message)))
        } else {
            self.phase = Phase::Opening;
            Ok(self.emit(self.announcement()))
        }
    }

    /// A tick. Idle does nothing and judges nothing; otherwise refusal 4 unless as many bytes are lent
    /// as were begun with.
    pub fn tick(&mut self, message: &[u8]) -> Result<Answer, Refused> {
        if self.phase == Phase::Idle {
            return Ok(Answer::default());
        }
        if message.len() != usize::from(self.length) {
            return Err(refusal::LENT_LENGTH);
        }
        self.age = self.age.saturating_add(1);
        // The sending time is over: nothing else happens at this tick. A short transfer has no NACK.
        if self.age == self.sending_time {
            let closing = match self.phase {
                Phase::Short => None,
                _ => Some(frame::lm_nack(frame::CAUSE_SENDING_TIME)),
            };
            return Ok(self.fail(frame::CAUSE_SENDING_TIME, closing));
        }
        Ok(match self.phase {
            Phase::Idle => Answer::default(),
            // Both wait for the receiver, and differ in the frame that goes again at a miss.
            Phase::Opening => self.await_answer(self.announcement()),
            Phase::Waiting { last } => self.await_answer(frame::information(last, message)),
            // A frame goes out at every G-th tick; the window's last one begins the wait.
            Phase::Sending { next, last } => {
                self.gap_count = self.gap_count.saturating_add(1);
                if self.gap_count != u16::from(self.gap) {
                    return Ok(Answer::default());
                }
                self.gap_count = 0;
                if next >= last {
                    self.phase = Phase::Waiting { last };
                    self.wait = 0;
                } else {
                    self.phase = Phase::Sending {
                        next: next + 1,
                        last,
                    };
                }
                self.emit(frame::information(next, message))
            }
            // SM_RM goes again at every timeout, and no misses are counted.
            Phase::Short => {
                self.wait = self.wait.saturating_add(1);
                if self.wait != self.timeout {
                    return Ok(Answer::default());
                }
                self.wait = 0;
                self.emit(frame::sm_rm(message))
            }
        })
    }

    /// Hearing. Refusals 6 and 7 come before any look at the state. Information frames are 7, so no
    /// filler behind a message is judged here, whatever length they are read with.
    pub fn hear(&mut self, heard: Frame) -> Result<Answer, Refused> {
        let content = frame::read(heard, frame::LONG_MOST)?;
        match content {
            Content::LmAck { s, c } => Ok(self.hear_lm_ack(s, c)),
            // A NACK ends a long transfer, whatever its cause; the report has 1.
            Content::LmNack { .. } => Ok(if self.long() {
                self.fail(frame::CAUSE_NO_SPACE, None)
            } else {
                Answer::default()
            }),
            // EndofACK ends a transfer once a window has been asked for, if it names this message.
            Content::EndofAck { n, l } => Ok(match self.phase {
                Phase::Sending { .. } | Phase::Waiting { .. }
                    if u16::from(n) == frame::frames_for(self.length) && l == self.length =>
                {
                    self.sent()
                }
                _ => Answer::default(),
            }),
            // SM_ACK ends a short transfer, if it names this message.
            Content::SmAck { first } => Ok(if self.phase == Phase::Short && first == self.first {
                self.sent()
            } else {
                // "All else is ignored."
                Answer::default()
            }),
            Content::Announcement { .. }
            | Content::Information { .. }
            | Content::SmRm(_)
            | Content::SmUrm(_) => Err(refusal::OTHER_END),
        }
    }

    /// Sends a message that nobody acknowledges, beside any transfer. Refusal 2 for the length.
    pub fn post(&self, message: &[u8]) -> Result<Answer, Refused> {
        if message.is_empty() || message.len() > frame::SHORT_MOST {
            return Err(refusal::LENGTH);
        }
        Ok(Answer {
            frame: Some(frame::sm_urm(message)),
            report: None,
        })
    }

    fn hear_lm_ack(&mut self, s: u8, c: u8) -> Answer {
        // Only a long transfer takes it.
        if !self.long() {
            return Answer::default();
        }
        // "s or c 0 is ignored;"
        if s == 0 || c == 0 {
            return Answer::default();
        }
        // "s > N emits NACK 4 and fails."
        let n = frame::frames_for(self.length);
        if u16::from(s) > n {
            return self.fail(
                frame::CAUSE_NUMBER,
                Some(frame::lm_nack(frame::CAUSE_NUMBER)),
            );
        }
        match self.phase {
            // "Opening ignores s other than 1."
            Phase::Opening if s != 1 => return Answer::default(),
            Phase::Opening => {}
            // A held receiver asks for the frame before the last start, and for it alone.
            _ if c == 1 && self.start_back() == Some(s) => return self.send_again(s),
            // Any other start may not go back behind the one taken last.
            _ => {
                if self.start.is_some_and(|start| s < start) {
                    return Answer::default();
                }
            }
        }
        self.take_window(s, c, n)
    }

    /// The window begins at s and has c frames, or as many as the message has left.
    fn take_window(&mut self, s: u8, c: u8, n: u16) -> Answer {
        let last = (u16::from(s) + u16::from(c) - 1).min(n);
        self.phase = Phase::Sending {
            next: s,
            last: last.min(255) as u8,
        };
        self.gap_count = 0;
        // A window asked for again is no progress: its misses stand.
        if self.start != Some(s) {
            self.misses = 0;
        }
        self.start = Some(s);
        Answer::default()
    }

    /// The number before the last start taken.
    fn start_back(&self) -> Option<u8> {
        self.start.and_then(|start| start.checked_sub(1))
    }

    /// One frame before the last start goes out again. The last start stands, and the misses go: the
    /// receiver is there.
    fn send_again(&mut self, s: u8) -> Answer {
        self.phase = Phase::Sending { next: s, last: s };
        self.gap_count = 0;
        self.misses = 0;
        Answer::default()
    }

    /// One tick of Opening or Waiting; `again` is what goes out before the third miss.
    fn await_answer(&mut self, again: Frame) -> Answer {
        self.wait = self.wait.saturating_add(1);
        if self.wait != self.timeout {
            return Answer::default();
        }
        self.wait = 0;
        self.misses = self.misses.saturating_add(1);
        if self.misses == 3 {
            return self.fail(
                frame::CAUSE_TIMEOUTS,
                Some(frame::lm_nack(frame::CAUSE_TIMEOUTS)),
            );
        }
        self.emit(again)
    }

    /// A long transfer: Opening, Sending or Waiting.
    fn long(&self) -> bool {
        matches!(
            self.phase,
            Phase::Opening | Phase::Sending { .. } | Phase::Waiting { .. }
        )
    }

    fn announcement(&self) -> Frame {
        frame::announcement(frame::frames_for(self.length).min(255) as u8, self.length)
    }

    fn emit(&mut self, frame: Frame) -> Answer {
        self.frames = self.frames.saturating_add(1);
        Answer {
            frame: Some(frame),
            report: None,
        }
    }

    /// "The sender is then Idle."
    fn sent(&mut self) -> Answer {
        self.phase = Phase::Idle;
        let report = Report::Sent {
            ticks: self.age,
            frames: self.frames,
        };
        Answer {
            frame: None,
            report: Some(report),
        }
    }

    /// A transfer that ended without success. The closing frame is counted.
    fn fail(&mut self, cause: u8, closing: Option<Frame>) -> Answer {
        if closing.is_some() {
            self.frames = self.frames.saturating_add(1);
        }
        self.phase = Phase::Idle;
        let report = Report::Failed {
            cause,
            ticks: self.age,
            frames: self.frames,
        };
        Answer {
            frame: closing,
            report: Some(report),
        }
    }
}
