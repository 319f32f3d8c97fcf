//! Chapter "The receiver", and document 02: holding a transfer (E2), dirty filler in a last frame (E3),
//! timeouts counted by type (E4).

use super::frame::{self, Content, Frame};
use super::{refusal, Refused};

/// No connection, and what the last one delivered if that is remembered; or the open connection.
#[derive(Clone, Copy, Debug, PartialEq, Eq)]
pub enum State {
    Idle { delivered: Option<Delivered> },
    Open(Connection),
}

/// N and L of a delivered message.
#[derive(Clone, Copy, Debug, PartialEq, Eq)]
pub struct Delivered {
    pub n: u8,
    pub l: u16,
}

/// What a wait follows: an LM_ACK of the receiver, or a frame taken that drew none; of the two the later
/// one. It is the type of the timeout in which the wait ends.
#[derive(Clone, Copy, Debug, PartialEq, Eq)]
pub enum After {
    Ack,
    Frame,
}

#[derive(Clone, Copy, Debug, PartialEq, Eq)]
pub struct Connection {
    pub n: u8,
    pub l: u16,
    /// The number of the frame expected next.
    pub e: u8,
    /// The number of the last frame asked for.
    pub w: u8,
    pub wait: u16,
    /// Timeouts in a row that are of one type; those while held do not count, nor part a row.
    pub misses: u16,
    /// What it waits after now.
    pub after: After,
    /// The type of the timeouts in `misses`; none where these are 0.
    pub counted: Option<After>,
    /// The transfer is held.
    pub held: bool,
    /// Timeouts of this connection that fell while it was held.
    pub holds: u16,
}

impl Connection {
    /// Every LM_ACK of a connection goes out here: from now on it waits after that.
    fn lm_ack(&mut self, s: u8, c: u8) -> Frame {
        self.after = After::Ack;
        frame::lm_ack(s, c)
    }

    /// What a held receiver says: the frame that it took last, once more.
    fn pause(&mut self) -> Frame {
        self.lm_ack(self.e.saturating_sub(1), 1)
    }

    /// "LM_ACK e, w - e + 1"
    fn ask(&mut self) -> Frame {
        self.lm_ack(self.e, self.w.saturating_sub(self.e).saturating_add(1))
    }

    /// A timeout while no hold stands. One of the type that is counted adds to the count, one of the
    /// other type begins it.
    fn count_miss(&mut self) {
        self.misses = match self.counted == Some(self.after) {
            true => self.misses.saturating_add(1),
            false => 1,
        };
        self.counted = Some(self.after);
    }
}

/// So many timeouts while held a connection has; one more closes it.
pub const HELD_TIMEOUTS: u16 = 20;

/// What the receiver tells its caller: a long message is in the buffer, a connection is lost, or
/// these eight bytes came short.
#[derive(Clone, Copy, Debug, PartialEq, Eq)]
pub enum Report {
    Delivered { l: u16 },
    Failed { cause: u8 },
    Short([u8; 8]),
}

#[derive(Clone, Copy, Debug, Default, PartialEq, Eq)]
pub struct Answer {
    pub frame: Option<Frame>,
    pub report: Option<Report>,
}

impl Answer {
    fn frame(frame: Frame) -> Answer {
        Answer {
            frame: Some(frame),
            report: None,
        }
    }
}

#[derive(Clone, Debug, PartialEq, Eq)]
pub struct Receiver {
    /// T, set apart from the sender's
    pub timeout: u16,
    /// "window C 1 to 255"
    pub window: u8,
    /// "capacity K 9 to 1785"
    pub capacity: u16,
    pub state: State,
}

impl Receiver {
    /// A receiver that has heard nothing; refusal 1 for a setting outside its limits.
    pub fn make(timeout: u16, window: u8, capacity: u16) -> Result<Receiver, Refused> {
        let within = (1..=10000).contains(&timeout)
            && window >= 1
            && (frame::LONG_LEAST..=frame::LONG_MOST).contains(&capacity);
        if !within {
            return Err(refusal::SETTING);
        }
        Ok(Receiver {
            timeout,
            window,
            capacity,
            state: State::Idle { delivered: None },
        })
    }

    /// "Tick or LM_NACK, Idle: nothing." A receiver's tick is lent nothing and is never refused.
    pub fn tick(&mut self) -> Answer {
        let State::Open(mut open) = self.state else {
            return Answer::default();
        };
        // "Tick, Open: wait grows by 1."
        open.wait = open.wait.saturating_add(1);
        if open.wait != self.timeout {
            self.state = State::Open(open);
            return Answer::default();
        }
        // A timeout: the wait begins anew.
        open.wait = 0;
        if open.held {
            self.time_out_held(open)
        } else {
            self.miss(open)
        }
    }

    /// Holds the transfer. Refusal 13 without a connection, before its first frame, and while held. Only
    /// the mark is set, and what is waited after: wait, misses, window and count go on from where they
    /// are.
    pub fn hold(&mut self) -> Result<Answer, Refused> {
        match &mut self.state {
            State::Open(open) if open.e >= 2 && !open.held => {
                open.held = true;
                Ok(Answer::frame(open.pause()))
            }
            _ => Err(refusal::HOLD),
        }
    }

    /// Goes on with a held transfer: a whole window from the frame expected on is asked for, as at a
    /// miss. Refusal 13 where none is held. Wait, misses and count stay.
    pub fn resume(&mut self) -> Result<Answer, Refused> {
        match self.state {
            State::Open(mut open) if open.held => {
                open.held = false;
                open.w = self.window_end(open.e, open.n);
                let asked = open.ask();
                self.state = State::Open(open);
                Ok(Answer::frame(asked))
            }
            _ => Err(refusal::HOLD),
        }
    }

    /// "hearing: 5 buffer not 1785 (receiver); 6 ...; 7 kind for the other end (... receiver 1, 3,
    /// 5, 7)", in this order, and of the state only the length looked at; then 14, of a last frame that
    /// would be taken.
    pub fn hear(&mut self, heard: Frame, buffer: &mut [u8]) -> Result<Answer, Refused> {
        if buffer.len() != frame::BUFFER_LENGTH {
            return Err(refusal::BUFFER);
        }
        let content = frame::read(heard, self.length())?;
        match content {
            // Nothing of kind 1 reaches a held transfer: neither number 0 nor one above N.
            Content::Announcement { .. } | Content::Information { .. } if self.held() => {
                Ok(Answer::default())
            }
            Content::Announcement { n, l } => Ok(self.hear_announcement(n, l)),
            Content::Information { i, bytes, clean } => {
                self.hear_information(i, bytes, clean, buffer)
            }
            Content::LmNack { .. } => Ok(match self.state {
                // "LM_NACK, Open: closed, failed 1."
                State::Open(_) => self.fail(frame::CAUSE_NO_SPACE, None),
                // "Tick or LM_NACK, Idle: nothing."
                State::Idle { .. } => Answer::default(),
            }),
            // Short messages are delivered as they come, beside any connection; SM_RM is acknowledged.
            Content::SmRm(bytes) => Ok(Answer {
                frame: Some(frame::sm_ack(bytes[0])),
                report: Some(Report::Short(bytes)),
            }),
            Content::SmUrm(bytes) => Ok(Answer {
                frame: None,
                report: Some(Report::Short(bytes)),
            }),
            Content::LmAck { .. } | Content::EndofAck { .. } | Content::SmAck { .. } => {
                Err(refusal::OTHER_END)
            }
        }
    }

    fn hear_announcement(&mut self, n: u8, l: u16) -> Answer {
        match self.state {
            State::Idle { .. } => {
                // First the announcement has to make sense: a long length, and its own N.
                let good = (frame::LONG_LEAST..=frame::LONG_MOST).contains(&l)
                    && u16::from(n) == frame::frames_for(l);
                if !good {
                    return Answer::frame(frame::lm_nack(frame::CAUSE_ANNOUNCEMENT));
                }
                // Then there has to be space. Neither NACK changes the state.
                if l > self.capacity {
                    return Answer::frame(frame::lm_nack(frame::CAUSE_NO_SPACE));
                }
                self.open(n, l)
            }
            // The same announcement before any frame came: its LM_ACK was lost, so it goes again, and
            // wait and misses stand. Any other is passed over.
            State::Open(mut open) => {
                if n == open.n && l == open.l && open.e == 1 {
                    let again = open.lm_ack(1, open.w);
                    self.state = State::Open(open);
                    Answer::frame(again)
                } else {
                    Answer::default()
                }
            }
        }
    }

    /// A connection opens and asks for its first window; a remembered delivery goes.
    fn open(&mut self, n: u8, l: u16) -> Answer {
        let w = self.window.min(n);
        let mut open = Connection {
            n,
            l,
            e: 1,
            w,
            wait: 0,
            misses: 0,
            after: After::Ack,
            counted: None,
            held: false,
            holds: 0,
        };
        let asked = open.lm_ack(1, w);
        self.state = State::Open(open);
        Answer::frame(asked)
    }

    fn hear_information(
        &mut self,
        i: u8,
        bytes: [u8; 7],
        clean: bool,
        buffer: &mut [u8],
    ) -> Result<Answer, Refused> {
        match self.state {
            // The last frame of what was delivered comes again: its EndofACK was lost.
            State::Idle { delivered } => Ok(match delivered {
                Some(last) if i == last.n => Answer::frame(frame::endof_ack(last.n, last.l)),
                _ => Answer::default(),
            }),
            // A number that the message does not have closes the connection.
            State::Open(open) if i > open.n => {
                let nack = frame::lm_nack(frame::CAUSE_NUMBER);
                Ok(self.fail(frame::CAUSE_NUMBER, Some(nack)))
            }
            // Only the frame expected is taken; the wait goes on over any other.
            State::Open(open) if i != open.e => Ok(Answer::default()),
            // The last one is not taken with old bytes behind the message. The wait goes on over it, too.
            State::Open(open) if i == open.n && !clean => Err(refusal::LAST_FILLER),
            State::Open(open) => Ok(self.take(open, i, bytes, buffer)),
        }
    }

    /// The frame expected, and clean where it is the last.
    fn take(&mut self, mut open: Connection, i: u8, bytes: [u8; 7], buffer: &mut [u8]) -> Answer {
        // Its bytes are copied behind those of the frames before. Message bytes are those before L,
        // so filler is not copied.
        let start = usize::from(frame::PER_FRAME) * usize::from(i).saturating_sub(1);
        let message = &bytes[..frame::carried(i, open.l)];
        for (place, &byte) in buffer.iter_mut().skip(start).zip(message) {
            *place = byte;
        }
        // "wait and misses 0."
        open.wait = 0;
        open.misses = 0;
        open.counted = None;
        // "At N: EndofACK, delivered L, Idle."
        if i == open.n {
            let delivered = Delivered {
                n: open.n,
                l: open.l,
            };
            self.state = State::Idle {
                delivered: Some(delivered),
            };
            return Answer {
                frame: Some(frame::endof_ack(open.n, open.l)),
                report: Some(Report::Delivered { l: open.l }),
            };
        }
        // At the window's end the next window is asked for, later than the frame; within it the next
        // frame is on its way, and this one is what is waited after.
        let at_window_end = i == open.w;
        open.after = After::Frame;
        open.e = open.e.saturating_add(1);
        let mut answer = Answer::default();
        if at_window_end {
            open.w = self.window_end(open.e, open.n);
            answer.frame = Some(open.ask());
        }
        self.state = State::Open(open);
        answer
    }

    /// A timeout while no hold stands.
    fn miss(&mut self, mut open: Connection) -> Answer {
        open.count_miss();
        // The third in a row of one type closes the connection.
        if open.misses == 3 {
            return self.give_up();
        }
        // Any before it asks for a whole window from the frame expected on, or for what is left.
        open.w = self.window_end(open.e, open.n);
        let asked = open.ask();
        self.state = State::Open(open);
        Answer::frame(asked)
    }

    /// A timeout while held: no miss, of neither type, and the window stays. The one that the connection
    /// no longer has closes it.
    fn time_out_held(&mut self, mut open: Connection) -> Answer {
        if open.holds == HELD_TIMEOUTS {
            return self.give_up();
        }
        open.holds = open.holds.saturating_add(1);
        let paused = open.pause();
        self.state = State::Open(open);
        Answer::frame(paused)
    }

    /// The length that frames are read with: the open connection's. Without one it is the longest, whose
    /// frames have nothing behind the message.
    fn length(&self) -> u16 {
        match self.state {
            State::Open(open) => open.l,
            State::Idle { .. } => frame::LONG_MOST,
        }
    }

    fn held(&self) -> bool {
        matches!(self.state, State::Open(open) if open.held)
    }

    /// "the smaller of e + C - 1 and N"
    fn window_end(&self, e: u8, n: u8) -> u8 {
        let end = (u16::from(e) + u16::from(self.window)).saturating_sub(1);
        end.min(u16::from(n)) as u8
    }

    /// Too many timeouts.
    fn give_up(&mut self) -> Answer {
        let nack = frame::lm_nack(frame::CAUSE_TIMEOUTS);
        self.fail(frame::CAUSE_TIMEOUTS, Some(nack))
    }

    /// "A failure forgets the last delivery."
    fn fail(&mut self, cause: u8, closing: Option<Frame>) -> Answer {
        self.state = State::Idle { delivered: None };
        Answer {
            frame: closing,
            report: Some(Report::Failed { cause }),
        }
    }
}
