//! Chapter "The line", and the two ends on it.

use std::collections::VecDeque;

use super::frame::Frame;
use super::receiver::{self, Receiver};
use super::sender::{self, Sender};
use super::Refused;

/// One direction of the line: the frames on their way, the oldest first.
#[derive(Clone, Debug, Default, PartialEq, Eq)]
pub struct List {
    frames: VecDeque<Frame>,
    /// The number of frames before it at which a joining frame is lost; none on the bare line.
    room: Option<usize>,
}

impl List {
    /// A list without limit.
    pub fn new() -> List {
        List::default()
    }

    /// A list that "loses a frame that finds" this many "before it".
    pub fn with_room(room: usize) -> List {
        List {
            frames: VecDeque::new(),
            room: Some(room),
        }
    }

    /// "Emitted frames join the end."
    pub fn join(&mut self, frame: Frame) {
        if self.room.is_none_or(|room| self.frames.len() < room) {
            self.frames.push_back(frame);
        }
    }

    /// The oldest frame, taken off the list for the far end.
    pub fn hear(&mut self) -> Option<Frame> {
        self.frames.pop_front()
    }

    /// The oldest frame goes, and no end sees it.
    pub fn lose(&mut self) {
        self.frames.pop_front();
    }

    /// The oldest frame for the far end, which stays on the list.
    pub fn repeat(&self) -> Option<Frame> {
        self.frames.front().copied()
    }

    pub fn len(&self) -> usize {
        self.frames.len()
    }

    pub fn is_empty(&self) -> bool {
        self.frames.is_empty()
    }
}

/// What can be done on the bench: demand 3's calls, hold and resume among them (document 02, E2).
#[derive(Clone, Copy, Debug, PartialEq, Eq)]
pub enum Call {
    Begin,
    SenderTick,
    ReceiverTick,
    ForwardHear,
    ForwardLose,
    ForwardRepeat,
    BackHear,
    BackLose,
    BackRepeat,
    Hold,
    Resume,
}

/// What a call on the bench gave, by the end that gave it.
#[derive(Clone, Copy, Debug, PartialEq, Eq)]
pub enum Outcome {
    /// No end was called: lose, or "On an empty list nothing happens."
    Nothing,
    Sender(sender::Answer),
    Receiver(receiver::Answer),
}

/// Both ends and the line between them.
#[derive(Clone, Debug, PartialEq, Eq)]
pub struct Bench {
    pub sender: Sender,
    pub receiver: Receiver,
    pub forward: List,
    pub back: List,
}

impl Bench {
    /// Two ends just made, on the bare line.
    pub fn new(sender: Sender, receiver: Receiver) -> Bench {
        Bench {
            sender,
            receiver,
            forward: List::new(),
            back: List::new(),
        }
    }

    /// Two ends just made, on a line that loses a frame that finds `room` before it.
    pub fn with_room(sender: Sender, receiver: Receiver, room: usize) -> Bench {
        Bench {
            sender,
            receiver,
            forward: List::with_room(room),
            back: List::with_room(room),
        }
    }

    /// Nothing is on its way, in either direction.
    pub fn line_is_empty(&self) -> bool {
        self.forward.is_empty() && self.back.is_empty()
    }

    /// One call. Where it is refused, the ends and the buffer are left alone; hearing has taken its
    /// frame off the line all the same, and repeating has not.
    pub fn call(
        &mut self,
        call: Call,
        message: &[u8],
        buffer: &mut [u8],
    ) -> Result<Outcome, Refused> {
        match call {
            Call::Begin => {
                let answer = self.sender.begin(message)?;
                Ok(self.join_forward(answer))
            }
            Call::SenderTick => {
                let answer = self.sender.tick(message)?;
                Ok(self.join_forward(answer))
            }
            Call::ReceiverTick => {
                let answer = self.receiver.tick();
                Ok(self.join_back(answer))
            }
            Call::ForwardHear => {
                let given = self.forward.hear();
                self.give_receiver(given, buffer)
            }
            Call::ForwardLose => {
                self.forward.lose();
                Ok(Outcome::Nothing)
            }
            Call::ForwardRepeat => {
                let given = self.forward.repeat();
                self.give_receiver(given, buffer)
            }
            Call::BackHear => {
                let given = self.back.hear();
                self.give_sender(given)
            }
            Call::BackLose => {
                self.back.lose();
                Ok(Outcome::Nothing)
            }
            Call::BackRepeat => {
                let given = self.back.repeat();
                self.give_sender(given)
            }
            Call::Hold => {
                let answer = self.receiver.hold()?;
                Ok(self.join_back(answer))
            }
            Call::Resume => {
                let answer = self.receiver.resume()?;
                Ok(self.join_back(answer))
            }
        }
    }

    fn give_receiver(
        &mut self,
        given: Option<Frame>,
        buffer: &mut [u8],
    ) -> Result<Outcome, Refused> {
        let Some(frame) = given else {
            return Ok(Outcome::Nothing);
        };
        let answer = self.receiver.hear(frame, buffer)?;
        Ok(self.join_back(answer))
    }

    fn give_sender(&mut self, given: Option<Frame>) -> Result<Outcome, Refused> {
        let Some(frame) = given else {
            return Ok(Outcome::Nothing);
        };
        let answer = self.sender.hear(frame)?;
        Ok(self.join_forward(answer))
    }

    /// What the sender answered; its frame joins forward.
    pub fn join_forward(&mut self, answer: sender::Answer) -> Outcome {
        if let Some(frame) = answer.frame {
            self.forward.join(frame);
        }
        Outcome::Sender(answer)
    }

    fn join_back(&mut self, answer: receiver::Answer) -> Outcome {
        if let Some(frame) = answer.frame {
            self.back.join(frame);
        }
        Outcome::Receiver(answer)
    }
}
