//! A session of calls on a sender and a receiver joined by a line.

use std::collections::VecDeque;

use crate::call::{Answer, Call, Counts, Mismatch, Pair, Part};
use crate::frames::{soiled, Dirt};
use crate::interface::Face;
use crate::values::*;

/// What is done with the first frame of a list.
#[derive(Clone, Copy, Debug, PartialEq, Eq)]
pub enum Way {
    Hear,
    Lose,
    Repeat,
}

/// Messages are named by their place in the session's list.
#[derive(Clone, Copy, Debug, PartialEq, Eq)]
pub enum Step {
    Begin(usize),
    Post(usize),
    SenderTick(usize),
    ReceiverTick,
    Hold,
    Resume,
    /// With the length of the lent buffer.
    Forward(Way, usize),
    /// As repeat, but with this dirt behind the message of the receiver's length.
    ForwardDirty(Dirt, usize),
    Back(Way),
    /// A frame that was never on the line.
    SenderHears(FlatFrame),
    ReceiverHears(FlatFrame, usize),
    /// Of a session with a summary: the next call of the sender is lent so many bytes for the counts; what is read of them.
    Lend(usize),
    Count(u8),
    Most,
}

#[derive(Clone, Debug, PartialEq, Eq)]
pub struct Session {
    /// Gap G, timeout T, sending time M.
    pub sender: [u16; 3],
    /// Timeout T, window C, capacity K.
    pub receiver: [u16; 3],
    /// Whether the sender's calls are those of the summary, with what its counts hold at first, byte for byte.
    pub summary: Option<u8>,
    pub messages: Vec<Part>,
    pub steps: Vec<Step>,
}

/// Both ends, the frames between them, and the summary's counts.
pub struct World {
    pub sender: FlatSender,
    pub receiver: FlatReceiver,
    pub forward: VecDeque<FlatFrame>,
    pub back: VecDeque<FlatFrame>,
    pub counts: Option<Counts>,
    /// The bytes that the sender's next call is lent for them.
    lent: usize,
}

impl Session {
    /// Plays it on both faces from the start, up to the first mismatch.
    pub fn play<L: Face, R: Face>(&self, pair: &mut Pair<L, R>) -> Result<(), Box<Mismatch>> {
        let Some(mut world) = World::start(self, pair)? else {
            return Ok(());
        };
        for &step in &self.steps {
            world.step(step, &self.messages, pair)?;
        }
        Ok(())
    }
}

impl World {
    /// Two ends just made, unless a setting is refused.
    pub fn start<L: Face, R: Face>(
        session: &Session,
        pair: &mut Pair<L, R>,
    ) -> Result<Option<World>, Box<Mismatch>> {
        pair.fill_buffers();
        let sender = pair.compare(Call::SenderMake(session.sender))?;
        let receiver = pair.compare(Call::ReceiverMake(session.receiver))?;
        Ok(match (sender, receiver) {
            (Answer::SenderMade(sender), Answer::ReceiverMade(receiver))
                if sender.refusal == 0 && receiver.refusal == 0 =>
            {
                Some(World {
                    sender: sender.sender,
                    receiver: receiver.receiver,
                    forward: VecDeque::new(),
                    back: VecDeque::new(),
                    counts: session.summary.map(|byte| Counts(vec![byte; COUNTS])),
                    lent: COUNTS,
                })
            }
            _ => None,
        })
    }

    /// One step. An empty list, a lost frame, and what is said of the next call, is no call.
    pub fn step<L: Face, R: Face>(
        &mut self,
        step: Step,
        messages: &[Part],
        pair: &mut Pair<L, R>,
    ) -> Result<(), Box<Mismatch>> {
        let Some(call) = self.call(step, messages) else {
            return Ok(());
        };
        match pair.compare(call)? {
            Answer::Sender(answer) => self.sender_did(answer),
            Answer::Kept(answer, counts) => {
                self.sender_did(answer);
                if counts.0.len() == COUNTS {
                    self.counts = Some(counts);
                }
            }
            Answer::Counted(_) => {}
            Answer::Receiver(answer) => {
                self.receiver = answer.next;
                self.back.extend(answer.emits.then_some(answer.frame));
            }
            _ => unreachable!("a step calls an end or reads the counts"),
        }
        Ok(())
    }

    fn sender_did(&mut self, answer: FlatSenderAnswer) {
        self.sender = answer.next;
        self.forward.extend(answer.emits.then_some(answer.frame));
    }

    /// A call of the sender, or the summary's in its place.
    fn sender_call(&mut self, call: Call) -> Call {
        let Some(counts) = self.lend() else {
            return call;
        };
        match call {
            Call::SenderBegin(end, message) => Call::SummaryBegin(end, message, counts),
            Call::SenderPost(end, message) => Call::SummaryPost(end, message, counts),
            Call::SenderTick(end, message) => Call::SummaryTick(end, message, counts),
            Call::SenderHear(end, frame) => Call::SummaryHear(end, frame, counts),
            _ => unreachable!("a call of the sender"),
        }
    }

    /// The counts, cut or with zeros behind them where another length is due.
    fn lend(&mut self) -> Option<Counts> {
        let Counts(mut bytes) = self.counts.clone()?;
        bytes.resize(std::mem::replace(&mut self.lent, COUNTS), 0);
        Some(Counts(bytes))
    }

    fn call(&mut self, step: Step, messages: &[Part]) -> Option<Call> {
        let sender = self.sender;
        Some(match step {
            Step::Begin(which) => self.sender_call(Call::SenderBegin(sender, messages[which])),
            Step::Post(which) => self.sender_call(Call::SenderPost(sender, messages[which])),
            Step::SenderTick(which) => self.sender_call(Call::SenderTick(sender, messages[which])),
            Step::ReceiverTick => Call::ReceiverTick(self.receiver),
            Step::Hold => Call::ReceiverHold(self.receiver),
            Step::Resume => Call::ReceiverResume(self.receiver),
            Step::Forward(way, lent) => {
                let frame = given(&mut self.forward, way)?;
                Call::ReceiverHear(self.receiver, frame, lent)
            }
            Step::ForwardDirty(dirt, lent) => {
                let frame = given(&mut self.forward, Way::Repeat)?;
                let dirty = soiled(frame, self.receiver.length, dirt);
                Call::ReceiverHear(self.receiver, dirty, lent)
            }
            Step::Back(way) => {
                let frame = given(&mut self.back, way)?;
                self.sender_call(Call::SenderHear(sender, frame))
            }
            Step::SenderHears(frame) => self.sender_call(Call::SenderHear(sender, frame)),
            Step::ReceiverHears(frame, lent) => Call::ReceiverHear(self.receiver, frame, lent),
            Step::Lend(length) => {
                self.lent = length;
                return None;
            }
            Step::Count(number) => Call::SummaryCount(number, self.lend()?),
            Step::Most => Call::SummaryMost(self.lend()?),
        })
    }
}

/// The frame that goes to the far end, if any.
fn given(list: &mut VecDeque<FlatFrame>, way: Way) -> Option<FlatFrame> {
    match way {
        Way::Hear => list.pop_front(),
        Way::Lose => {
            list.pop_front();
            None
        }
        Way::Repeat => list.front().copied(),
    }
}
