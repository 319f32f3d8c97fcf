//! References with one mistake each, to test that the comparison catches it.

pub mod agreement;
pub mod around;
pub mod clean;
mod ends;
pub mod filler;
pub mod hold;
pub mod summary;
pub mod types;

use crate::interface::{Around, Ends, Summary};
use crate::values::*;
use crate::Reference;

/// Where the mistake is: what is made of the right answer to a call, with what the call was given.
#[derive(Clone, Copy)]
pub enum Mistake {
    SenderMake(fn([u16; 3], &mut FlatSenderMade)),
    SenderBegin(fn(FlatSender, &[u8], &mut FlatSenderAnswer)),
    SenderPost(fn(FlatSender, &[u8], &mut FlatSenderAnswer)),
    SenderTick(fn(FlatSender, &[u8], &mut FlatSenderAnswer)),
    SenderHear(fn(FlatSender, FlatFrame, &mut FlatSenderAnswer)),
    /// With the lent counts as they were, and as the call leaves them; so in the next three.
    SummaryBegin(fn(FlatSender, &[u8], &[u8], &mut [u8], &mut FlatSenderAnswer)),
    SummaryPost(fn(FlatSender, &[u8], &[u8], &mut [u8], &mut FlatSenderAnswer)),
    SummaryTick(fn(FlatSender, &[u8], &[u8], &mut [u8], &mut FlatSenderAnswer)),
    SummaryHear(fn(FlatSender, FlatFrame, &[u8], &mut [u8], &mut FlatSenderAnswer)),
    SummaryCount(fn(u8, &[u8], &mut FlatCount)),
    SummaryMost(fn(&[u8], &mut FlatCount)),
    ReceiverMake(fn([u16; 3], &mut FlatReceiverMade)),
    ReceiverTick(fn(FlatReceiver, &mut FlatReceiverAnswer)),
    ReceiverHold(fn(FlatReceiver, &mut FlatReceiverAnswer)),
    ReceiverResume(fn(FlatReceiver, &mut FlatReceiverAnswer)),
    ReceiverHear(fn(FlatReceiver, FlatFrame, &mut [u8], &mut FlatReceiverAnswer)),
    /// With length and gap.
    Clean(fn([u32; 2], &mut FlatCleanFigures)),
    Join(fn(FlatIdentifierParts, &mut FlatIdentifierJoining)),
    Split(fn(u32, &mut FlatIdentifierSplitting)),
    /// Of the four named numbers, in the order of the face.
    Named(fn([u32; 4]) -> [u32; 4]),
    List(fn(&[u8], &mut FlatVersionListing)),
    MessageWrite(fn(FlatVersionMessage, &mut FlatVersionWriting)),
    MessageRead(fn(FlatVersionBytes, &mut FlatVersionReading)),
    TalkerMake(fn(u8, FlatVersions, &mut FlatTalkerMade)),
    TalkerConnect(fn(FlatTalker, &mut FlatTalkerAnswer)),
    TalkerTick(fn(FlatTalker, &mut FlatTalkerAnswer)),
    TalkerHear(fn(FlatTalker, FlatVersionBytes, &mut FlatTalkerAnswer)),
    TalkerStop(fn(FlatTalker, &mut FlatTalkerAnswer)),
    TalkerGreet(fn(FlatTalker, &mut FlatTalkerAnswer)),
    TalkerFunctionsHeard(fn(FlatTalker, &mut FlatTalkerAnswer)),
    GroupRead(fn(&[u8], &mut FlatGroupReading)),
    GroupWrite(fn(FlatGroup, &mut [u8], &mut FlatGroupWriting)),
    GroupFind(fn(u8, &mut FlatGroupFinding)),
}

/// A reference with this mistake.
pub struct Broken(pub Mistake);

/// Every mistake, by its name.
pub fn mistakes() -> Vec<(&'static str, Mistake)> {
    [
        ends::MISTAKES,
        hold::MISTAKES,
        filler::MISTAKES,
        types::MISTAKES,
        summary::MISTAKES,
        clean::MISTAKES,
        around::MISTAKES,
        agreement::BREAKING,
        agreement::DIFFERING,
    ]
    .concat()
}

/// The right answer, changed by the mistake where it is one of this call.
macro_rules! answered {
    ($self:ident, $right:expr, $case:ident, $($given:expr),*) => {{
        let mut answer = $right;
        if let Mistake::$case(spoil) = $self.0 {
            spoil($($given,)* &mut answer);
        }
        answer
    }};
}

impl Ends for Broken {
    fn sender_make(&self, gap: u16, timeout: u16, limit: u16) -> FlatSenderMade {
        let right = Reference.sender_make(gap, timeout, limit);
        answered!(self, right, SenderMake, [gap, timeout, limit])
    }

    fn sender_begin(&self, sender: FlatSender, message: &[u8]) -> FlatSenderAnswer {
        let right = Reference.sender_begin(sender, message);
        answered!(self, right, SenderBegin, sender, message)
    }

    fn sender_post(&self, sender: FlatSender, message: &[u8]) -> FlatSenderAnswer {
        let right = Reference.sender_post(sender, message);
        answered!(self, right, SenderPost, sender, message)
    }

    fn sender_tick(&self, sender: FlatSender, message: &[u8]) -> FlatSenderAnswer {
        let right = Reference.sender_tick(sender, message);
        answered!(self, right, SenderTick, sender, message)
    }

    fn sender_hear(&self, sender: FlatSender, frame: FlatFrame) -> FlatSenderAnswer {
        let right = Reference.sender_hear(sender, frame);
        answered!(self, right, SenderHear, sender, frame)
    }

    fn receiver_make(&self, timeout: u16, window: u16, capacity: u16) -> FlatReceiverMade {
        let right = Reference.receiver_make(timeout, window, capacity);
        answered!(self, right, ReceiverMake, [timeout, window, capacity])
    }

    fn receiver_tick(&self, receiver: FlatReceiver) -> FlatReceiverAnswer {
        answered!(
            self,
            Reference.receiver_tick(receiver),
            ReceiverTick,
            receiver
        )
    }

    fn receiver_hold(&self, receiver: FlatReceiver) -> FlatReceiverAnswer {
        let right = Reference.receiver_hold(receiver);
        answered!(self, right, ReceiverHold, receiver)
    }

    fn receiver_resume(&self, receiver: FlatReceiver) -> FlatReceiverAnswer {
        let right = Reference.receiver_resume(receiver);
        answered!(self, right, ReceiverResume, receiver)
    }

    fn receiver_hear(
        &self,
        receiver: FlatReceiver,
        frame: FlatFrame,
        buffer: &mut [u8],
    ) -> FlatReceiverAnswer {
        let right = Reference.receiver_hear(receiver, frame, buffer);
        answered!(self, right, ReceiverHear, receiver, frame, buffer)
    }
}

impl Summary for Broken {
    fn summary_begin(
        &self,
        sender: FlatSender,
        message: &[u8],
        counts: &mut [u8],
    ) -> FlatSenderAnswer {
        let before = counts.to_vec();
        let right = Reference.summary_begin(sender, message, counts);
        answered!(self, right, SummaryBegin, sender, message, &before, counts)
    }

    fn summary_post(
        &self,
        sender: FlatSender,
        message: &[u8],
        counts: &mut [u8],
    ) -> FlatSenderAnswer {
        let before = counts.to_vec();
        let right = Reference.summary_post(sender, message, counts);
        answered!(self, right, SummaryPost, sender, message, &before, counts)
    }

    fn summary_tick(
        &self,
        sender: FlatSender,
        message: &[u8],
        counts: &mut [u8],
    ) -> FlatSenderAnswer {
        let before = counts.to_vec();
        let right = Reference.summary_tick(sender, message, counts);
        answered!(self, right, SummaryTick, sender, message, &before, counts)
    }

    fn summary_hear(
        &self,
        sender: FlatSender,
        frame: FlatFrame,
        counts: &mut [u8],
    ) -> FlatSenderAnswer {
        let before = counts.to_vec();
        let right = Reference.summary_hear(sender, frame, counts);
        answered!(self, right, SummaryHear, sender, frame, &before, counts)
    }

    fn summary_count(&self, number: u8, counts: &[u8]) -> FlatCount {
        let right = Reference.summary_count(number, counts);
        answered!(self, right, SummaryCount, number, counts)
    }

    fn summary_most(&self, counts: &[u8]) -> FlatCount {
        answered!(self, Reference.summary_most(counts), SummaryMost, counts)
    }
}

impl Broken {
    fn named(&self) -> [u32; 4] {
        let right = [
            Reference.charger_address(),
            Reference.vehicle_address(),
            Reference.charger_version_identifier(),
            Reference.vehicle_version_identifier(),
        ];
        match self.0 {
            Mistake::Named(spoil) => spoil(right),
            _ => right,
        }
    }
}

impl Around for Broken {
    fn clean_figures_of(&self, length: u32, gap: u32) -> FlatCleanFigures {
        let right = Reference.clean_figures_of(length, gap);
        answered!(self, right, Clean, [length, gap])
    }

    fn identifier_join(&self, parts: FlatIdentifierParts) -> FlatIdentifierJoining {
        answered!(self, Reference.identifier_join(parts), Join, parts)
    }

    fn identifier_split(&self, identifier: u32) -> FlatIdentifierSplitting {
        answered!(
            self,
            Reference.identifier_split(identifier),
            Split,
            identifier
        )
    }

    fn charger_address(&self) -> u32 {
        self.named()[0]
    }

    fn vehicle_address(&self) -> u32 {
        self.named()[1]
    }

    fn charger_version_identifier(&self) -> u32 {
        self.named()[2]
    }

    fn vehicle_version_identifier(&self) -> u32 {
        self.named()[3]
    }

    fn version_list(&self, bytes: &[u8]) -> FlatVersionListing {
        answered!(self, Reference.version_list(bytes), List, bytes)
    }

    fn version_message_write(&self, message: FlatVersionMessage) -> FlatVersionWriting {
        let right = Reference.version_message_write(message);
        answered!(self, right, MessageWrite, message)
    }

    fn version_message_read(&self, bytes: FlatVersionBytes) -> FlatVersionReading {
        let right = Reference.version_message_read(bytes);
        answered!(self, right, MessageRead, bytes)
    }

    fn talker_make(&self, side: u8, versions: FlatVersions, control: u8) -> FlatTalkerMade {
        let right = Reference.talker_make(side, versions, control);
        answered!(self, right, TalkerMake, side, versions)
    }

    fn talker_connect(&self, talker: FlatTalker) -> FlatTalkerAnswer {
        answered!(
            self,
            Reference.talker_connect(talker),
            TalkerConnect,
            talker
        )
    }

    fn talker_tick(&self, talker: FlatTalker) -> FlatTalkerAnswer {
        answered!(self, Reference.talker_tick(talker), TalkerTick, talker)
    }

    fn talker_hear(&self, talker: FlatTalker, bytes: FlatVersionBytes) -> FlatTalkerAnswer {
        let right = Reference.talker_hear(talker, bytes);
        answered!(self, right, TalkerHear, talker, bytes)
    }

    fn talker_stop(&self, talker: FlatTalker) -> FlatTalkerAnswer {
        answered!(self, Reference.talker_stop(talker), TalkerStop, talker)
    }

    fn talker_greet(&self, talker: FlatTalker) -> FlatTalkerAnswer {
        answered!(self, Reference.talker_greet(talker), TalkerGreet, talker)
    }

    fn talker_functions_heard(&self, talker: FlatTalker) -> FlatTalkerAnswer {
        let right = Reference.talker_functions_heard(talker);
        answered!(self, right, TalkerFunctionsHeard, talker)
    }

    fn group_read(&self, bytes: &[u8]) -> FlatGroupReading {
        answered!(self, Reference.group_read(bytes), GroupRead, bytes)
    }

    fn group_write(&self, group: FlatGroup, bytes: &mut [u8]) -> FlatGroupWriting {
        let right = Reference.group_write(group, bytes);
        answered!(self, right, GroupWrite, group, bytes)
    }

    fn group_find(&self, code: u8) -> FlatGroupFinding {
        answered!(self, Reference.group_find(code), GroupFind, code)
    }
}
