//! The line between two talkers: the messages on their way to each side, the oldest first.

use std::collections::VecDeque;

use super::talker::Message;
use super::Pair;
use crate::reference::version::Side;

#[derive(Clone, Debug, Default, PartialEq, Eq)]
pub struct Line {
    /// The list to each side.
    pub to: Pair<VecDeque<Message>>,
}

impl Line {
    /// A message joins the end of the list to this side.
    pub fn join(&mut self, side: Side, message: Message) {
        self.to.of_mut(side).push_back(message);
    }

    /// The first message to this side, which stays.
    pub fn first(&self, side: Side) -> Option<Message> {
        self.to.of(side).front().copied()
    }

    /// The first message to this side, which goes.
    pub fn take(&mut self, side: Side) -> Option<Message> {
        self.to.of_mut(side).pop_front()
    }
}
