//! The reference's summary over plain values: the sender's flat states are those of `crate::ends`, the lent counts go as they
//! are.

use compare::reference::summary::{self, Most};
use compare::reference::Refused;

use crate::ends::{frame_of, sender_answer, sender_of};
use crate::interface::Summary;
use crate::values::*;
use crate::Reference;

impl Summary for Reference {
    fn summary_begin(
        &self,
        sender: FlatSender,
        message: &[u8],
        counts: &mut [u8],
    ) -> FlatSenderAnswer {
        let mut end = sender_of(sender);
        let answer = summary::begin(&mut end, message, counts);
        sender_answer(&end, answer)
    }

    fn summary_post(
        &self,
        sender: FlatSender,
        message: &[u8],
        counts: &mut [u8],
    ) -> FlatSenderAnswer {
        let end = sender_of(sender);
        let answer = summary::post(&end, message, counts);
        sender_answer(&end, answer)
    }

    fn summary_tick(
        &self,
        sender: FlatSender,
        message: &[u8],
        counts: &mut [u8],
    ) -> FlatSenderAnswer {
        let mut end = sender_of(sender);
        let answer = summary::tick(&mut end, message, counts);
        sender_answer(&end, answer)
    }

    fn summary_hear(
        &self,
        sender: FlatSender,
        frame: FlatFrame,
        counts: &mut [u8],
    ) -> FlatSenderAnswer {
        let mut end = sender_of(sender);
        let answer = summary::hear(&mut end, frame_of(frame), counts);
        sender_answer(&end, answer)
    }

    fn summary_count(&self, number: u8, counts: &[u8]) -> FlatCount {
        let counted = summary::count(counts, number);
        count_of(counted.map(|count| Most { number, count }))
    }

    fn summary_most(&self, counts: &[u8]) -> FlatCount {
        count_of(summary::most(counts))
    }
}

/// A number and its count; zeros where refused.
fn count_of(counted: Result<Most, Refused>) -> FlatCount {
    match counted {
        Ok(Most { number, count }) => FlatCount {
            refusal: 0,
            number,
            count,
        },
        Err(Refused(refusal)) => FlatCount {
            refusal,
            number: 0,
            count: 0,
        },
    }
}
