//! The talkers of a face as talkers that `compare::agreement` plays over a line: by flat values in and out, as a program in C
//! would keep them.

use std::cell::Cell;

use compare::agreement::talker::{Answer, Call, Report, VersionTalker};
use compare::reference::version::Side;

use crate::broken::{Broken, Mistake};
#[cfg(feature = "proved")]
use crate::ffi::Proved;
use crate::interface::Around;
use crate::lists::three;
use crate::values::*;
use crate::Reference;

/// A face that is had by its type alone: runs make their talkers so.
pub trait ByType: Around {
    fn face() -> Self;
}

impl ByType for Reference {
    fn face() -> Reference {
        Reference
    }
}

#[cfg(feature = "proved")]
impl ByType for Proved {
    fn face() -> Proved {
        Proved
    }
}

thread_local! {
    static CHOSEN: Cell<Option<Mistake>> = const { Cell::new(None) };
}

/// From here on the broken reference of this thread has this mistake.
pub fn choose(mistake: Mistake) {
    CHOSEN.set(Some(mistake));
}

impl ByType for Broken {
    fn face() -> Broken {
        Broken(CHOSEN.get().expect("a mistake was chosen"))
    }
}

/// A talker of this face, with its state.
#[derive(Clone, Debug)]
pub struct FaceTalker<F> {
    face: F,
    state: FlatTalker,
}

impl<F: ByType> VersionTalker for FaceTalker<F> {
    fn make(side: Side, list: &[u8], pilot: u8) -> Result<FaceTalker<F>, u8> {
        let face = F::face();
        let listing = face.version_list(list);
        if listing.refusal != 0 {
            return Err(listing.refusal);
        }
        let side = u8::from(side == Side::Vehicle);
        let made = face.talker_make(side, listing.versions, pilot);
        match made.refusal {
            0 => Ok(FaceTalker {
                face,
                state: made.talker,
            }),
            number => Err(number),
        }
    }

    fn call(&mut self, call: Call) -> Answer {
        let (face, state) = (&self.face, self.state);
        let answer = match call {
            Call::Connect => face.talker_connect(state),
            Call::Tick => face.talker_tick(state),
            Call::Hear(bytes) => face.talker_hear(state, FlatVersionBytes { bytes }),
            Call::Stop => face.talker_stop(state),
            Call::Greeting => face.talker_greet(state),
            Call::Functions => face.talker_functions_heard(state),
        };
        self.state = answer.next;
        Answer {
            emitted: answer.emits.then_some(answer.bytes.bytes),
            report: report(&answer),
        }
    }
}

/// No refusal has this number. An answer that contradicts itself is told so, and is like no right one.
const CONTRADICTION: u8 = u8::MAX;

/// The report of an answer: its outcome, if the state that it leaves and its other parts are that outcome's.
fn report(answer: &FlatTalkerAnswer) -> Report {
    let &FlatTalkerAnswer {
        outcome,
        refusal,
        version,
        ..
    } = answer;
    let agreed = if version < 0x020000 { 2 } else { 3 };
    let silent = answer.emits || answer.bytes == FlatVersionBytes::default();
    match (outcome, answer.next.state) {
        _ if !silent => Report::Refused(CONTRADICTION),
        _ if (refusal != 0) != (outcome == 1) => Report::Refused(CONTRADICTION),
        _ if version != 0 && outcome != 6 => Report::Refused(CONTRADICTION),
        (0, _) => Report::Nothing,
        (1, _) => Report::Refused(refusal),
        (3, 4) => Report::Failed,
        (6, state) if state == agreed => Report::Settled(three(version)),
        (7, 5) => Report::Stopped,
        _ => Report::Refused(CONTRADICTION),
    }
}
