//! Makes a case on which two faces differ smaller while they differ.

use crate::call::{Mismatch, Pair};
use crate::differences::Case;
use crate::interface::Face;
use crate::session::{Session, Step};
use crate::talk::{Talk, TalkStep};

/// Trials of one shortening.
const TRIALS: usize = 20_000;

struct Shrinker<'a, L, R> {
    left: &'a L,
    right: &'a R,
    case: Case,
    mismatch: Mismatch,
    trials: usize,
}

/// A case no larger than this one on which the faces differ, with the mismatch in its last step. A single call stays.
pub fn shrink<L: Face, R: Face>(
    case: Case,
    mismatch: Mismatch,
    left: &L,
    right: &R,
) -> (Case, Mismatch) {
    let mut shrinker = Shrinker {
        left,
        right,
        case,
        mismatch,
        trials: TRIALS,
    };
    loop {
        let before = shrinker.case.clone();
        shrinker.drop_steps();
        shrinker.drop_alike();
        shrinker.lessen();
        if shrinker.case == before || shrinker.trials == 0 {
            return (shrinker.case, shrinker.mismatch);
        }
    }
}

impl<L: Face, R: Face> Shrinker<'_, L, R> {
    /// Takes this case if the faces differ on it.
    fn take(&mut self, case: Case) -> bool {
        if self.trials == 0 {
            return false;
        }
        self.trials -= 1;
        let mut pair = Pair::new(self.left, self.right);
        let Err(mismatch) = case.play(&mut pair) else {
            return false;
        };
        self.case = case;
        self.mismatch = *mismatch;
        true
    }

    /// Drops runs of steps: all of them, half, a quarter, and so on to one.
    fn drop_steps(&mut self) {
        let mut run = self.case.steps();
        while run >= 1 {
            let mut start = 0;
            while start < self.case.steps() {
                let Some(fewer) = without(&self.case, start, run) else {
                    return;
                };
                if !self.take(fewer) {
                    start += run;
                }
            }
            run /= 2;
        }
    }

    /// Drops a step of a session with all that follow and are like it, where neither can go alone.
    fn drop_alike(&mut self) {
        let mut start = 0;
        while let Some(fewer) = without_alike(&self.case, start) {
            if !self.take(fewer) {
                start += 1;
            }
        }
    }

    /// Shorter messages and runs of ticks, smaller settings and lists.
    fn lessen(&mut self) {
        while lesser(&self.case).into_iter().any(|case| self.take(case)) {}
    }
}

fn without(case: &Case, start: usize, run: usize) -> Option<Case> {
    let end = (start + run).min(case.steps());
    let mut fewer = case.clone();
    match &mut fewer {
        Case::Session(session) => drop(session.steps.drain(start..end)),
        Case::Talk(talk) => drop(talk.steps.drain(start..end)),
        Case::Single(_) => return None,
    }
    Some(fewer)
}

fn without_alike(case: &Case, start: usize) -> Option<Case> {
    let Case::Session(session) = case else {
        return None;
    };
    let alike = *session.steps.get(start)?;
    let mut fewer = session.clone();
    let mut place = 0;
    fewer.steps.retain(|&step| {
        place += 1;
        place <= start || step != alike
    });
    Some(Case::Session(fewer))
}

fn lesser(case: &Case) -> Vec<Case> {
    match case {
        Case::Session(session) => lesser_sessions(session),
        Case::Talk(talk) => lesser_talks(talk),
        Case::Single(_) => Vec::new(),
    }
}

fn lesser_sessions(session: &Session) -> Vec<Case> {
    let mut cases = Vec::new();
    let mut add = |change: &dyn Fn(&mut Session)| {
        let mut changed = session.clone();
        change(&mut changed);
        cases.push(Case::Session(changed));
    };
    for (place, part) in session.messages.iter().enumerate() {
        for length in less(part.length, &[1, 8, 9, 14, 15]) {
            add(&|changed| changed.messages[place].length = length);
        }
        // A frame fewer, and the steps that brought it over; in the window, or behind it.
        for (tick, given) in ticks_and_frames(&session.steps) {
            for narrower in [0, 1] {
                if part.length > 15 && session.receiver[1] > narrower {
                    add(&|changed| {
                        changed.messages[place].length -= 7;
                        changed.receiver[1] -= narrower;
                        changed.steps.remove(given);
                        changed.steps.remove(tick);
                    });
                }
            }
        }
    }
    if session.summary.is_some() {
        add(&|changed| changed.summary = None);
    }
    if session.summary.is_some_and(|byte| byte != 0) {
        add(&|changed| changed.summary = Some(0));
    }
    for place in 0..3 {
        for number in less(session.sender[place].into(), &[1, 2, 3, 10]) {
            add(&|changed| changed.sender[place] = number as u16);
        }
        for number in less(session.receiver[place].into(), &[1, 2, 3, 9, 10]) {
            add(&|changed| changed.receiver[place] = number as u16);
        }
    }
    cases
}

/// The places of a sender's tick and of a frame that goes forward after it.
fn ticks_and_frames(steps: &[Step]) -> Vec<(usize, usize)> {
    let places = |wanted: fn(&Step) -> bool| (0..steps.len()).filter(move |&at| wanted(&steps[at]));
    let ticks = places(|step| matches!(step, Step::SenderTick(_)));
    ticks
        .flat_map(|tick| {
            let frames = places(|step| matches!(step, Step::Forward(..)));
            frames
                .filter(move |&given| given > tick)
                .map(move |given| (tick, given))
        })
        .collect()
}

fn lesser_talks(talk: &Talk) -> Vec<Case> {
    let mut cases = Vec::new();
    for (place, step) in talk.steps.iter().enumerate() {
        if let TalkStep::Ticks(count) = *step {
            for fewer in less(count.into(), &[1, 49, 50]) {
                let mut changed = talk.clone();
                changed.steps[place] = TalkStep::Ticks(fewer as u16);
                cases.push(Case::Talk(changed));
            }
        }
    }
    for side in 0..2 {
        for version in 0..talk.lists[side].len() / 3 {
            let mut changed = talk.clone();
            changed.lists[side].drain(3 * version..3 * version + 3);
            cases.push(Case::Talk(changed));
        }
    }
    cases
}

/// Some of these numbers and some parts of the number, as far as they are smaller.
fn less(number: usize, some: &[usize]) -> Vec<usize> {
    let parts = [number / 2, number - number / 4, number - number / 16];
    let one = if number <= 16 { 1 } else { 0 };
    let all = some
        .iter()
        .copied()
        .chain(parts)
        .chain([number.saturating_sub(one)]);
    all.filter(|&other| other < number).collect()
}
