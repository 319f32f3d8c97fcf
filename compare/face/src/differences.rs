//! Random cases on two faces, and the first on which they differ.

use std::fmt;

use compare::packs::random::Random;

use crate::call::{Call, Mismatch, Pair};
use crate::forged;
use crate::interface::Face;
use crate::session::Session;
use crate::sessions;
use crate::shrink;
use crate::singles;
use crate::talk::{self, Talk};
use crate::tally::Tally;

/// Single calls that one seed stands for.
const BATCH: usize = 100;
/// One seed in so many has a case of the summary, too.
const COUNTED: u64 = 4;

/// What is played on both faces: each its own case.
#[derive(Clone, Debug, PartialEq, Eq)]
pub enum Case {
    Session(Session),
    Talk(Talk),
    Single(Call),
}

/// A case on which two faces differ.
#[derive(Clone, Debug)]
pub struct Difference {
    pub seed: u64,
    /// Shortened.
    pub case: Case,
    /// The steps that it had.
    pub steps: usize,
    pub mismatch: Mismatch,
}

impl Case {
    pub fn play<L: Face, R: Face>(&self, pair: &mut Pair<L, R>) -> Result<(), Box<Mismatch>> {
        match self {
            Case::Session(session) => session.play(pair),
            Case::Talk(talk) => talk.play(pair),
            Case::Single(call) => single(call.clone(), pair),
        }
    }

    pub fn steps(&self) -> usize {
        match self {
            Case::Session(session) => session.steps.len(),
            Case::Talk(talk) => talk.steps.len(),
            Case::Single(_) => 1,
        }
    }
}

fn single<L: Face, R: Face>(call: Call, pair: &mut Pair<L, R>) -> Result<(), Box<Mismatch>> {
    if matches!(call, Call::ReceiverHear(..)) {
        pair.fill_buffers();
    }
    pair.compare(call).map(|_| ())
}

/// Compares on the cases of `seed`, of the next, and so on, until `count` calls have been made.
pub fn first_difference<L: Face, R: Face>(
    left: &L,
    right: &R,
    seed: u64,
    count: u64,
) -> (Tally, Option<Difference>) {
    let mut pair = Pair::new(left, right);
    let mut seed = seed;
    while pair.tally.total() < count {
        if let Some((case, mismatch)) = differing_case(seed, &mut pair) {
            let steps = case.steps();
            let (case, mismatch) = shrink::shrink(case, *mismatch, left, right);
            let difference = Difference {
                seed,
                case,
                steps,
                mismatch,
            };
            return (pair.tally, Some(difference));
        }
        seed = seed.wrapping_add(1);
    }
    (pair.tally, None)
}

/// Plays the cases of one seed; the one that differs, if any.
fn differing_case<L: Face, R: Face>(
    seed: u64,
    pair: &mut Pair<L, R>,
) -> Option<(Case, Box<Mismatch>)> {
    let found = plain_case(seed, pair);
    match seed % COUNTED {
        0 => found.or_else(|| counted_case(seed, pair)),
        _ => found,
    }
}

/// The ends without a summary, talks, and all that stands alone.
fn plain_case<L: Face, R: Face>(seed: u64, pair: &mut Pair<L, R>) -> Option<(Case, Box<Mismatch>)> {
    let mut random = Random::new(seed);
    match random.weighted(&[70, 5, 25]) {
        0 => {
            let (session, played) = sessions::run(&mut random, pair);
            Some((Case::Session(session), played.err()?))
        }
        1 => {
            let talk = talk::draw(&mut random);
            let mismatch = talk.play(pair).err()?;
            Some((Case::Talk(talk), mismatch))
        }
        _ => batch(pair, || single_call(&mut random)),
    }
}

/// A session with a summary, or calls of the summary alone.
fn counted_case<L: Face, R: Face>(
    seed: u64,
    pair: &mut Pair<L, R>,
) -> Option<(Case, Box<Mismatch>)> {
    let mut random = Random::new(!seed);
    match random.percent(50) {
        true => {
            let (session, played) = sessions::run_counted(&mut random, pair);
            Some((Case::Session(session), played.err()?))
        }
        false => batch(pair, || forged::summary_call(&mut random)),
    }
}

fn batch<L: Face, R: Face>(
    pair: &mut Pair<L, R>,
    mut draw: impl FnMut() -> Call,
) -> Option<(Case, Box<Mismatch>)> {
    (0..BATCH).find_map(|_| {
        let call = draw();
        let mismatch = single(call.clone(), pair).err()?;
        Some((Case::Single(call), mismatch))
    })
}

fn single_call(random: &mut Random) -> Call {
    match random.weighted(&[60, 2, 8, 8, 7, 15, 3]) {
        0 => forged::end_call(random),
        1 => forged::make_call(random),
        2 => forged::talker_call(random),
        3 => singles::identifier_call(random),
        4 => singles::version_call(random),
        5 => singles::group_call(random),
        _ => singles::figures_call(random),
    }
}

impl fmt::Display for Difference {
    fn fmt(&self, f: &mut fmt::Formatter) -> fmt::Result {
        writeln!(f, "DIFFERENT at seed {0} (--seed {0} --count 1)", self.seed)?;
        let (had, left) = (self.steps, self.case.steps());
        match &self.case {
            Case::Single(_) => writeln!(f, "a single call:")?,
            Case::Session(session) => {
                writeln!(f, "a session of {had} steps, {left} left:")?;
                tell_session(session, f)?;
            }
            Case::Talk(talk) => {
                writeln!(f, "a talk of {had} steps, {left} left:")?;
                tell_talk(talk, f)?;
            }
        }
        write!(f, "{}", self.mismatch)
    }
}

fn tell_session(session: &Session, f: &mut fmt::Formatter) -> fmt::Result {
    let (sender, receiver) = (session.sender, session.receiver);
    writeln!(f, "sender {sender:?}, receiver {receiver:?}")?;
    if let Some(byte) = session.summary {
        writeln!(
            f,
            "with a summary, its counts at first {byte:02X} throughout"
        )?;
    }
    for (place, part) in session.messages.iter().enumerate() {
        let (length, from) = (part.length, part.from);
        writeln!(f, "message {place}: {length} bytes of the pool from {from}")?;
    }
    session
        .steps
        .iter()
        .try_for_each(|step| writeln!(f, "    {step:?}"))
}

fn tell_talk(talk: &Talk, f: &mut fmt::Formatter) -> fmt::Result {
    let (lists, controls) = (&talk.lists, talk.controls);
    writeln!(f, "lists {lists:02X?}, control bytes {controls:02X?}")?;
    talk.steps
        .iter()
        .try_for_each(|step| writeln!(f, "    {step:?}"))
}
