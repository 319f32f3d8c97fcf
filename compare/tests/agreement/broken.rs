//! Talkers with a mistake, at both sides or at one.

use std::marker::PhantomData;

use compare::agreement::talker::{Answer, Call, Message, Report, VersionTalker};
use compare::reference::version::{
    build, read, Message as Fields, Outcome, Side, State, Talker, Version,
};

/// What is done in place of the reference's call.
pub trait Mistake {
    fn call(talker: &mut Talker, call: Call) -> Answer;

    /// Done to a fresh talker.
    fn made(_: &mut Talker) {}
}

/// Which sides have the mistake.
pub const BOTH: u8 = 0;
pub const CHARGER: u8 = 1;
pub const VEHICLE: u8 = 2;

/// The reference with a mistake.
pub struct With<M, const AT: u8>(Talker, PhantomData<M>);

impl<M, const AT: u8> With<M, AT> {
    fn has_it(side: Side) -> bool {
        match AT {
            CHARGER => side == Side::Charger,
            VEHICLE => side == Side::Vehicle,
            _ => true,
        }
    }
}

impl<M: Mistake, const AT: u8> VersionTalker for With<M, AT> {
    fn make(side: Side, list: &[u8], pilot: u8) -> Result<Self, u8> {
        let mut talker = <Talker as VersionTalker>::make(side, list, pilot)?;
        if Self::has_it(side) {
            M::made(&mut talker);
        }
        Ok(With(talker, PhantomData))
    }

    fn call(&mut self, call: Call) -> Answer {
        if Self::has_it(self.0.side) {
            M::call(&mut self.0, call)
        } else {
            right(&mut self.0, call)
        }
    }
}

fn right(talker: &mut Talker, call: Call) -> Answer {
    VersionTalker::call(talker, call)
}

/// The result and version of a message that a talker in S1 hears.
fn heard(talker: &Talker, call: Call) -> Option<(Outcome, Version)> {
    match call {
        Call::Hear(message) if talker.state == State::S1 => {
            let fields = read(message).ok()?;
            Some((fields.outcome, fields.version))
        }
        _ => None,
    }
}

fn says(outcome: Outcome, version: Version) -> Message {
    build(Fields { outcome, version }, 0)
}

/// S4, as if a failure had been heard.
fn fail(talker: &mut Talker) -> Answer {
    right(talker, Call::Hear(says(Outcome::Failure, [0xFF; 3])))
}

/// S2 or S3 with the version at Ns, as if it had been heard in a success.
fn settle(talker: &mut Talker) -> Answer {
    let version = talker.at_ns();
    right(talker, Call::Hear(says(Outcome::Success, version)))
}

/// A continue that the own list has not, and that is below the version at Ns.
fn too_high(talker: &Talker, call: Call) -> bool {
    heard(talker, call).is_some_and(|(outcome, version)| {
        outcome == Outcome::Continue
            && !talker.versions.contains(&version)
            && version < talker.at_ns()
    })
}

/// Ns one place too low.
pub struct OneTooLow;
impl Mistake for OneTooLow {
    fn call(talker: &mut Talker, call: Call) -> Answer {
        let moves = too_high(talker, call);
        let answer = right(talker, call);
        if moves {
            talker.ns = talker.ns.saturating_sub(1);
        }
        answer
    }
}

/// Fails where a lower version is left.
pub struct FailsAtHigher;
impl Mistake for FailsAtHigher {
    fn call(talker: &mut Talker, call: Call) -> Answer {
        match too_high(talker, call) {
            true => fail(talker),
            false => right(talker, call),
        }
    }
}

/// Settles at any heard success.
pub struct BlindToSuccess;
impl Mistake for BlindToSuccess {
    fn call(talker: &mut Talker, call: Call) -> Answer {
        match heard(talker, call) {
            Some((Outcome::Success, _)) => settle(talker),
            _ => right(talker, call),
        }
    }
}

/// Takes any heard continue for one that the own list has; Ns stays.
pub struct BlindToContinue;
impl Mistake for BlindToContinue {
    fn call(talker: &mut Talker, call: Call) -> Answer {
        match heard(talker, call) {
            Some((Outcome::Continue, _)) => {
                talker.outcome = Outcome::Success;
                Answer::default()
            }
            _ => right(talker, call),
        }
    }
}

/// Both of these.
pub struct Blind;
impl Mistake for Blind {
    fn call(talker: &mut Talker, call: Call) -> Answer {
        match heard(talker, call) {
            Some((Outcome::Success, _)) => settle(talker),
            _ => BlindToContinue::call(talker, call),
        }
    }
}

/// Settles at any heard continue.
pub struct SettlesAtContinue;
impl Mistake for SettlesAtContinue {
    fn call(talker: &mut Talker, call: Call) -> Answer {
        match heard(talker, call) {
            Some((Outcome::Continue, _)) => settle(talker),
            _ => right(talker, call),
        }
    }
}

/// Names another version in its report.
fn reports(talker: &mut Talker, call: Call, other: fn(&Talker) -> Version) -> Answer {
    let mut answer = right(talker, call);
    if let Report::Settled(_) = answer.report {
        answer.report = Report::Settled(other(talker));
    }
    answer
}

/// Reports its highest version.
pub struct ReportsHighest;
impl Mistake for ReportsHighest {
    fn call(talker: &mut Talker, call: Call) -> Answer {
        reports(talker, call, |talker| {
            talker.versions[talker.versions.len() - 1]
        })
    }
}

/// Reports its lowest version.
pub struct ReportsLowest;
impl Mistake for ReportsLowest {
    fn call(talker: &mut Talker, call: Call) -> Answer {
        reports(talker, call, |talker| talker.versions[0])
    }
}

/// Reports the version above or below the agreed one.
pub struct ReportsNext;
impl Mistake for ReportsNext {
    fn call(talker: &mut Talker, call: Call) -> Answer {
        reports(talker, call, |talker| {
            let [main, minor, temporary] = talker.at_ns();
            [main, minor, temporary ^ 1]
        })
    }
}

/// Begins below the highest version.
pub struct BeginsBelow;
impl Mistake for BeginsBelow {
    fn call(talker: &mut Talker, call: Call) -> Answer {
        right(talker, call)
    }

    fn made(talker: &mut Talker) {
        talker.ns = talker.ns.saturating_sub(1);
    }
}

/// Offers a lower version with each period, unasked.
pub struct LowersUnasked;
impl Mistake for LowersUnasked {
    fn call(talker: &mut Talker, call: Call) -> Answer {
        let answer = right(talker, call);
        if call == Call::Tick && answer.emitted.is_some() && talker.state == State::S1 {
            talker.ns = talker.ns.saturating_sub(1);
        }
        answer
    }
}

/// Fails where a heard success names another version than the one at Ns.
pub struct FailsAtInconsistent;
impl Mistake for FailsAtInconsistent {
    fn call(talker: &mut Talker, call: Call) -> Answer {
        match heard(talker, call) {
            Some((Outcome::Success, version)) if version != talker.at_ns() => fail(talker),
            _ => right(talker, call),
        }
    }
}

/// A limit of 400 ms.
pub struct ShortLimit;
impl Mistake for ShortLimit {
    fn call(talker: &mut Talker, call: Call) -> Answer {
        if call == Call::Tick && talker.state == State::S1 && talker.limit == 399 {
            return fail(talker);
        }
        right(talker, call)
    }
}

/// Fails at a greeting whatever the side.
pub struct FailsAtGreeting;
impl Mistake for FailsAtGreeting {
    fn call(talker: &mut Talker, call: Call) -> Answer {
        if call == Call::Greeting && talker.state == State::S1 {
            return fail(talker);
        }
        right(talker, call)
    }
}

/// A stop before the connection is there makes it fail.
pub struct FailsAtEarlyStop;
impl Mistake for FailsAtEarlyStop {
    fn call(talker: &mut Talker, call: Call) -> Answer {
        if call == Call::Stop && talker.state == State::S0 {
            talker.connect();
            return fail(talker);
        }
        right(talker, call)
    }
}

/// Fails at a stop in S1.
pub struct FailsAtStop;
impl Mistake for FailsAtStop {
    fn call(talker: &mut Talker, call: Call) -> Answer {
        if call == Call::Stop && talker.state == State::S1 {
            return fail(talker);
        }
        right(talker, call)
    }
}

/// Takes a success of any version that the own list has.
pub struct TakesListedSuccess;
impl Mistake for TakesListedSuccess {
    fn call(talker: &mut Talker, call: Call) -> Answer {
        if let Some((Outcome::Success, version)) = heard(talker, call) {
            let place = talker.versions.iter().position(|&own| own == version);
            talker.ns = place.unwrap_or(talker.ns);
        }
        right(talker, call)
    }
}

/// Says success to a continue that the own list has, but leaves Ns.
pub struct LeavesNs;
impl Mistake for LeavesNs {
    fn call(talker: &mut Talker, call: Call) -> Answer {
        let before = talker.ns;
        let higher = too_high(talker, call);
        let answer = right(talker, call);
        if !higher {
            talker.ns = before;
        }
        answer
    }
}

/// Goes up again at a higher continue that the own list has not.
pub struct GoesUp;
impl Mistake for GoesUp {
    fn call(talker: &mut Talker, call: Call) -> Answer {
        if let Some((Outcome::Continue, version)) = heard(talker, call) {
            let below = talker.versions.iter().rposition(|&own| own < version);
            talker.ns = below.unwrap_or(0).max(talker.ns);
        }
        right(talker, call)
    }
}

/// Result continue at each continue that the own list has not: the other reading of NOTES.md, 25.
pub struct ContinuesAtOther;
impl Mistake for ContinuesAtOther {
    fn call(talker: &mut Talker, call: Call) -> Answer {
        if let Some((Outcome::Continue, version)) = heard(talker, call) {
            if !talker.versions.contains(&version) {
                talker.outcome = Outcome::Continue;
            }
        }
        right(talker, call)
    }
}

/// Settles on the lowest version in both lists: the reference with each version turned round, so
/// that high is low.
pub struct Lowest(Talker);

fn turned(version: Version) -> Version {
    version.map(|byte| 255 - byte)
}

/// A message with its version turned round; a failure has none.
fn turned_message(mut message: Message) -> Message {
    if message[1] != Outcome::Failure.number() {
        message[2..5]
            .iter_mut()
            .for_each(|byte| *byte = 255 - *byte);
    }
    message
}

impl VersionTalker for Lowest {
    fn make(side: Side, list: &[u8], pilot: u8) -> Result<Lowest, u8> {
        let high_first: Vec<u8> = list
            .rchunks(3)
            .flat_map(|version| turned([version[0], version[1], version[2]]))
            .collect();
        <Talker as VersionTalker>::make(side, &high_first, pilot).map(Lowest)
    }

    fn call(&mut self, call: Call) -> Answer {
        let call = match call {
            Call::Hear(message) => Call::Hear(turned_message(message)),
            call => call,
        };
        let answer = right(&mut self.0, call);
        Answer {
            emitted: answer.emitted.map(turned_message),
            report: match answer.report {
                Report::Settled(version) => Report::Settled(turned(version)),
                report => report,
            },
        }
    }
}
