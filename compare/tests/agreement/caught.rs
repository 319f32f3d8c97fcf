//! Which mistakes the claims catch over random runs, which are seen only beside the reference, and
//! which not even there.

use crate::broken::*;
use compare::agreement::claims::{Broken, Exceptions};
use compare::agreement::counts::Counts;
use compare::agreement::generate;
use compare::agreement::play::{play, play_beside, play_run, Error, Fault, Wrong};
use compare::agreement::run::Run;
use compare::agreement::talker::VersionTalker;
use compare::reference::version::Talker;

const SEED: u64 = 1;
const CALLS: u64 = 1_000_000;
/// Calls that a shortened run has at most; ticks up to a period are most of them.
const LEGIBLE: usize = 420;

/// The violation that a million calls find, with its run shortened.
fn found<T: VersionTalker>(name: &str) -> Broken {
    let fault = match play::<T>(SEED, CALLS) {
        Err(Error::Fault(fault)) => *fault,
        other => panic!("{name}: {other:?}"),
    };
    shortened::<T>(name, &fault);
    let Wrong::Claim(violation) = fault.wrong else {
        panic!("{name}: {:?}", fault.wrong);
    };
    let text = Error::Fault(Box::new(fault)).to_string();
    let claim = format!(
        "claim {} at event {}",
        violation.broken.claim(),
        violation.event
    );
    assert!(text.contains(&claim), "{name}: {text}");
    violation.broken
}

/// The seed's run and the shortened one fail, the shortened one as the fault says.
fn shortened<T: VersionTalker>(name: &str, fault: &Fault) {
    let again = |run: &Run| play_run::<T>(run, Exceptions::ALL, &mut Counts::default());
    assert!(again(&generate::run(fault.seed)).is_err(), "{name}");
    assert_eq!(again(&fault.run), Err(fault.wrong), "{name}");
    let calls = fault.run.calls().count();
    assert!(calls <= fault.calls && calls <= LEGIBLE, "{name}: {calls}");
}

fn claim_1<T: VersionTalker>(name: &str) {
    assert_eq!(found::<T>(name).claim(), 1, "{name}");
}

fn claim_2<T: VersionTalker>(name: &str) {
    assert_eq!(found::<T>(name).claim(), 2, "{name}");
}

/// No violation in a million calls; what is never reached then is let pass.
fn unbroken<T: VersionTalker>(name: &str) {
    if let Err(Error::Fault(fault)) = play::<T>(SEED, CALLS) {
        panic!("{name}: {}", Error::Fault(fault));
    }
}

/// No claim is broken, but an answer is not the reference's.
fn differs<T: VersionTalker>(name: &str) {
    unbroken::<T>(name);
    match play_beside::<Talker, T>(SEED, CALLS) {
        Err(Error::Fault(fault)) => {
            assert!(matches!(fault.wrong, Wrong::Differs { .. }), "{name}");
            assert!(fault.run.calls().count() <= LEGIBLE, "{name}");
        }
        other => panic!("{name}: {other:?}"),
    }
}

/// Neither: every answer is the reference's.
fn unseen<T: VersionTalker>(name: &str) {
    unbroken::<T>(name);
    let counts = play_beside::<Talker, T>(SEED, CALLS);
    assert_eq!(counts, play::<Talker>(SEED, CALLS), "{name}");
}

/// With the mistake at both sides, at the charger, and at the vehicle.
macro_rules! at_any_side {
    ($check:ident: $($mistake:ident),*) => {
        $(
            $check::<With<$mistake, BOTH>>(concat!(stringify!($mistake), " at both"));
            $check::<With<$mistake, CHARGER>>(concat!(stringify!($mistake), " at the charger"));
            $check::<With<$mistake, VEHICLE>>(concat!(stringify!($mistake), " at the vehicle"));
        )*
    };
}

/// The lowest shared version in place of the highest.
#[test]
fn the_lowest() {
    let broken = found::<Lowest>("Lowest");
    assert!(matches!(broken, Broken::Higher { .. }), "{broken:?}");
}

/// Each of the two claims may be the first to break.
#[test]
fn too_low() {
    at_any_side!(found: OneTooLow, BeginsBelow, LowersUnasked);
}

#[test]
fn wrong_reports() {
    at_any_side!(claim_1: ReportsHighest, ReportsLowest, ReportsNext);
    let broken = found::<With<ReportsNext, BOTH>>("ReportsNext at both");
    assert!(matches!(broken, Broken::Unlisted { .. }), "{broken:?}");
    let broken = found::<With<ReportsLowest, BOTH>>("ReportsLowest at both");
    assert!(matches!(broken, Broken::Higher { .. }), "{broken:?}");
    let broken = found::<With<ReportsHighest, CHARGER>>("ReportsHighest at the charger");
    assert!(matches!(broken, Broken::Differ { .. }), "{broken:?}");
}

/// Two that look at no version settle on different ones; one alone is held back by the far side.
#[test]
fn success_without_a_look() {
    claim_1::<With<Blind, BOTH>>("Blind at both");
    claim_1::<With<SettlesAtContinue, BOTH>>("SettlesAtContinue at both");
    differs::<With<Blind, CHARGER>>("Blind at the charger");
    differs::<With<Blind, VEHICLE>>("Blind at the vehicle");
    differs::<With<SettlesAtContinue, CHARGER>>("SettlesAtContinue at the charger");
    differs::<With<SettlesAtContinue, VEHICLE>>("SettlesAtContinue at the vehicle");
}

#[test]
fn needless_failures() {
    at_any_side!(claim_2: FailsAtHigher, ShortLimit, FailsAtEarlyStop);
    claim_2::<With<FailsAtGreeting, BOTH>>("FailsAtGreeting at both");
    claim_2::<With<FailsAtGreeting, CHARGER>>("FailsAtGreeting at the charger");
}

/// A talk that never settles breaks no claim, nor does a failure at a stop, which is excused.
#[test]
fn seen_beside_the_reference_only() {
    at_any_side!(differs: BlindToContinue, LeavesNs, FailsAtStop);
}

/// What two talkers over a line never meet: a success with another version than the one at Ns, a
/// rise of what the far side offers, and any other continue after one that the own list has
/// (NOTES.md).
#[test]
fn never_met() {
    at_any_side!(unseen: BlindToSuccess, FailsAtInconsistent, TakesListedSuccess);
    at_any_side!(unseen: GoesUp, ContinuesAtOther);
}
