//! The talkers of a face over a line (document 02, E5): the comparison with the reference's own talkers catches broken ones,
//! and the claims catch those that break them.

use std::collections::BTreeSet;

use compare::agreement::claims::Broken as Unmet;
use compare::agreement::counts::Counts;
use compare::agreement::play::{play, play_beside, Error, Fault, Wrong};
use compare::reference::version::Talker;
use face::agreement::{choose, FaceTalker};
use face::broken::agreement::{BREAKING, DIFFERING};
use face::broken::{mistakes, Broken, Mistake};
use face::Reference;

/// Calls within which every mistake is found that can be.
const COUNT: u64 = 1_000_000;
const SEED: u64 = 1;
/// Turns that a shortened run may have.
const TURNS: usize = 9;

type Played = Result<Counts, Error>;

/// A face with this mistake by itself: the claims alone are held to it.
fn alone(mistake: Mistake) -> Played {
    choose(mistake);
    play::<FaceTalker<Broken>>(SEED, COUNT)
}

/// The same beside the reference.
fn beside(mistake: Mistake) -> Played {
    choose(mistake);
    play_beside::<FaceTalker<Broken>, Talker>(SEED, COUNT)
}

fn fault(played: Played) -> Option<Fault> {
    match played {
        Err(Error::Fault(fault)) => Some(*fault),
        _ => None,
    }
}

/// The reference's translation is alike with the reference, and all that is demanded comes about, often.
#[test]
fn the_reference_over_flat_values_is_alike() {
    let counts = play_beside::<FaceTalker<Reference>, Talker>(SEED, COUNT)
        .unwrap_or_else(|error| panic!("{error}"));
    assert!(counts.calls >= COUNT);
    assert_eq!(counts.missing(), []);
    assert_eq!(Ok(counts), play::<Talker>(SEED, COUNT));
}

/// A run in which things are not met says which.
#[test]
fn what_is_not_met_is_named() {
    let played = play_beside::<FaceTalker<Reference>, Talker>(SEED, 1);
    let Err(Error::Empty(missing, counts)) = played else {
        panic!("one talk does not meet all");
    };
    assert_eq!(counts.runs, 1);
    assert_eq!(missing, counts.missing());
    assert!(missing.len() > 10, "{missing:?}");
}

/// Every mistake of both kinds differs from the reference, and in a short run.
#[test]
fn every_mistake_is_caught_by_comparison() {
    for &(name, mistake) in BREAKING.iter().chain(DIFFERING) {
        let fault = fault(beside(mistake)).unwrap_or_else(|| panic!("not caught: {name}"));
        let turns = fault.run.turns.len();
        println!("seed {:3}, {turns} turns: {name}", fault.seed);
        assert!(matches!(fault.wrong, Wrong::Differs { .. }), "{name}");
        assert!(turns <= TURNS, "{name}: {}", fault.run);
    }
}

/// How a claim is broken, in a word.
fn word(unmet: Unmet) -> &'static str {
    match unmet {
        Unmet::Differ { .. } => "two versions",
        Unmet::Unlisted { .. } => "not in a list",
        Unmet::Higher { .. } => "a higher one in both",
        Unmet::Failed { .. } => "failed though shared",
    }
}

/// The claims alone, with nothing to compare with, catch those that break them, in each of the ways in which a claim can be
/// broken.
#[test]
fn the_claims_catch_what_breaks_them() {
    let mut words = BTreeSet::new();
    for &(name, mistake) in BREAKING {
        let fault = fault(alone(mistake)).unwrap_or_else(|| panic!("no claim is broken: {name}"));
        let Wrong::Claim(violation) = fault.wrong else {
            panic!("{name}: {:?}", fault.wrong);
        };
        println!("seed {:3}, {violation}: {name}", fault.seed);
        words.insert(word(violation.broken));
    }
    assert_eq!(words.len(), 4, "{words:?}");
}

/// The others break no claim: the comparison alone catches them.
#[test]
fn the_claims_pass_what_only_differs() {
    for &(name, mistake) in DIFFERING {
        assert_eq!(fault(alone(mistake)), None, "{name}");
    }
}

/// Mistakes of talkers that talks over a line do not show: of lists that are refused, of states that no talk reaches, and of a
/// success with another version than the own, which no run has brought. The comparison of calls shows them.
const UNSEEN: [&str; 10] = [
    "made of no versions",
    "made of a count of nine",
    "made of a count modulo 256",
    "made of an unsorted list",
    "made of two equal versions",
    "made of a version of four bytes",
    "what stands past the count is judged",
    "a refused making leaves the list",
    "a place is taken modulo 256",
    "success with another version is passed over",
];

/// Of all mistakes in the functions of talkers no others are missed.
#[test]
fn what_talks_do_not_show() {
    let of_talkers = |mistake: &Mistake| {
        use Mistake::*;
        matches!(
            mistake,
            TalkerMake(_) | TalkerConnect(_) | TalkerTick(_) | TalkerHear(_) | TalkerStop(_)
        ) || matches!(mistake, TalkerGreet(_) | TalkerFunctionsHeard(_))
    };
    let unseen: Vec<&str> = mistakes()
        .into_iter()
        .filter(|(_, mistake)| of_talkers(mistake) && fault(beside(*mistake)).is_none())
        .map(|(name, _)| name)
        .collect();
    assert_eq!(unseen, UNSEEN);
}

/// A list that is refused makes no talker, and the number is told.
#[test]
fn a_refused_list_makes_no_talker() {
    use compare::agreement::talker::VersionTalker;
    use compare::reference::version::Side;
    for list in [&[2, 0, 0, 1, 1, 0][..], &[], &[2, 0], &[2; 27]] {
        let made = FaceTalker::<Reference>::make(Side::Charger, list, 1);
        assert_eq!(made.err(), Some(11), "{list:?}");
    }
}

/// An answer whose parts do not fit each other is like no right answer: a version or a refusal's number where none is due, bytes
/// of a message that does not go out, S2 and S3 exchanged.
#[test]
fn contradictions_are_differences() {
    let versioned = Mistake::TalkerTick(|_, answer| answer.version = 0x020000);
    let unsaid = Mistake::TalkerTick(|_, answer| answer.bytes.bytes[7] = 0xFF);
    let refusing = Mistake::TalkerStop(|_, answer| answer.refusal = 10);
    let unsettled = Mistake::TalkerHear(|_, _, answer| {
        if answer.outcome == 6 {
            answer.next.state = 5 - answer.next.state;
        }
    });
    for mistake in [versioned, unsaid, refusing, unsettled] {
        let fault = fault(beside(mistake)).expect("a difference");
        assert!(matches!(fault.wrong, Wrong::Differs { .. }));
    }
}
