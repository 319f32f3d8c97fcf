//! Random runs of the reference, and what a check says of itself.

use compare::agreement::counts::Reached;
use compare::agreement::generate;
use compare::agreement::play::{play, play_beside, Error};
use compare::agreement::run::Bench;
use compare::agreement::talker::{Answer, Call, VersionTalker};
use compare::reference::version::{check_list, Side, Talker};

const SEED: u64 = 1;
const CALLS: u64 = 1_000_000;

/// The reference alone, a million calls: the claims hold, and all was reached.
#[test]
fn a_million_calls() {
    let counts = play::<Talker>(SEED, CALLS).unwrap_or_else(|error| panic!("{error}"));
    println!("{counts}");
    assert!(counts.calls >= CALLS);
    assert_eq!(counts.missing(), []);
}

/// The reference beside itself.
#[test]
fn beside_itself() {
    let counts = play_beside::<Talker, Talker>(SEED, CALLS);
    assert_eq!(counts, play::<Talker>(SEED, CALLS));
}

/// A seed has one run; its lists are good ones.
#[test]
fn runs_of_a_seed() {
    for seed in 0..3000 {
        let run = generate::run(seed);
        assert_eq!(run, generate::run(seed));
        assert_eq!(check_list(&run.lists.charger), Ok(()));
        assert_eq!(check_list(&run.lists.vehicle), Ok(()));
        assert!(Bench::<Talker>::make(&run.lists, run.pilots).is_ok());
    }
    assert_ne!(generate::run(1), generate::run(2));
}

/// A talker that does nothing keeps to both claims, and is no check of them.
struct Mute;

impl VersionTalker for Mute {
    fn make(_: Side, _: &[u8], _: u8) -> Result<Mute, u8> {
        Ok(Mute)
    }

    fn call(&mut self, _: Call) -> Answer {
        Answer::default()
    }
}

#[test]
fn an_empty_check_is_an_error() {
    let Err(Error::Empty(missing, counts)) = play::<Mute>(SEED, CALLS) else {
        panic!("an empty check passes");
    };
    // Only what the lists alone are.
    let lists = [
        Reached::SharingNone,
        Reached::SharingOne,
        Reached::SharingSeveral,
    ];
    for reached in Reached::ALL {
        assert_eq!(missing.contains(&reached), !lists.contains(&reached));
        assert_eq!(counts.of(reached) > 0, lists.contains(&reached));
    }
    // So is one that is too short.
    assert!(matches!(play::<Talker>(SEED, 1), Err(Error::Empty(..))));
}

/// A talker that cannot be made of a good list is a fault.
struct Unmakable;

impl VersionTalker for Unmakable {
    fn make(_: Side, _: &[u8], _: u8) -> Result<Unmakable, u8> {
        Err(11)
    }

    fn call(&mut self, _: Call) -> Answer {
        Answer::default()
    }
}

#[test]
fn a_refused_list_is_a_fault() {
    for error in [
        play::<Unmakable>(SEED, CALLS).unwrap_err(),
        play_beside::<Talker, Unmakable>(SEED, CALLS).unwrap_err(),
    ] {
        let text = error.to_string();
        assert!(text.contains("Unmade"), "{text}");
        assert!(text.contains("11"), "{text}");
    }
}

/// The list is lent as bytes; what is no list of versions is refused 11.
#[test]
fn lists_as_bytes() {
    for side in [Side::Charger, Side::Vehicle] {
        let make = |list: &[u8]| <Talker as VersionTalker>::make(side, list, 0);
        assert!(make(&[1, 1, 0, 2, 0, 0]).is_ok());
        for bad in [
            &[][..],
            &[1],
            &[1, 1, 0, 2],
            &[2, 0, 0, 1, 1, 0],
            &[2, 0, 0, 2, 0, 0],
            &[1; 27],
        ] {
            assert_eq!(make(bad), Err(11));
        }
    }
}
