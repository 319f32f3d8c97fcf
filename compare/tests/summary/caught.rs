//! The check finds every mistake of the table.

use std::collections::BTreeSet;

use crate::broken::{make, Variant, RIGHT, VARIANTS, WRAPS};
use compare::summary::counts::Counts;
use compare::summary::generate;
use compare::summary::play::{play, play_run, Error, Fault};

const SEED: u64 = 1;
const CALLS: u64 = 300_000;

fn fault(variant: Variant) -> Fault {
    match play(SEED, CALLS, &|settings| make(variant, settings)) {
        Err(Error::Fault(fault)) => *fault,
        other => panic!("{}: {other:?}", variant.name),
    }
}

/// Each is found as the table says, in the seed's run and in the shortened one.
#[test]
fn every_mistake() {
    for &variant in VARIANTS {
        let fault = fault(variant);
        let name = variant.name;
        let broken = fault.violation.broken;
        assert!((variant.breaks)(&broken), "{name}: {broken:?}");
        let again = |run| play_run(run, &|s| make(variant, s), &mut Counts::default());
        let found = generate::run(fault.seed);
        assert!(again(&found).is_err(), "{name}");
        assert_eq!(again(&fault.run), Err(fault.violation), "{name}");
        assert!(fault.run.calls().count() <= found.calls().count(), "{name}");
        let told = format!("call {}: {broken:?}", fault.violation.call);
        let text = Error::Fault(Box::new(fault)).to_string();
        assert!(text.ends_with(&told), "{name}: {text}");
    }
}

/// The table has each mistake once. Without a mistake its senders pass, and with one that only a count
/// of 65535 would show.
#[test]
fn the_table() {
    let names: BTreeSet<&str> = VARIANTS.iter().map(|variant| variant.name).collect();
    assert_eq!(names.len(), VARIANTS.len());
    for variant in [RIGHT, WRAPS] {
        let played = play(SEED, CALLS / 3, &|settings| make(variant, settings));
        let fault = matches!(played, Err(Error::Fault(_)));
        assert!(!fault, "{}: {played:?}", variant.name);
    }
}
