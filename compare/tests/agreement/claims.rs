//! The claims on events made by hand. No talker is asked, so the events need not be those of one.

use crate::help::*;
use compare::agreement::claims::{check, Broken, Violation};
use compare::agreement::run::{Act, Event};
use compare::agreement::talker::Report;
use compare::reference::version::{Side, Version};
use Report::{Failed, Nothing, Refused, Settled, Stopped};

const OLD: Version = [1, 1, 0];
const NEW: Version = [2, 0, 0];

fn event(side: Side, act: Act, report: Report) -> Event {
    let connects = act == Act::Connect;
    Event {
        side,
        act,
        found: None,
        emitted: connects.then(|| go_on(side, NEW)),
        report,
    }
}

fn connect(side: Side) -> Event {
    event(side, Act::Connect, Nothing)
}

fn hears(side: Side, report: Report) -> Event {
    event(side, Act::Hear, report)
}

fn ticks(side: Side, times: usize) -> Vec<Event> {
    vec![event(side, Act::Tick, Nothing); times]
}

/// Both connect, then these events, so the first of them is event 3.
fn connected(after: &[Event]) -> Vec<Event> {
    [&[connect(C), connect(V)], after].concat()
}

fn broken(event: usize, broken: Broken) -> Result<(), Violation> {
    Err(Violation { event, broken })
}

/// Claim 2 broken at this event by this side, with 2.0.0 in both lists.
fn failed(event: usize, side: Side) -> Result<(), Violation> {
    let both_have = NEW;
    broken(event, Broken::Failed { side, both_have })
}

/// Both settle on these versions, the charger first and then the vehicle first.
fn settle(charger: Version, vehicle: Version) -> [Vec<Event>; 2] {
    let (c, v) = (hears(C, Settled(charger)), hears(V, Settled(vehicle)));
    [connected(&[c, v]), connected(&[v, c])]
}

#[test]
fn different_versions() {
    let both = lists(&[OLD, NEW], &[OLD, NEW]);
    for (charger, vehicle) in [(OLD, NEW), (NEW, OLD)] {
        for events in settle(charger, vehicle) {
            let found = check(&both, &events);
            assert_eq!(found, broken(4, Broken::Differ { charger, vehicle }));
            assert_eq!(found.unwrap_err().broken.claim(), 1);
        }
    }
}

#[test]
fn version_of_one_list_only() {
    for events in settle(NEW, NEW) {
        for (side, lists) in [
            (C, lists(&[OLD], &[OLD, NEW])),
            (V, lists(&[OLD, NEW], &[OLD])),
            (C, lists(&[OLD], &[[3, 0, 0]])),
        ] {
            let version = NEW;
            let found = check(&lists, &events);
            assert_eq!(found, broken(4, Broken::Unlisted { side, version }));
            assert_eq!(found.unwrap_err().broken.claim(), 1);
        }
    }
}

#[test]
fn a_higher_one_is_shared() {
    for events in settle(OLD, OLD) {
        let (version, higher) = (OLD, NEW);
        let found = check(&lists(&[OLD, NEW], &[[0, 9, 9], OLD, NEW]), &events);
        assert_eq!(found, broken(4, Broken::Higher { version, higher }));
        assert_eq!(found.unwrap_err().broken.claim(), 1);
        // Higher ones of one list only do not matter.
        let apart = lists(&[OLD, NEW], &[OLD, [3, 0, 0]]);
        assert_eq!(check(&apart, &events), Ok(()));
    }
}

/// Claim 1 waits for both; claim 2 waits for nothing.
#[test]
fn one_success_alone() {
    let both = lists(&[NEW], &[NEW]);
    let wrong = hears(C, Settled(OLD));
    assert_eq!(check(&both, &connected(&[wrong])), Ok(()));
    let events = connected(&[wrong, hears(V, Stopped)]);
    assert_eq!(check(&both, &events), Ok(()));
    let events = connected(&[wrong, hears(V, Failed)]);
    assert_eq!(check(&both, &events), failed(4, V));
}

#[test]
fn failure_though_shared() {
    for side in [C, V] {
        let events = connected(&[hears(side, Failed)]);
        let found = check(&lists(&[OLD, NEW], &[NEW, [3, 0, 0]]), &events);
        assert_eq!(found, failed(3, side));
        assert_eq!(found.unwrap_err().broken.claim(), 2);
        assert_eq!(check(&lists(&[OLD], &[NEW]), &events), Ok(()));
    }
}

/// A failure of either side is excused by the 15000th tick of either since its connection, not by
/// the one before.
#[test]
fn the_limit_is_met() {
    let both = lists(&[NEW], &[NEW]);
    for side in [C, V] {
        for (times, excused) in [(14998, false), (14999, true), (15500, true)] {
            let mut events = connected(&ticks(side, times));
            events.push(event(side, Act::Tick, Failed));
            let number = events.len();
            let expected = if excused {
                Ok(())
            } else {
                failed(number, side)
            };
            assert_eq!(check(&both, &events), expected);
        }
        for failing in [C, V] {
            let events = connected(&[ticks(side, 15000), vec![hears(failing, Failed)]].concat());
            assert_eq!(check(&both, &events), Ok(()));
        }
        // Ticks of both sides do not add up.
        let events =
            connected(&[ticks(C, 14999), ticks(V, 14999), vec![hears(side, Failed)]].concat());
        assert_eq!(check(&both, &events), failed(30001, side));
    }
}

/// Ticks before the connection, refused ones, and those of a side that has ended do not count.
#[test]
fn the_limit_is_not_met() {
    let both = lists(&[NEW], &[NEW]);
    let early = [
        ticks(C, 15000),
        vec![connect(C), connect(V)],
        ticks(C, 14999),
        vec![hears(C, Failed)],
    ];
    assert_eq!(check(&both, &early.concat()), failed(30002, C));
    let refused = [
        vec![connect(C), event(C, Act::Tick, Refused(4))],
        ticks(C, 14999),
        vec![hears(C, Failed)],
    ];
    assert_eq!(check(&both, &refused.concat()), failed(15002, C));
    let ended = [
        vec![connect(C), connect(V), hears(V, Settled(NEW))],
        ticks(V, 15000),
        vec![hears(C, Failed)],
    ];
    assert_eq!(check(&both, &ended.concat()), failed(15004, C));
}

/// A stop is met in S1 only.
#[test]
fn a_stop_is_met() {
    let both = lists(&[NEW], &[NEW]);
    for side in [C, V] {
        for failing in [C, V] {
            let fails = hears(failing, Failed);
            let met = connected(&[event(side, Act::Stop, Stopped), fails]);
            assert_eq!(check(&both, &met), Ok(()));
            let in_s0 = [
                event(side, Act::Stop, Nothing),
                connect(C),
                connect(V),
                fails,
            ];
            assert_eq!(check(&both, &in_s0), failed(4, failing));
            let late = connected(&[fails, event(side, Act::Stop, Nothing)]);
            assert_eq!(check(&both, &late), failed(3, failing));
        }
        let settled = hears(side, Settled(NEW));
        let other = if side == C { V } else { C };
        let ended = connected(&[
            settled,
            event(side, Act::Stop, Nothing),
            hears(other, Failed),
        ]);
        assert_eq!(check(&both, &ended), failed(5, other));
    }
}

/// A greeting is met by the vehicle in S0 and S1, never by the charger.
#[test]
fn a_greeting_is_met() {
    let both = lists(&[NEW], &[NEW]);
    let greeted = event(V, Act::Greeting, Failed);
    assert_eq!(check(&both, &[greeted]), Ok(()));
    assert_eq!(check(&both, &connected(&[greeted])), Ok(()));
    let heard = connected(&[greeted, hears(C, Failed)]);
    assert_eq!(check(&both, &heard), Ok(()));
    let charger = connected(&[event(C, Act::Greeting, Failed)]);
    assert_eq!(check(&both, &charger), failed(3, C));
    let ended = connected(&[
        hears(V, Settled(NEW)),
        event(V, Act::Greeting, Nothing),
        hears(C, Failed),
    ]);
    assert_eq!(check(&both, &ended), failed(5, C));
}

#[test]
fn refusals_and_silence_break_nothing() {
    let events = connected(&[hears(C, Refused(10)), hears(V, Nothing)]);
    assert_eq!(check(&lists(&[NEW], &[NEW]), &events), Ok(()));
    assert_eq!(check(&lists(&[NEW], &[NEW]), &[]), Ok(()));
}
