//! What each condition of the claims is good for: the exceptions of claim 2, the order of the line,
//! and fresh ends.

use std::cell::Cell;

use crate::help::*;
use compare::agreement::claims::{Broken, Claims, Exceptions, Violation};
use compare::agreement::counts::{Counter, Counts};
use compare::agreement::play::{play, play_excepting, play_with, Error, Wrong};
use compare::agreement::run::{Act, Bench, Run};
use compare::agreement::talker::{Message, Report};
use compare::agreement::Lists;
use compare::packs::random::Random;
use compare::reference::version::{Outcome, Side, State, Talker};

const SEED: u64 = 1;
const CALLS: u64 = 5_000_000;

/// The act that a broken claim 2 needed, with these exceptions only.
fn broken_by(exceptions: Exceptions, act: Act) {
    let Err(Error::Fault(fault)) = play_excepting::<Talker>(SEED, CALLS, exceptions) else {
        panic!("no fault");
    };
    let Wrong::Claim(violation) = fault.wrong else {
        panic!("{:?}", fault.wrong);
    };
    assert_eq!(violation.broken.claim(), 2);
    let (_, last) = fault.run.calls().last().unwrap();
    assert_eq!(last, act, "{}", fault.run);
}

#[test]
fn without_the_limit() {
    let limit = false;
    let exceptions = Exceptions {
        limit,
        ..Exceptions::ALL
    };
    broken_by(exceptions, Act::Tick);
}

#[test]
fn without_the_greeting() {
    let greeting = false;
    let exceptions = Exceptions {
        greeting,
        ..Exceptions::ALL
    };
    broken_by(exceptions, Act::Greeting);
}

/// A stopped end is silent, so the far one fails at the limit at the soonest: claim 2 holds without
/// this exception.
#[test]
fn without_the_stop() {
    let stop = false;
    let exceptions = Exceptions {
        stop,
        ..Exceptions::ALL
    };
    let counts = play_excepting::<Talker>(SEED, CALLS, exceptions);
    assert_eq!(counts, play::<Talker>(SEED, CALLS));
}

/// Which message a line out of order gives.
type Choice = fn(&mut Random, usize) -> usize;

fn newest(_: &mut Random, length: usize) -> usize {
    length - 1
}

/// In order after all.
fn oldest(_: &mut Random, _: usize) -> usize {
    0
}

fn any(random: &mut Random, length: usize) -> usize {
    random.between(0, length - 1)
}

/// What was seen of a line out of order.
#[derive(Default)]
struct Disorder {
    /// Messages that went before an older one that is another.
    moved: Cell<u64>,
    /// Successes heard in S1, and those with another version than the one at Ns.
    successes: Cell<u64>,
    inconsistent: Cell<u64>,
}

fn count(cell: &Cell<u64>, when: bool) {
    cell.set(cell.get() + u64::from(when));
}

impl Disorder {
    /// Puts the chosen message first.
    fn choose(&self, list: &mut std::collections::VecDeque<Message>, place: usize) {
        count(&self.moved, list[place] != list[0]);
        if let Some(message) = list.remove(place) {
            list.push_front(message);
        }
    }

    /// Looks at what is about to be heard.
    fn look(&self, talker: &Talker, message: Message) {
        let success = talker.state == State::S1 && message[1] == Outcome::Success.number();
        count(&self.successes, success);
        count(
            &self.inconsistent,
            success && message[2..5] != talker.at_ns(),
        );
    }
}

/// Plays a run over a line that gives its messages in another order.
fn out_of_order(
    run: &Run,
    counts: &mut Counts,
    choice: Choice,
    seen: &Disorder,
) -> Result<(), Wrong> {
    let random = &mut Random::new(run.turns.len() as u64);
    let mut bench = Bench::<Talker>::make(&run.lists, run.pilots).map_err(Wrong::Unmade)?;
    let mut claims = Claims::new(&run.lists);
    let mut counter = Counter::new(counts, &run.lists);
    for (side, act) in run.calls() {
        let list = bench.line.to.of_mut(side);
        if matches!(act, Act::Hear | Act::Lose | Act::Repeat) && !list.is_empty() {
            let place = choice(random, list.len());
            seen.choose(list, place);
            let message = list[0];
            if act != Act::Lose {
                seen.look(bench.talkers.of(side), message);
            }
        }
        let event = bench.call(side, act);
        counter.see(&event);
        claims.see(&event).map_err(Wrong::Claim)?;
    }
    Ok(())
}

/// The claims hold over such a line, too; a success never names another version than the one at Ns.
#[test]
fn a_line_out_of_order() {
    for (choice, reorders) in [(newest as Choice, true), (any, true), (oldest, false)] {
        let seen = Disorder::default();
        let play = |run: &Run, counts: &mut Counts| out_of_order(run, counts, choice, &seen);
        let counts = play_with(SEED, CALLS, &play).unwrap_or_else(|error| panic!("{error}"));
        println!(
            "{} of {} calls moved a message; {} successes heard, {} inconsistent",
            seen.moved.get(),
            counts.calls,
            seen.successes.get(),
            seen.inconsistent.get()
        );
        assert_eq!(seen.moved.get() > 1000, reorders);
        assert_eq!(seen.moved.get() > 0, reorders);
        assert!(seen.successes.get() > 1000);
        assert_eq!(seen.inconsistent.get(), 0);
    }
}

/// A line with a message left from a talk before.
fn left_over(lists: &Lists, to: Side, message: Message) -> (Bench<Talker>, Claims) {
    let mut bench = Bench::make(lists, PILOTS).unwrap();
    bench.line.join(to, message);
    (bench, Claims::new(lists))
}

/// Plays these calls up to a violation.
fn violation(
    (mut bench, mut claims): (Bench<Talker>, Claims),
    calls: &[(Side, Act, usize)],
) -> Option<Violation> {
    let each = calls
        .iter()
        .flat_map(|&(side, act, times)| std::iter::repeat_n((side, act), times));
    for (side, act) in each {
        let event = bench.call(side, act);
        assert!(!matches!(event.report, Report::Refused(_)));
        if let Err(violation) = claims.see(&event) {
            return Some(violation);
        }
    }
    None
}

/// Both claims need a line that is empty at first. An old continue below all versions makes the
/// charger fail.
#[test]
fn an_old_continue_fails() {
    let both = lists(&[[1, 1, 0], [2, 0, 0]], &[[1, 1, 0], [2, 0, 0]]);
    let bench = left_over(&both, C, go_on(V, [1, 0, 0]));
    let found = violation(bench, &[(C, Act::Connect, 1), (C, Act::Hear, 1)]);
    let (side, both_have) = (C, [2, 0, 0]);
    let broken = Broken::Failed { side, both_have };
    assert_eq!(found, Some(Violation { event: 2, broken }));
}

/// An old continue with a lower version of both lists makes both settle on it.
#[test]
fn an_old_continue_lowers() {
    let both = lists(&[[1, 1, 0], [2, 0, 0]], &[[1, 1, 0], [2, 0, 0]]);
    let bench = left_over(&both, C, go_on(V, [1, 1, 0]));
    let calls = [
        (C, Act::Connect, 1),
        (V, Act::Connect, 1),
        // The old 1.1.0 is in the list: Ns there, result success. The vehicle's 2.0.0 is lost.
        (C, Act::Hear, 1),
        (C, Act::Lose, 1),
        // Continue 2.0.0: result success. Success 2.0.0 finds the charger's Ns at 1.1.0: continue.
        (V, Act::Hear, 1),
        (V, Act::Tick, 50),
        (C, Act::Hear, 1),
        // Continue 1.1.0 is in the list: Ns there, result success.
        (C, Act::Tick, 50),
        (V, Act::Hear, 1),
        // Success 1.1.0: S2, and S2.
        (V, Act::Tick, 50),
        (C, Act::Hear, 1),
        (V, Act::Hear, 1),
    ];
    let (version, higher) = ([1, 1, 0], [2, 0, 0]);
    let (event, broken) = (159, Broken::Higher { version, higher });
    assert_eq!(violation(bench, &calls), Some(Violation { event, broken }));
}
