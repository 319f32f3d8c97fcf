//! Runs worked out by hand from tables 8 and 9, call by call. A comment before a call says what its
//! cell of the table has.

use crate::help::*;
use compare::agreement::claims;
use compare::agreement::run::{Act, Bench, Event};
use compare::agreement::talker::{Message, Report};
use compare::agreement::Lists;
use compare::reference::version::{Side, Talker, Version};
use Act::{Connect, Functions, Greeting, Hear, Lose, Repeat, Stop, Tick};
use Report::{Failed, Nothing, Settled, Stopped};

struct Talk {
    bench: Bench<Talker>,
    lists: Lists,
    events: Vec<Event>,
}

impl Talk {
    fn new(charger: &[Version], vehicle: &[Version]) -> Talk {
        let lists = lists(charger, vehicle);
        Talk {
            bench: Bench::make(&lists, PILOTS).unwrap(),
            lists,
            events: Vec::new(),
        }
    }

    /// A call, what it emits and what it reports.
    fn call(&mut self, side: Side, act: Act, emitted: Option<Message>, report: Report) {
        let event = self.bench.call(side, act);
        self.events.push(event);
        let number = self.events.len();
        assert_eq!(
            (event.emitted, event.report),
            (emitted, report),
            "event {number}"
        );
    }

    /// A call that only emits.
    fn emits(&mut self, side: Side, act: Act, message: Message) {
        self.call(side, act, Some(message), Nothing);
    }

    /// Calls that do nothing to be seen.
    fn quiet(&mut self, side: Side, act: Act, times: usize) {
        for _ in 0..times {
            self.call(side, act, None, Nothing);
        }
    }

    /// 50 ticks, the last of which emits.
    fn period(&mut self, side: Side, message: Message) {
        self.quiet(side, Tick, 49);
        self.emits(side, Tick, message);
    }

    /// A call that settles, with the success that goes out.
    fn settles(&mut self, side: Side, act: Act, version: Version) {
        self.call(side, act, Some(success(side, version)), Settled(version));
    }

    /// A call that fails, with the failure that goes out.
    fn fails(&mut self, side: Side, act: Act) {
        self.call(side, act, Some(failure(side)), Failed);
    }

    fn on_the_line(&self) -> (usize, usize) {
        let to = &self.bench.line.to;
        (to.charger.len(), to.vehicle.len())
    }

    /// The claims hold.
    fn holds(&self) {
        assert_eq!(claims::check(&self.lists, &self.events), Ok(()));
    }
}

/// 2.0.0 is the charger's highest and the vehicle's second: S3.
#[test]
fn both_in_s3() {
    let mut talk = Talk::new(&[[1, 1, 0], [2, 0, 0]], &[[1, 1, 0], [2, 0, 0], [3, 0, 0]]);
    // S0: continue with the highest, S1.
    talk.emits(C, Connect, go_on(C, [2, 0, 0]));
    talk.emits(V, Connect, go_on(V, [3, 0, 0]));
    // continue 2.0.0, which the list has: Ns there, result success, S1.
    talk.quiet(V, Hear, 1);
    // continue 3.0.0, which it has not; 2.0.0 is lower: S1.
    talk.quiet(C, Hear, 1);
    // T1: the version at Ns with the result.
    talk.period(V, success(V, [2, 0, 0]));
    // success with the version at Ns, 2.0.0 or above: S3, success goes out.
    talk.settles(C, Hear, [2, 0, 0]);
    talk.settles(V, Hear, [2, 0, 0]);
    // S3: the vehicle says it again each period, the charger has closed T1.
    talk.period(V, success(V, [2, 0, 0]));
    talk.quiet(C, Tick, 200);
    // The charger's functions are heard: T1 closed.
    talk.quiet(V, Functions, 1);
    talk.quiet(V, Tick, 200);
    // S3 does nothing with the two successes that are left.
    talk.quiet(C, Hear, 2);
    assert_eq!(talk.on_the_line(), (0, 0));
    talk.holds();
}

/// 1.1.0 is the only version in both lists, the highest of neither: S2.
#[test]
fn both_in_s2() {
    let mut talk = Talk::new(&[[1, 0, 0], [1, 1, 0], [2, 1, 0]], &[[1, 1, 0], [2, 0, 0]]);
    talk.emits(C, Connect, go_on(C, [2, 1, 0]));
    talk.emits(V, Connect, go_on(V, [2, 0, 0]));
    // continue 2.0.0, not in the list; 2.1.0 is higher, 1.1.0 the highest below 2.0.0: Ns there.
    talk.quiet(C, Hear, 1);
    // continue 2.1.0, not in the list; 2.0.0 is lower: S1.
    talk.quiet(V, Hear, 1);
    talk.period(C, go_on(C, [1, 1, 0]));
    // continue 1.1.0, which the list has: Ns there, result success.
    talk.quiet(V, Hear, 1);
    talk.period(V, success(V, [1, 1, 0]));
    // success with the version at Ns, below 2.0.0: S2, success goes out.
    talk.settles(C, Hear, [1, 1, 0]);
    talk.settles(V, Hear, [1, 1, 0]);
    // S2 has closed T1 on both sides, and hears nothing more.
    talk.quiet(C, Tick, 200);
    talk.quiet(V, Tick, 200);
    talk.quiet(C, Hear, 1);
    assert_eq!(talk.on_the_line(), (0, 0));
    talk.holds();
}

/// Nothing in both lists: down to the charger's lowest, then S4.
#[test]
fn none_shared() {
    let mut talk = Talk::new(&[[2, 0, 0], [3, 0, 0]], &[[1, 1, 0], [2, 5, 0]]);
    talk.emits(C, Connect, go_on(C, [3, 0, 0]));
    talk.emits(V, Connect, go_on(V, [2, 5, 0]));
    // continue 2.5.0; 3.0.0 is higher, 2.0.0 the highest below 2.5.0: Ns there.
    talk.quiet(C, Hear, 1);
    // continue 3.0.0; 2.5.0 is lower: S1.
    talk.quiet(V, Hear, 1);
    talk.period(C, go_on(C, [2, 0, 0]));
    // continue 2.0.0; 2.5.0 is higher, 1.1.0 the highest below 2.0.0: Ns there.
    talk.quiet(V, Hear, 1);
    talk.period(V, go_on(V, [1, 1, 0]));
    // continue 1.1.0; 2.0.0 is higher, and none is below 1.1.0: S4, failure goes out.
    talk.fails(C, Hear);
    // failure heard: S4, failure goes out.
    talk.fails(V, Hear);
    // S4 does nothing with it, and T1 is closed.
    talk.quiet(C, Hear, 1);
    talk.quiet(C, Tick, 200);
    talk.quiet(V, Tick, 200);
    assert_eq!(talk.on_the_line(), (0, 0));
    talk.holds();
}

/// Losses and repeats in both directions; 2.0.0 is the highest in both lists, and of neither.
#[test]
fn losses_and_repeats() {
    let mut talk = Talk::new(
        &[[1, 1, 0], [2, 0, 0], [2, 2, 0]],
        &[[1, 1, 0], [2, 0, 0], [3, 0, 0]],
    );
    // Nothing is on the line yet.
    for act in [Hear, Lose, Repeat] {
        talk.quiet(C, act, 1);
        talk.quiet(V, act, 1);
    }
    talk.emits(C, Connect, go_on(C, [2, 2, 0]));
    talk.emits(V, Connect, go_on(V, [3, 0, 0]));
    talk.quiet(V, Lose, 1);
    // continue 3.0.0, three times; 2.2.0 is lower: S1.
    talk.quiet(C, Repeat, 2);
    talk.quiet(C, Hear, 1);
    assert_eq!(talk.on_the_line(), (0, 0));
    talk.period(V, go_on(V, [3, 0, 0]));
    talk.quiet(C, Lose, 1);
    talk.period(C, go_on(C, [2, 2, 0]));
    // continue 2.2.0; 3.0.0 is higher, 2.0.0 the highest below 2.2.0: Ns there.
    talk.quiet(V, Repeat, 1);
    // The same again; now 2.0.0 is lower: S1.
    talk.quiet(V, Hear, 1);
    talk.period(V, go_on(V, [2, 0, 0]));
    // continue 2.0.0, three times, which the list has: Ns there, result success.
    talk.quiet(C, Repeat, 2);
    talk.quiet(C, Hear, 1);
    talk.period(C, success(C, [2, 0, 0]));
    talk.quiet(V, Lose, 1);
    talk.period(C, success(C, [2, 0, 0]));
    // success with the version at Ns: S3. Again: S3 does nothing.
    talk.settles(V, Repeat, [2, 0, 0]);
    talk.quiet(V, Hear, 1);
    // The success that went out with it is lost; S3 says it again.
    talk.quiet(C, Lose, 1);
    talk.period(V, success(V, [2, 0, 0]));
    talk.settles(C, Hear, [2, 0, 0]);
    talk.quiet(V, Hear, 1);
    assert_eq!(talk.on_the_line(), (0, 0));
    talk.holds();
}

/// The charger's one success is lost: it has settled, and the vehicle meets the limit.
#[test]
fn one_settled_and_one_at_the_limit() {
    let mut talk = Talk::new(&[[2, 0, 0]], &[[2, 0, 0]]);
    talk.emits(C, Connect, go_on(C, [2, 0, 0]));
    talk.emits(V, Connect, go_on(V, [2, 0, 0]));
    // continue 2.0.0, which the list has: result success.
    talk.quiet(V, Hear, 1);
    talk.period(V, success(V, [2, 0, 0]));
    talk.quiet(C, Lose, 1);
    talk.settles(C, Hear, [2, 0, 0]);
    talk.quiet(V, Lose, 1);
    // 50 ticks are over. At 15000 the failure alone goes out.
    for _ in 2..300 {
        talk.period(V, success(V, [2, 0, 0]));
    }
    talk.quiet(V, Tick, 49);
    talk.fails(V, Tick);
    // The charger's S3 does nothing with the failure.
    talk.quiet(C, Hear, 299);
    assert_eq!(talk.on_the_line(), (0, 0));
    talk.holds();
}

/// The charger meets the limit, and the vehicle hears its failure.
#[test]
fn failure_by_the_limit() {
    let mut talk = Talk::new(&[[2, 0, 0]], &[[2, 0, 0]]);
    talk.emits(C, Connect, go_on(C, [2, 0, 0]));
    talk.quiet(V, Tick, 20000);
    talk.emits(V, Connect, go_on(V, [2, 0, 0]));
    for _ in 1..300 {
        talk.period(C, go_on(C, [2, 0, 0]));
    }
    talk.quiet(C, Tick, 49);
    talk.fails(C, Tick);
    talk.quiet(V, Lose, 300);
    talk.fails(V, Hear);
    talk.holds();
}

/// Stop: nothing in S0, S5 from S1, silence then. The far side goes on.
#[test]
fn stop() {
    let mut talk = Talk::new(&[[2, 0, 0]], &[[2, 0, 0]]);
    talk.quiet(C, Stop, 1);
    talk.emits(C, Connect, go_on(C, [2, 0, 0]));
    talk.emits(V, Connect, go_on(V, [2, 0, 0]));
    talk.call(C, Stop, None, Stopped);
    talk.quiet(C, Tick, 100);
    talk.quiet(C, Hear, 1);
    talk.quiet(C, Stop, 1);
    talk.quiet(V, Hear, 1);
    talk.period(V, success(V, [2, 0, 0]));
    talk.holds();
}

/// Greeting: the vehicle fails in S0 and in S1; table 8 has no such column.
#[test]
fn greeting() {
    let mut talk = Talk::new(&[[2, 0, 0]], &[[2, 0, 0]]);
    talk.quiet(C, Greeting, 1);
    talk.fails(V, Greeting);
    talk.quiet(V, Connect, 1);
    // The charger's S0 does nothing with the failure.
    talk.quiet(C, Hear, 1);
    talk.emits(C, Connect, go_on(C, [2, 0, 0]));
    talk.quiet(C, Greeting, 1);
    talk.holds();

    let mut talk = Talk::new(&[[2, 0, 0]], &[[2, 0, 0]]);
    talk.emits(C, Connect, go_on(C, [2, 0, 0]));
    talk.emits(V, Connect, go_on(V, [2, 0, 0]));
    talk.fails(V, Greeting);
    talk.quiet(C, Hear, 1);
    talk.fails(C, Hear);
    talk.holds();
}
