//! Each claim by itself, on events that are right but for one thing.

use compare::reference::frame;
use compare::reference::sender::Report;
use compare::reference::summary::Most;
use compare::reference::Refused;
use compare::summary::claims::{Broken, Claims, Violation};
use compare::summary::play::reference;
use compare::summary::run::{Bench, Call, Event, Settings};

/// What the reference does with these calls: G 1, T 1, M 10.
fn events(calls: &[(Call, Option<usize>)]) -> Vec<Event> {
    let settings = Settings {
        gap: 1,
        timeout: 1,
        sending_time: 10,
    };
    let mut bench = Bench::new(reference(settings), settings);
    let bytes: Vec<u8> = (1..=20).collect();
    let each = calls.iter();
    each.map(|&(call, lent)| bench.call(call, &bytes, lent))
        .collect()
}

/// A begin of 9, frame 0 again, frame 1, a post, a refused begin, and a NACK heard.
fn transfer() -> Vec<Event> {
    events(&[
        (Call::Begin(9), None),
        (Call::Tick(9), None),
        (Call::Hear(frame::lm_ack(1, 2)), None),
        (Call::Tick(9), None),
        (Call::Post(3), None),
        (Call::Begin(9), None),
        (Call::Begin(9), Some(511)),
        (Call::Hear(frame::lm_nack(1)), None),
    ])
}

fn judged(events: &[Event], sending_time: u16) -> Result<(), Violation> {
    let mut claims = Claims::new(sending_time);
    events.iter().try_for_each(|event| claims.see(event))
}

/// The transfer with this call changed so breaks this there.
fn breaks(call: usize, change: impl Fn(&mut Event), broken: Broken) {
    let mut events = transfer();
    change(&mut events[call - 1]);
    assert_eq!(judged(&events, 10), Err(Violation { call, broken }));
}

#[test]
fn nothing_is_broken() {
    assert_eq!(judged(&transfer(), 10), Ok(()));
    let last = transfer().pop().unwrap();
    // Frames 0, 0 and 1.
    assert_eq!(last.after[..4], [2, 0, 1, 0]);
    let report = Report::Failed {
        cause: 1,
        ticks: 2,
        frames: 3,
    };
    assert_eq!(last.answer.unwrap().report, Some(report));
}

#[test]
fn counts() {
    let more = |event: &mut Event| event.after[14] += 1;
    let (number, kept, sent) = (7, 1, 0);
    breaks(4, more, Broken::Count { number, kept, sent });
    let fewer = |event: &mut Event| event.after[0] -= 1;
    let (number, kept, sent) = (0, 1, 2);
    breaks(2, fewer, Broken::Count { number, kept, sent });
    // The high byte of number 255.
    let high = |event: &mut Event| event.after[511] = 0x80;
    let (number, kept) = (255, 0x8000);
    breaks(3, high, Broken::AboveM { number, kept });
    let read = |event: &mut Event| event.counts[1] = Ok(0);
    let (number, kept) = (1, 1);
    breaks(4, read, Broken::Read { number, kept });
}

/// At M 1 the second frame 0 would be one too many.
#[test]
fn above_m() {
    let (number, kept) = (0, 2);
    let broken = Broken::AboveM { number, kept };
    assert_eq!(judged(&transfer(), 1), Err(Violation { call: 2, broken }));
    assert_eq!(judged(&transfer(), 2), Ok(()));
}

#[test]
fn at_a_report() {
    let more = |event: &mut Event| event.after[14] += 1;
    let (sum, information) = (4, 3);
    breaks(8, more, Broken::Sum { sum, information });
    let moved = |event: &mut Event| event.after[..4].copy_from_slice(&[1, 0, 2, 0]);
    let (number, kept, sent) = (0, 1, 2);
    breaks(8, moved, Broken::Count { number, kept, sent });
    // Of four frames reported the history has three; the posted one is not counted.
    let reported = |event: &mut Event| {
        let mut answer = event.answer.unwrap();
        answer.report = Some(Report::Sent {
            ticks: 2,
            frames: 4,
        });
        (event.answer, event.plain) = (Ok(answer), Ok(answer));
    };
    let (reported_frames, emitted) = (4, 3);
    let broken = Broken::Frames {
        reported: reported_frames,
        emitted,
    };
    breaks(8, reported, broken);
}

#[test]
fn naming() {
    let most = |number, count| Most { number, count };
    for named in [most(1, 2), most(0, 1), most(255, 0)] {
        let due = most(0, 2);
        let change = |event: &mut Event| event.most = Ok(named);
        breaks(4, change, Broken::Named { named, due });
    }
}

#[test]
fn answers_and_refusals() {
    let (answer, due) = (Err(Refused(2)), Err(Refused(3)));
    let other = |event: &mut Event| event.answer = answer;
    breaks(6, other, Broken::Answer { answer, due });
    let clears = |event: &mut Event| event.after.fill(0);
    breaks(6, clears, Broken::RefusedChanges(Refused(3)));
    breaks(7, clears, Broken::RefusedChanges(Refused(5)));
    breaks(5, clears, Broken::PostChanges);
    let zero = Most {
        number: 0,
        count: 0,
    };
    breaks(7, |event| event.most = Ok(zero), Broken::OtherBytes);
    breaks(7, |event| event.counts[9] = Ok(0), Broken::OtherBytes);
    let refused = Err(Refused(5));
    breaks(4, |event| event.most = refused, Broken::OtherBytes);
}

/// All 0 before any long begin, and since a short one.
#[test]
fn all_zero() {
    let calls = [
        (Call::Tick(0), None),
        (Call::Begin(3), None),
        (Call::Hear(frame::sm_ack(1)), None),
        (Call::Begin(9), None),
        (Call::Hear(frame::lm_nack(1)), None),
        (Call::Begin(3), None),
        (Call::Tick(3), None),
        (Call::Hear(frame::sm_ack(1)), None),
    ];
    assert_eq!(judged(&events(&calls), 10), Ok(()));
    let named = Most {
        number: 1,
        count: 0,
    };
    let changes: [&dyn Fn(&mut Event); 2] = [&|event| event.after[20] = 1, &|event| {
        event.most = Ok(named)
    }];
    for (call, broken) in [
        (1, Broken::BeforeLong),
        (2, Broken::BeforeLong),
        (3, Broken::BeforeLong),
        (6, Broken::Short),
        (7, Broken::Short),
        (8, Broken::Short),
    ] {
        for change in changes {
            let mut events = events(&calls);
            change(&mut events[call - 1]);
            assert_eq!(judged(&events, 10), Err(Violation { call, broken }));
        }
    }
}
