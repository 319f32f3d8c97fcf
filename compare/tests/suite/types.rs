//! Document 02, E4: three timeouts of the same type. Ticks, counts and frames are worked out by hand.

use std::collections::HashSet;

use crate::help::*;
use compare::packs::random::Random;
use compare::reference::frame::{self, Frame};
use compare::reference::line::{Bench, Call, Outcome};
use compare::reference::receiver::{After, Answer, Receiver, Report, State};
use compare::reference::sender::Sender;
use compare::reference::Refused;

const ACK: After = After::Ack;
const FRAME: After = After::Frame;

/// Misses, the type of those, and what is waited after.
type Count = (u16, Option<After>, After);

fn count(receiver: &Receiver) -> Count {
    let open = open(receiver);
    (open.misses, open.counted, open.after)
}

/// LM_ACK s, c.
fn asks(s: u8, c: u8) -> Answer {
    r_frame(frame::lm_ack(s, c))
}

/// So many ticks at which nothing happens.
fn quiet(receiver: &mut Receiver, ticks: usize) {
    for _ in 0..ticks {
        assert_eq!(receiver.tick(), r_nothing());
    }
}

/// How many timeouts a receiver with T 1 has left when nothing comes any more, the one included at
/// which it gives up.
fn left(receiver: &Receiver) -> usize {
    let mut alone = receiver.clone();
    1 + (0..100).take_while(|_| alone.tick() != gives_up()).count()
}

/// A hold, so many held timeouts of T 1, and a resume. Misses and their type stand all the while, and
/// it is waited after an LM_ACK.
fn hold_for(receiver: &mut Receiver, timeouts: usize) {
    let (misses, counted, _) = count(receiver);
    let e = open(receiver).e;
    assert_eq!(receiver.hold(), Ok(asks(e - 1, 1)));
    for _ in 0..timeouts {
        assert_eq!(count(receiver), (misses, counted, ACK));
        assert_eq!(receiver.tick(), asks(e - 1, 1));
    }
    assert_eq!(count(receiver), (misses, counted, ACK));
    receiver.resume().unwrap();
    assert_eq!(count(receiver), (misses, counted, ACK));
}

/// T 3. After the opening every wait is one after an LM_ACK: ticks 3 and 6 ask, 9 closes.
#[test]
fn after_lm_acks() {
    let (mut receiver, _) = opened(3, 2, 9);
    assert_eq!(count(&receiver), (0, None, ACK));
    for misses in [1, 2] {
        quiet(&mut receiver, 2);
        assert_eq!(receiver.tick(), asks(1, 2));
        assert_eq!(count(&receiver), (misses, Some(ACK), ACK));
    }
    quiet(&mut receiver, 2);
    assert_eq!(receiver.tick(), gives_up());
}

/// T 3, C 2, N 2, silence after frame 1, which drew no LM_ACK. The timeout at tick 3 is of its type; the
/// LM_ACK that it emits begins the other, so tick 6 begins the count, and 12 closes.
#[test]
fn a_gap_inside_a_window() {
    let (mut receiver, _) = taken(3, 2, 9, 1);
    assert_eq!(count(&receiver), (0, None, FRAME));
    for (misses, counted) in [(1, FRAME), (1, ACK), (2, ACK)] {
        quiet(&mut receiver, 2);
        assert_eq!(receiver.tick(), asks(2, 1));
        assert_eq!(count(&receiver), (misses, Some(counted), ACK));
    }
    quiet(&mut receiver, 2);
    assert_eq!(receiver.tick(), gives_up());
}

/// T 3, C 2, N 3, silence after frame 2, which drew LM_ACK 3, 1: that is the later, and tick 9 closes.
#[test]
fn a_gap_after_a_window() {
    let (mut receiver, mut buffer) = taken(3, 2, 21, 1);
    assert_eq!(count(&receiver), (0, None, FRAME));
    let second = frame::information(2, &message(21));
    assert_eq!(receiver.hear(second, &mut buffer), Ok(asks(3, 1)));
    assert_eq!(count(&receiver), (0, None, ACK));
    for misses in [1, 2] {
        quiet(&mut receiver, 2);
        assert_eq!(receiver.tick(), asks(3, 1));
        assert_eq!(count(&receiver), (misses, Some(ACK), ACK));
    }
    quiet(&mut receiver, 2);
    assert_eq!(receiver.tick(), gives_up());
}

/// What a gap costs after each frame of seven: three timeouts at the opening and after the frames at
/// which a window ends, else four.
#[test]
fn gaps_by_window() {
    let ends: [(u8, &[u8]); 6] = [
        (1, &[1, 2, 3, 4, 5, 6]),
        (2, &[2, 4, 6]),
        (3, &[3, 6]),
        (6, &[6]),
        (7, &[]),
        (255, &[]),
    ];
    for (window, ends) in ends {
        for frames in 0..=6 {
            let (receiver, _) = taken(1, window, 49, frames);
            let at_end = frames == 0 || ends.contains(&frames);
            let cost = if at_end { 3 } else { 4 };
            assert_eq!(left(&receiver), cost, "{window} {frames}");
        }
    }
}

/// The count of a timeout from what is counted before it and what is waited after; 3 closes. Below the
/// line are states that no calls make: the rule is the same for both types.
#[test]
fn one_timeout() {
    let (opened, _) = taken(1, 2, 49, 1);
    for (misses, counted, after, next) in [
        (0, None, ACK, 1),
        (0, None, FRAME, 1),
        (1, Some(FRAME), ACK, 1),
        (1, Some(ACK), ACK, 2),
        (2, Some(ACK), ACK, 3),
        // ---
        (2, Some(FRAME), ACK, 1),
        (1, Some(ACK), FRAME, 1),
        (2, Some(ACK), FRAME, 1),
        (1, Some(FRAME), FRAME, 2),
        (2, Some(FRAME), FRAME, 3),
        (2, None, ACK, 1),
        (3, Some(ACK), ACK, 4),
        (3, Some(ACK), FRAME, 1),
    ] {
        let mut receiver = opened.clone();
        let mut built = open(&receiver);
        (built.misses, built.counted, built.after) = (misses, counted, after);
        receiver.state = State::Open(built);
        if next == 3 {
            assert_eq!(receiver.tick(), gives_up());
        } else {
            assert_eq!(receiver.tick(), asks(2, 2));
            assert_eq!(count(&receiver), (next, Some(after), ACK));
        }
    }
}

/// Ticks (0) and frames heard (their number) one after the other, with answer and count after each.
fn follow(receiver: &mut Receiver, l: u16, steps: &[(u8, Answer, Count)]) {
    let mut buffer = buffer();
    for (place, &(i, expected, counted)) in steps.iter().enumerate() {
        let answer = match i {
            0 => receiver.tick(),
            _ => receiver
                .hear(frame::information(i, &message(l.into())), &mut buffer)
                .unwrap(),
        };
        assert_eq!(answer, expected, "step {place}");
        assert_eq!(count(receiver), counted, "step {place}");
    }
}

/// T 1, C 3, N 7: eleven timeouts, of both types by turns, and the message is still delivered. Each frame
/// taken begins the count anew.
#[test]
fn types_by_turns() {
    let (mut receiver, mut buffer) = opened(1, 3, 49);
    let steps = [
        (0, asks(1, 3), (1, Some(ACK), ACK)),
        (0, asks(1, 3), (2, Some(ACK), ACK)),
        (1, r_nothing(), (0, None, FRAME)),
        (0, asks(2, 3), (1, Some(FRAME), ACK)),
        // w is 4, and after the next timeout 5.
        (2, r_nothing(), (0, None, FRAME)),
        (0, asks(3, 3), (1, Some(FRAME), ACK)),
        (0, asks(3, 3), (1, Some(ACK), ACK)),
        (0, asks(3, 3), (2, Some(ACK), ACK)),
        (3, r_nothing(), (0, None, FRAME)),
        (4, r_nothing(), (0, None, FRAME)),
        (5, asks(6, 2), (0, None, ACK)),
        (0, asks(6, 2), (1, Some(ACK), ACK)),
        (0, asks(6, 2), (2, Some(ACK), ACK)),
        (6, r_nothing(), (0, None, FRAME)),
        (0, asks(7, 1), (1, Some(FRAME), ACK)),
        (0, asks(7, 1), (1, Some(ACK), ACK)),
        (0, asks(7, 1), (2, Some(ACK), ACK)),
    ];
    follow(&mut receiver, 49, &steps);
    let last = frame::information(7, &message(49));
    assert_eq!(receiver.hear(last, &mut buffer), Ok(r_delivered(7, 49)));
}

/// T 1, C 1, N 3: every wait is one after an LM_ACK, and yet a frame begins the count anew.
#[test]
fn one_type_and_frames_between() {
    let (mut receiver, mut buffer) = opened(1, 1, 21);
    let steps = [
        (0, asks(1, 1), (1, Some(ACK), ACK)),
        (0, asks(1, 1), (2, Some(ACK), ACK)),
        (1, asks(2, 1), (0, None, ACK)),
        (0, asks(2, 1), (1, Some(ACK), ACK)),
        (0, asks(2, 1), (2, Some(ACK), ACK)),
        (2, asks(3, 1), (0, None, ACK)),
        (0, asks(3, 1), (1, Some(ACK), ACK)),
        (0, asks(3, 1), (2, Some(ACK), ACK)),
    ];
    follow(&mut receiver, 21, &steps);
    assert_eq!(left(&receiver), 1);
    let last = frame::information(3, &message(21));
    assert_eq!(receiver.hear(last, &mut buffer), Ok(r_delivered(3, 21)));
}

/// Receivers with frame 1 of seven taken and some timeouts after it, T 1: window, timeouts, what these
/// leave counted, and how many more there are after a hold. Frame 1 is inside a window of 3, and the end
/// of a window of 1.
const BEFORE_A_HOLD: [(u8, usize, u16, Option<After>, usize); 7] = [
    (3, 0, 0, None, 3),
    (3, 1, 1, Some(FRAME), 3),
    (3, 2, 1, Some(ACK), 2),
    (3, 3, 2, Some(ACK), 1),
    (1, 0, 0, None, 3),
    (1, 1, 1, Some(ACK), 2),
    (1, 2, 2, Some(ACK), 1),
];

fn before_a_hold(window: u8, timeouts: usize) -> Receiver {
    let (mut receiver, _) = taken(1, window, 49, 1);
    for _ in 0..timeouts {
        assert_eq!(receiver.tick(), asks(2, window));
    }
    receiver
}

/// Held timeouts, however many, are passed over with misses of either type before them, and with none:
/// a row goes on where it was, and a miss after the frame is of another type than the one after the
/// resume.
#[test]
fn held_timeouts_are_passed_over() {
    for (window, timeouts, misses, counted, more) in BEFORE_A_HOLD {
        for held in [0, 1, 2, 3, 19, 20] {
            let mut receiver = before_a_hold(window, timeouts);
            let (found, kind, _) = count(&receiver);
            assert_eq!((found, kind), (misses, counted));
            hold_for(&mut receiver, held);
            assert_eq!(left(&receiver), more, "{window} {timeouts} {held}");
        }
    }
}

/// The held timeout that the connection no longer has closes it, whatever is counted.
#[test]
fn the_last_held_timeout() {
    for (window, timeouts, ..) in BEFORE_A_HOLD {
        let mut receiver = before_a_hold(window, timeouts);
        receiver.hold().unwrap();
        for _ in 0..20 {
            assert_eq!(receiver.tick(), asks(1, 1));
        }
        assert_eq!(receiver.tick(), gives_up());
    }
}

/// A hold between any two timeouts of a row: C 3, one after the frame and three after LM_ACKs.
#[test]
fn holds_within_a_row() {
    let mut receiver = before_a_hold(3, 1);
    for misses in [1, 2] {
        hold_for(&mut receiver, 3);
        assert_eq!(receiver.tick(), asks(2, 3));
        assert_eq!(count(&receiver), (misses, Some(ACK), ACK));
    }
    hold_for(&mut receiver, 3);
    assert_eq!(receiver.tick(), gives_up());
}

/// T 3, a hold and a resume two ticks after frame 1. Neither touches wait or misses, but hold's LM_ACK is
/// now the later: the next tick is a timeout after it, and two more close, not three.
#[test]
fn hold_and_resume_decide_the_type() {
    let (mut receiver, _) = taken(3, 3, 49, 1);
    quiet(&mut receiver, 2);
    let before = open(&receiver);
    assert_eq!((before.wait, count(&receiver)), (2, (0, None, FRAME)));
    assert_eq!(receiver.hold(), Ok(asks(1, 1)));
    let mut expected = before;
    (expected.held, expected.after) = (true, ACK);
    assert_eq!(open(&receiver), expected);
    assert_eq!(receiver.resume(), Ok(asks(2, 3)));
    (expected.held, expected.w) = (false, 4);
    assert_eq!(open(&receiver), expected);
    assert_eq!(receiver.tick(), asks(2, 3));
    assert_eq!(count(&receiver), (1, Some(ACK), ACK));
    quiet(&mut receiver, 2);
    assert_eq!(receiver.tick(), asks(2, 3));
    quiet(&mut receiver, 2);
    assert_eq!(receiver.tick(), gives_up());
}

/// Resume's LM_ACK by itself, hold's and a held timeout's: each sets the type in a state that no calls
/// make, held and waiting after a frame.
#[test]
fn each_lm_ack_of_a_hold() {
    let (mut receiver, _) = taken(1, 3, 49, 1);
    receiver.hold().unwrap();
    let mut built = open(&receiver);
    built.after = FRAME;
    receiver.state = State::Open(built);
    let mut resumed = receiver.clone();
    assert_eq!(resumed.resume(), Ok(asks(2, 3)));
    assert_eq!(count(&resumed), (0, None, ACK));
    assert_eq!(receiver.tick(), asks(1, 1));
    assert_eq!(count(&receiver), (0, None, ACK));
}

/// A frame taken after a resume is the later again: four timeouts. C 3: after frame 1 the resume asks
/// for 2 to 4. At the end of that window it is three.
#[test]
fn a_frame_after_a_resume() {
    let (mut receiver, mut buffer) = taken(1, 3, 49, 1);
    hold_for(&mut receiver, 2);
    assert_eq!(left(&receiver), 3);
    for (i, cost) in [(2, 4), (3, 4), (4, 3)] {
        let frame = frame::information(i, &message(49));
        receiver.hear(frame, &mut buffer).unwrap();
        assert_eq!(left(&receiver), cost, "{i}");
    }
}

/// Receivers of 16 bytes (N 3) with T 1, and the timeouts that each has left: e 2 inside a window, e 3
/// inside and after one; and the same a timeout later.
fn waiting() -> [(Receiver, usize); 6] {
    let later = |mut receiver: Receiver| {
        receiver.tick();
        receiver
    };
    let inside = taken(1, 3, 16, 1).0;
    let last_inside = taken(1, 3, 16, 2).0;
    let last_after = taken(1, 2, 16, 2).0;
    [
        (later(inside.clone()), 3),
        (later(last_inside.clone()), 3),
        (later(last_after.clone()), 2),
        (inside, 4),
        (last_inside, 4),
        (last_after, 3),
    ]
}

/// Nothing of the receiver changes, and it has as many timeouts left as before.
fn sets_nothing(frame: Frame, answer: impl Fn(u8) -> Result<Answer, Refused>) {
    for (receiver, timeouts) in waiting() {
        let mut called = receiver.clone();
        let expected = answer(open(&receiver).e);
        assert_eq!(called.hear(frame, &mut buffer()), expected, "{frame:?}");
        assert_eq!(called, receiver, "{frame:?}");
        assert_eq!(left(&called), timeouts, "{frame:?}");
    }
}

/// Frames that are ignored set no type.
#[test]
fn ignored_frames() {
    for frame in [
        frame::information(1, &message(16)),
        frame::announcement(3, 16),
        frame::announcement(2, 9),
        frame::announcement(0, 0),
    ] {
        sets_nothing(frame, |_| Ok(r_nothing()));
    }
    // Frame 3 too soon.
    for (mut receiver, timeouts) in waiting() {
        if open(&receiver).e == 2 {
            let third = frame::information(3, &message(16));
            let answer = receiver.hear(third, &mut buffer());
            assert_eq!((answer, left(&receiver)), (Ok(r_nothing()), timeouts));
        }
    }
}

/// The last frame with a byte behind the message, refused 14 where it is expected and ignored before
/// that, sets none either.
#[test]
fn unclean_frames() {
    let data = [3, 15, 16, 0, 0xFF, 0xFF, 0xFF, 0xFF];
    sets_nothing(Frame { kind: 1, data }, |e| match e {
        3 => Err(Refused(14)),
        _ => Ok(r_nothing()),
    });
}

/// Nor do frames that are refused 6 or 7, short messages, whose SM_ACK is no LM_ACK, a hearing that is
/// lent another buffer, and a resume of nothing.
#[test]
fn foreign_frames() {
    let data = [2, 8, 9, 10, 11, 12, 13, 14];
    for kind in [0, 2, 3, 4, 6, 8] {
        sets_nothing(Frame { kind, data }, |_| Err(Refused(6)));
    }
    for frame in [
        frame::lm_ack(2, 2),
        frame::endof_ack(3, 16),
        frame::sm_ack(2),
    ] {
        sets_nothing(frame, |_| Err(Refused(7)));
    }
    let report = Some(Report::Short(data));
    for (heard, frame) in [
        (frame::sm_rm(&data), Some(frame::sm_ack(2))),
        (frame::sm_urm(&data), None),
    ] {
        sets_nothing(heard, |_| Ok(Answer { frame, report }));
    }
    for (mut receiver, timeouts) in waiting() {
        let expected = frame::information(open(&receiver).e, &message(16));
        assert_eq!(receiver.hear(expected, &mut [0; 16]), Err(Refused(5)));
        assert_eq!(receiver.resume(), Err(Refused(13)));
        assert_eq!(left(&receiver), timeouts);
    }
}

/// Frames that meet a hold are ignored, the one expected too: after the resume it is waited after that.
#[test]
fn frames_while_held() {
    for (window, timeouts, _, _, more) in BEFORE_A_HOLD {
        let mut receiver = before_a_hold(window, timeouts);
        receiver.hold().unwrap();
        let before = receiver.clone();
        for i in [1, 2, 3, 7] {
            let frame = frame::information(i, &message(49));
            assert_eq!(receiver.hear(frame, &mut buffer()), Ok(r_nothing()));
        }
        assert_eq!(receiver, before);
        receiver.resume().unwrap();
        assert_eq!(left(&receiver), more);
    }
}

/// A repeated announcement draws an LM_ACK, and wait, misses and their type stand. T 2, one before every
/// tick: ticks 2 and 4 ask, 6 closes.
#[test]
fn repeated_announcements() {
    let (mut receiver, mut buffer) = opened(2, 2, 9);
    let again = frame::announcement(2, 9);
    for (tick, expected) in (1..).zip([r_nothing(), asks(1, 2), r_nothing(), asks(1, 2)]) {
        let before = receiver.clone();
        assert_eq!(receiver.hear(again, &mut buffer), Ok(asks(1, 2)));
        assert_eq!(receiver, before);
        assert_eq!(receiver.tick(), expected, "tick {tick}");
    }
    assert_eq!(count(&receiver), (2, Some(ACK), ACK));
    quiet(&mut receiver, 1);
    assert_eq!(receiver.hear(again, &mut buffer), Ok(asks(1, 2)));
    assert_eq!(receiver.tick(), gives_up());
    // Its LM_ACK sets the type as every other does, where no calls lead: e 1, and a frame taken.
    let (mut receiver, mut buffer) = opened(2, 2, 9);
    let mut built = open(&receiver);
    built.after = FRAME;
    receiver.state = State::Open(built);
    receiver.hear(again, &mut buffer).unwrap();
    assert_eq!(count(&receiver), (0, None, ACK));
}

/// A connection after one that was lost begins with nothing counted.
#[test]
fn a_new_connection() {
    let (mut receiver, mut buffer) = taken(1, 3, 49, 1);
    receiver.tick();
    receiver.tick();
    receiver.hear(frame::lm_nack(3), &mut buffer).unwrap();
    let announced = receiver.hear(frame::announcement(7, 49), &mut buffer);
    assert_eq!(announced, Ok(asks(1, 3)));
    assert_eq!(count(&receiver), (0, None, ACK));
    assert_eq!(left(&receiver), 3);
}

/// What a receiver with T 3 and C 255 emits, by tick, until it closes. Frame i is heard after the i-th of
/// the ticks `heard`; it is held after the first of `held` and resumed after the second.
fn emitted(n: u8, heard: &[usize], held: [usize; 2]) -> Vec<(usize, Frame)> {
    let l = 7 * u16::from(n);
    let (mut receiver, mut buffer) = opened(3, 255, l);
    let mut frames = Vec::new();
    for tick in 1..=150 {
        let answer = receiver.tick();
        frames.extend(answer.frame.map(|frame| (tick, frame)));
        if answer.report.is_some() {
            break;
        }
        for (_, i) in heard.iter().zip(1..).filter(|(&at, _)| at == tick) {
            let frame = frame::information(i, &message(l.into()));
            assert_eq!(receiver.hear(frame, &mut buffer), Ok(r_nothing()));
        }
        if tick == held[0] {
            receiver.hold().unwrap();
        }
        if tick == held[1] {
            receiver.resume().unwrap();
        }
    }
    frames
}

/// No tick: there is no hold.
const NEVER: [usize; 2] = [0, 0];

/// The latest report with T 3. Before frame 1 it is waited after the opening's LM_ACK: 3 x 3 ticks would
/// be the third timeout, so frame 1 comes a tick sooner, after 8. Each frame after it but the last comes
/// at best a tick before a fourth timeout, 4 x 3 - 1 = 11 ticks later; and the last does not come, so
/// that the fourth timeout closes 12 ticks later. N 2: 8 + 12 = 20. N 3: 8 + 11 + 12 = 31. In general
/// (3 x T - 1) + (N - 2) x (4 x T - 1) + 4 x T = T x (4 x N - 1) - (N - 1).
#[test]
fn the_latest_report() {
    let [one, two] = [frame::lm_ack(1, 2), frame::lm_ack(2, 1)];
    let mut expected = vec![(3, one), (6, one), (11, two), (14, two), (17, two)];
    expected.push((20, frame::lm_nack(2)));
    assert_eq!(emitted(2, &[8], NEVER), expected);

    let [one, two, three] = [(1, 3), (2, 2), (3, 1)].map(|(s, c)| frame::lm_ack(s, c));
    let mut expected = vec![(3, one), (6, one), (11, two), (14, two), (17, two)];
    expected.extend([(22, three), (25, three), (28, three)]);
    expected.push((31, frame::lm_nack(2)));
    assert_eq!(emitted(3, &[8, 19], NEVER), expected);
}

/// With a hold there are 20 timeouts more. N 2: held at tick 11, after the timeout that follows frame 1;
/// resumed at 11 + 20 x 3 = 71; then three timeouts after LM_ACKs, 71 + 9 = 80 = 3 x (4 x 2 + 19) - 1.
/// A hold at tick 8, with frame 1, costs a timeout: 77. N 3: 3 x (4 x 3 + 19) - 2 = 91.
#[test]
fn the_latest_report_with_a_hold() {
    let last = |frames: Vec<(usize, Frame)>| frames.last().copied();
    let frames = emitted(2, &[8], [11, 71]);
    let held = frames.iter().filter(|(_, frame)| frame.data[..2] == [1, 1]);
    assert_eq!(held.count(), 20);
    assert_eq!(last(frames), Some((80, frame::lm_nack(2))));
    let sooner = emitted(2, &[8], [8, 68]);
    assert_eq!(last(sooner), Some((77, frame::lm_nack(2))));
    // The 21st held timeout in place of the last one after an LM_ACK.
    let never_resumed = emitted(2, &[8], [17, 0]);
    assert_eq!(last(never_resumed), Some((80, frame::lm_nack(2))));
    let frames = emitted(3, &[8, 19], [22, 82]);
    assert_eq!(last(frames), Some((91, frame::lm_nack(2))));
}

/// All that differs between two open receivers of the same settings and message.
type Key = ([u8; 2], [u16; 3], Option<bool>, [bool; 2]);

fn key(receiver: &Receiver) -> Key {
    let open = open(receiver);
    let counted = open.counted.map(|counted| counted == ACK);
    let counts = [open.wait, open.misses, open.holds];
    let marks = [open.held, open.after == ACK];
    ([open.e, open.w], counts, counted, marks)
}

/// Adds what the calls between two ticks make of these receivers: the frame expected, hold and resume.
fn spread(receivers: &mut Vec<Receiver>, l: u16, holds: bool) {
    let mut seen: HashSet<Key> = receivers.iter().map(key).collect();
    let mut buffer = buffer();
    let mut place = 0;
    while place < receivers.len() {
        let from = receivers[place].clone();
        place += 1;
        let [mut taking, mut holding, mut resuming] = [from.clone(), from.clone(), from];
        let expected = frame::information(open(&taking).e, &message(l.into()));
        taking.hear(expected, &mut buffer).unwrap();
        let mut made = vec![taking];
        if holds {
            made.extend(holding.hold().is_ok().then_some(holding));
            made.extend(resuming.resume().is_ok().then_some(resuming));
        }
        for receiver in made {
            if matches!(receiver.state, State::Open(_)) && seen.insert(key(&receiver)) {
                receivers.push(receiver);
            }
        }
    }
}

/// The tick by which every connection of this length is over, whatever is called between the ticks, and
/// before which one is not.
fn latest(timeout: u16, window: u8, l: u16, holds: bool) -> usize {
    let mut receivers = vec![opened(timeout, window, l).0];
    let mut ticks = 0;
    while !receivers.is_empty() {
        assert!(ticks < 150, "no end");
        spread(&mut receivers, l, holds);
        ticks += 1;
        let mut seen = HashSet::new();
        receivers.retain_mut(|receiver| {
            receiver.tick();
            matches!(receiver.state, State::Open(_)) && seen.insert(key(receiver))
        });
    }
    ticks
}

/// In every list of calls the latest report is the one worked out above; with a window of 1, where every
/// frame but the last draws an LM_ACK, 3 x T x N - (N - 1). Holds add 20 x T to either. What E4 says it is
/// due by is later.
#[test]
fn the_latest_report_of_all_lists() {
    for (timeout, n, by_one, by_more) in [
        (1, 2, 5, 6),
        (1, 3, 7, 9),
        (1, 4, 9, 12),
        (2, 2, 11, 13),
        (2, 3, 16, 20),
        (2, 4, 21, 27),
        (3, 2, 17, 20),
        (3, 3, 25, 31),
        (3, 4, 33, 42),
    ] {
        let t = usize::from(timeout);
        for (window, expected) in [(1, by_one), (2, by_more), (3, by_more), (255, by_more)] {
            let found = [false, true].map(|holds| latest(timeout, window, 7 * n, holds));
            assert_eq!(found, [expected, expected + 20 * t], "{t} {n} {window}");
            assert!(found[0] < 4 * t * usize::from(n));
            assert!(found[1] < 4 * t * usize::from(n) + 21 * t);
        }
    }
}

/// What the count looks back on.
#[derive(Clone, Copy, Debug, PartialEq, Eq)]
enum Moment {
    LmAck,
    Taken,
    Timeout,
    HeldTimeout,
}

/// What is waited after at the end of these moments.
fn waited_after(moments: &[Moment]) -> After {
    let decides = |moment: &&Moment| matches!(moment, Moment::LmAck | Moment::Taken);
    match moments.iter().rfind(decides) {
        Some(Moment::Taken) => FRAME,
        _ => ACK,
    }
}

/// The count by the whole history of a connection: the timeouts since the last frame taken, each with
/// its type, and of these the last ones that are alike.
fn by_history(moments: &[Moment]) -> Count {
    let taken = moments.iter().rposition(|&moment| moment == Moment::Taken);
    let since = taken.map_or(0, |place| place + 1);
    let types: Vec<After> = (since..moments.len())
        .filter(|&place| moments[place] == Moment::Timeout)
        .map(|place| waited_after(&moments[..place]))
        .collect();
    let alike = types
        .iter()
        .rev()
        .take_while(|kind| types.last() == Some(kind));
    let misses = alike.count() as u16;
    (misses, types.last().copied(), waited_after(moments))
}

/// A run on which chance draws the calls, with the moments of the connection that is open.
struct Run {
    bench: Bench,
    message: Vec<u8>,
    moments: Vec<Moment>,
    wait: u16,
    held: bool,
    /// Connections that failed at a third timeout, and of these the ones that had four in the gap.
    closed: [usize; 2],
    /// Held timeouts with none counted before, with one after a frame, with some after LM_ACKs.
    passed: [usize; 3],
}

impl Run {
    fn begun(random: &mut Random) -> Run {
        let sender = Sender::make(1, random.between(2, 20) as u16, 60000);
        let window = random.between(1, 4) as u8;
        let receiver = Receiver::make(random.between(1, 4) as u16, window, 1785);
        let length = random.between(9, 50);
        let mut run = Run {
            bench: Bench::new(sender.unwrap(), receiver.unwrap()),
            message: (0..length).map(|_| random.byte()).collect(),
            moments: Vec::new(),
            wait: 0,
            held: false,
            closed: [0; 2],
            passed: [0; 3],
        };
        run.call(Call::Begin);
        run
    }

    /// One call. The moments are told by what is emitted and by how far the connection is; the record must
    /// count as they do.
    fn call(&mut self, call: Call) {
        let before = self.bench.receiver.state;
        let outcome = self.bench.call(call, &self.message, &mut buffer());
        let Ok(Outcome::Receiver(answer)) = outcome else {
            return;
        };
        match call {
            Call::ReceiverTick if matches!(before, State::Open(_)) => self.tick(),
            Call::Hold => self.held = true,
            Call::Resume => self.held = false,
            _ => {}
        }
        match (before, self.bench.receiver.state) {
            (State::Idle { .. }, State::Open(_)) => {
                (self.moments, self.wait, self.held) = (Vec::new(), 0, false);
            }
            (State::Open(old), State::Open(new)) if old.e < new.e => self.take(),
            _ => {}
        }
        if answer.frame.is_some_and(|frame| frame.kind == 2) {
            self.moments.push(Moment::LmAck);
        }
        match self.bench.receiver.state {
            State::Open(_) => assert_eq!(count(&self.bench.receiver), by_history(&self.moments)),
            State::Idle { .. } if answer == gives_up() => self.close(),
            State::Idle { .. } => {}
        }
    }

    /// A tick of an open connection.
    fn tick(&mut self) {
        self.wait += 1;
        if self.wait < self.bench.receiver.timeout {
            return;
        }
        self.wait = 0;
        if !self.held {
            self.moments.push(Moment::Timeout);
            return;
        }
        self.moments.push(Moment::HeldTimeout);
        let (_, counted, _) = by_history(&self.moments);
        let place = counted.map_or(0, |kind| if kind == FRAME { 1 } else { 2 });
        self.passed[place] += 1;
    }

    fn take(&mut self) {
        self.moments.push(Moment::Taken);
        self.wait = 0;
    }

    /// NACK 2: three of the same type, or the 21st timeout of those while held.
    fn close(&mut self) {
        let (misses, ..) = by_history(&self.moments);
        let is_held = |moment: &&Moment| **moment == Moment::HeldTimeout;
        let held = self.moments.iter().filter(is_held).count();
        assert!(if self.held { held == 21 } else { misses == 3 });
        let since = self.moments.iter().rposition(|&m| m == Moment::Taken);
        let gap = &self.moments[since.unwrap_or(0)..];
        let timeouts = gap.iter().filter(|&&m| m == Moment::Timeout).count();
        self.closed[0] += usize::from(!self.held);
        self.closed[1] += usize::from(!self.held && timeouts == 4);
    }
}

/// Mostly time for the receiver; else what brings the transfer forward, a hold, a resume or a loss.
fn drawn(random: &mut Random, bench: &Bench) -> Call {
    match random.weighted(&[3, 6, 2, 2, 1, 45, 40]) {
        0 => Call::Hold,
        1 => Call::Resume,
        2 => Call::ForwardLose,
        3 => Call::BackLose,
        4 => Call::ForwardRepeat,
        5 => Call::ReceiverTick,
        _ if !bench.back.is_empty() => Call::BackHear,
        _ if !bench.forward.is_empty() => Call::ForwardHear,
        _ => Call::SenderTick,
    }
}

/// Chance runs, in which the record always counts as the history does. They are worth something only if
/// connections fail after three and after four timeouts, and holds pass over misses of either type.
#[test]
fn chance_runs_by_history() {
    let mut random = Random::new(2029);
    let mut totals = [0; 5];
    for _ in 0..3000 {
        let mut run = Run::begun(&mut random);
        for _ in 0..150 {
            let call = drawn(&mut random, &run.bench);
            run.call(call);
        }
        for (total, count) in totals.iter_mut().zip(run.closed.iter().chain(&run.passed)) {
            *total += count;
        }
    }
    assert!(totals.iter().all(|&total| total > 100), "{totals:?}");
}
