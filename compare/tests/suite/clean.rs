//! Document 02, E1: the clean figures, that clean sessions have them, and that a session outside
//! the conditions need not.

use compare::packs::case::Case;
use compare::packs::clean;
use compare::reference::clean::{figures, Figures};
use compare::reference::line::{Bench, Call, Outcome};
use compare::reference::player::{build, event, play, Settings};
use compare::reference::receiver::{self, Receiver};
use compare::reference::sender::{self, Sender};
use compare::reference::Refused;

use crate::help::*;

fn of(ticks: u16, frames: u16) -> Result<Figures, Refused> {
    Ok(Figures { ticks, frames })
}

/// N is 2 for 9 to 14 bytes, 3 for 15, 254 for 1778 = 254 × 7, 255 for 1779 to 1785 = 255 × 7.
#[test]
fn figures_by_hand() {
    for (length, gap, ticks, frames) in [
        (9, 1, 2, 3),
        (9, 2, 4, 3),
        (9, 10, 20, 3),
        (14, 1, 2, 3),
        (14, 2, 4, 3),
        (14, 10, 20, 3),
        (15, 1, 3, 4),
        (15, 2, 6, 4),
        (15, 10, 30, 4),
        (1778, 10, 2540, 255),
        (1779, 10, 2550, 256),
        (1785, 1, 255, 256),
        (1785, 2, 510, 256),
        (1785, 10, 2550, 256),
    ] {
        assert_eq!(figures(length, gap), of(ticks, frames), "{length} {gap}");
    }
}

/// The length first, then the gap.
#[test]
fn refused_figures() {
    let long = 1 << 16;
    for length in [0, 1, 7, 8, 1786, 1787, 65535, long, long + 9, u32::MAX] {
        for gap in [0, 1, 10, 11, u32::MAX] {
            assert_eq!(figures(length, gap), Err(Refused(2)), "{length} {gap}");
        }
    }
    for length in [9, 15, 1785] {
        for gap in [0, 11, 12, 255, 256, 257, 65535, long + 1, u32::MAX] {
            assert_eq!(figures(length, gap), Err(Refused(1)), "{length} {gap}");
        }
    }
}

/// Both ends after the begin, and what they have done since.
#[derive(Clone, PartialEq, Eq)]
struct Session {
    bench: Bench,
    buffer: Vec<u8>,
    /// Sender ticks.
    ticks: u16,
    /// The tick whose turn it is; none before the first.
    turn: Option<Call>,
    /// Frames that a repeat gave.
    repeats: u8,
    sent: Vec<sender::Report>,
    delivered: Vec<Vec<u8>>,
}

impl Session {
    fn begun(settings: &Settings, message: &[u8]) -> Session {
        let s = settings;
        let sender = Sender::make(s.gap, s.sender_timeout, s.sending_time).unwrap();
        let receiver = Receiver::make(s.receiver_timeout, s.window, s.capacity).unwrap();
        let mut session = Session {
            bench: Bench::new(sender, receiver),
            buffer: buffer(),
            ticks: 0,
            turn: None,
            repeats: 0,
            sent: Vec::new(),
            delivered: Vec::new(),
        };
        session.call(Call::Begin, message);
        session
    }

    fn call(&mut self, call: Call, message: &[u8]) {
        self.ticks += u16::from(call == Call::SenderTick);
        let outcome = self.bench.call(call, message, &mut self.buffer).unwrap();
        self.repeats += u8::from(is_repeat(call) && outcome != Outcome::Nothing);
        match outcome {
            Outcome::Nothing => {}
            Outcome::Sender(answer) => self.sent.extend(answer.report),
            Outcome::Receiver(answer) => match answer.report {
                None => {}
                Some(receiver::Report::Delivered { l }) => {
                    self.delivered.push(self.buffer[..usize::from(l)].to_vec());
                }
                Some(other) => panic!("{other:?}"),
            },
        }
        self.turn = match call {
            Call::SenderTick => Some(Call::ReceiverTick),
            Call::ReceiverTick => Some(Call::SenderTick),
            _ => self.turn,
        };
    }

    /// A hearing; a loss or a repeat on an empty list; or a tick with nothing on the line, by turns. No
    /// hold: E2 leaves those to itself.
    fn is_clean(&self, call: Call) -> bool {
        match call {
            Call::Begin | Call::Hold | Call::Resume => false,
            Call::ForwardHear | Call::BackHear => true,
            Call::ForwardLose | Call::ForwardRepeat => self.bench.forward.is_empty(),
            Call::BackLose | Call::BackRepeat => self.bench.back.is_empty(),
            Call::SenderTick | Call::ReceiverTick => {
                self.bench.line_is_empty() && self.turn.is_none_or(|turn| turn == call)
            }
        }
    }

    /// What E1 promises at every moment: the one report, not before its tick, and there once its
    /// tick has passed and the line is empty; the message delivered once by then.
    fn check(&self, gap: u8, message: &[u8]) {
        let Figures { ticks, frames } = figures(message.len() as u32, gap.into()).unwrap();
        let reported = self.sent == [sender::Report::Sent { ticks, frames }];
        assert!(reported || self.sent.is_empty(), "{:?}", self.sent);
        assert!(!reported || self.ticks >= ticks);
        if self.ticks >= ticks && self.bench.line_is_empty() {
            assert!(reported);
        }
        let delivered = self.delivered == [message];
        assert!(delivered || !reported && self.delivered.is_empty());
    }
}

fn is_repeat(call: Call) -> bool {
    matches!(call, Call::ForwardRepeat | Call::BackRepeat)
}

/// G, sender T, M, receiver T, C, K.
fn settings(numbers: [u16; 6]) -> Settings {
    let [gap, sender_timeout, sending_time, receiver_timeout, window, capacity] = numbers;
    Settings {
        gap: gap as u8,
        sender_timeout,
        sending_time,
        receiver_timeout,
        window: window as u8,
        capacity,
    }
}

/// Random clean lists: those of the clean packs, which are clean. Every event is among them.
#[test]
fn random_clean_sessions_have_the_figures() {
    let mut reported = 0;
    let mut played = [0; 8];
    for Case {
        settings,
        message,
        events,
        ..
    } in (1..=500).map(clean::case)
    {
        let s = &settings;
        let Figures { ticks, .. } = figures(message.len() as u32, s.gap.into()).unwrap();
        assert!(s.sender_timeout.min(s.receiver_timeout) > s.gap.into());
        assert!(s.sending_time > ticks && usize::from(s.capacity) >= message.len());
        let mut session = Session::begun(s, &message);
        for number in events {
            let call = event(number).unwrap();
            assert!(session.is_clean(call));
            session.call(call, &message);
            session.check(s.gap, &message);
            played[usize::from(number) - 1] += 1;
        }
        reported += session.sent.len();
    }
    assert!(played.iter().all(|&times| times > 500), "{played:?}");
    assert!((350..500).contains(&reported), "{reported}");
}

const CALLS: [Call; 8] = [
    Call::SenderTick,
    Call::ReceiverTick,
    Call::ForwardHear,
    Call::ForwardLose,
    Call::ForwardRepeat,
    Call::BackHear,
    Call::BackLose,
    Call::BackRepeat,
];

/// Every session that comes about by calls that `may` be made, until the sender has ticked so often.
fn reached(
    begun: Session,
    message: &[u8],
    ticks: u16,
    may: impl Fn(&Session, Call) -> bool,
) -> Vec<Session> {
    let mut found = vec![begun];
    let mut place = 0;
    while place < found.len() {
        let from = found[place].clone();
        place += 1;
        for call in CALLS {
            if from.ticks == ticks || !may(&from, call) {
                continue;
            }
            let mut next = from.clone();
            next.call(call, message);
            if !found.contains(&next) {
                found.push(next);
            }
        }
    }
    found
}

/// Messages of a few frames with settings just within the conditions, but for the sender's T: every
/// list of such calls has the figures.
fn all_have_the_figures(sender_timeout: fn(u16) -> u16, may: fn(&Session, Call) -> bool) {
    for length in [9, 14, 15, 22] {
        let message = message(length);
        for (gap, window) in [(1, 1), (1, 255), (2, 1), (2, 2), (2, 3), (3, 2), (10, 2)] {
            let Figures { ticks, .. } = figures(length as u32, gap.into()).unwrap();
            let (timeout, capacity) = (sender_timeout(gap), length as u16);
            let s = settings([gap, timeout, ticks + 1, gap + 1, window, capacity]);
            let begun = Session::begun(&s, &message);
            let sessions = reached(begun, &message, ticks + 2, may);
            for session in &sessions {
                session.check(s.gap, &message);
            }
            let reported = sessions.iter().filter(|session| !session.sent.is_empty());
            assert!(reported.count() >= 4);
        }
    }
}

/// Whoever ticks first, and whatever is called on empty lists.
#[test]
fn every_clean_list_has_the_figures() {
    all_have_the_figures(|gap| gap + 1, Session::is_clean);
}

/// Three conditions of E1 are not needed for the figures. A clean sender is never left waiting, so
/// its T may be any. A repeated frame changes nothing where it is heard again before the next tick.
/// A sender that ticks out of its turn leaves the receiver less time to wait.
#[test]
fn what_the_figures_do_not_need() {
    all_have_the_figures(|_| 1, Session::is_clean);
    all_have_the_figures(
        |gap| gap + 1,
        |session, call| session.is_clean(call) || is_repeat(call) && session.repeats < 3,
    );
    all_have_the_figures(
        |gap| gap + 1,
        |session, call| {
            session.is_clean(call) || call == Call::SenderTick && session.bench.line_is_empty()
        },
    );
}

// Sessions that break one condition each, of nine bytes (N = 2) unless said otherwise, C 2; the
// reports are worked by hand and are not those of E1.

/// Settings G, sender T, M, receiver T, K; the reports that the player prints.
fn reports(numbers: [u16; 5], length: usize, events: &[u8]) -> Vec<String> {
    let [gap, sender_timeout, sending_time, receiver_timeout, capacity] = numbers;
    let numbers = [
        gap,
        sender_timeout,
        sending_time,
        receiver_timeout,
        2,
        capacity,
    ];
    let text = play(&build(&settings(numbers), &message(length), events));
    let words = [" sent ", " delivered ", " failed "];
    text.lines()
        .filter(|line| words.iter().any(|word| line.contains(word)))
        .map(str::to_string)
        .collect()
}

/// G 2 and receiver T 2, so E1 would have `sent 4 3`. Each timeout of the receiver draws an LM_ACK
/// that sets the gap count to 0 when a frame would be due at the next tick.
#[test]
fn receiver_timeout_equal_to_the_gap() {
    let clean_but_for_t = [2, 3, 100, 2, 1785];
    // The receiver first: it times out before ticks 2 and 5, and frames 1 and 2 go at 3 and 6.
    let events = [3, 6, 2, 1, 2, 6, 1, 2, 1, 3, 2, 1, 2, 6, 1, 2, 1, 3, 6];
    assert_eq!(
        reports(clean_but_for_t, 9, &events),
        ["18 R delivered 9", "19 S sent 6 3"]
    );
    // The sender first: frame 1 goes at tick 2; a timeout before tick 4, and frame 2 goes at 5.
    let events = [3, 6, 1, 2, 1, 3, 2, 1, 2, 6, 1, 2, 1, 3, 6];
    assert_eq!(
        reports(clean_but_for_t, 9, &events),
        ["14 R delivered 9", "15 S sent 5 3"]
    );
}

/// The same in every list of messages of a few frames: with G = T = 1 the frame still goes at the next
/// tick, from 2 on no report has the figures.
#[test]
fn receiver_timeout_equal_to_every_gap() {
    for length in [9, 15, 22] {
        let message = message(length);
        for gap in 1..=10 {
            let Figures { ticks, frames } = figures(length as u32, gap.into()).unwrap();
            let met = sender::Report::Sent { ticks, frames };
            for window in [1, 2, 255] {
                let s = settings([gap, gap + 1, 60000, gap, window, 1785]);
                let begun = Session::begun(&s, &message);
                let sessions = reached(begun, &message, 2 * ticks, Session::is_clean);
                let mut reports = sessions.iter().flat_map(|session| &session.sent);
                assert!(reports.clone().count() > 0);
                assert!(reports.all(|&report| (report == met) == (gap == 1)));
            }
        }
    }
}

/// G 2 and M 4 = N × G. At tick 4 the time is over: NACK 3 goes in place of frame 2, after frames 0
/// and 1.
#[test]
fn sending_time_equal_to_the_ticks() {
    assert_eq!(
        reports([2, 3, 4, 3, 1785], 9, &[3, 6, 1, 2, 1, 3, 2, 1, 2, 1, 3]),
        ["10 S failed 3 4 3", "11 R failed 1"]
    );
}

/// G 1. The first tick comes while frame 0 is on the line, so the sender is still Opening: frames 1
/// and 2 go at ticks 2 and 3, and not at 1 and 2.
#[test]
fn a_tick_before_a_hearing() {
    assert_eq!(
        reports([1, 2, 100, 2, 1785], 9, &[1, 3, 6, 2, 1, 3, 2, 1, 3, 6]),
        ["9 R delivered 9", "10 S sent 3 3"]
    );
}

/// G 1. Frame 0 is repeated (event 1) and stays on the line over tick 1. Heard again (event 4) before
/// frame 1 (event 5), it draws LM_ACK 1, 2 once more, which starts the window anew: frame 1 goes at
/// ticks 1 and 2, frame 2 at 3. No end times out, both T being 5.
#[test]
fn a_repeat() {
    let events = [5, 6, 1, 3, 3, 6, 2, 1, 3, 2, 1, 3, 6];
    assert_eq!(
        reports([1, 5, 100, 5, 1785], 9, &events),
        ["12 R delivered 9", "13 S sent 3 4"]
    );
}

/// G 1, sender T 2. Frame 0 is lost and goes again at tick 2; frames 1 and 2 at 3 and 4.
#[test]
fn a_loss() {
    let events = [4, 1, 2, 1, 3, 6, 2, 1, 3, 2, 1, 3, 6];
    assert_eq!(
        reports([1, 2, 100, 2, 1785], 9, &events),
        ["12 R delivered 9", "13 S sent 4 4"]
    );
}

/// G 2, receiver T 3. The receiver ticks three times after tick 1 and times out: gap count 0. Frames
/// 1 and 2 go at ticks 3 and 5.
#[test]
fn ticks_out_of_turn() {
    let events = [3, 6, 1, 2, 2, 2, 6, 1, 2, 1, 3, 2, 1, 2, 1, 3, 6];
    assert_eq!(
        reports([2, 3, 100, 3, 1785], 9, &events),
        ["16 R delivered 9", "17 S sent 5 3"]
    );
}

/// Ten bytes with K 9: NACK 1, before any tick.
#[test]
fn a_length_above_the_capacity() {
    assert_eq!(
        reports([1, 2, 100, 2, 9], 10, &[3, 6]),
        ["2 S failed 1 0 1"]
    );
}
