//! Document 02, E6: the summary, with figures worked by hand.

use crate::help::*;
use compare::packs::generate;
use compare::reference::frame::{self, Frame};
use compare::reference::player::play;
use compare::reference::sender::{Answer, Phase, Sender};
use compare::reference::summary::{self, Most, SUMMARY_LENGTH};
use compare::reference::summary_player::summarize;
use compare::reference::{refusal, Refused};
use compare::sessions::SESSIONS;

/// A sender and its summary.
struct Kept {
    sender: Sender,
    bytes: Vec<u8>,
}

impl Kept {
    fn fresh(gap: u8, timeout: u16, sending_time: u16) -> Kept {
        Kept {
            sender: Sender::make(gap, timeout, sending_time).unwrap(),
            bytes: vec![0; SUMMARY_LENGTH],
        }
    }

    fn begin(&mut self, message: &[u8]) -> Answer {
        summary::begin(&mut self.sender, message, &mut self.bytes).unwrap()
    }

    fn tick(&mut self, message: &[u8]) -> Answer {
        summary::tick(&mut self.sender, message, &mut self.bytes).unwrap()
    }

    fn ticks(&mut self, message: &[u8], times: usize) -> Answer {
        let answers = (0..times).map(|_| self.tick(message));
        answers.last().unwrap()
    }

    fn hear(&mut self, heard: Frame) -> Answer {
        summary::hear(&mut self.sender, heard, &mut self.bytes).unwrap()
    }

    /// The counts above 0, and what is named.
    fn is(&self, counts: &[(u8, u16)], number: u8, count: u16) {
        let mut bytes = vec![0; SUMMARY_LENGTH];
        for &(number, count) in counts {
            bytes[2 * usize::from(number)] = (count % 256) as u8;
            bytes[2 * usize::from(number) + 1] = (count / 256) as u8;
            assert_eq!(summary::count(&self.bytes, number), Ok(count));
        }
        assert_eq!(self.bytes, bytes);
        assert_eq!(summary::most(&self.bytes), Ok(Most { number, count }));
    }
}

fn session(name: &str) -> Vec<u8> {
    let found = SESSIONS.iter().find(|session| session.name == name);
    found.expect("a session of that name").pack()
}

/// The example of document 01: frames 0, 1 and 2, and "sent 2 3".
#[test]
fn example_of_document_01() {
    let nine = message(9);
    let mut kept = Kept::fresh(1, 10, 100);
    kept.is(&[], 0, 0);
    kept.begin(&nine);
    kept.is(&[(0, 1)], 0, 1);
    kept.hear(frame::lm_ack(1, 2));
    kept.is(&[(0, 1)], 0, 1);
    kept.tick(&nine);
    kept.is(&[(0, 1), (1, 1)], 0, 1);
    kept.tick(&nine);
    assert_eq!(kept.hear(frame::endof_ack(2, 9)), s_sent(2, 3));
    // 1 + 1 + 1 are the report's three frames. They stand after it, over Idle ticks and hearings.
    kept.ticks(&nine, 5);
    kept.hear(frame::lm_nack(1));
    kept.is(&[(0, 1), (1, 1), (2, 1)], 0, 1);
    assert_eq!(
        summarize(&session("document-01")),
        "0 1\n1 1\n2 1\nmost 0 1\n"
    );
}

/// Frame 2 of a window of 3 is lost, and LM_ACK 2, 2 asks for 2 and 3 again: frames 0, 1, 2, 3, 2, 3.
#[test]
fn a_window_asked_for_again() {
    let twenty_one = message(21);
    let mut kept = Kept::fresh(1, 20, 200);
    kept.begin(&twenty_one);
    kept.hear(frame::lm_ack(1, 3));
    kept.ticks(&twenty_one, 3);
    kept.hear(frame::lm_ack(2, 2));
    kept.ticks(&twenty_one, 2);
    assert_eq!(kept.hear(frame::endof_ack(3, 21)), s_sent(5, 6));
    kept.is(&[(0, 1), (1, 1), (2, 2), (3, 2)], 2, 2);
    assert_eq!(
        summarize(&session("lost-frame")),
        "0 1\n1 1\n2 2\n3 2\nmost 2 2\n"
    );
}

/// Nothing is heard, with T 3 and M 10: frame 0 three times, NACK 2 at tick 9. Four frames, three of them
/// information; with M 9 the fourth is NACK 3.
#[test]
fn three_timeouts_in_opening() {
    for (sending_time, cause) in [(10, 2), (9, 3)] {
        let nine = message(9);
        let mut kept = Kept::fresh(1, 3, sending_time);
        kept.begin(&nine);
        kept.ticks(&nine, 2);
        kept.is(&[(0, 1)], 0, 1);
        kept.tick(&nine);
        kept.is(&[(0, 2)], 0, 2);
        let closing = Some(frame::lm_nack(cause));
        assert_eq!(kept.ticks(&nine, 6), s_failed(cause, 9, 4, closing));
        kept.is(&[(0, 3)], 0, 3);
    }
    assert_eq!(
        summarize(&session("three-timeouts-sender")),
        "0 3\nmost 0 3\n"
    );
}

/// The window's last frame goes again at two misses: frames 0, 1, 2, 2, 2 and NACK 2.
#[test]
fn three_timeouts_in_waiting() {
    let nine = message(9);
    let mut kept = Kept::fresh(1, 4, 100);
    kept.begin(&nine);
    kept.hear(frame::lm_ack(1, 2));
    let answer = kept.ticks(&nine, 2 + 3 * 4);
    assert_eq!(answer, s_failed(2, 14, 6, Some(frame::lm_nack(2))));
    kept.is(&[(0, 1), (1, 1), (2, 3)], 2, 3);
}

/// LM_ACK above N: NACK 4 is among the report's frames and not in the summary. A NACK heard closes
/// without one.
#[test]
fn closing_frames() {
    let nine = message(9);
    for (heard, answer) in [
        (
            frame::lm_ack(3, 2),
            s_failed(4, 1, 3, Some(frame::lm_nack(4))),
        ),
        (frame::lm_nack(1), s_failed(1, 1, 2, None)),
    ] {
        let mut kept = Kept::fresh(1, 10, 100);
        kept.begin(&nine);
        kept.hear(frame::lm_ack(1, 2));
        kept.tick(&nine);
        assert_eq!(kept.hear(heard), answer);
        kept.is(&[(0, 1), (1, 1)], 0, 1);
    }
}

/// A short transfer clears at its begin and adds nothing, however often SM_RM goes; the long one after
/// it begins with number 0 alone.
#[test]
fn short_transfers() {
    let (three, nine) = (message(3), message(9));
    let mut kept = Kept::fresh(1, 2, 5);
    kept.begin(&three);
    kept.is(&[], 0, 0);
    assert_eq!(kept.ticks(&three, 5), s_failed(3, 5, 3, None));
    kept.is(&[], 0, 0);
    kept.begin(&nine);
    kept.hear(frame::lm_ack(2, 1));
    kept.hear(frame::lm_nack(1));
    kept.is(&[(0, 1)], 0, 1);
    kept.begin(&three);
    kept.is(&[], 0, 0);
    assert_eq!(kept.hear(frame::sm_ack(1)), s_sent(0, 1));
    kept.is(&[], 0, 0);
    for name in ["short-acknowledged", "short-lost", "short-lost-until-M"] {
        assert_eq!(summarize(&session(name)), "most 0 0\n", "{name}");
    }
}

/// A begin after a report counts from nothing; one that is refused leaves all.
#[test]
fn begin_after_a_report() {
    let (nine, sixteen) = (message(9), message(16));
    let mut kept = Kept::fresh(1, 10, 100);
    kept.begin(&sixteen);
    kept.hear(frame::lm_ack(1, 255));
    kept.ticks(&sixteen, 3);
    for message in [&nine[..], &[], &[1; 1786]] {
        let refused = summary::begin(&mut kept.sender, message, &mut kept.bytes);
        assert_eq!(refused, Err(Refused(3)));
    }
    assert_eq!(kept.hear(frame::endof_ack(3, 16)), s_sent(3, 4));
    for message in [&[][..], &[1; 1786]] {
        let refused = summary::begin(&mut kept.sender, message, &mut kept.bytes);
        assert_eq!(refused, Err(Refused(2)));
    }
    kept.is(&[(0, 1), (1, 1), (2, 1), (3, 1)], 0, 1);
    kept.begin(&nine);
    kept.is(&[(0, 1)], 0, 1);
}

/// LM_ACK 1, 2 three times over (session repeated-ack): frame 1 at events 3, 5, 11, 13, frame 2 at 6, 9,
/// 14, 17. Of two equals the lower is named.
#[test]
fn the_lowest_of_equals() {
    assert_eq!(
        summarize(&session("repeated-ack")),
        "0 1\n1 4\n2 4\nmost 1 4\n"
    );
}

/// What a held receiver asks for (E2) counts as every other frame: 0, 1, 2, 2 again.
#[test]
fn the_frame_before_the_last_start() {
    let twenty_one = message(21);
    let mut kept = Kept::fresh(1, 10, 100);
    kept.begin(&twenty_one);
    kept.hear(frame::lm_ack(1, 2));
    kept.ticks(&twenty_one, 2);
    kept.hear(frame::lm_ack(3, 1));
    kept.hear(frame::lm_ack(2, 1));
    kept.tick(&twenty_one);
    kept.is(&[(0, 1), (1, 1), (2, 2)], 2, 2);
}

/// Post adds nothing, not even with a message that looks like a number.
#[test]
fn posts() {
    let nine = message(9);
    let mut kept = Kept::fresh(1, 10, 100);
    for _ in 0..2 {
        let posted = summary::post(&kept.sender, &[0, 1], &kept.bytes);
        assert_eq!(posted, Ok(s_frame(frame::sm_urm(&[0, 1]))));
        let refused = summary::post(&kept.sender, &nine, &kept.bytes);
        assert_eq!(refused, Err(Refused(2)));
        kept.begin(&nine);
        kept.is(&[(0, 1)], 0, 1);
        kept.hear(frame::lm_nack(1));
    }
}

/// All 255 numbers, the last at bytes 510 and 511.
#[test]
fn the_longest_message() {
    let longest = message(1785);
    let mut kept = Kept::fresh(1, 10, 1000);
    kept.begin(&longest);
    kept.hear(frame::lm_ack(1, 255));
    // The last frame goes out at tick 255 and again ten ticks later.
    kept.ticks(&longest, 265);
    let mut counts: Vec<(u8, u16)> = (0..255).map(|number| (number, 1)).collect();
    counts.push((255, 2));
    kept.is(&counts, 255, 2);
    assert_eq!(kept.bytes[508..], [1, 0, 2, 0]);
    assert_eq!(kept.hear(frame::endof_ack(255, 1785)), s_sent(265, 257));
}

/// The most that one number can come to: M is 60000, and frame 1 goes at every tick but the last.
/// 59999 is 0xEA5F.
#[test]
fn the_highest_count() {
    let nine = message(9);
    let mut kept = Kept::fresh(1, 10000, 60000);
    kept.begin(&nine);
    let mut answer = s_nothing();
    for _ in 0..60000 {
        kept.hear(frame::lm_ack(1, 2));
        answer = kept.tick(&nine);
    }
    assert_eq!(answer, s_failed(3, 60000, 60001, Some(frame::lm_nack(3))));
    kept.is(&[(0, 1), (1, 59999)], 1, 59999);
    assert_eq!(kept.bytes[..6], [1, 0, 0x5F, 0xEA, 0, 0]);
}

/// A lent length other than 512 is 5, before any other refusal and in Idle too; nothing changes.
#[test]
fn other_lengths() {
    let idle = Sender::make(1, 10, 100).unwrap();
    let (opening, _) = begun(1, 1, 100, 9);
    let (short, _) = begun(1, 1, 100, 3);
    let bad = Frame {
        kind: 9,
        data: [0; 8],
    };
    for sender in [idle, opening, short] {
        for length in [0, 1, 2, 255, 256, 510, 511, 513, 514, 1024, 1785] {
            let mut called = sender.clone();
            let mut bytes = vec![0xA5; length];
            for message in [&message(9)[..], &message(3), &[], &[1; 1786]] {
                let refused = summary::begin(&mut called, message, &mut bytes);
                assert_eq!(refused, Err(refusal::BUFFER));
                let refused = summary::tick(&mut called, message, &mut bytes);
                assert_eq!(refused, Err(Refused(5)));
                assert_eq!(summary::post(&called, message, &bytes), Err(Refused(5)));
            }
            for heard in [frame::lm_nack(1), frame::sm_urm(&[1]), bad] {
                let refused = summary::hear(&mut called, heard, &mut bytes);
                assert_eq!(refused, Err(Refused(5)));
            }
            assert_eq!(summary::most(&bytes), Err(Refused(5)));
            for number in [0, 1, 255] {
                assert_eq!(summary::count(&bytes, number), Err(Refused(5)));
            }
            assert_eq!((called, bytes), (sender.clone(), vec![0xA5; length]));
        }
    }
}

/// The sender's own refusals come after it, and leave the bytes, whatever they are.
#[test]
fn refused_calls() {
    let (opening, nine) = begun(1, 1, 100, 9);
    let any: Vec<u8> = (0..512).map(|place| (place * 7 % 256) as u8).collect();
    let (mut sender, mut bytes) = (opening.clone(), any.clone());
    let refused = summary::tick(&mut sender, &nine[1..], &mut bytes);
    assert_eq!(refused, Err(Refused(4)));
    for (kind, number) in [(0, 6), (8, 6), (1, 7), (5, 7), (7, 7)] {
        let data = [1, 0, 0, 0, 0, 0, 0, 0];
        let refused = summary::hear(&mut sender, Frame { kind, data }, &mut bytes);
        assert_eq!(refused, Err(Refused(number)));
    }
    let refused = summary::begin(&mut sender, &nine, &mut bytes);
    assert_eq!(refused, Err(Refused(3)));
    let refused = summary::post(&sender, &[], &bytes);
    assert_eq!(refused, Err(Refused(2)));
    assert_eq!((sender, bytes), (opening, any));
}

/// Bytes that no calls make: a begin clears them all, a count at 65535 stays, and a carry goes to the
/// high byte alone.
#[test]
fn any_bytes() {
    for (bytes, raised) in [
        ([0xFF, 0xFF], [0xFF, 0xFF]),
        ([0xFE, 0xFF], [0xFF, 0xFF]),
        ([0xFF, 0x00], [0x00, 0x01]),
        ([0xFF, 0xFE], [0x00, 0xFF]),
    ] {
        let nine = message(9);
        let mut kept = Kept::fresh(1, 10, 100);
        kept.begin(&nine);
        kept.hear(frame::lm_ack(1, 2));
        kept.bytes = bytes.repeat(256);
        kept.tick(&nine);
        let mut expected = bytes.repeat(256);
        expected[2..4].copy_from_slice(&raised);
        assert_eq!(kept.bytes, expected);
        kept.hear(frame::lm_nack(1));
        assert_eq!(kept.bytes, expected);
        let (mut long, mut short) = (kept, Kept::fresh(1, 10, 100));
        short.bytes = bytes.repeat(256);
        short.begin(&message(3));
        short.is(&[], 0, 0);
        long.begin(&nine);
        long.is(&[(0, 1)], 0, 1);
    }
}

/// States that no calls make: the number is the one in the frame that went out.
#[test]
fn any_state() {
    for (phase, number) in [
        (Phase::Opening, 0),
        (Phase::Waiting { last: 0 }, 0),
        (Phase::Waiting { last: 255 }, 255),
        (Phase::Sending { next: 0, last: 9 }, 0),
        (Phase::Sending { next: 200, last: 3 }, 200),
    ] {
        let (mut sender, nine) = begun(1, 1, 100, 9);
        sender.phase = phase;
        let bytes = vec![0; SUMMARY_LENGTH];
        let mut kept = Kept { sender, bytes };
        kept.tick(&nine);
        kept.is(&[(number, 1)], number, 1);
    }
}

/// Naming over any bytes.
#[test]
fn naming() {
    let named = |places: &[(usize, u8)]| {
        let mut bytes = vec![0; SUMMARY_LENGTH];
        for &(place, byte) in places {
            bytes[place] = byte;
        }
        let Most { number, count } = summary::most(&bytes).unwrap();
        (number, count)
    };
    assert_eq!(named(&[]), (0, 0));
    assert_eq!(named(&[(510, 1)]), (255, 1));
    assert_eq!(named(&[(510, 1), (2, 1)]), (1, 1));
    assert_eq!(named(&[(510, 1), (2, 1), (0, 1)]), (0, 1));
    // 256 is above 255.
    assert_eq!(named(&[(4, 255), (7, 1)]), (3, 256));
    assert_eq!(named(&[(4, 0), (5, 1), (6, 255)]), (2, 256));
    let bytes = [0xFF; SUMMARY_LENGTH];
    let most = Most {
        number: 0,
        count: 65535,
    };
    assert_eq!(summary::most(&bytes), Ok(most));
}

/// What the player prints for a pack, made a summary: its lines `S 1 NUMBER` counted.
fn from_the_lines(pack: &[u8]) -> String {
    let printed = play(pack);
    if printed.starts_with("refused") {
        return printed;
    }
    let number = |line: &str| {
        let words: Vec<&str> = line.split(' ').collect();
        (words[1..3] == ["S", "1"]).then(|| u8::from_str_radix(words[3], 16).unwrap())
    };
    let numbers: Vec<u8> = printed.lines().filter_map(number).collect();
    let times = |number: u8| numbers.iter().filter(|&&sent| sent == number).count();
    let lines = (0..=255).filter(|&number| times(number) > 0);
    let lines: String = lines
        .map(|number| format!("{number} {}\n", times(number)))
        .collect();
    let most = (0..=255).rev().max_by_key(|&number| times(number)).unwrap();
    format!("{lines}most {most} {}\n", times(most))
}

/// Sessions and random packs: a frame that the line lost is counted as it is printed.
#[test]
fn runs_of_the_player() {
    for session in &SESSIONS {
        let pack = session.pack();
        assert_eq!(summarize(&pack), from_the_lines(&pack), "{}", session.name);
    }
    for seed in 1..=400 {
        let pack = generate::case(seed).pack();
        assert_eq!(summarize(&pack), from_the_lines(&pack), "seed {seed}");
    }
}

#[test]
fn the_program() {
    let through_the_program = |pack: &[u8]| through(env!("CARGO_BIN_EXE_reference_summary"), pack);
    let pack = session("lost-frame");
    assert_eq!(through_the_program(&pack), "0 1\n1 1\n2 2\n3 2\nmost 2 2\n");
    assert_eq!(through_the_program(&pack[1..]), "refused 12\n");
    assert_eq!(through_the_program(&[]), "refused 12\n");
    assert_eq!(through_the_program(&vec![3; 70000]), "refused 12\n");
}
