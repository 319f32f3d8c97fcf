//! Document 02, E3: dirty filler in a last frame. Bytes, states and frames are worked out by hand.

use crate::help::*;
use compare::packs::random::Random;
use compare::reference::frame::{self, Frame};
use compare::reference::line::{Bench, Call, Outcome};
use compare::reference::receiver::{self, After, Answer, Connection, Delivered, Receiver, State};
use compare::reference::sender::{self, Phase, Sender};
use compare::reference::Refused;

const F: u8 = 0xFF;

/// The lengths looked at: N, and the place of the first filler byte in the last frame, 8 if it is full.
const LENGTHS: [(u16, u8, usize); 9] = [
    (9, 2, 3),
    (10, 2, 4),
    (11, 2, 5),
    (12, 2, 6),
    (13, 2, 7),
    (14, 2, 8),
    (15, 3, 2),
    (16, 3, 3),
    (1784, 255, 7),
];

/// A receiver that expects the last frame of `message(l)`, and its buffer.
fn at_last(timeout: u16, window: u8, l: u16) -> (Receiver, Vec<u8>) {
    let (mut receiver, mut buffer) = opened(timeout, window, l);
    let n = frame::frames_for(l) as u8;
    for i in 1..n {
        let frame = frame::information(i, &message(l.into()));
        receiver.hear(frame, &mut buffer).unwrap();
    }
    assert_eq!((open(&receiver).e, open(&receiver).n), (n, n));
    (receiver, buffer)
}

/// The last frame of `message(l)`, with these bytes at these places.
fn last_with(l: u16, dirt: &[(usize, u8)]) -> Frame {
    let mut frame = frame::information(frame::frames_for(l) as u8, &message(l.into()));
    for &(place, byte) in dirt {
        frame.data[place] = byte;
    }
    frame
}

/// Refused 14, and neither the receiver nor the buffer is touched.
fn refuses(receiver: &mut Receiver, buffer: &mut [u8], frame: Frame) {
    let before = (receiver.clone(), buffer.to_vec());
    let answer = receiver.hear(frame, buffer);
    assert_eq!(answer, Err(Refused(14)), "{frame:?}");
    assert_eq!((receiver.clone(), buffer.to_vec()), before, "{frame:?}");
}

/// The same answer as to a clean frame, and the same state and buffer after it.
fn unjudged(receiver: &Receiver, buffer: &[u8], dirty: Frame, clean: Frame, answer: Answer) {
    for frame in [dirty, clean] {
        let (mut called, mut lent) = (receiver.clone(), buffer.to_vec());
        assert_eq!(called.hear(frame, &mut lent), Ok(answer), "{frame:?}");
        assert_eq!((&called, &lent[..]), (receiver, buffer), "{frame:?}");
    }
}

/// L 9: frame 2 carries two bytes, d3 to d7 are filler. One byte in its place is enough.
#[test]
fn nine_bytes() {
    let (mut receiver, mut buffer) = at_last(10, 2, 9);
    for data in [
        [2, 8, 9, 0, F, F, F, F],
        [2, 8, 9, F, 0, F, F, F],
        [2, 8, 9, F, F, 0, F, F],
        [2, 8, 9, F, F, F, 0, F],
        [2, 8, 9, F, F, F, F, 0],
        [2, 8, 9, F, F, F, F, 0xFE],
        [2, 8, 9, 0x7F, F, F, F, F],
        [2, 8, 9, 3, 4, 5, 6, 7],
        [2, 8, 9, 0, 0, 0, 0, 0],
        [2, F, F, F, F, F, 1, F],
    ] {
        refuses(&mut receiver, &mut buffer, Frame { kind: 1, data });
    }
    let clean = Frame {
        kind: 1,
        data: [2, 8, 9, F, F, F, F, F],
    };
    assert_eq!(receiver.hear(clean, &mut buffer), Ok(r_delivered(2, 9)));
    assert_eq!(buffer[..9], [1, 2, 3, 4, 5, 6, 7, 8, 9]);
    assert_eq!(buffer[9..14], [0xEE; 5]);
}

/// At each length every filler byte is judged by itself, and no message byte is: 0xFF and 0 stand there
/// as well as any other.
#[test]
fn each_place_at_each_length() {
    for (l, n, behind) in LENGTHS {
        let (receiver, buffer) = at_last(10, 255, l);
        for place in 1..8 {
            for byte in [0x00, 0x01, 0x7F, 0xFE] {
                let frame = last_with(l, &[(place, byte)]);
                let (mut called, mut lent) = (receiver.clone(), buffer.clone());
                if place >= behind {
                    refuses(&mut called, &mut lent, frame);
                } else {
                    let answer = called.hear(frame, &mut lent);
                    assert_eq!(answer, Ok(r_delivered(n, l)), "{l} {place} {byte}");
                    assert_eq!(lent[7 * usize::from(n - 1) + place - 1], byte);
                    assert!(lent[l.into()..].iter().all(|&byte| byte == 0xEE));
                }
            }
        }
        // All of them, and the first with the last.
        for dirt in [&(behind..8).collect::<Vec<_>>()[..], &[behind.min(7), 7]] {
            let dirt: Vec<(usize, u8)> = dirt.iter().map(|&place| (place, 0x55)).collect();
            if behind < 8 {
                let (mut called, mut lent) = (receiver.clone(), buffer.clone());
                refuses(&mut called, &mut lent, last_with(l, &dirt));
            }
        }
    }
}

/// L 14 and 1785: the last frame is full, so nothing of it is filler.
#[test]
fn full_last_frames() {
    for (l, n) in [(14, 2), (1785, 255)] {
        for byte in [0x00, 0x55, 0xFF] {
            let (mut receiver, mut buffer) = at_last(10, 255, l);
            let data = [n, byte, byte, byte, byte, byte, byte, byte];
            let answer = receiver.hear(Frame { kind: 1, data }, &mut buffer);
            assert_eq!(answer, Ok(r_delivered(n, l)));
            assert_eq!(buffer[usize::from(l) - 7..usize::from(l)], [byte; 7]);
        }
    }
}

/// A message that ends in 0xFF itself: those are its bytes, and the filler behind them is judged as ever.
#[test]
fn a_message_of_filler_bytes() {
    let (mut receiver, mut buffer) = at_last(10, 2, 9);
    let dirty = Frame {
        kind: 1,
        data: [2, F, F, 8, F, F, F, F],
    };
    refuses(&mut receiver, &mut buffer, dirty);
    let clean = Frame {
        kind: 1,
        data: [2, F, F, F, F, F, F, F],
    };
    assert_eq!(receiver.hear(clean, &mut buffer), Ok(r_delivered(2, 9)));
    assert_eq!(buffer[7..10], [F, F, 0xEE]);
}

/// The frame expected that is not the last is full, and is taken with any bytes.
#[test]
fn frames_before_the_last() {
    let (mut receiver, mut buffer) = opened(10, 2, 16);
    for (data, answer) in [
        ([1, 0, 0, 0, 0, 0, 0, 0], r_nothing()),
        ([2, 0, 1, 0, 1, 0, 1, 0], r_frame(frame::lm_ack(3, 1))),
    ] {
        assert_eq!(
            receiver.hear(Frame { kind: 1, data }, &mut buffer),
            Ok(answer)
        );
    }
    refuses(&mut receiver, &mut buffer, last_with(16, &[(3, 0)]));
}

/// Frame N before it is expected is ignored, dirty or clean.
#[test]
fn the_last_frame_too_soon() {
    for count in [0, 1] {
        let (mut receiver, mut buffer) = opened(10, 2, 16);
        for i in 1..=count {
            let frame = frame::information(i, &message(16));
            receiver.hear(frame, &mut buffer).unwrap();
        }
        receiver.tick();
        let (dirty, clean) = (last_with(16, &[(7, 0)]), last_with(16, &[]));
        unjudged(&receiver, &buffer, dirty, clean, r_nothing());
    }
}

/// At e = N another number is ignored with whatever it carries: an earlier frame again.
#[test]
fn an_earlier_frame_at_the_end() {
    let (receiver, buffer) = at_last(10, 2, 16);
    for i in [1, 2] {
        let dirty = frame::information(i, &[0; 16]);
        let clean = frame::information(i, &message(16));
        unjudged(&receiver, &buffer, dirty, clean, r_nothing());
    }
}

/// A number above N is NACK 4 before any filler is looked at.
#[test]
fn a_number_above_n() {
    for i in [4, 5, 255] {
        for byte in [0x00, 0xFF] {
            let (mut receiver, mut buffer) = at_last(10, 2, 16);
            let kept = buffer.clone();
            let data = [i, byte, byte, byte, byte, byte, byte, byte];
            let answer = receiver.hear(Frame { kind: 1, data }, &mut buffer);
            assert_eq!(answer, Ok(r_failed(4, Some(frame::lm_nack(4)))));
            assert_eq!(receiver.state, State::Idle { delivered: None });
            assert_eq!(buffer, kept);
        }
    }
}

/// While held nothing is judged: a dirty last frame is ignored as a clean one is. After resume it is.
#[test]
fn while_held() {
    let (mut receiver, mut buffer) = at_last(10, 2, 16);
    receiver.tick();
    receiver.hold().unwrap();
    let (dirty, clean) = (last_with(16, &[(3, 0)]), last_with(16, &[]));
    unjudged(&receiver, &buffer, dirty, clean, r_nothing());
    receiver.resume().unwrap();
    refuses(&mut receiver, &mut buffer, dirty);
    assert_eq!(receiver.hear(clean, &mut buffer), Ok(r_delivered(3, 16)));
    assert_eq!(buffer[..16], message(16)[..]);
}

/// After the delivery the last frame draws EndofACK, dirty or clean; another draws nothing.
#[test]
fn after_delivery() {
    let (mut receiver, mut buffer) = at_last(10, 2, 16);
    let (dirty, clean) = (last_with(16, &[(7, 0)]), last_with(16, &[]));
    receiver.hear(clean, &mut buffer).unwrap();
    let delivered = Some(Delivered { n: 3, l: 16 });
    assert_eq!(receiver.state, State::Idle { delivered });
    let end = r_frame(frame::endof_ack(3, 16));
    unjudged(&receiver, &buffer, dirty, clean, end);
    let other = frame::information(2, &[0; 14]);
    unjudged(&receiver, &buffer, other, other, r_nothing());
}

/// Idle with nothing delivered: ignored.
#[test]
fn while_idle() {
    let receiver = Receiver::make(10, 2, 1785).unwrap();
    for i in [1, 2, 3, 255] {
        let dirty = frame::information(i, &[0; 1785]);
        let clean = frame::information(i, &[]);
        unjudged(&receiver, &buffer(), dirty, clean, r_nothing());
    }
}

/// 5, 6, 7, 14: each goes before the ones behind it, at e = N.
#[test]
fn order_of_refusals() {
    let (mut receiver, mut buffer) = at_last(10, 2, 16);
    let before = receiver.clone();
    let dirty = last_with(16, &[(7, 0)]);
    for length in [0, 16, 1784, 1786] {
        let mut lent = vec![0xEE; length];
        assert_eq!(receiver.hear(dirty, &mut lent), Err(Refused(5)));
        assert!(lent.iter().all(|&byte| byte == 0xEE));
    }
    // The dirty frame's bytes under another kind: 6 where the kind is none or has filler there.
    for kind in [0, 2, 3, 4, 6, 8, 255] {
        let answer = receiver.hear(Frame { kind, ..dirty }, &mut buffer);
        assert_eq!(answer, Err(Refused(6)), "{kind}");
    }
    // Clean, and for the other end: 3 is d0, as it is of the last frame.
    for other in [
        frame::lm_ack(3, 0),
        frame::endof_ack(3, 16),
        frame::sm_ack(3),
    ] {
        assert_eq!(receiver.hear(other, &mut buffer), Err(Refused(7)));
    }
    assert_eq!(receiver, before);
    refuses(&mut receiver, &mut buffer, dirty);
    // What is no information frame is heard as ever, its bytes unjudged.
    let short = Frame { kind: 7, ..dirty };
    let report = Some(receiver::Report::Short(dirty.data));
    let answer = receiver.hear(short, &mut buffer);
    assert_eq!(
        answer,
        Ok(Answer {
            frame: None,
            report
        })
    );
    assert_eq!(receiver, before);
}

/// A sender refuses every information frame with 7, dirty or clean, and reads no length into it.
#[test]
fn at_the_sender() {
    let (mut sender, _) = begun(1, 10, 100, 16);
    for phase in [
        Phase::Idle,
        Phase::Opening,
        Phase::Sending { next: 3, last: 3 },
        Phase::Waiting { last: 3 },
        Phase::Short,
    ] {
        sender.phase = phase;
        let before = sender.clone();
        for frame in [last_with(16, &[(7, 0)]), last_with(16, &[])] {
            assert_eq!(sender.hear(frame), Err(Refused(7)));
            assert_eq!(sender, before);
        }
    }
}

/// Wait and misses go on over refused frames: T 3, a dirty frame after every tick. Two timeouts ask for
/// frame 3, the third closes.
#[test]
fn wait_and_misses_go_on() {
    let (mut receiver, mut buffer) = at_last(3, 2, 16);
    let dirty = last_with(16, &[(3, 0)]);
    let mut tick = |wait, misses, expected| {
        assert_eq!(receiver.tick(), expected);
        let now = open(&receiver);
        assert_eq!((now.wait, now.misses), (wait, misses));
        refuses(&mut receiver, &mut buffer, dirty);
        assert_eq!(open(&receiver), now);
    };
    let asks = r_frame(frame::lm_ack(3, 1));
    tick(1, 0, r_nothing());
    tick(2, 0, r_nothing());
    tick(0, 1, asks);
    tick(1, 1, r_nothing());
    tick(2, 1, r_nothing());
    tick(0, 2, asks);
    tick(1, 2, r_nothing());
    tick(2, 2, r_nothing());
    assert_eq!(receiver.tick(), r_failed(2, Some(frame::lm_nack(2))));
    // Closed: the dirty frame is one that an Idle receiver ignores.
    assert_eq!(receiver.hear(dirty, &mut buffer), Ok(r_nothing()));
    assert_eq!(buffer[14..], [0xEE; 1785 - 14]);
}

/// The clean frame still delivers after any number of dirty ones, with two misses behind it. There are
/// three timeouts before it: the first is one after frame 1, of another type than the two after LM_ACKs
/// (E4).
#[test]
fn dirty_then_clean() {
    let (mut receiver, mut buffer) = at_last(1, 2, 13);
    for _ in 0..3 {
        receiver.tick();
        for place in [7, 7, 7] {
            refuses(&mut receiver, &mut buffer, last_with(13, &[(place, 3)]));
        }
    }
    assert_eq!(open(&receiver).misses, 2);
    let clean = last_with(13, &[]);
    assert_eq!(receiver.hear(clean, &mut buffer), Ok(r_delivered(2, 13)));
    let delivered = Some(Delivered { n: 2, l: 13 });
    assert_eq!(receiver.state, State::Idle { delivered });
    assert_eq!(buffer[..13], message(13)[..]);
    assert_eq!(buffer[13], 0xEE);
}

/// The held timeouts of the connection and its window stand over a refused frame as well.
#[test]
fn the_rest_of_the_record() {
    let (mut receiver, mut buffer) = at_last(1, 1, 16);
    receiver.hold().unwrap();
    receiver.tick();
    receiver.tick();
    receiver.resume().unwrap();
    receiver.tick();
    let record = Connection {
        n: 3,
        l: 16,
        e: 3,
        w: 3,
        wait: 0,
        misses: 1,
        after: After::Ack,
        counted: Some(After::Ack),
        held: false,
        holds: 2,
    };
    assert_eq!(open(&receiver), record);
    refuses(&mut receiver, &mut buffer, last_with(16, &[(5, 0x80)]));
    assert_eq!(open(&receiver), record);
    // It can still be held.
    let answer = receiver.hold();
    assert_eq!(answer, Ok(r_frame(frame::lm_ack(2, 1))));
}

/// The connection's own L decides: a frame that fills 14 bytes is refused between two deliveries of that
/// length where 9 are announced.
#[test]
fn judged_by_the_open_connection() {
    let mut receiver = Receiver::make(10, 2, 1785).unwrap();
    let mut lent = buffer();
    let full = [2, 8, 9, 10, 11, 12, 13, 14];
    for (l, delivers) in [(14, true), (9, false), (14, true)] {
        let announced = receiver.hear(frame::announcement(2, l), &mut lent);
        assert_eq!(announced, Ok(r_frame(frame::lm_ack(1, 2))));
        let first = frame::information(1, &message(14));
        receiver.hear(first, &mut lent).unwrap();
        let last = Frame {
            kind: 1,
            data: full,
        };
        if delivers {
            assert_eq!(receiver.hear(last, &mut lent), Ok(r_delivered(2, l)));
        } else {
            refuses(&mut receiver, &mut lent, last);
            receiver.hear(frame::lm_nack(2), &mut lent).unwrap();
        }
    }
}

/// Calls that are all accepted.
fn plays(bench: &mut Bench, message: &[u8], lent: &mut [u8], calls: &[Call]) {
    for call in calls {
        bench.call(*call, message, lent).unwrap();
    }
}

/// A connection of 9 bytes, still open, whose sender gave up with its NACK lost; and 14 bytes begun after it,
/// whose full frame 2 is on forward: they took the LM_ACK of the connection for their own.
fn fourteen_bytes_after_nine(long: &[u8], lent: &mut [u8]) -> Bench {
    let sender = Sender::make(1, 50, 2).unwrap();
    let receiver = Receiver::make(3, 2, 1785).unwrap();
    let mut bench = Bench::new(sender, receiver);
    let given_up = [
        Call::Begin,
        Call::ForwardHear,
        Call::BackRepeat,
        Call::SenderTick,
        Call::ForwardHear,
        // The sending time is over.
        Call::SenderTick,
        Call::ForwardLose,
    ];
    plays(&mut bench, &message(9), lent, &given_up);
    assert_eq!(open(&bench.receiver).e, 2);
    // The second transfer has time enough.
    bench.sender.sending_time = 100;
    let begun = [
        Call::Begin,
        // Frame 0 finds the receiver open.
        Call::ForwardHear,
        Call::BackHear,
        Call::SenderTick,
        // Frame 1 is there already.
        Call::ForwardHear,
        Call::SenderTick,
    ];
    plays(&mut bench, long, lent, &begun);
    bench
}

/// That frame 2 finds the connection of 9 bytes and is refused; where it was repeated it is still first, where
/// it was heard it is gone.
#[test]
fn a_longer_message_meets_an_older_connection() {
    let long = message(14);
    let mut lent = buffer();
    let mut bench = fourteen_bytes_after_nine(&long, &mut lent);
    let last = Frame {
        kind: 1,
        data: [2, 8, 9, 10, 11, 12, 13, 14],
    };
    assert_eq!(bench.forward.repeat(), Some(last));
    let before = (bench.clone(), lent.clone());
    let refused = bench.call(Call::ForwardRepeat, &long, &mut lent);
    assert_eq!(refused, Err(Refused(14)));
    assert_eq!((bench.clone(), lent.clone()), before);
    let refused = bench.call(Call::ForwardHear, &long, &mut lent);
    assert_eq!(refused, Err(Refused(14)));
    assert!(bench.line_is_empty());
    assert_eq!(bench.receiver, before.0.receiver);
    assert_eq!(lent, before.1);
    // The connection waits on: its timeout asks for frame 2.
    let waits = [Call::ReceiverTick, Call::ReceiverTick];
    plays(&mut bench, &long, &mut lent, &waits);
    let late = bench.call(Call::ReceiverTick, &long, &mut lent).unwrap();
    assert_eq!(late, Outcome::Receiver(r_frame(frame::lm_ack(2, 1))));
}

/// A card that now and then leaves old bytes behind the message, and loses and repeats as well.
struct Card {
    bench: Bench,
    message: Vec<u8>,
    buffer: Vec<u8>,
    refused: usize,
    delivered: usize,
}

impl Card {
    fn begun(random: &mut Random) -> Card {
        let sender = Sender::make(1, random.between(2, 9) as u16, 60000);
        let window = random.between(1, 4) as u8;
        let receiver = Receiver::make(random.between(2, 9) as u16, window, 1785);
        let length = random.between(9, 40);
        let mut card = Card {
            bench: Bench::new(sender.unwrap(), receiver.unwrap()),
            message: (0..length).map(|_| random.byte()).collect(),
            buffer: buffer(),
            refused: 0,
            delivered: 0,
        };
        card.bench
            .call(Call::Begin, &card.message, &mut card.buffer)
            .unwrap();
        card
    }

    /// The frame that comes next is given with other bytes at some places behind the message, and not
    /// taken off the line. Refused 14 exactly where it is the last, expected and not held.
    fn give_dirty(&mut self, random: &mut Random) {
        let Some(mut frame) = self.bench.forward.repeat() else {
            return;
        };
        let behind = self.message.len() % 7;
        let n = self.message.len().div_ceil(7) as u8;
        if frame.kind != 1 || frame.data[0] != n || behind == 0 {
            return;
        }
        frame.data[random.between(behind + 1, 7)] = random.between(0, 254) as u8;
        let expected = match self.bench.receiver.state {
            State::Open(open) => open.e == n && !open.held,
            State::Idle { .. } => false,
        };
        let before = (self.bench.receiver.clone(), self.buffer.clone());
        let answer = self.bench.receiver.hear(frame, &mut self.buffer);
        assert_eq!(answer == Err(Refused(14)), expected);
        assert_eq!((self.bench.receiver.clone(), self.buffer.clone()), before);
        self.refused += usize::from(expected);
    }

    /// One call. What a filling sender says is never refused 14, and a delivery is the very message.
    fn call(&mut self, call: Call) -> Option<sender::Report> {
        match self.bench.call(call, &self.message, &mut self.buffer) {
            Err(refused) => assert_eq!(refused, Refused(13)),
            Ok(Outcome::Nothing) => {}
            Ok(Outcome::Sender(answer)) => return answer.report,
            Ok(Outcome::Receiver(answer)) => {
                if let Some(receiver::Report::Delivered { l }) = answer.report {
                    let (told, rest) = self.buffer.split_at(l.into());
                    assert_eq!(told, self.message);
                    assert!(rest.iter().all(|&byte| byte == 0xEE));
                    self.delivered += 1;
                }
            }
        }
        None
    }
}

/// Chance runs on such a card. They are worth something only if transfers are sent that had frames
/// refused.
#[test]
fn chance_runs_on_a_dirty_card() {
    let mut random = Random::new(2028);
    let (mut sent, mut refused) = (0, 0);
    for _ in 0..3000 {
        let mut card = Card::begun(&mut random);
        for _ in 0..300 {
            let call = match random.weighted(&[15, 2, 2, 2, 2, 10, 2, 1, 64]) {
                0 => {
                    card.give_dirty(&mut random);
                    continue;
                }
                1 => Call::ForwardLose,
                2 => Call::ForwardRepeat,
                3 => Call::BackLose,
                4 => Call::BackRepeat,
                5 => Call::ReceiverTick,
                6 => Call::Resume,
                7 => Call::Hold,
                _ if !card.bench.back.is_empty() => Call::BackHear,
                _ if !card.bench.forward.is_empty() => Call::ForwardHear,
                _ => Call::SenderTick,
            };
            if let Some(report) = card.call(call) {
                let is_sent = matches!(report, sender::Report::Sent { .. });
                assert!(!is_sent || card.delivered > 0);
                sent += usize::from(is_sent && card.refused > 0);
                break;
            }
        }
        refused += card.refused;
    }
    assert!(sent > 200 && refused > 300, "{sent} {refused}");
}
