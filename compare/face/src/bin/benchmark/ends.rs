//! Rows of the two ends. Behind the face a state is taken and returned by value; the reference's own is copied and changed.

use std::hint::black_box;

use compare::reference::receiver::Receiver;
use compare::reference::sender::{self, Sender};
use face::behind::Behind;
use face::call::pool;
use face::ends::{frame_of, receiver_of, sender_of};
use face::ffi::Proved;
use face::interface::Ends;
use face::values::*;

use crate::measure::{given, Row};

/// A message of this length.
pub fn message(length: usize) -> &'static [u8] {
    &pool()[..length]
}

pub fn frame(kind: u8, first: &[u8]) -> FlatFrame {
    let mut bytes = [0xFF; 8];
    bytes[..first.len()].copy_from_slice(first);
    FlatFrame { kind, bytes }
}

pub fn idle_sender() -> FlatSender {
    Proved.sender_make(2, 10, 60000).sender
}

/// Opening, with 1785 bytes begun.
pub fn opening() -> FlatSender {
    Proved.sender_begin(idle_sender(), message(1785)).next
}

/// Sending frames 101 to 110.
pub fn sending() -> FlatSender {
    let taken = Proved.sender_hear(opening(), frame(2, &[1, 10])).next;
    Proved.sender_hear(taken, frame(2, &[101, 10])).next
}

pub fn waiting() -> FlatSender {
    FlatSender {
        phase: 3,
        due: 0,
        count: 0,
        ..sending()
    }
}

pub fn short() -> FlatSender {
    Proved.sender_begin(idle_sender(), message(8)).next
}

/// At the tick before its timeout, or before its gap's end.
pub fn due(sender: FlatSender) -> FlatSender {
    match sender.phase {
        2 => FlatSender { count: 1, ..sender },
        _ => FlatSender { wait: 9, ..sender },
    }
}

pub fn over(sender: FlatSender) -> FlatSender {
    FlatSender {
        age: 59999,
        ..sender
    }
}

pub type Message = &'static [u8];

pub fn begins(
    face: impl Ends,
    sender: FlatSender,
    message: Message,
) -> impl FnMut() -> FlatSenderAnswer {
    given((sender, message), move |(sender, message)| {
        face.sender_begin(*sender, message)
    })
}

pub fn ticks(
    face: impl Ends,
    sender: FlatSender,
    message: Message,
) -> impl FnMut() -> FlatSenderAnswer {
    given((sender, message), move |(sender, message)| {
        face.sender_tick(*sender, message)
    })
}

pub fn hears(
    face: impl Ends,
    sender: FlatSender,
    frame: FlatFrame,
) -> impl FnMut() -> FlatSenderAnswer {
    given((sender, frame), move |(sender, frame)| {
        face.sender_hear(*sender, *frame)
    })
}

pub fn posts(
    face: impl Ends,
    sender: FlatSender,
    message: Message,
) -> impl FnMut() -> FlatSenderAnswer {
    given((sender, message), move |(sender, message)| {
        face.sender_post(*sender, message)
    })
}

fn makes_sender(face: impl Ends) -> impl FnMut() -> FlatSenderMade {
    given((2, 10, 60000), move |&(gap, timeout, limit)| {
        face.sender_make(gap, timeout, limit)
    })
}

fn begin(name: &str, length: usize) -> Row {
    let sender = idle_sender();
    let message = message(length);
    Row::new(
        name,
        begins(Proved, sender, message),
        begins(Behind, sender, message),
        given((sender_of(sender), message), |(sender, message)| {
            let mut end = sender.clone();
            let answer = end.begin(message);
            (end, answer)
        }),
    )
}

fn tick(name: &str, sender: FlatSender, length: usize) -> Row {
    let message = message(length);
    Row::new(
        name,
        ticks(Proved, sender, message),
        ticks(Behind, sender, message),
        given((sender_of(sender), message), |(sender, message)| {
            let mut end = sender.clone();
            let answer = end.tick(message);
            (end, answer)
        }),
    )
}

fn hear(name: &str, sender: FlatSender, frame: FlatFrame) -> Row {
    Row::new(
        name,
        hears(Proved, sender, frame),
        hears(Behind, sender, frame),
        given((sender_of(sender), frame_of(frame)), |(sender, frame)| {
            let mut end = sender.clone();
            let answer = end.hear(*frame);
            (end, answer)
        }),
    )
}

fn post() -> Row {
    let sender = idle_sender();
    let message = message(8);
    Row::new(
        "post",
        posts(Proved, sender, message),
        posts(Behind, sender, message),
        given((sender_of(sender), message), |(sender, message)| {
            let end = sender.clone();
            let answer = end.post(message);
            (end, answer)
        }),
    )
}

/// What a held receiver asks for: the frame before the last start.
fn before(sender: FlatSender) -> FlatFrame {
    frame(2, &[sender.start - 1, 1])
}

pub fn sender_rows() -> Vec<Row> {
    vec![
        Row::new(
            "make",
            makes_sender(Proved),
            makes_sender(Behind),
            given((2, 10, 60000), |&(gap, timeout, limit)| {
                Sender::make(gap, timeout, limit)
            }),
        ),
        begin("begin, long", 1785),
        begin("begin, short", 8),
        post(),
        tick("tick, Idle", idle_sender(), 1785),
        tick("tick, Opening", opening(), 1785),
        tick("tick, Opening: frame 0 again", due(opening()), 1785),
        tick("tick, Sending", sending(), 1785),
        tick("tick, Sending: next frame", due(sending()), 1785),
        tick("tick, Waiting", waiting(), 1785),
        tick("tick, Waiting: last frame again", due(waiting()), 1785),
        tick("tick, Short", short(), 8),
        tick("tick, Short: SM_RM again", due(short()), 8),
        tick("tick, Short: sending time over", over(short()), 8),
        tick("tick, sending time over", over(sending()), 1785),
        tick("tick, refused 4", sending(), 1784),
        hear("hear LM_ACK, taken", waiting(), frame(2, &[111, 10])),
        hear("hear LM_ACK, ignored", waiting(), frame(2, &[100, 10])),
        hear("hear LM_ACK of a hold", waiting(), before(waiting())),
        hear("hear LM_NACK", waiting(), frame(3, &[2])),
        hear("hear EndofACK", waiting(), frame(4, &[255, 0xF9, 0x06])),
        hear("hear SM_ACK", short(), frame(6, &message(8)[..1])),
        hear("hear, refused 6", waiting(), frame(9, &[1])),
        hear("hear, refused 7", waiting(), frame(1, &[1])),
    ]
}

fn idle_receiver() -> FlatReceiver {
    Proved.receiver_make(10, 10, 1785).receiver
}

/// Open for 1785 bytes, 101 expected at the start of a window.
fn open() -> FlatReceiver {
    FlatReceiver {
        phase: 2,
        frames: 255,
        length: 1785,
        expected: 101,
        last: 110,
        ..idle_receiver()
    }
}

fn held() -> FlatReceiver {
    FlatReceiver {
        held: true,
        ..open()
    }
}

fn delivered() -> FlatReceiver {
    FlatReceiver {
        phase: 1,
        frames: 255,
        length: 1785,
        ..idle_receiver()
    }
}

fn makes_receiver(face: impl Ends) -> impl FnMut() -> FlatReceiverMade {
    given((10, 10, 1785), move |&(timeout, window, capacity)| {
        face.receiver_make(timeout, window, capacity)
    })
}

fn receiver_ticks(face: impl Ends, receiver: FlatReceiver) -> impl FnMut() -> FlatReceiverAnswer {
    given(receiver, move |receiver| face.receiver_tick(*receiver))
}

fn holds(face: impl Ends, receiver: FlatReceiver) -> impl FnMut() -> FlatReceiverAnswer {
    given(receiver, move |receiver| face.receiver_hold(*receiver))
}

fn resumes(face: impl Ends, receiver: FlatReceiver) -> impl FnMut() -> FlatReceiverAnswer {
    given(receiver, move |receiver| face.receiver_resume(*receiver))
}

fn receiver_hears(
    face: impl Ends,
    receiver: FlatReceiver,
    frame: FlatFrame,
    lent: usize,
) -> impl FnMut() -> FlatReceiverAnswer {
    let (mut buffer, flat) = (vec![0; lent], (receiver, frame));
    move || {
        let buffer = black_box(&mut buffer);
        let (receiver, frame) = black_box(&flat);
        face.receiver_hear(*receiver, *frame, buffer)
    }
}

fn receiver_tick(name: &str, receiver: FlatReceiver) -> Row {
    Row::new(
        name,
        receiver_ticks(Proved, receiver),
        receiver_ticks(Behind, receiver),
        given(receiver_of(receiver), |receiver| {
            let mut end = receiver.clone();
            let answer = end.tick();
            (end, answer)
        }),
    )
}

fn hold(name: &str, receiver: FlatReceiver) -> Row {
    Row::new(
        name,
        holds(Proved, receiver),
        holds(Behind, receiver),
        given(receiver_of(receiver), |receiver| {
            let mut end = receiver.clone();
            let answer = end.hold();
            (end, answer)
        }),
    )
}

fn resume(name: &str, receiver: FlatReceiver) -> Row {
    Row::new(
        name,
        resumes(Proved, receiver),
        resumes(Behind, receiver),
        given(receiver_of(receiver), |receiver| {
            let mut end = receiver.clone();
            let answer = end.resume();
            (end, answer)
        }),
    )
}

fn receiver_hear(name: &str, receiver: FlatReceiver, frame: FlatFrame, lent: usize) -> Row {
    let native = (receiver_of(receiver), frame_of(frame));
    let mut buffer = vec![0; lent];
    Row::new(
        name,
        receiver_hears(Proved, receiver, frame, lent),
        receiver_hears(Behind, receiver, frame, lent),
        move || {
            let buffer = black_box(&mut buffer);
            let (receiver, frame) = black_box(&native);
            let mut end = receiver.clone();
            let answer = end.hear(*frame, buffer);
            (end, answer)
        },
    )
}

/// Open with these misses.
fn missing(misses: u8) -> FlatReceiver {
    FlatReceiver { misses, ..open() }
}

/// A timeout by the misses before it, which tell its type.
fn timeout(name: &str, misses: u8) -> Row {
    let late = FlatReceiver {
        wait: 9,
        ..missing(misses)
    };
    receiver_tick(name, late)
}

/// Everything but hearings.
fn receiver_calls() -> Vec<Row> {
    let late_held = FlatReceiver { wait: 9, ..held() };
    vec![
        Row::new(
            "make",
            makes_receiver(Proved),
            makes_receiver(Behind),
            given((10, 10, 1785), |&(timeout, window, capacity)| {
                Receiver::make(timeout, window, capacity)
            }),
        ),
        receiver_tick("tick, Idle", idle_receiver()),
        receiver_tick("tick, Open", open()),
        timeout("tick, Open: LM_ACK again", misses::NONE_AFTER_ACK),
        timeout("tick, Open: second after LM_ACK", misses::ONE_AFTER_ACK),
        timeout("tick, Open: third, failed", misses::TWO_AFTER_ACK),
        timeout("tick, Open: first after a frame", misses::NONE_AFTER_FRAME),
        timeout("tick, Open: of another type", misses::ONE_AFTER_FRAME),
        receiver_tick("tick, held: LM_ACK again", late_held),
        hold("hold", open()),
        hold("hold, after a frame", missing(misses::NONE_AFTER_FRAME)),
        hold("hold, refused 13", held()),
        resume("resume", held()),
        resume("resume, refused 13", open()),
    ]
}

fn receiver_hearings() -> Vec<Row> {
    let announcement = frame(1, &[0, 255, 0xF9, 0x06]);
    let information = |number: u8| frame(1, &[number, 1, 2, 3, 4, 5, 6, 7]);
    let expecting = |expected: u8| FlatReceiver { expected, ..open() };
    // Frame 255 of 1780 bytes carries two of them.
    let filled = FlatReceiver {
        length: 1780,
        ..expecting(255)
    };
    let clean = frame(1, &[255, 1, 2]);
    let dirty = frame(1, &[255, 1, 2, 0xFF, 0xFF, 0xFF, 0xFF, 7]);
    let hear = |name: &str, receiver, frame| receiver_hear(name, receiver, frame, 1785);
    vec![
        hear("hear frame 0, opens", idle_receiver(), announcement),
        hear("hear frame 0 again", expecting(1), announcement),
        hear("hear frame i, stored", open(), information(101)),
        hear("hear frame w, LM_ACK", expecting(110), information(110)),
        hear("hear frame N, delivered", expecting(255), information(255)),
        hear("hear frame N with filler, delivered", filled, clean),
        hear("hear frame i, ignored", open(), information(100)),
        hear("hear frame i, held", held(), information(101)),
        hear("hear frame N after delivery", delivered(), information(255)),
        hear("hear LM_NACK", open(), frame(3, &[2])),
        hear("hear SM_RM", open(), frame(5, &[1, 2, 3])),
        hear("hear SM_URM", open(), frame(7, &[1, 2, 3])),
        receiver_hear("hear, refused 5", open(), information(101), 1784),
        hear("hear, refused 6", open(), frame(9, &[1])),
        hear("hear, refused 7", open(), frame(2, &[1, 1])),
        hear("hear, refused 14", filled, dirty),
    ]
}

pub fn receiver_rows() -> Vec<Row> {
    let mut rows = receiver_calls();
    rows.extend(receiver_hearings());
    rows
}

/// Both ends behind a face from begin to sent, nothing lost; how many calls that took.
fn transfer(face: impl Ends, message: &[u8], buffer: &mut [u8]) -> u64 {
    let mut receiver = face.receiver_make(10, 10, 1785).receiver;
    let mut said = face.sender_begin(face.sender_make(1, 10, 60000).sender, message);
    let mut calls = 3;
    while said.outcome != 5 {
        if !said.emits {
            said = face.sender_tick(said.next, message);
            calls += 1;
            continue;
        }
        let heard = face.receiver_hear(receiver, said.frame, buffer);
        receiver = heard.next;
        calls += 1;
        if heard.emits {
            said = face.sender_hear(said.next, heard.frame);
            calls += 1;
        } else {
            said.emits = false;
        }
    }
    calls
}

/// The same with the reference's own functions.
fn direct_transfer(message: &[u8], buffer: &mut [u8]) -> u64 {
    let mut receiver = Receiver::make(10, 10, 1785).expect("good settings");
    let mut sender = Sender::make(1, 10, 60000).expect("good settings");
    let mut said = sender.begin(message).expect("a good length");
    let mut calls = 3;
    while !matches!(said.report, Some(sender::Report::Sent { .. })) {
        let Some(frame) = said.frame.take() else {
            said = sender.tick(message).expect("the begun length");
            calls += 1;
            continue;
        };
        let heard = receiver.hear(frame, buffer).expect("a frame of the sender");
        calls += 1;
        if let Some(frame) = heard.frame {
            said = sender.hear(frame).expect("a frame of the receiver");
            calls += 1;
        }
    }
    calls
}

fn transfers(face: impl Ends + Copy, message: Message) -> impl FnMut() -> u64 {
    let mut buffer = vec![0; 1785];
    let calls = transfer(face, message, &mut buffer);
    assert_eq!(&buffer[..message.len()], message);
    assert_eq!(calls, direct_transfer(message, &mut buffer));
    move || transfer(face, black_box(message), black_box(&mut buffer))
}

pub fn transfer_rows() -> Vec<Row> {
    let row = |length: usize| {
        let message = message(length);
        let mut buffer = vec![0; 1785];
        let calls = direct_transfer(message, &mut buffer);
        Row::new(
            &format!("transfer of {length} bytes without loss, {calls} calls"),
            transfers(Proved, message),
            transfers(Behind, message),
            move || direct_transfer(black_box(message), black_box(&mut buffer)),
        )
    };
    [9, 100, 1785].map(row).into()
}
