//! Mistakes in document 02's E3: what is judged of a last frame, and what a refusal of it leaves.

use super::ends::{filled, DONE, OPEN};
use super::Mistake;
use crate::frames::{behind, soiled, Dirt};
use crate::interface::Ends;
use crate::values::*;
use crate::Reference;

pub const MISTAKES: &[(&str, Mistake)] = &[
    (
        "a last frame is judged before it is expected",
        Mistake::ReceiverHear(too_soon),
    ),
    (
        "a frame before the last is judged",
        Mistake::ReceiverHear(before_last),
    ),
    (
        "a last frame is judged while held",
        Mistake::ReceiverHear(while_held),
    ),
    (
        "a last frame is judged after delivery",
        Mistake::ReceiverHear(after_delivery),
    ),
    (
        "a frame is judged without a connection",
        Mistake::ReceiverHear(without_connection),
    ),
    ("14 before NACK 4", Mistake::ReceiverHear(before_nack_4)),
    ("14 before 5", Mistake::ReceiverHear(before_5)),
    ("14 before 7 at the sender", Mistake::SenderHear(before_7)),
    (
        "a dirty last frame closes the connection",
        Mistake::ReceiverHear(closes),
    ),
    (
        "a dirty last frame counts as delivered",
        Mistake::ReceiverHear(counts_as_delivered),
    ),
    (
        "a dirty last frame is stored",
        Mistake::ReceiverHear(stored),
    ),
    (
        "a dirty last frame restarts the wait",
        Mistake::ReceiverHear(wait_restarted),
    ),
    (
        "a dirty last frame clears the misses",
        Mistake::ReceiverHear(misses_cleared),
    ),
    (
        "a dirty last frame clears the held timeouts",
        Mistake::ReceiverHear(count_cleared),
    ),
    (
        "a dirty last frame draws a NACK",
        Mistake::ReceiverHear(draws_nack),
    ),
    (
        "a dirty last frame draws EndofACK",
        Mistake::ReceiverHear(draws_end),
    ),
    (
        "a dirty last frame fails the connection",
        Mistake::ReceiverHear(fails),
    ),
    (
        "a dirty last frame is ignored",
        Mistake::ReceiverHear(ignored),
    ),
    (
        "a dirty last frame is refused 6",
        Mistake::ReceiverHear(refused_6),
    ),
    (
        "a dirty last frame is refused 13",
        Mistake::ReceiverHear(refused_13),
    ),
    (
        "a last frame is judged by 1785",
        Mistake::ReceiverHear(by_longest),
    ),
    (
        "a last frame is judged by the capacity",
        Mistake::ReceiverHear(by_capacity),
    ),
    (
        "the first filler byte is skipped",
        Mistake::ReceiverHear(first_skipped),
    ),
    (
        "the last filler byte is skipped",
        Mistake::ReceiverHear(last_skipped),
    ),
    ("zeros pass as filler", Mistake::ReceiverHear(zeros_pass)),
    (
        "one byte of filler will do",
        Mistake::ReceiverHear(one_will_do),
    ),
    (
        "a clean last frame is refused",
        Mistake::ReceiverHear(clean_refused),
    ),
    (
        "a full last frame is refused",
        Mistake::ReceiverHear(full_refused),
    ),
    (
        "the last message byte is judged",
        Mistake::ReceiverHear(message_judged),
    ),
];

/// The bytes behind a message of this length.
fn bytes_behind(f: FlatFrame, length: u16) -> Vec<u8> {
    f.bytes[behind(&f, length)].to_vec()
}

fn dirty(f: FlatFrame, length: u16) -> bool {
    bytes_behind(f, length).iter().any(|&byte| byte != 0xFF)
}

/// An answer that tells no more than this number, with the state that it leaves.
fn refuse(a: &mut FlatReceiverAnswer, next: FlatReceiver, refusal: u8) {
    *a = FlatReceiverAnswer {
        next,
        emits: false,
        frame: FlatFrame::default(),
        outcome: 1,
        refusal,
        cause: 0,
        length: 0,
        bytes: [0; 8],
    };
}

/// The answer where the frame has filler behind the message.
fn take_clean(r: FlatReceiver, f: FlatFrame, buffer: &mut [u8], a: &mut FlatReceiverAnswer) {
    let clean = soiled(f, r.length, Dirt::All(0xFF));
    *a = Reference.receiver_hear(r, clean, buffer);
}

fn too_soon(r: FlatReceiver, f: FlatFrame, _: &mut [u8], a: &mut FlatReceiverAnswer) {
    let last = r.phase == OPEN && !r.held && f.bytes[0] == r.frames;
    if last && a.outcome == 0 && dirty(f, r.length) {
        refuse(a, r, 14);
    }
}

/// Where L ends before frame N, as only a caller can make it.
fn before_last(r: FlatReceiver, f: FlatFrame, _: &mut [u8], a: &mut FlatReceiverAnswer) {
    if r.phase == OPEN && a.next.expected > r.expected && dirty(f, r.length) {
        refuse(a, r, 14);
    }
}

fn while_held(r: FlatReceiver, f: FlatFrame, _: &mut [u8], a: &mut FlatReceiverAnswer) {
    let last = f.bytes[0] == r.frames && r.expected == r.frames;
    if r.phase == OPEN && r.held && last && a.outcome == 0 && dirty(f, r.length) {
        refuse(a, r, 14);
    }
}

fn after_delivery(r: FlatReceiver, f: FlatFrame, _: &mut [u8], a: &mut FlatReceiverAnswer) {
    if r.phase == DONE && a.frame.kind == 4 && dirty(f, r.length) {
        refuse(a, a.next, 14);
    }
}

fn without_connection(r: FlatReceiver, f: FlatFrame, _: &mut [u8], a: &mut FlatReceiverAnswer) {
    if r.phase != OPEN && a.outcome == 0 && !a.emits && dirty(f, 0) {
        refuse(a, a.next, 14);
    }
}

fn before_nack_4(r: FlatReceiver, f: FlatFrame, _: &mut [u8], a: &mut FlatReceiverAnswer) {
    if a.cause == 4 && dirty(f, r.length) {
        refuse(a, r, 14);
    }
}

fn before_5(r: FlatReceiver, f: FlatFrame, _: &mut [u8], a: &mut FlatReceiverAnswer) {
    let expected = r.phase == OPEN && !r.held && f.bytes[0] == r.expected;
    if a.refusal == 5 && expected && r.expected == r.frames && dirty(f, r.length) {
        a.refusal = 14;
    }
}

fn before_7(s: FlatSender, f: FlatFrame, a: &mut FlatSenderAnswer) {
    if a.refusal == 7 && f.bytes[0] == s.frames && dirty(f, s.length) {
        a.refusal = 14;
    }
}

fn idle(r: FlatReceiver) -> FlatReceiver {
    FlatReceiver {
        timeout: r.timeout,
        window: r.window,
        capacity: r.capacity,
        ..FlatReceiver::default()
    }
}

fn closes(r: FlatReceiver, _: FlatFrame, _: &mut [u8], a: &mut FlatReceiverAnswer) {
    if a.refusal == 14 {
        a.next = idle(r);
    }
}

fn counts_as_delivered(r: FlatReceiver, _: FlatFrame, _: &mut [u8], a: &mut FlatReceiverAnswer) {
    if a.refusal == 14 {
        a.next = FlatReceiver {
            phase: DONE,
            frames: r.frames,
            length: r.length,
            ..idle(r)
        };
    }
}

/// The message's bytes alone.
fn stored(r: FlatReceiver, f: FlatFrame, buffer: &mut [u8], a: &mut FlatReceiverAnswer) {
    if a.refusal == 14 {
        take_clean(r, f, buffer, a);
        refuse(a, r, 14);
    }
}

fn wait_restarted(_: FlatReceiver, _: FlatFrame, _: &mut [u8], a: &mut FlatReceiverAnswer) {
    if a.refusal == 14 {
        a.next.wait = 0;
    }
}

fn misses_cleared(_: FlatReceiver, _: FlatFrame, _: &mut [u8], a: &mut FlatReceiverAnswer) {
    if a.refusal == 14 {
        a.next.misses = misses::NONE_AFTER_ACK;
    }
}

fn count_cleared(_: FlatReceiver, _: FlatFrame, _: &mut [u8], a: &mut FlatReceiverAnswer) {
    if a.refusal == 14 {
        a.next.holds = 0;
    }
}

fn draws_nack(_: FlatReceiver, _: FlatFrame, _: &mut [u8], a: &mut FlatReceiverAnswer) {
    if a.refusal == 14 {
        (a.emits, a.frame) = (true, filled(3, &[5]));
    }
}

fn draws_end(r: FlatReceiver, _: FlatFrame, _: &mut [u8], a: &mut FlatReceiverAnswer) {
    if a.refusal == 14 {
        let [low, high] = r.length.to_le_bytes();
        (a.emits, a.frame) = (true, filled(4, &[r.frames, low, high]));
    }
}

fn fails(r: FlatReceiver, _: FlatFrame, _: &mut [u8], a: &mut FlatReceiverAnswer) {
    if a.refusal == 14 {
        (a.outcome, a.refusal, a.cause) = (3, 0, 5);
        (a.emits, a.frame, a.next) = (true, filled(3, &[5]), idle(r));
    }
}

fn ignored(_: FlatReceiver, _: FlatFrame, _: &mut [u8], a: &mut FlatReceiverAnswer) {
    if a.refusal == 14 {
        (a.outcome, a.refusal) = (0, 0);
    }
}

fn refused_6(_: FlatReceiver, _: FlatFrame, _: &mut [u8], a: &mut FlatReceiverAnswer) {
    if a.refusal == 14 {
        a.refusal = 6;
    }
}

fn refused_13(_: FlatReceiver, _: FlatFrame, _: &mut [u8], a: &mut FlatReceiverAnswer) {
    if a.refusal == 14 {
        a.refusal = 13;
    }
}

/// The longest message fills its last frame, so nothing is found in any.
fn by_longest(r: FlatReceiver, f: FlatFrame, buffer: &mut [u8], a: &mut FlatReceiverAnswer) {
    if a.refusal == 14 {
        take_clean(r, f, buffer, a);
    }
}

fn by_capacity(r: FlatReceiver, f: FlatFrame, buffer: &mut [u8], a: &mut FlatReceiverAnswer) {
    if a.refusal == 14 && !dirty(f, r.capacity) {
        take_clean(r, f, buffer, a);
    }
}

fn first_skipped(r: FlatReceiver, f: FlatFrame, buffer: &mut [u8], a: &mut FlatReceiverAnswer) {
    if a.refusal == 14
        && bytes_behind(f, r.length)[1..]
            .iter()
            .all(|&byte| byte == 0xFF)
    {
        take_clean(r, f, buffer, a);
    }
}

fn last_skipped(r: FlatReceiver, f: FlatFrame, buffer: &mut [u8], a: &mut FlatReceiverAnswer) {
    let judged = FlatFrame {
        bytes: [&f.bytes[..7], &[0xFF]].concat().try_into().expect("eight"),
        ..f
    };
    if a.refusal == 14 && !dirty(judged, r.length) {
        take_clean(r, f, buffer, a);
    }
}

fn zeros_pass(r: FlatReceiver, f: FlatFrame, buffer: &mut [u8], a: &mut FlatReceiverAnswer) {
    let passes = |byte: &u8| matches!(byte, 0x00 | 0xFF);
    if a.refusal == 14 && bytes_behind(f, r.length).iter().all(passes) {
        take_clean(r, f, buffer, a);
    }
}

fn one_will_do(r: FlatReceiver, f: FlatFrame, buffer: &mut [u8], a: &mut FlatReceiverAnswer) {
    if a.refusal == 14 && bytes_behind(f, r.length).contains(&0xFF) {
        take_clean(r, f, buffer, a);
    }
}

fn clean_refused(r: FlatReceiver, f: FlatFrame, _: &mut [u8], a: &mut FlatReceiverAnswer) {
    if a.outcome == 2 && !bytes_behind(f, r.length).is_empty() {
        refuse(a, r, 14);
    }
}

fn full_refused(r: FlatReceiver, f: FlatFrame, _: &mut [u8], a: &mut FlatReceiverAnswer) {
    if a.outcome == 2 && bytes_behind(f, r.length).is_empty() {
        refuse(a, r, 14);
    }
}

/// Filler is looked for one place too soon.
fn message_judged(r: FlatReceiver, f: FlatFrame, _: &mut [u8], a: &mut FlatReceiverAnswer) {
    if a.outcome == 2 && f.bytes[7 - bytes_behind(f, r.length).len()] != 0xFF {
        refuse(a, r, 14);
    }
}
