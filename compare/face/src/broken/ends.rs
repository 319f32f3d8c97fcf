//! Mistakes in the ends. Those that document 01 names come first.

use super::Mistake;
use crate::values::*;

const OPENING: u8 = 1;
pub(super) const SENDING: u8 = 2;
pub(super) const WAITING: u8 = 3;
const SHORT: u8 = 4;
/// The receiver's phases.
pub(super) const DONE: u8 = 1;
pub(super) const OPEN: u8 = 2;

pub const MISTAKES: &[(&str, Mistake)] = &[
    (
        "misses cleared on a repeated LM_ACK",
        Mistake::SenderHear(misses_cleared),
    ),
    (
        "the receiver's wait restarted by an ignored frame",
        Mistake::ReceiverHear(wait_restarted),
    ),
    (
        "the sender's wait restarted by an ignored frame",
        Mistake::SenderHear(sender_wait_restarted),
    ),
    ("filler copied past L", Mistake::ReceiverHear(filler_copied)),
    (
        "silence when the last frame comes again",
        Mistake::ReceiverHear(silent_at_last),
    ),
    (
        "a second announcement reopens",
        Mistake::ReceiverHear(reopens),
    ),
    (
        "EndofACK has L high byte first",
        Mistake::ReceiverHear(high_byte_first),
    ),
    (
        "7 before 6 at the sender",
        Mistake::SenderHear(sender_7_before_6),
    ),
    (
        "7 before 6 at the receiver",
        Mistake::ReceiverHear(receiver_7_before_6),
    ),
    ("6 before 5", Mistake::ReceiverHear(receiver_6_before_5)),
    (
        "a buffer of 1786 is taken",
        Mistake::ReceiverHear(buffer_1786),
    ),
    ("a gap of 11 is made", Mistake::SenderMake(gap_11)),
    ("a gap of 256 + 1 is made", Mistake::SenderMake(gap_257)),
    (
        "a window of 255 is refused",
        Mistake::ReceiverMake(window_255),
    ),
    ("a capacity of 8 is made", Mistake::ReceiverMake(capacity_8)),
    ("2 before 3", Mistake::SenderBegin(begin_2_before_3)),
    ("8 bytes go long", Mistake::SenderBegin(eight_long)),
    (
        "begin's frame is not counted",
        Mistake::SenderBegin(begin_uncounted),
    ),
    ("post is counted", Mistake::SenderPost(post_counted)),
    ("post takes 9 bytes", Mistake::SenderPost(post_9)),
    (
        "another lent length is taken",
        Mistake::SenderTick(lent_unjudged),
    ),
    (
        "a short transfer's end emits NACK 3",
        Mistake::SenderTick(short_nack),
    ),
    (
        "the closing frame is not counted",
        Mistake::SenderTick(closing_uncounted),
    ),
    (
        "the sending time ends a tick late",
        Mistake::SenderTick(late_by_one),
    ),
    ("the second miss fails", Mistake::SenderTick(second_miss)),
    (
        "a timeout in Waiting sends the window's first frame",
        Mistake::SenderTick(first_again),
    ),
    (
        "Waiting begins with wait 1",
        Mistake::SenderTick(waiting_at_1),
    ),
    (
        "the count of frames passes 65535",
        Mistake::SenderTick(count_wraps),
    ),
    ("a window one too long", Mistake::SenderHear(window_long)),
    ("s > N before c 0", Mistake::SenderHear(n_before_0)),
    (
        "an s below the last start is taken",
        Mistake::SenderHear(lower_start),
    ),
    (
        "Opening takes EndofACK",
        Mistake::SenderHear(end_in_opening),
    ),
    (
        "NACK ends a short transfer",
        Mistake::SenderHear(nack_in_short),
    ),
    (
        "a NACK is reported with its own cause",
        Mistake::SenderHear(own_cause),
    ),
    (
        "the timeout keeps the old window",
        Mistake::ReceiverTick(old_window),
    ),
    (
        "the receiver's misses are forgotten",
        Mistake::ReceiverTick(forgets_misses),
    ),
    ("NACK 1 before NACK 5", Mistake::ReceiverHear(nack_1_first)),
    (
        "an announcement with e > 1 is answered",
        Mistake::ReceiverHear(answered_later),
    ),
    (
        "SM_URM is acknowledged",
        Mistake::ReceiverHear(urm_acknowledged),
    ),
    (
        "a short delivery forgets the last one",
        Mistake::ReceiverHear(short_forgets),
    ),
    (
        "a stored byte is moved by one",
        Mistake::ReceiverHear(moved_byte),
    ),
    (
        "a refused hearing writes the buffer",
        Mistake::ReceiverHear(refused_writes),
    ),
];

/// Takes the frame of an answer away.
fn silence(emits: &mut bool, frame: &mut FlatFrame) {
    *emits = false;
    *frame = FlatFrame::default();
}

pub(super) fn filled(kind: u8, first: &[u8]) -> FlatFrame {
    let mut bytes = [0xFF; 8];
    bytes[..first.len()].copy_from_slice(first);
    FlatFrame { kind, bytes }
}

fn misses_cleared(s: FlatSender, f: FlatFrame, a: &mut FlatSenderAnswer) {
    let windowed = s.phase == SENDING || s.phase == WAITING;
    if windowed && f.kind == 2 && f.bytes[0] == s.start && a.next.phase == SENDING {
        a.next.misses = 0;
    }
}

fn wait_restarted(r: FlatReceiver, f: FlatFrame, _: &mut [u8], a: &mut FlatReceiverAnswer) {
    if r.phase == OPEN && f.kind == 1 && a.outcome == 0 && a.next == r {
        a.next.wait = 0;
    }
}

fn sender_wait_restarted(s: FlatSender, f: FlatFrame, a: &mut FlatSenderAnswer) {
    if s.phase == WAITING && f.kind == 2 && a.outcome == 0 && a.next == s {
        a.next.wait = 0;
    }
}

/// Stores whatever the frame carries.
fn filler_copied(r: FlatReceiver, f: FlatFrame, buffer: &mut [u8], a: &mut FlatReceiverAnswer) {
    if r.phase == OPEN && a.outcome == 2 {
        let start = 7 * (usize::from(r.expected) - 1);
        buffer[start..start + 7].copy_from_slice(&f.bytes[1..]);
    }
}

fn silent_at_last(r: FlatReceiver, _: FlatFrame, _: &mut [u8], a: &mut FlatReceiverAnswer) {
    if r.phase == DONE && a.frame.kind == 4 {
        silence(&mut a.emits, &mut a.frame);
    }
}

/// At e = 1, where it shows in wait and misses.
fn reopens(r: FlatReceiver, f: FlatFrame, _: &mut [u8], a: &mut FlatReceiverAnswer) {
    if r.phase == OPEN && f.kind == 1 && f.bytes[0] == 0 && a.emits {
        (a.next.wait, a.next.misses) = (0, misses::NONE_AFTER_ACK);
    }
}

fn high_byte_first(_: FlatReceiver, _: FlatFrame, _: &mut [u8], a: &mut FlatReceiverAnswer) {
    if a.frame.kind == 4 {
        a.frame.bytes.swap(1, 2);
    }
}

fn sender_7_before_6(_: FlatSender, f: FlatFrame, a: &mut FlatSenderAnswer) {
    if a.refusal == 6 && matches!(f.kind, 1 | 5 | 7) {
        a.refusal = 7;
    }
}

fn receiver_7_before_6(_: FlatReceiver, f: FlatFrame, _: &mut [u8], a: &mut FlatReceiverAnswer) {
    if a.refusal == 6 && matches!(f.kind, 2 | 4 | 6) {
        a.refusal = 7;
    }
}

fn receiver_6_before_5(_: FlatReceiver, f: FlatFrame, _: &mut [u8], a: &mut FlatReceiverAnswer) {
    if a.refusal == 5 && !(1..=7).contains(&f.kind) {
        a.refusal = 6;
    }
}

fn buffer_1786(_: FlatReceiver, f: FlatFrame, buffer: &mut [u8], a: &mut FlatReceiverAnswer) {
    if buffer.len() == 1786 && f.kind == 1 {
        (a.outcome, a.refusal) = (0, 0);
    }
}

fn gap_11([gap, timeout, limit]: [u16; 3], made: &mut FlatSenderMade) {
    let right = (1..=10000).contains(&timeout) && (1..=60000).contains(&limit);
    if gap == 11 && right {
        made.refusal = 0;
        made.sender = FlatSender {
            gap,
            timeout,
            limit,
            ..made.sender
        };
    }
}

/// Judged by its low byte.
fn gap_257([gap, timeout, limit]: [u16; 3], made: &mut FlatSenderMade) {
    let right = (1..=10000).contains(&timeout) && (1..=60000).contains(&limit);
    if gap == 257 && right {
        made.refusal = 0;
        made.sender = FlatSender {
            gap: 1,
            timeout,
            limit,
            ..made.sender
        };
    }
}

fn window_255([_, window, _]: [u16; 3], made: &mut FlatReceiverMade) {
    if window == 255 {
        made.refusal = 1;
        made.receiver = FlatReceiver::default();
    }
}

fn capacity_8([timeout, window, capacity]: [u16; 3], made: &mut FlatReceiverMade) {
    let right = (1..=10000).contains(&timeout) && (1..=255).contains(&window);
    if capacity == 8 && right {
        made.refusal = 0;
        made.receiver = FlatReceiver {
            timeout,
            window: window as u8,
            capacity,
            ..made.receiver
        };
    }
}

fn begin_2_before_3(_: FlatSender, message: &[u8], a: &mut FlatSenderAnswer) {
    if a.refusal == 3 && message.is_empty() {
        a.refusal = 2;
    }
}

fn eight_long(_: FlatSender, message: &[u8], a: &mut FlatSenderAnswer) {
    if message.len() == 8 && a.outcome == 0 {
        a.frame = filled(1, &[0, 2, 8, 0]);
        (a.next.phase, a.next.frames) = (OPENING, 2);
    }
}

fn begin_uncounted(_: FlatSender, _: &[u8], a: &mut FlatSenderAnswer) {
    if a.emits {
        a.next.emitted = 0;
    }
}

fn post_counted(s: FlatSender, _: &[u8], a: &mut FlatSenderAnswer) {
    if a.emits && (1..=4).contains(&s.phase) {
        a.next.emitted = s.emitted.saturating_add(1);
    }
}

fn post_9(_: FlatSender, message: &[u8], a: &mut FlatSenderAnswer) {
    if message.len() == 9 {
        (a.emits, a.outcome, a.refusal) = (true, 0, 0);
        a.frame = filled(7, &message[..8]);
    }
}

fn lent_unjudged(_: FlatSender, _: &[u8], a: &mut FlatSenderAnswer) {
    if a.refusal == 4 {
        (a.outcome, a.refusal) = (0, 0);
    }
}

fn short_nack(s: FlatSender, _: &[u8], a: &mut FlatSenderAnswer) {
    if s.phase == SHORT && a.outcome == 3 {
        (a.emits, a.frame) = (true, filled(3, &[3]));
    }
}

fn closing_uncounted(_: FlatSender, _: &[u8], a: &mut FlatSenderAnswer) {
    if a.outcome == 3 && a.emits {
        a.frames -= 1;
    }
}

fn late_by_one(s: FlatSender, _: &[u8], a: &mut FlatSenderAnswer) {
    if a.outcome == 3 && a.cause == 3 {
        (a.outcome, a.cause, a.ticks, a.frames) = (0, 0, 0, 0);
        silence(&mut a.emits, &mut a.frame);
        a.next = FlatSender {
            age: s.age + 1,
            ..s
        };
    }
}

fn second_miss(_: FlatSender, _: &[u8], a: &mut FlatSenderAnswer) {
    if matches!(a.next.phase, OPENING | WAITING) && a.next.misses == 2 && a.next.wait == 0 {
        a.frame = filled(3, &[2]);
    }
}

fn first_again(s: FlatSender, message: &[u8], a: &mut FlatSenderAnswer) {
    if s.phase == WAITING && a.emits && a.outcome == 0 {
        let start = usize::from(s.start);
        a.frame.bytes[0] = s.start;
        for (place, byte) in a.frame.bytes[1..].iter_mut().enumerate() {
            let at = 7 * start.saturating_sub(1) + place;
            *byte = message.get(at).copied().unwrap_or(0xFF);
        }
    }
}

fn waiting_at_1(s: FlatSender, _: &[u8], a: &mut FlatSenderAnswer) {
    if s.phase == SENDING && a.next.phase == WAITING {
        a.next.wait = 1;
    }
}

fn count_wraps(s: FlatSender, _: &[u8], a: &mut FlatSenderAnswer) {
    if s.emitted == 65535 && a.emits && a.outcome == 0 {
        a.next.emitted = 0;
    }
}

fn window_long(s: FlatSender, f: FlatFrame, a: &mut FlatSenderAnswer) {
    let taken = f.kind == 2 && a.next.phase == SENDING && a.next != s;
    if taken && a.next.last < a.next.frames {
        a.next.last += 1;
    }
}

fn n_before_0(s: FlatSender, f: FlatFrame, a: &mut FlatSenderAnswer) {
    let long = matches!(s.phase, OPENING..=WAITING);
    if long && f.kind == 2 && f.bytes[0] > s.frames && f.bytes[1] == 0 && a.outcome == 0 {
        (a.outcome, a.cause) = (3, 4);
        (a.emits, a.frame) = (true, filled(3, &[4]));
    }
}

fn lower_start(s: FlatSender, f: FlatFrame, a: &mut FlatSenderAnswer) {
    let windowed = s.phase == SENDING || s.phase == WAITING;
    let whole = f.kind == 2 && f.bytes[0] > 0 && f.bytes[1] > 0 && a.outcome == 0;
    if windowed && whole && f.bytes[0] < s.start {
        (a.next.phase, a.next.start, a.next.due) = (SENDING, f.bytes[0], f.bytes[0]);
        (a.next.wait, a.next.misses, a.next.count) = (0, 0, 0);
    }
}

fn end_in_opening(s: FlatSender, f: FlatFrame, a: &mut FlatSenderAnswer) {
    let [low, high] = s.length.to_le_bytes();
    if s.phase == OPENING && f == filled(4, &[s.frames, low, high]) {
        (a.outcome, a.ticks, a.frames) = (5, s.age, s.emitted);
    }
}

fn nack_in_short(s: FlatSender, f: FlatFrame, a: &mut FlatSenderAnswer) {
    if s.phase == SHORT && f.kind == 3 && a.outcome == 0 {
        (a.outcome, a.cause) = (3, 1);
    }
}

fn own_cause(_: FlatSender, f: FlatFrame, a: &mut FlatSenderAnswer) {
    if f.kind == 3 && a.outcome == 3 {
        a.cause = f.bytes[0];
    }
}

fn old_window(r: FlatReceiver, a: &mut FlatReceiverAnswer) {
    if a.emits && a.outcome == 0 {
        a.next.last = r.last;
    }
}

/// None is counted at a timeout.
fn forgets_misses(r: FlatReceiver, a: &mut FlatReceiverAnswer) {
    if r.phase == OPEN && !r.held && a.emits && a.outcome == 0 {
        a.next.misses = misses::NONE_AFTER_ACK;
    }
}

fn nack_1_first(r: FlatReceiver, f: FlatFrame, _: &mut [u8], a: &mut FlatReceiverAnswer) {
    let length = u16::from_le_bytes([f.bytes[2], f.bytes[3]]);
    if a.frame == filled(3, &[5]) && r.phase != OPEN && length > r.capacity {
        a.frame = filled(3, &[1]);
    }
}

fn answered_later(r: FlatReceiver, f: FlatFrame, _: &mut [u8], a: &mut FlatReceiverAnswer) {
    let [low, high] = r.length.to_le_bytes();
    let same = f == filled(1, &[0, r.frames, low, high]);
    if r.phase == OPEN && same && a.outcome == 0 {
        (a.emits, a.frame) = (true, filled(2, &[1, r.last]));
    }
}

fn urm_acknowledged(_: FlatReceiver, f: FlatFrame, _: &mut [u8], a: &mut FlatReceiverAnswer) {
    if f.kind == 7 && a.outcome == 4 {
        (a.emits, a.frame) = (true, filled(6, &[f.bytes[0]]));
    }
}

fn short_forgets(r: FlatReceiver, _: FlatFrame, _: &mut [u8], a: &mut FlatReceiverAnswer) {
    if r.phase == DONE && a.outcome == 4 {
        (a.next.phase, a.next.frames, a.next.length) = (0, 0, 0);
    }
}

fn moved_byte(r: FlatReceiver, _: FlatFrame, buffer: &mut [u8], a: &mut FlatReceiverAnswer) {
    let place = 7 * (usize::from(r.expected).saturating_sub(1));
    if r.phase == OPEN && a.next.expected > r.expected && place + 1 < buffer.len() {
        buffer.swap(place, place + 1);
    }
}

fn refused_writes(_: FlatReceiver, f: FlatFrame, buffer: &mut [u8], a: &mut FlatReceiverAnswer) {
    if a.outcome == 1 && f.kind == 1 && !buffer.is_empty() {
        buffer[0] ^= 1;
    }
}
