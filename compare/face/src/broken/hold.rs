//! Mistakes in document 02's E2: hold and resume, what a held receiver does, and the sender's rule for it.

use super::ends::{filled, OPEN, SENDING, WAITING};
use super::Mistake;
use crate::interface::Ends;
use crate::values::*;
use crate::Reference;

pub const MISTAKES: &[(&str, Mistake)] = &[
    (
        "a hold while frame 1 is expected",
        Mistake::ReceiverHold(held_at_1),
    ),
    (
        "a hold without a connection is quiet",
        Mistake::ReceiverHold(held_idle),
    ),
    ("a second hold is taken", Mistake::ReceiverHold(held_twice)),
    (
        "the hold's own LM_ACK is counted",
        Mistake::ReceiverHold(own_counted),
    ),
    (
        "a hold restarts the wait",
        Mistake::ReceiverHold(wait_by_hold),
    ),
    (
        "a hold clears the misses",
        Mistake::ReceiverHold(misses_by_hold),
    ),
    (
        "a hold clears the count",
        Mistake::ReceiverHold(count_by_hold),
    ),
    (
        "a hold names the frame expected",
        Mistake::ReceiverHold(hold_names_e),
    ),
    (
        "a hold asks for a window",
        Mistake::ReceiverHold(hold_asks_for_2),
    ),
    (
        "a resume of what is not held is taken",
        Mistake::ReceiverResume(resumed_unheld),
    ),
    (
        "a resume without a connection is quiet",
        Mistake::ReceiverResume(resumed_idle),
    ),
    (
        "a resume leaves the mark",
        Mistake::ReceiverResume(mark_left),
    ),
    (
        "a resume restarts the wait",
        Mistake::ReceiverResume(wait_by_resume),
    ),
    (
        "a resume clears the misses",
        Mistake::ReceiverResume(misses_by_resume),
    ),
    (
        "a resume keeps the old window",
        Mistake::ReceiverResume(old_window),
    ),
    (
        "a resume asks for the new window and keeps the old",
        Mistake::ReceiverResume(window_unstored),
    ),
    (
        "a resume clears the count",
        Mistake::ReceiverResume(count_by_resume),
    ),
    (
        "the 20th held timeout fails",
        Mistake::ReceiverTick(twentieth_fails),
    ),
    (
        "the 21st held timeout goes",
        Mistake::ReceiverTick(twenty_first_goes),
    ),
    (
        "misses grow while held",
        Mistake::ReceiverTick(misses_while_held),
    ),
    (
        "a held timeout clears the misses",
        Mistake::ReceiverTick(misses_cleared),
    ),
    (
        "a held timeout is not counted",
        Mistake::ReceiverTick(uncounted),
    ),
    (
        "a held timeout names the frame expected",
        Mistake::ReceiverTick(timeout_names_e),
    ),
    (
        "a held timeout moves the window",
        Mistake::ReceiverTick(window_moves),
    ),
    (
        "the mark outlives the last held timeout",
        Mistake::ReceiverTick(mark_after_timeouts),
    ),
    (
        "the wait stands still while held",
        Mistake::ReceiverTick(wait_stands),
    ),
    (
        "a miss is counted as a held timeout",
        Mistake::ReceiverTick(miss_counted),
    ),
    (
        "information is stored while held",
        Mistake::ReceiverHear(stored),
    ),
    (
        "the frame expected is taken while held",
        Mistake::ReceiverHear(taken),
    ),
    (
        "the wait is restarted by a frame while held",
        Mistake::ReceiverHear(wait_by_frame),
    ),
    ("NACK 4 while held", Mistake::ReceiverHear(nack_4)),
    (
        "an announcement is answered while held",
        Mistake::ReceiverHear(announcement),
    ),
    (
        "an announcement clears the hold",
        Mistake::ReceiverHear(reopened),
    ),
    (
        "a NACK is ignored while held",
        Mistake::ReceiverHear(nack_ignored),
    ),
    (
        "SM_RM is not acknowledged while held",
        Mistake::ReceiverHear(short_silent),
    ),
    (
        "SM_URM is ignored while held",
        Mistake::ReceiverHear(short_ignored),
    ),
    (
        "a held receiver refuses nothing",
        Mistake::ReceiverHear(nothing_refused),
    ),
    (
        "the mark outlives a NACK",
        Mistake::ReceiverHear(mark_after_nack),
    ),
    (
        "an opening takes up an old mark",
        Mistake::ReceiverHear(old_mark),
    ),
    (
        "an opening takes up an old count",
        Mistake::ReceiverHear(old_count),
    ),
    (
        "a frame taken clears the count",
        Mistake::ReceiverHear(count_by_frame),
    ),
    ("the rule is left out", Mistake::SenderHear(left_out)),
    ("the rule takes a count of 2", Mistake::SenderHear(count_2)),
    ("the rule takes a start of 0", Mistake::SenderHear(start_0)),
    (
        "the rule takes a start two below",
        Mistake::SenderHear(two_below),
    ),
    (
        "the rule goes before NACK 4",
        Mistake::SenderHear(before_nack_4),
    ),
    (
        "the rule lowers the last start",
        Mistake::SenderHear(start_lowered),
    ),
    (
        "the rule keeps the misses",
        Mistake::SenderHear(misses_kept),
    ),
    (
        "the rule stands in Waiting only",
        Mistake::SenderHear(waiting_only),
    ),
    (
        "the rule stands in Sending only",
        Mistake::SenderHear(sending_only),
    ),
    (
        "the rule keeps the gap count",
        Mistake::SenderHear(gap_count_kept),
    ),
    (
        "the rule sends on to the window's end",
        Mistake::SenderHear(sends_on),
    ),
    (
        "the rule sends on to the last start",
        Mistake::SenderHear(sends_two),
    ),
];

/// The call is taken after all: no refusal, and this frame.
fn take(a: &mut FlatReceiverAnswer, frame: FlatFrame) {
    (a.outcome, a.refusal) = (0, 0);
    (a.emits, a.frame) = (true, frame);
}

/// A hold or resume that was not refused.
fn is_taken(a: &FlatReceiverAnswer) -> bool {
    a.outcome == 0
}

fn pause(r: FlatReceiver) -> FlatFrame {
    filled(2, &[r.expected.saturating_sub(1), 1])
}

pub(super) fn fail(r: FlatReceiver, a: &mut FlatReceiverAnswer, cause: u8) {
    (a.outcome, a.cause) = (3, cause);
    (a.emits, a.frame) = (true, filled(3, &[cause]));
    a.next = FlatReceiver {
        timeout: r.timeout,
        window: r.window,
        capacity: r.capacity,
        ..FlatReceiver::default()
    };
}

fn held_at_1(r: FlatReceiver, a: &mut FlatReceiverAnswer) {
    if r.phase == OPEN && r.expected == 1 && !r.held {
        take(a, pause(r));
        a.next.held = true;
    }
}

fn held_idle(r: FlatReceiver, a: &mut FlatReceiverAnswer) {
    if r.phase != OPEN {
        (a.outcome, a.refusal) = (0, 0);
    }
}

fn held_twice(r: FlatReceiver, a: &mut FlatReceiverAnswer) {
    if r.phase == OPEN && r.held {
        take(a, pause(r));
    }
}

fn own_counted(r: FlatReceiver, a: &mut FlatReceiverAnswer) {
    if is_taken(a) {
        a.next.holds = r.holds.saturating_add(1);
    }
}

fn wait_by_hold(_: FlatReceiver, a: &mut FlatReceiverAnswer) {
    if is_taken(a) {
        a.next.wait = 0;
    }
}

fn misses_by_hold(_: FlatReceiver, a: &mut FlatReceiverAnswer) {
    if is_taken(a) {
        a.next.misses = misses::NONE_AFTER_ACK;
    }
}

fn count_by_hold(_: FlatReceiver, a: &mut FlatReceiverAnswer) {
    if is_taken(a) {
        a.next.holds = 0;
    }
}

fn hold_names_e(r: FlatReceiver, a: &mut FlatReceiverAnswer) {
    if is_taken(a) {
        a.frame.bytes[0] = r.expected;
    }
}

fn hold_asks_for_2(_: FlatReceiver, a: &mut FlatReceiverAnswer) {
    if is_taken(a) {
        a.frame.bytes[1] = 2;
    }
}

fn resumed_unheld(r: FlatReceiver, a: &mut FlatReceiverAnswer) {
    if r.phase == OPEN && !r.held {
        *a = Reference.receiver_resume(FlatReceiver { held: true, ..r });
    }
}

fn resumed_idle(r: FlatReceiver, a: &mut FlatReceiverAnswer) {
    if r.phase != OPEN {
        (a.outcome, a.refusal) = (0, 0);
    }
}

fn mark_left(r: FlatReceiver, a: &mut FlatReceiverAnswer) {
    if r.phase == OPEN {
        a.next.held = r.held;
    }
}

fn wait_by_resume(_: FlatReceiver, a: &mut FlatReceiverAnswer) {
    if is_taken(a) {
        a.next.wait = 0;
    }
}

fn misses_by_resume(_: FlatReceiver, a: &mut FlatReceiverAnswer) {
    if is_taken(a) {
        a.next.misses = misses::NONE_AFTER_ACK;
    }
}

fn old_window(r: FlatReceiver, a: &mut FlatReceiverAnswer) {
    if is_taken(a) {
        a.next.last = r.last;
        a.frame.bytes[1] = r.last.wrapping_sub(r.expected).wrapping_add(1);
    }
}

fn window_unstored(r: FlatReceiver, a: &mut FlatReceiverAnswer) {
    if is_taken(a) {
        a.next.last = r.last;
    }
}

fn count_by_resume(_: FlatReceiver, a: &mut FlatReceiverAnswer) {
    if is_taken(a) {
        a.next.holds = 0;
    }
}

/// A tick at which a held receiver's wait is over and the connection goes on.
fn held_timeout(r: FlatReceiver, a: &FlatReceiverAnswer) -> bool {
    r.phase == OPEN && r.held && a.emits && a.outcome == 0
}

fn twentieth_fails(r: FlatReceiver, a: &mut FlatReceiverAnswer) {
    if held_timeout(r, a) && a.next.holds == 20 {
        fail(r, a, 2);
    }
}

fn twenty_first_goes(r: FlatReceiver, a: &mut FlatReceiverAnswer) {
    if r.phase == OPEN && r.held && a.outcome == 3 {
        a.cause = 0;
        take(a, pause(r));
        a.next = FlatReceiver {
            wait: 0,
            holds: 21,
            ..r
        };
    }
}

/// As ones after an LM_ACK; two of them stay two.
fn misses_while_held(r: FlatReceiver, a: &mut FlatReceiverAnswer) {
    if held_timeout(r, a) {
        a.next.misses = match a.next.misses {
            misses::ONE_AFTER_ACK | misses::TWO_AFTER_ACK => misses::TWO_AFTER_ACK,
            _ => misses::ONE_AFTER_ACK,
        };
    }
}

fn misses_cleared(r: FlatReceiver, a: &mut FlatReceiverAnswer) {
    if held_timeout(r, a) {
        a.next.misses = misses::NONE_AFTER_ACK;
    }
}

fn uncounted(r: FlatReceiver, a: &mut FlatReceiverAnswer) {
    if held_timeout(r, a) {
        a.next.holds = r.holds;
    }
}

fn timeout_names_e(r: FlatReceiver, a: &mut FlatReceiverAnswer) {
    if held_timeout(r, a) {
        a.frame.bytes[0] = r.expected;
    }
}

fn window_moves(r: FlatReceiver, a: &mut FlatReceiverAnswer) {
    if held_timeout(r, a) {
        a.next.last = Reference.receiver_resume(r).next.last;
    }
}

fn mark_after_timeouts(r: FlatReceiver, a: &mut FlatReceiverAnswer) {
    if r.phase == OPEN && a.outcome == 3 {
        a.next.held = r.held;
    }
}

fn wait_stands(r: FlatReceiver, a: &mut FlatReceiverAnswer) {
    if r.phase == OPEN && r.held && !a.emits {
        a.next.wait = r.wait;
    }
}

fn miss_counted(r: FlatReceiver, a: &mut FlatReceiverAnswer) {
    if r.phase == OPEN && !r.held && a.emits && a.outcome == 0 {
        a.next.holds = r.holds.saturating_add(1);
    }
}

/// A frame of kind 1 that a held receiver heard and did not refuse.
fn passed_over(r: FlatReceiver, f: FlatFrame, a: &FlatReceiverAnswer) -> bool {
    r.phase == OPEN && r.held && f.kind == 1 && a.outcome == 0
}

/// The bytes alone.
fn stored(r: FlatReceiver, f: FlatFrame, buffer: &mut [u8], a: &mut FlatReceiverAnswer) {
    if passed_over(r, f, a) {
        let free = FlatReceiver { held: false, ..r };
        Reference.receiver_hear(free, f, buffer);
    }
}

fn taken(r: FlatReceiver, f: FlatFrame, buffer: &mut [u8], a: &mut FlatReceiverAnswer) {
    if passed_over(r, f, a) && f.bytes[0] == r.expected && r.expected < r.frames {
        let free = FlatReceiver { held: false, ..r };
        *a = Reference.receiver_hear(free, f, buffer);
        a.next.held = true;
    }
}

fn wait_by_frame(r: FlatReceiver, f: FlatFrame, _: &mut [u8], a: &mut FlatReceiverAnswer) {
    if passed_over(r, f, a) && f.bytes[0] == r.expected {
        a.next.wait = 0;
    }
}

fn nack_4(r: FlatReceiver, f: FlatFrame, _: &mut [u8], a: &mut FlatReceiverAnswer) {
    if passed_over(r, f, a) && f.bytes[0] > r.frames {
        fail(r, a, 4);
    }
}

/// The one of this connection.
fn announcement(r: FlatReceiver, f: FlatFrame, _: &mut [u8], a: &mut FlatReceiverAnswer) {
    let [low, high] = r.length.to_le_bytes();
    if passed_over(r, f, a) && f == filled(1, &[0, r.frames, low, high]) {
        take(a, filled(2, &[1, r.last]));
    }
}

fn reopened(r: FlatReceiver, f: FlatFrame, _: &mut [u8], a: &mut FlatReceiverAnswer) {
    if passed_over(r, f, a) && f.bytes[0] == 0 {
        a.next.held = false;
    }
}

fn nack_ignored(r: FlatReceiver, f: FlatFrame, _: &mut [u8], a: &mut FlatReceiverAnswer) {
    if r.phase == OPEN && r.held && f.kind == 3 && a.outcome == 3 {
        (a.outcome, a.cause, a.next) = (0, 0, r);
    }
}

fn short_silent(r: FlatReceiver, f: FlatFrame, _: &mut [u8], a: &mut FlatReceiverAnswer) {
    if r.phase == OPEN && r.held && f.kind == 5 && a.outcome == 4 {
        (a.emits, a.frame) = (false, FlatFrame::default());
    }
}

fn short_ignored(r: FlatReceiver, f: FlatFrame, _: &mut [u8], a: &mut FlatReceiverAnswer) {
    if r.phase == OPEN && r.held && f.kind == 7 && a.outcome == 4 {
        (a.outcome, a.bytes) = (0, [0; 8]);
    }
}

fn nothing_refused(r: FlatReceiver, f: FlatFrame, _: &mut [u8], a: &mut FlatReceiverAnswer) {
    if r.phase == OPEN && r.held && f.kind == 1 {
        (a.outcome, a.refusal) = (0, 0);
    }
}

fn mark_after_nack(r: FlatReceiver, _: FlatFrame, _: &mut [u8], a: &mut FlatReceiverAnswer) {
    if r.phase == OPEN && a.outcome == 3 {
        a.next.held = r.held;
    }
}

/// A receiver that is Idle has neither mark nor count nor misses: a caller may leave anything there.
pub(super) fn opens(r: FlatReceiver, a: &FlatReceiverAnswer) -> bool {
    r.phase != OPEN && a.next.phase == OPEN
}

fn old_mark(r: FlatReceiver, _: FlatFrame, _: &mut [u8], a: &mut FlatReceiverAnswer) {
    if opens(r, a) {
        a.next.held = r.held;
    }
}

fn old_count(r: FlatReceiver, _: FlatFrame, _: &mut [u8], a: &mut FlatReceiverAnswer) {
    if opens(r, a) {
        a.next.holds = r.holds;
    }
}

fn count_by_frame(r: FlatReceiver, _: FlatFrame, _: &mut [u8], a: &mut FlatReceiverAnswer) {
    if r.phase == OPEN && a.next.phase == OPEN && a.next.expected > r.expected {
        a.next.holds = 0;
    }
}

/// LM_ACK s, c in Sending or Waiting, with s so many below the last start; well filled.
fn asks_below(s: FlatSender, f: FlatFrame, below: u8, c: u8) -> bool {
    let windowed = s.phase == SENDING || s.phase == WAITING;
    let start = s.start.checked_sub(below);
    windowed && start.is_some_and(|start| f == filled(2, &[start, c]))
}

/// The rule was met.
fn met(s: FlatSender, f: FlatFrame, a: &FlatSenderAnswer) -> bool {
    asks_below(s, f, 1, 1) && f.bytes[0] != 0 && a.outcome == 0
}

/// What the rule makes of a sender.
fn send_again(s: FlatSender, number: u8) -> FlatSender {
    FlatSender {
        phase: SENDING,
        wait: 0,
        misses: 0,
        due: number,
        last: number,
        count: 0,
        ..s
    }
}

fn left_out(s: FlatSender, f: FlatFrame, a: &mut FlatSenderAnswer) {
    if met(s, f, a) {
        a.next = kept(s);
    }
}

/// The sender as it was, without what its phase has not.
fn kept(s: FlatSender) -> FlatSender {
    Reference.sender_hear(s, filled(2, &[0, 0])).next
}

fn count_2(s: FlatSender, f: FlatFrame, a: &mut FlatSenderAnswer) {
    if asks_below(s, f, 1, 2) && f.bytes[0] != 0 && a.outcome == 0 {
        a.next = send_again(s, f.bytes[0]);
    }
}

fn start_0(s: FlatSender, f: FlatFrame, a: &mut FlatSenderAnswer) {
    if asks_below(s, f, 1, 1) && f.bytes[0] == 0 {
        a.next = send_again(s, 0);
    }
}

fn two_below(s: FlatSender, f: FlatFrame, a: &mut FlatSenderAnswer) {
    if asks_below(s, f, 2, 1) && f.bytes[0] != 0 && a.outcome == 0 {
        a.next = send_again(s, f.bytes[0]);
    }
}

/// Where the last start is above N, as only a caller can make it.
fn before_nack_4(s: FlatSender, f: FlatFrame, a: &mut FlatSenderAnswer) {
    if asks_below(s, f, 1, 1) && a.outcome == 3 {
        *a = Reference.sender_hear(s, filled(2, &[0, 0]));
        a.next = send_again(s, f.bytes[0]);
    }
}

fn start_lowered(s: FlatSender, f: FlatFrame, a: &mut FlatSenderAnswer) {
    if met(s, f, a) {
        a.next.start = f.bytes[0];
    }
}

fn misses_kept(s: FlatSender, f: FlatFrame, a: &mut FlatSenderAnswer) {
    if met(s, f, a) {
        a.next.misses = s.misses;
    }
}

fn waiting_only(s: FlatSender, f: FlatFrame, a: &mut FlatSenderAnswer) {
    if met(s, f, a) && s.phase == SENDING {
        a.next = kept(s);
    }
}

fn sending_only(s: FlatSender, f: FlatFrame, a: &mut FlatSenderAnswer) {
    if met(s, f, a) && s.phase == WAITING {
        a.next = kept(s);
    }
}

fn gap_count_kept(s: FlatSender, f: FlatFrame, a: &mut FlatSenderAnswer) {
    if met(s, f, a) && s.phase == SENDING {
        a.next.count = s.count;
    }
}

fn sends_on(s: FlatSender, f: FlatFrame, a: &mut FlatSenderAnswer) {
    if met(s, f, a) {
        a.next.last = s.last;
    }
}

fn sends_two(s: FlatSender, f: FlatFrame, a: &mut FlatSenderAnswer) {
    if met(s, f, a) {
        a.next.last = s.start;
    }
}
