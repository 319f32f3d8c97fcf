//! Mistakes in document 02's E4: the type of a timeout, what decides it, and what is counted.

use super::ends::OPEN;
use super::hold::{fail, opens};
use super::Mistake;
use crate::interface::Ends;
use crate::values::misses::*;
use crate::values::*;
use crate::Reference;

pub const MISTAKES: &[(&str, Mistake)] = &[
    (
        "the count goes on over another type",
        Mistake::ReceiverTick(goes_on),
    ),
    (
        "the count starts again on the same type",
        Mistake::ReceiverTick(starts_again),
    ),
    (
        "timeouts of whatever type are counted together",
        Mistake::ReceiverTick(together),
    ),
    (
        "the second of one type fails",
        Mistake::ReceiverTick(second_fails),
    ),
    (
        "the third of one type goes on",
        Mistake::ReceiverTick(third_goes_on),
    ),
    (
        "the LM_ACK of a timeout is not waited after",
        Mistake::ReceiverTick(type_kept),
    ),
    (
        "a timeout after a frame is not counted",
        Mistake::ReceiverTick(not_counted),
    ),
    (
        "a timeout after a frame fails as if it were the third",
        Mistake::ReceiverTick(frame_fails),
    ),
    (
        "a tick before T counts as an LM_ACK",
        Mistake::ReceiverTick(ack_by_tick),
    ),
    (
        "a held timeout leaves the wait after a frame",
        Mistake::ReceiverTick(frame_after_held_timeout),
    ),
    (
        "a held timeout forgets one after a frame",
        Mistake::ReceiverTick(forgotten_by_held_timeout),
    ),
    (
        "the count starts again after a held timeout",
        Mistake::ReceiverTick(starts_after_held),
    ),
    (
        "a hold leaves the wait after a frame",
        Mistake::ReceiverHold(frame_after_hold),
    ),
    (
        "a hold forgets a timeout after a frame",
        Mistake::ReceiverHold(forgotten_by_hold),
    ),
    (
        "a hold counts as a timeout",
        Mistake::ReceiverHold(hold_counts),
    ),
    (
        "a refused hold clears the count",
        Mistake::ReceiverHold(cleared_by_refused_hold),
    ),
    (
        "a resume leaves the wait after a frame",
        Mistake::ReceiverResume(frame_after_resume),
    ),
    (
        "a resume waits after the last frame",
        Mistake::ReceiverResume(frame_by_resume),
    ),
    (
        "a resume forgets a timeout after a frame",
        Mistake::ReceiverResume(forgotten_by_resume),
    ),
    (
        "a refused resume counts as an LM_ACK",
        Mistake::ReceiverResume(ack_by_refused_resume),
    ),
    (
        "a frame inside a window is not waited after",
        Mistake::ReceiverHear(frame_unset),
    ),
    (
        "a frame inside a window keeps the count",
        Mistake::ReceiverHear(kept_inside),
    ),
    (
        "a frame at the window's end is waited after",
        Mistake::ReceiverHear(frame_at_end),
    ),
    (
        "a frame at the window's end keeps the count",
        Mistake::ReceiverHear(kept_at_end),
    ),
    (
        "an ignored frame is waited after",
        Mistake::ReceiverHear(frame_by_ignored),
    ),
    (
        "an ignored frame clears the count",
        Mistake::ReceiverHear(cleared_by_ignored),
    ),
    (
        "a frame while held is waited after",
        Mistake::ReceiverHear(frame_while_held),
    ),
    (
        "an unclean frame is waited after",
        Mistake::ReceiverHear(frame_by_unclean),
    ),
    (
        "an unclean frame counts as an LM_ACK",
        Mistake::ReceiverHear(ack_by_unclean),
    ),
    (
        "a refused frame is waited after",
        Mistake::ReceiverHear(frame_by_refused),
    ),
    (
        "an SM_ACK counts as an LM_ACK",
        Mistake::ReceiverHear(ack_by_short),
    ),
    (
        "a short message is waited after",
        Mistake::ReceiverHear(frame_by_short),
    ),
    (
        "an announcement that comes again clears the count",
        Mistake::ReceiverHear(cleared_by_frame_0),
    ),
    (
        "an announcement that comes again is waited after",
        Mistake::ReceiverHear(frame_by_frame_0),
    ),
    (
        "an opening waits after a frame",
        Mistake::ReceiverHear(opens_after_frame),
    ),
    (
        "an opening takes up old misses",
        Mistake::ReceiverHear(old_misses),
    ),
    (
        "another number of misses is kept",
        Mistake::ReceiverTick(other_kept),
    ),
    (
        "another number of misses is the last one",
        Mistake::ReceiverTick(other_last),
    ),
];

/// A tick at which an open receiver's wait is over.
fn times_out(r: FlatReceiver, a: &FlatReceiverAnswer) -> bool {
    r.phase == OPEN && a.emits
}

/// While no hold stands, and with this number.
fn free(r: FlatReceiver, a: &FlatReceiverAnswer, number: u8) -> bool {
    times_out(r, a) && !r.held && r.misses == number
}

/// While one does, and the connection goes on.
fn held(r: FlatReceiver, a: &FlatReceiverAnswer, number: u8) -> bool {
    times_out(r, a) && r.held && a.outcome == 0 && r.misses == number
}

fn goes_on(r: FlatReceiver, a: &mut FlatReceiverAnswer) {
    if free(r, a, ONE_AFTER_FRAME) {
        a.next.misses = TWO_AFTER_ACK;
    }
}

fn starts_again(r: FlatReceiver, a: &mut FlatReceiverAnswer) {
    if free(r, a, ONE_AFTER_ACK) {
        a.next.misses = ONE_AFTER_ACK;
    }
}

/// As document 01 alone has it: three in a row fail.
fn together(r: FlatReceiver, a: &mut FlatReceiverAnswer) {
    if free(r, a, NONE_AFTER_FRAME) {
        a.next.misses = ONE_AFTER_ACK;
    }
}

fn second_fails(r: FlatReceiver, a: &mut FlatReceiverAnswer) {
    if free(r, a, ONE_AFTER_ACK) {
        fail(r, a, 2);
    }
}

/// So that the fourth would fail, or none.
fn third_goes_on(r: FlatReceiver, a: &mut FlatReceiverAnswer) {
    if free(r, a, TWO_AFTER_ACK) {
        let misses = ONE_AFTER_ACK;
        *a = Reference.receiver_tick(FlatReceiver { misses, ..r });
    }
}

/// The second timeout is again the first after a frame.
fn type_kept(r: FlatReceiver, a: &mut FlatReceiverAnswer) {
    if free(r, a, ONE_AFTER_FRAME) {
        a.next.misses = ONE_AFTER_FRAME;
    }
}

fn not_counted(r: FlatReceiver, a: &mut FlatReceiverAnswer) {
    if free(r, a, NONE_AFTER_FRAME) {
        a.next.misses = NONE_AFTER_ACK;
    }
}

fn frame_fails(r: FlatReceiver, a: &mut FlatReceiverAnswer) {
    if free(r, a, NONE_AFTER_FRAME) {
        fail(r, a, 2);
    }
}

fn ack_by_tick(r: FlatReceiver, a: &mut FlatReceiverAnswer) {
    if r.phase == OPEN && !a.emits && r.misses == NONE_AFTER_FRAME {
        a.next.misses = NONE_AFTER_ACK;
    }
}

/// A state that only a caller makes: the hold's LM_ACK came before.
fn frame_after_held_timeout(r: FlatReceiver, a: &mut FlatReceiverAnswer) {
    if held(r, a, NONE_AFTER_FRAME) {
        a.next.misses = NONE_AFTER_FRAME;
    }
}

fn forgotten_by_held_timeout(r: FlatReceiver, a: &mut FlatReceiverAnswer) {
    if held(r, a, ONE_AFTER_FRAME) {
        a.next.misses = NONE_AFTER_ACK;
    }
}

/// As after one of another type.
fn starts_after_held(r: FlatReceiver, a: &mut FlatReceiverAnswer) {
    if held(r, a, TWO_AFTER_ACK) {
        a.next.misses = ONE_AFTER_ACK;
    }
}

/// A hold or resume with this number that was not refused.
fn taken(r: FlatReceiver, a: &FlatReceiverAnswer, number: u8) -> bool {
    a.outcome == 0 && r.misses == number
}

/// One that was refused, with a connection open.
fn refused(r: FlatReceiver, a: &FlatReceiverAnswer) -> bool {
    a.outcome == 1 && r.phase == OPEN
}

fn frame_after_hold(r: FlatReceiver, a: &mut FlatReceiverAnswer) {
    if taken(r, a, NONE_AFTER_FRAME) {
        a.next.misses = NONE_AFTER_FRAME;
    }
}

fn forgotten_by_hold(r: FlatReceiver, a: &mut FlatReceiverAnswer) {
    if taken(r, a, ONE_AFTER_FRAME) {
        a.next.misses = NONE_AFTER_ACK;
    }
}

fn hold_counts(r: FlatReceiver, a: &mut FlatReceiverAnswer) {
    if taken(r, a, NONE_AFTER_ACK) {
        a.next.misses = ONE_AFTER_ACK;
    }
}

fn cleared_by_refused_hold(r: FlatReceiver, a: &mut FlatReceiverAnswer) {
    if refused(r, a) && counts(r) {
        a.next.misses = NONE_AFTER_ACK;
    }
}

/// A state that only a caller makes, again.
fn frame_after_resume(r: FlatReceiver, a: &mut FlatReceiverAnswer) {
    if taken(r, a, NONE_AFTER_FRAME) {
        a.next.misses = NONE_AFTER_FRAME;
    }
}

fn frame_by_resume(r: FlatReceiver, a: &mut FlatReceiverAnswer) {
    if taken(r, a, NONE_AFTER_ACK) {
        a.next.misses = NONE_AFTER_FRAME;
    }
}

fn forgotten_by_resume(r: FlatReceiver, a: &mut FlatReceiverAnswer) {
    if taken(r, a, ONE_AFTER_FRAME) {
        a.next.misses = NONE_AFTER_ACK;
    }
}

fn ack_by_refused_resume(r: FlatReceiver, a: &mut FlatReceiverAnswer) {
    if refused(r, a) && r.misses == NONE_AFTER_FRAME {
        a.next.misses = NONE_AFTER_ACK;
    }
}

/// A frame was accepted and is not the last; at the window's end it drew an LM_ACK.
fn accepted(r: FlatReceiver, a: &FlatReceiverAnswer, at_end: bool) -> bool {
    let open = r.phase == OPEN && a.next.phase == OPEN;
    open && a.next.expected > r.expected && a.emits == at_end
}

/// Whether timeouts are counted.
fn counts(r: FlatReceiver) -> bool {
    matches!(r.misses, ONE_AFTER_ACK | TWO_AFTER_ACK | ONE_AFTER_FRAME)
}

fn frame_unset(r: FlatReceiver, _: FlatFrame, _: &mut [u8], a: &mut FlatReceiverAnswer) {
    if accepted(r, a, false) {
        a.next.misses = NONE_AFTER_ACK;
    }
}

fn kept_inside(r: FlatReceiver, _: FlatFrame, _: &mut [u8], a: &mut FlatReceiverAnswer) {
    if accepted(r, a, false) && counts(r) {
        a.next.misses = r.misses;
    }
}

fn frame_at_end(r: FlatReceiver, _: FlatFrame, _: &mut [u8], a: &mut FlatReceiverAnswer) {
    if accepted(r, a, true) {
        a.next.misses = NONE_AFTER_FRAME;
    }
}

fn kept_at_end(r: FlatReceiver, _: FlatFrame, _: &mut [u8], a: &mut FlatReceiverAnswer) {
    if accepted(r, a, true) && counts(r) {
        a.next.misses = r.misses;
    }
}

/// An information frame that a receiver passed over.
fn passed_over(r: FlatReceiver, f: FlatFrame, a: &FlatReceiverAnswer, held: bool) -> bool {
    let quiet = a.outcome == 0 && !a.emits && a.next.expected == r.expected;
    r.phase == OPEN && r.held == held && f.kind == 1 && quiet
}

fn frame_by_ignored(r: FlatReceiver, f: FlatFrame, _: &mut [u8], a: &mut FlatReceiverAnswer) {
    if passed_over(r, f, a, false) && r.misses == NONE_AFTER_ACK {
        a.next.misses = NONE_AFTER_FRAME;
    }
}

fn cleared_by_ignored(r: FlatReceiver, f: FlatFrame, _: &mut [u8], a: &mut FlatReceiverAnswer) {
    if passed_over(r, f, a, false) && counts(r) {
        a.next.misses = NONE_AFTER_ACK;
    }
}

fn frame_while_held(r: FlatReceiver, f: FlatFrame, _: &mut [u8], a: &mut FlatReceiverAnswer) {
    let expected = f.bytes[0] == r.expected;
    if passed_over(r, f, a, true) && expected && r.misses == NONE_AFTER_ACK {
        a.next.misses = NONE_AFTER_FRAME;
    }
}

fn frame_by_unclean(r: FlatReceiver, _: FlatFrame, _: &mut [u8], a: &mut FlatReceiverAnswer) {
    if a.refusal == 14 && r.misses == NONE_AFTER_ACK {
        a.next.misses = NONE_AFTER_FRAME;
    }
}

fn ack_by_unclean(r: FlatReceiver, _: FlatFrame, _: &mut [u8], a: &mut FlatReceiverAnswer) {
    if a.refusal == 14 && r.misses == NONE_AFTER_FRAME {
        a.next.misses = NONE_AFTER_ACK;
    }
}

fn frame_by_refused(r: FlatReceiver, _: FlatFrame, _: &mut [u8], a: &mut FlatReceiverAnswer) {
    if matches!(a.refusal, 5..=7) && r.phase == OPEN && r.misses == NONE_AFTER_ACK {
        a.next.misses = NONE_AFTER_FRAME;
    }
}

fn ack_by_short(r: FlatReceiver, _: FlatFrame, _: &mut [u8], a: &mut FlatReceiverAnswer) {
    if a.outcome == 4 && r.phase == OPEN && r.misses == NONE_AFTER_FRAME {
        a.next.misses = NONE_AFTER_ACK;
    }
}

fn frame_by_short(r: FlatReceiver, _: FlatFrame, _: &mut [u8], a: &mut FlatReceiverAnswer) {
    if a.outcome == 4 && r.phase == OPEN && r.misses == NONE_AFTER_ACK {
        a.next.misses = NONE_AFTER_FRAME;
    }
}

/// The LM_ACK goes out once more.
fn announced_again(r: FlatReceiver, f: FlatFrame, a: &FlatReceiverAnswer) -> bool {
    r.phase == OPEN && f.kind == 1 && f.bytes[0] == 0 && a.emits
}

fn cleared_by_frame_0(r: FlatReceiver, f: FlatFrame, _: &mut [u8], a: &mut FlatReceiverAnswer) {
    if announced_again(r, f, a) {
        a.next.misses = NONE_AFTER_ACK;
    }
}

fn frame_by_frame_0(r: FlatReceiver, f: FlatFrame, _: &mut [u8], a: &mut FlatReceiverAnswer) {
    if announced_again(r, f, a) && r.misses == NONE_AFTER_ACK {
        a.next.misses = NONE_AFTER_FRAME;
    }
}

fn opens_after_frame(r: FlatReceiver, _: FlatFrame, _: &mut [u8], a: &mut FlatReceiverAnswer) {
    if opens(r, a) {
        a.next.misses = NONE_AFTER_FRAME;
    }
}

/// A caller may leave anything where the phase has no misses.
fn old_misses(r: FlatReceiver, _: FlatFrame, _: &mut [u8], a: &mut FlatReceiverAnswer) {
    if opens(r, a) {
        a.next.misses = r.misses;
    }
}

/// An open connection with a number that says nothing, and that a tick leaves open.
fn other(r: FlatReceiver, a: &FlatReceiverAnswer) -> bool {
    r.phase == OPEN && r.misses > ONE_AFTER_FRAME && a.next.phase == OPEN
}

fn other_kept(r: FlatReceiver, a: &mut FlatReceiverAnswer) {
    if other(r, a) && !a.emits {
        a.next.misses = r.misses;
    }
}

fn other_last(r: FlatReceiver, a: &mut FlatReceiverAnswer) {
    if other(r, a) && !a.emits {
        a.next.misses = ONE_AFTER_FRAME;
    }
}
