//! Every length, on the proved code as on the reference; and a number of frames that is wrong from some length on is found.

use face::broken::{Broken, Mistake};
use face::interface::Ends;
use face::lengths::first_difference;
use face::values::*;
use face::Reference;

/// N by a product with a small multiplier: 7 x 293 is 2^11 + 3. It is right up to 678 bytes: in 97 full frames the surplus,
/// 3 x 97, makes up the 290 that are missing to one frame more.
fn coarse(length: usize) -> u8 {
    (((length + 6) * 293) >> 11) as u8
}
const WRONG_FROM: u16 = 679;

fn begun(_: FlatSender, message: &[u8], answer: &mut FlatSenderAnswer) {
    if answer.next.phase == 1 {
        answer.frame.bytes[1] = coarse(message.len());
        answer.next.frames = coarse(message.len());
    }
}

fn counted(s: FlatSender, m: &[u8], _: &[u8], _: &mut [u8], answer: &mut FlatSenderAnswer) {
    begun(s, m, answer);
}

fn figures([length, gap]: [u32; 2], figures: &mut FlatCleanFigures) {
    if figures.refusal == 0 {
        let frames = u16::from(coarse(length as usize));
        figures.ticks = frames * gap as u16;
        figures.frames = frames + 1;
    }
}

/// A frame 0 with the wrong N is taken for one with the right N, and with another for one with none.
fn announced(r: FlatReceiver, heard: FlatFrame, b: &mut [u8], answer: &mut FlatReceiverAnswer) {
    let length = usize::from(u16::from_le_bytes([heard.bytes[2], heard.bytes[3]]));
    let mut taken = heard;
    taken.bytes[1] = match heard.bytes[1] == coarse(length) {
        true => length.div_ceil(7) as u8,
        false => 0,
    };
    *answer = Reference.receiver_hear(r, taken, b);
}

#[test]
fn a_number_of_frames_that_is_wrong_for_long_messages_is_found() {
    for (mistake, function) in [
        (Mistake::SenderBegin(begun), "sender_begin"),
        (Mistake::SummaryBegin(counted), "summary_begin"),
        (Mistake::Clean(figures), "clean_figures_of"),
        (Mistake::ReceiverHear(announced), "receiver_hear"),
    ] {
        let (length, mismatch) = first_difference(&Broken(mistake), &Reference).unwrap_err();
        assert_eq!((length, mismatch.call.name()), (WRONG_FROM, function));
    }
}

/// 1800 lengths with two begins, the clean figures and 256 announcements each; the others with the figures and one of these.
#[cfg(feature = "proved")]
const CALLS: u64 = 1800 * 259 + (65536 - 1800) * 2;

#[cfg(feature = "proved")]
#[test]
fn the_proved_code_counts_frames_as_the_reference_does() {
    assert_eq!(first_difference(&face::ffi::Proved, &Reference), Ok(CALLS));
}
