//! Mistakes in document 02's E6: what is counted, what clears the counts, the number that is named, and refusal 5.

use super::Mistake;
use crate::interface::Ends;
use crate::values::*;
use crate::Reference;

pub const MISTAKES: &[(&str, Mistake)] = &[
    // What clears the counts.
    (
        "a begin leaves the old counts",
        Mistake::SummaryBegin(begin_leaves),
    ),
    (
        "a short begin leaves the old counts",
        Mistake::SummaryBegin(short_leaves),
    ),
    (
        "a refused begin clears the counts",
        Mistake::SummaryBegin(refused_begin_clears),
    ),
    ("sent clears the counts", Mistake::SummaryHear(sent_clears)),
    (
        "failed clears the counts",
        Mistake::SummaryTick(failed_clears),
    ),
    (
        "an Idle tick clears the counts",
        Mistake::SummaryTick(idle_clears),
    ),
    // What is counted.
    (
        "the announcement is not counted",
        Mistake::SummaryBegin(announcement_uncounted),
    ),
    (
        "frame 0 again is not counted",
        Mistake::SummaryTick(frame_0_uncounted),
    ),
    (
        "the window's last frame again is not counted",
        Mistake::SummaryTick(last_uncounted),
    ),
    (
        "a frame that went out before is not counted",
        Mistake::SummaryTick(repeats_uncounted),
    ),
    (
        "the next frame is not counted",
        Mistake::SummaryTick(next_uncounted),
    ),
    ("SM_RM is counted", Mistake::SummaryBegin(rm_counted)),
    (
        "SM_RM that goes again is counted",
        Mistake::SummaryTick(rm_again_counted),
    ),
    (
        "the closing NACK is counted",
        Mistake::SummaryTick(nack_counted),
    ),
    ("NACK 4 is counted", Mistake::SummaryHear(nack_4_counted)),
    ("a post is counted", Mistake::SummaryPost(post_counted)),
    (
        "an LM_ACK that is heard is counted",
        Mistake::SummaryHear(ack_counted),
    ),
    (
        "only the low byte is counted",
        Mistake::SummaryTick(low_byte_counted),
    ),
    ("a count stays at 255", Mistake::SummaryTick(stays_at_255)),
    ("65535 becomes 0", Mistake::SummaryTick(wraps)),
    (
        "a count's high byte is first",
        Mistake::SummaryTick(turned_round),
    ),
    (
        "the next number is counted",
        Mistake::SummaryTick(next_number),
    ),
    // What a refused call changes.
    (
        "a refused tick is counted",
        Mistake::SummaryTick(refused_tick_counted),
    ),
    (
        "a hearing refused 6 clears the counts",
        Mistake::SummaryHear(refused_hearing_clears),
    ),
    (
        "a hearing refused 7 is counted",
        Mistake::SummaryHear(refused_hearing_counted),
    ),
    (
        "a refused post changes a count",
        Mistake::SummaryPost(refused_post_counted),
    ),
    (
        "refusal 5 changes what is lent",
        Mistake::SummaryTick(lent_changed),
    ),
    // Refusal 5.
    ("5 after 3", Mistake::SummaryBegin(five_after_3)),
    ("5 after 2 at a begin", Mistake::SummaryBegin(five_after_2)),
    ("5 after 4", Mistake::SummaryTick(five_after_4)),
    ("5 after 6", Mistake::SummaryHear(five_after_6)),
    ("5 after 7", Mistake::SummaryHear(five_after_7)),
    (
        "5 after 2 at a post",
        Mistake::SummaryPost(five_after_posts_2),
    ),
    (
        "an Idle tick is not refused 5",
        Mistake::SummaryTick(idle_takes_any),
    ),
    (
        "513 bytes are taken at a begin",
        Mistake::SummaryBegin(begin_takes_513),
    ),
    (
        "511 bytes are taken at a tick",
        Mistake::SummaryTick(tick_takes_511),
    ),
    (
        "more bytes are taken at a hearing",
        Mistake::SummaryHear(hearing_takes_more),
    ),
    (
        "no bytes are taken at a post",
        Mistake::SummaryPost(post_takes_none),
    ),
    // What is read.
    (
        "of equals the highest is named",
        Mistake::SummaryMost(highest),
    ),
    ("255 is never named", Mistake::SummaryMost(without_255)),
    ("0 is never named", Mistake::SummaryMost(without_0)),
    (
        "255 is named of no counts",
        Mistake::SummaryMost(names_255_of_none),
    ),
    (
        "counts are compared by their low bytes",
        Mistake::SummaryMost(by_low_bytes),
    ),
    (
        "counts are compared with the high byte first",
        Mistake::SummaryMost(by_turned_bytes),
    ),
    (
        "the number named comes without its count",
        Mistake::SummaryMost(named_alone),
    ),
    (
        "511 bytes are taken where a number is named",
        Mistake::SummaryMost(most_takes_511),
    ),
    (
        "a refused number named has a count",
        Mistake::SummaryMost(refused_most_told),
    ),
    (
        "the count of the number before",
        Mistake::SummaryCount(count_before),
    ),
    (
        "a count without its number",
        Mistake::SummaryCount(count_alone),
    ),
    (
        "a count's low byte alone",
        Mistake::SummaryCount(count_of_one_byte),
    ),
    (
        "513 bytes are taken where a count is read",
        Mistake::SummaryCount(count_takes_513),
    ),
];

fn word(counts: &[u8], number: u8) -> u16 {
    let place = 2 * usize::from(number);
    u16::from_le_bytes([counts[place], counts[place + 1]])
}

fn put(counts: &mut [u8], number: u8, count: u16) {
    let place = 2 * usize::from(number);
    counts[place..place + 2].copy_from_slice(&count.to_le_bytes());
}

fn add(counts: &mut [u8], number: u8) {
    let count = word(counts, number).saturating_add(1);
    put(counts, number, count);
}

/// The number of the information frame that goes out, if one does.
fn counted(a: &FlatSenderAnswer) -> Option<u8> {
    (a.frame.kind == 1).then_some(a.frame.bytes[0])
}

type Answered<'a> = &'a mut FlatSenderAnswer;

fn begin_leaves(_: FlatSender, _: &[u8], before: &[u8], counts: &mut [u8], a: Answered) {
    counts.copy_from_slice(before);
    if let Some(number) = counted(a) {
        add(counts, number);
    }
}

fn short_leaves(_: FlatSender, _: &[u8], before: &[u8], counts: &mut [u8], a: Answered) {
    if a.frame.kind == 5 {
        counts.copy_from_slice(before);
    }
}

fn refused_begin_clears(_: FlatSender, _: &[u8], _: &[u8], counts: &mut [u8], a: Answered) {
    if matches!(a.refusal, 2 | 3) {
        counts.fill(0);
    }
}

fn sent_clears(_: FlatSender, _: FlatFrame, _: &[u8], counts: &mut [u8], a: Answered) {
    if a.outcome == 5 {
        counts.fill(0);
    }
}

fn failed_clears(_: FlatSender, _: &[u8], _: &[u8], counts: &mut [u8], a: Answered) {
    if a.outcome == 3 {
        counts.fill(0);
    }
}

fn idle_clears(s: FlatSender, _: &[u8], _: &[u8], counts: &mut [u8], a: Answered) {
    if s.phase == 0 && a.refusal == 0 {
        counts.fill(0);
    }
}

fn announcement_uncounted(_: FlatSender, _: &[u8], _: &[u8], counts: &mut [u8], a: Answered) {
    if counted(a).is_some() {
        counts.fill(0);
    }
}

/// The frame of a tick in this phase is not counted.
fn uncounted(s: FlatSender, phase: u8, before: &[u8], counts: &mut [u8]) {
    if s.phase == phase {
        counts.copy_from_slice(before);
    }
}

fn frame_0_uncounted(s: FlatSender, _: &[u8], before: &[u8], counts: &mut [u8], _: Answered) {
    uncounted(s, 1, before, counts);
}

fn next_uncounted(s: FlatSender, _: &[u8], before: &[u8], counts: &mut [u8], _: Answered) {
    uncounted(s, 2, before, counts);
}

fn last_uncounted(s: FlatSender, _: &[u8], before: &[u8], counts: &mut [u8], _: Answered) {
    uncounted(s, 3, before, counts);
}

fn repeats_uncounted(_: FlatSender, _: &[u8], before: &[u8], counts: &mut [u8], a: Answered) {
    if counted(a).is_some_and(|number| word(before, number) > 0) {
        counts.copy_from_slice(before);
    }
}

fn rm_counted(_: FlatSender, _: &[u8], _: &[u8], counts: &mut [u8], a: Answered) {
    if a.frame.kind == 5 {
        add(counts, a.frame.bytes[0]);
    }
}

fn rm_again_counted(_: FlatSender, _: &[u8], _: &[u8], counts: &mut [u8], a: Answered) {
    if a.frame.kind == 5 {
        add(counts, a.frame.bytes[0]);
    }
}

fn nack_counted(_: FlatSender, _: &[u8], _: &[u8], counts: &mut [u8], a: Answered) {
    if a.frame.kind == 3 {
        add(counts, a.frame.bytes[0]);
    }
}

fn nack_4_counted(_: FlatSender, _: FlatFrame, _: &[u8], counts: &mut [u8], a: Answered) {
    if a.frame.kind == 3 {
        add(counts, a.frame.bytes[0]);
    }
}

fn post_counted(_: FlatSender, _: &[u8], _: &[u8], counts: &mut [u8], a: Answered) {
    if a.emits {
        add(counts, a.frame.bytes[0]);
    }
}

fn ack_counted(_: FlatSender, f: FlatFrame, _: &[u8], counts: &mut [u8], a: Answered) {
    if a.refusal == 0 && f.kind == 2 {
        add(counts, f.bytes[0]);
    }
}

fn low_byte_counted(_: FlatSender, _: &[u8], before: &[u8], counts: &mut [u8], a: Answered) {
    if let Some(number) = counted(a) {
        let [low, high] = word(before, number).to_le_bytes();
        put(
            counts,
            number,
            u16::from_le_bytes([low.wrapping_add(1), high]),
        );
    }
}

fn stays_at_255(_: FlatSender, _: &[u8], before: &[u8], counts: &mut [u8], a: Answered) {
    if counted(a).is_some_and(|number| word(before, number) == 255) {
        counts.copy_from_slice(before);
    }
}

fn wraps(_: FlatSender, _: &[u8], before: &[u8], counts: &mut [u8], a: Answered) {
    if let Some(number) = counted(a) {
        put(counts, number, word(before, number).wrapping_add(1));
    }
}

fn turned_round(_: FlatSender, _: &[u8], before: &[u8], counts: &mut [u8], a: Answered) {
    if let Some(number) = counted(a) {
        let count = word(before, number).swap_bytes().saturating_add(1);
        put(counts, number, count.swap_bytes());
    }
}

fn next_number(_: FlatSender, _: &[u8], before: &[u8], counts: &mut [u8], a: Answered) {
    if let Some(number) = counted(a) {
        counts.copy_from_slice(before);
        add(counts, number.wrapping_add(1));
    }
}

fn refused_tick_counted(s: FlatSender, _: &[u8], _: &[u8], counts: &mut [u8], a: Answered) {
    if a.refusal == 4 {
        add(counts, s.due);
    }
}

fn refused_hearing_clears(_: FlatSender, _: FlatFrame, _: &[u8], counts: &mut [u8], a: Answered) {
    if a.refusal == 6 {
        counts.fill(0);
    }
}

fn refused_hearing_counted(_: FlatSender, f: FlatFrame, _: &[u8], counts: &mut [u8], a: Answered) {
    if a.refusal == 7 {
        add(counts, f.bytes[0]);
    }
}

fn refused_post_counted(_: FlatSender, _: &[u8], _: &[u8], counts: &mut [u8], a: Answered) {
    if a.refusal == 2 {
        add(counts, 0);
    }
}

fn lent_changed(_: FlatSender, _: &[u8], _: &[u8], counts: &mut [u8], a: Answered) {
    if let (5, [first, ..]) = (a.refusal, counts) {
        *first ^= 1;
    }
}

/// What the sender's own call is refused with goes before 5.
fn before_5(number: u8, plain: FlatSenderAnswer, a: Answered) {
    if a.refusal == 5 && plain.refusal == number {
        *a = plain;
    }
}

fn five_after_3(s: FlatSender, message: &[u8], _: &[u8], _: &mut [u8], a: Answered) {
    before_5(3, Reference.sender_begin(s, message), a);
}

fn five_after_2(s: FlatSender, message: &[u8], _: &[u8], _: &mut [u8], a: Answered) {
    before_5(2, Reference.sender_begin(s, message), a);
}

fn five_after_4(s: FlatSender, message: &[u8], _: &[u8], _: &mut [u8], a: Answered) {
    before_5(4, Reference.sender_tick(s, message), a);
}

fn five_after_6(s: FlatSender, f: FlatFrame, _: &[u8], _: &mut [u8], a: Answered) {
    before_5(6, Reference.sender_hear(s, f), a);
}

fn five_after_7(s: FlatSender, f: FlatFrame, _: &[u8], _: &mut [u8], a: Answered) {
    before_5(7, Reference.sender_hear(s, f), a);
}

fn five_after_posts_2(s: FlatSender, message: &[u8], _: &[u8], _: &mut [u8], a: Answered) {
    before_5(2, Reference.sender_post(s, message), a);
}

fn idle_takes_any(s: FlatSender, message: &[u8], _: &[u8], _: &mut [u8], a: Answered) {
    if s.phase == 0 {
        *a = Reference.sender_tick(s, message);
    }
}

fn begin_takes_513(s: FlatSender, message: &[u8], before: &[u8], _: &mut [u8], a: Answered) {
    if before.len() == 513 {
        *a = Reference.sender_begin(s, message);
    }
}

fn tick_takes_511(s: FlatSender, message: &[u8], before: &[u8], _: &mut [u8], a: Answered) {
    if before.len() == 511 {
        *a = Reference.sender_tick(s, message);
    }
}

fn hearing_takes_more(s: FlatSender, f: FlatFrame, before: &[u8], _: &mut [u8], a: Answered) {
    if before.len() > COUNTS {
        *a = Reference.sender_hear(s, f);
    }
}

fn post_takes_none(s: FlatSender, message: &[u8], before: &[u8], _: &mut [u8], a: Answered) {
    if before.is_empty() {
        *a = Reference.sender_post(s, message);
    }
}

/// The number whose count, seen in this way, is the greatest; of equals the lowest, or the highest.
fn most_by(counts: &[u8], seen: fn(u16) -> u16, highest: bool) -> FlatCount {
    let mut number = 0;
    for later in 1..=255 {
        let [named, other] = [number, later].map(|number| seen(word(counts, number)));
        if other > named || highest && other == named {
            number = later;
        }
    }
    FlatCount {
        refusal: 0,
        number,
        count: word(counts, number),
    }
}

fn highest(counts: &[u8], c: &mut FlatCount) {
    if c.refusal == 0 && c.count > 0 {
        *c = most_by(counts, |count| count, true);
    }
}

fn without_255(counts: &[u8], c: &mut FlatCount) {
    if c.refusal == 0 {
        let mut fewer = counts.to_vec();
        put(&mut fewer, 255, 0);
        *c = most_by(&fewer, |count| count, false);
    }
}

fn without_0(counts: &[u8], c: &mut FlatCount) {
    if c.refusal == 0 && c.number == 0 {
        let mut fewer = counts.to_vec();
        put(&mut fewer, 0, 0);
        *c = most_by(&fewer, |count| count, false);
        c.number = c.number.max(1);
    }
}

fn names_255_of_none(_: &[u8], c: &mut FlatCount) {
    if c.refusal == 0 && c.count == 0 {
        c.number = 255;
    }
}

fn by_low_bytes(counts: &[u8], c: &mut FlatCount) {
    if c.refusal == 0 {
        *c = most_by(counts, |count| count & 0xFF, false);
    }
}

fn by_turned_bytes(counts: &[u8], c: &mut FlatCount) {
    if c.refusal == 0 {
        *c = most_by(counts, u16::swap_bytes, false);
    }
}

fn named_alone(_: &[u8], c: &mut FlatCount) {
    c.count = 0;
}

fn most_takes_511(counts: &[u8], c: &mut FlatCount) {
    if counts.len() == 511 {
        c.refusal = 0;
    }
}

fn refused_most_told(_: &[u8], c: &mut FlatCount) {
    if c.refusal == 5 {
        c.count = 1;
    }
}

fn count_before(number: u8, counts: &[u8], c: &mut FlatCount) {
    if c.refusal == 0 {
        c.count = word(counts, number.saturating_sub(1));
    }
}

fn count_alone(_: u8, _: &[u8], c: &mut FlatCount) {
    c.number = 0;
}

fn count_of_one_byte(_: u8, _: &[u8], c: &mut FlatCount) {
    c.count &= 0xFF;
}

fn count_takes_513(number: u8, counts: &[u8], c: &mut FlatCount) {
    if counts.len() == 513 {
        *c = FlatCount {
            refusal: 0,
            number,
            count: word(counts, number),
        };
    }
}
