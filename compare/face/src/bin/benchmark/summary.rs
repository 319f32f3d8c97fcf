//! Rows of the summary: the sender's calls with the counts lent, and what is read of these; and the same calls beside the
//! sender's own.

use std::hint::black_box;

use compare::reference::sender::Sender;
use compare::reference::summary;
use face::behind::Behind;
use face::ends::{frame_of, sender_of};
use face::ffi::Proved;
use face::interface::Summary;
use face::values::*;

use crate::ends::{
    begins, due, frame, hears, idle_sender, message, opening, over, posts, sending, short, ticks,
    waiting, Message,
};
use crate::measure::Row;

/// A call of which the compiler knows neither what it is given, as of one by `measure::given`, nor the counts that it is lent.
fn lending<const LENT: usize, G, T>(
    given: G,
    call: impl Fn(&G, &mut [u8]) -> T,
) -> impl FnMut() -> T {
    let mut counts = [0; LENT];
    move || {
        let counts = black_box(&mut counts);
        call(black_box(&given), counts)
    }
}

fn summary_begins(
    face: impl Summary,
    sender: FlatSender,
    message: Message,
) -> impl FnMut() -> FlatSenderAnswer {
    lending::<COUNTS, _, _>((sender, message), move |(sender, message), counts| {
        face.summary_begin(*sender, message, counts)
    })
}

fn summary_posts(
    face: impl Summary,
    sender: FlatSender,
    message: Message,
) -> impl FnMut() -> FlatSenderAnswer {
    lending::<COUNTS, _, _>((sender, message), move |(sender, message), counts| {
        face.summary_post(*sender, message, counts)
    })
}

/// Lent so many bytes for the counts.
fn summary_ticks<const LENT: usize>(
    face: impl Summary,
    sender: FlatSender,
    message: Message,
) -> impl FnMut() -> FlatSenderAnswer {
    lending::<LENT, _, _>((sender, message), move |(sender, message), counts| {
        face.summary_tick(*sender, message, counts)
    })
}

fn summary_hears(
    face: impl Summary,
    sender: FlatSender,
    frame: FlatFrame,
) -> impl FnMut() -> FlatSenderAnswer {
    lending::<COUNTS, _, _>((sender, frame), move |(sender, frame), counts| {
        face.summary_hear(*sender, *frame, counts)
    })
}

/// The reference's own call, on a copy of its sender.
fn direct<const LENT: usize, G, T>(
    sender: FlatSender,
    given: G,
    call: impl Fn(&mut Sender, &G, &mut [u8]) -> T,
) -> impl FnMut() -> (Sender, T) {
    lending::<LENT, _, _>(
        (sender_of(sender), given),
        move |(sender, given), counts| {
            let mut end = sender.clone();
            let answer = call(&mut end, given, counts);
            (end, answer)
        },
    )
}

fn begin(name: &str, length: usize) -> Row {
    let (sender, message) = (idle_sender(), message(length));
    Row::new(
        name,
        summary_begins(Proved, sender, message),
        summary_begins(Behind, sender, message),
        direct::<COUNTS, _, _>(sender, message, |end, message, counts| {
            summary::begin(end, message, counts)
        }),
    )
}

fn post() -> Row {
    let (sender, message) = (idle_sender(), message(8));
    Row::new(
        "post",
        summary_posts(Proved, sender, message),
        summary_posts(Behind, sender, message),
        direct::<COUNTS, _, _>(sender, message, |end, message, counts| {
            summary::post(end, message, counts)
        }),
    )
}

fn tick<const LENT: usize>(name: &str, sender: FlatSender, length: usize) -> Row {
    let message = message(length);
    Row::new(
        name,
        summary_ticks::<LENT>(Proved, sender, message),
        summary_ticks::<LENT>(Behind, sender, message),
        direct::<LENT, _, _>(sender, message, |end, message, counts| {
            summary::tick(end, message, counts)
        }),
    )
}

fn hear(name: &str, sender: FlatSender, heard: FlatFrame) -> Row {
    Row::new(
        name,
        summary_hears(Proved, sender, heard),
        summary_hears(Behind, sender, heard),
        direct::<COUNTS, _, _>(sender, frame_of(heard), |end, frame, counts| {
            summary::hear(end, *frame, counts)
        }),
    )
}

/// A transfer in which frame 200 went out most often.
fn kept() -> [u8; COUNTS] {
    let mut counts = [0; COUNTS];
    for number in 0..=255 {
        counts[2 * number] = 1 + (number % 5) as u8;
    }
    counts[400] = 9;
    counts
}

fn names_most(face: impl Summary) -> impl FnMut() -> FlatCount {
    let counts = kept();
    move || face.summary_most(black_box(&counts))
}

fn tells_count(face: impl Summary) -> impl FnMut() -> FlatCount {
    let (counts, number) = (kept(), 200);
    move || face.summary_count(*black_box(&number), black_box(&counts))
}

fn reading_rows() -> [Row; 2] {
    let (counts, number) = (kept(), 200);
    [
        Row::new(
            "count",
            tells_count(Proved),
            tells_count(Behind),
            move || summary::count(black_box(&counts), *black_box(&number)),
        ),
        Row::new("most", names_most(Proved), names_most(Behind), move || {
            summary::most(black_box(&counts))
        }),
    ]
}

/// Ticks by what they do: the sender before it, and the message's length.
fn ticking() -> [(&'static str, FlatSender, usize); 12] {
    [
        ("tick, Idle", idle_sender(), 1785),
        ("tick, Opening", opening(), 1785),
        ("tick, Opening: frame 0 again", due(opening()), 1785),
        ("tick, Sending", sending(), 1785),
        ("tick, Sending: next frame", due(sending()), 1785),
        ("tick, Waiting", waiting(), 1785),
        ("tick, Waiting: last frame again", due(waiting()), 1785),
        ("tick, Short", short(), 8),
        ("tick, Short: SM_RM again", due(short()), 8),
        ("tick, Short: sending time over", over(short()), 8),
        ("tick, sending time over", over(sending()), 1785),
        ("tick, refused 4", sending(), 1784),
    ]
}

/// Hearings by what they do, in the same way.
fn hearing() -> [(&'static str, FlatSender, FlatFrame); 4] {
    [
        ("hear LM_ACK, taken", waiting(), frame(2, &[111, 10])),
        ("hear LM_ACK, ignored", waiting(), frame(2, &[100, 10])),
        ("hear EndofACK", waiting(), frame(4, &[255, 0xF9, 0x06])),
        ("hear, refused 7", waiting(), frame(1, &[1])),
    ]
}

pub fn rows() -> Vec<Row> {
    let mut rows = vec![begin("begin, long", 1785), begin("begin, short", 8), post()];
    rows.extend(ticking().map(|(name, sender, length)| tick::<COUNTS>(name, sender, length)));
    rows.push(tick::<511>("tick, refused 5", sending(), 1785));
    rows.extend(hearing().map(|(name, sender, frame)| hear(name, sender, frame)));
    rows.extend(reading_rows());
    rows
}

/// The same calls of the proved code with and without the summary.
pub fn beside() -> Vec<Row<2>> {
    let (idle, long, eight) = (idle_sender(), message(1785), message(8));
    let tick = |(name, sender, length)| {
        let message = message(length);
        let with = summary_ticks::<COUNTS>(Proved, sender, message);
        Row::beside(name, with, ticks(Proved, sender, message))
    };
    let hear = |(name, sender, frame)| {
        let with = summary_hears(Proved, sender, frame);
        Row::beside(name, with, hears(Proved, sender, frame))
    };
    let begin = |name, message| {
        let with = summary_begins(Proved, idle, message);
        Row::beside(name, with, begins(Proved, idle, message))
    };
    let mut rows: Vec<Row<2>> = ticking().map(tick).into();
    rows.extend(hearing().map(hear));
    rows.push(begin("begin, long", long));
    rows.push(begin("begin, short", eight));
    rows.push(Row::beside(
        "post",
        summary_posts(Proved, idle, eight),
        posts(Proved, idle, eight),
    ));
    rows
}
