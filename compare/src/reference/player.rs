//! Chapter "The player".

use std::fmt::Write;
use std::io::{self, Read};

use super::frame::{Frame, BUFFER_LENGTH, LONG_MOST};
use super::line::{Bench, Call, Outcome};
use super::receiver::{self, Receiver};
use super::sender::{self, Sender};
use super::{refusal, Refused};

/// So many frames a direction of the player's line holds; one that comes to them is lost.
pub const LINE_ROOM: usize = 64;
/// "the whole pack at most 65535 bytes"
pub const PACK_MOST: usize = 65535;
/// The count of bodies, and an offset and a length for each of the three.
const HEAD: usize = 1 + 3 * 4;
/// G, the sender's T, M, the receiver's T, C and K, in their widths.
const SETTINGS_LENGTH: usize = 1 + 2 + 2 + 2 + 1 + 2;

/// The settings body, not yet held to its limits.
#[derive(Clone, Copy, Debug, PartialEq, Eq)]
pub struct Settings {
    pub gap: u8,
    pub sender_timeout: u16,
    pub sending_time: u16,
    pub receiver_timeout: u16,
    pub window: u8,
    pub capacity: u16,
}

/// A run pack taken apart.
#[derive(Clone, Debug, PartialEq, Eq)]
pub struct Run {
    pub settings: Settings,
    pub message: Vec<u8>,
    pub events: Vec<Call>,
}

/// The call of an event's number, if it has one.
pub fn event(number: u8) -> Option<Call> {
    Some(match number {
        1 => Call::SenderTick,
        2 => Call::ReceiverTick,
        3 => Call::ForwardHear,
        4 => Call::ForwardLose,
        5 => Call::ForwardRepeat,
        6 => Call::BackHear,
        7 => Call::BackLose,
        8 => Call::BackRepeat,
        _ => return None,
    })
}

/// Reads a run pack. "Anything else is 12".
pub fn read(pack: &[u8]) -> Result<Run, Refused> {
    read_shape(pack).ok_or(refusal::PACK)
}

fn read_shape(pack: &[u8]) -> Option<Run> {
    // "the whole pack at most 65535 bytes"
    if pack.len() > PACK_MOST {
        return None;
    }
    // "one count byte, 3;"
    if *pack.first()? != 3 {
        return None;
    }
    // Each row of the table has to name the place where the body before ends, and the last body ends
    // with the pack.
    let table = pack.get(1..HEAD)?;
    let mut bodies = Vec::new();
    let mut place = HEAD;
    for row in table.chunks(4) {
        let offset = usize::from(u16::from_le_bytes([row[0], row[1]]));
        let length = usize::from(u16::from_le_bytes([row[2], row[3]]));
        if offset != place {
            return None;
        }
        bodies.push(pack.get(offset..offset + length)?);
        place = offset + length;
    }
    if place != pack.len() {
        return None;
    }
    let (settings, message, events) = (bodies[0], bodies[1], bodies[2]);
    if settings.len() != SETTINGS_LENGTH {
        return None;
    }
    let word = |at: usize| u16::from_le_bytes([settings[at], settings[at + 1]]);
    Some(Run {
        settings: Settings {
            gap: settings[0],
            sender_timeout: word(1),
            sending_time: word(3),
            receiver_timeout: word(5),
            window: settings[7],
            capacity: word(8),
        },
        message: message.to_vec(),
        events: events
            .iter()
            .map(|&number| event(number))
            .collect::<Option<_>>()?,
    })
}

/// Builds the run pack of these bodies. They must fit a pack.
pub fn build(settings: &Settings, message: &[u8], events: &[u8]) -> Vec<u8> {
    let mut first = vec![settings.gap];
    first.extend(settings.sender_timeout.to_le_bytes());
    first.extend(settings.sending_time.to_le_bytes());
    first.extend(settings.receiver_timeout.to_le_bytes());
    first.push(settings.window);
    first.extend(settings.capacity.to_le_bytes());
    let bodies = [&first[..], message, events];

    let mut pack = vec![3];
    let mut place = HEAD;
    for body in bodies {
        let offset = u16::try_from(place).expect("the bodies fit a pack");
        let length = u16::try_from(body.len()).expect("the bodies fit a pack");
        pack.extend(offset.to_le_bytes());
        pack.extend(length.to_le_bytes());
        place += body.len();
    }
    for body in bodies {
        pack.extend(body);
    }
    pack
}

/// The pack on a program's input. One byte more than a pack may have is enough to tell that it has too
/// many.
pub fn take(input: impl Read) -> io::Result<Vec<u8>> {
    let mut pack = Vec::new();
    input.take(PACK_MOST as u64 + 1).read_to_end(&mut pack)?;
    Ok(pack)
}

/// What the player prints for this pack.
pub fn play(pack: &[u8]) -> String {
    play_with(pack, Bench::call)
}

/// The same with `step` in place of the bench's own call: for tests that need a player with a
/// mistake.
pub fn play_with<S>(pack: &[u8], step: S) -> String
where
    S: FnMut(&mut Bench, Call, &[u8], &mut [u8]) -> Result<Outcome, Refused>,
{
    told(run(pack, step))
}

/// "It prints `refused n` alone", or these lines.
pub(super) fn told(lines: Result<String, Refused>) -> String {
    match lines {
        Ok(lines) => lines,
        Err(Refused(number)) => format!("refused {number}\n"),
    }
}

/// The lines of a run in which `step` makes each call.
pub(super) fn run<S>(pack: &[u8], mut step: S) -> Result<String, Refused>
where
    S: FnMut(&mut Bench, Call, &[u8], &mut [u8]) -> Result<Outcome, Refused>,
{
    let Run {
        settings,
        message,
        events,
    } = read(pack)?;
    // "after that settings outside their limits are 1,"
    let sender = Sender::make(settings.gap, settings.sender_timeout, settings.sending_time)?;
    let receiver = Receiver::make(
        settings.receiver_timeout,
        settings.window,
        settings.capacity,
    )?;
    // "a message of bad length 2."
    if message.is_empty() || message.len() > usize::from(LONG_MOST) {
        return Err(refusal::LENGTH);
    }

    let mut bench = Bench::with_room(sender, receiver, LINE_ROOM);
    let mut buffer = vec![0; BUFFER_LENGTH];
    let mut lines = String::new();
    // "event number (0 is begin)"
    let calls = std::iter::once(Call::Begin).chain(events);
    for (number, call) in calls.enumerate() {
        let outcome = step(&mut bench, call, &message, &mut buffer)?;
        print(&mut lines, number, outcome);
    }
    Ok(lines)
}

/// The lines of one event: first the frame that it emitted, then the report that it gave, each under
/// the event's number and the letter of the end.
fn print(lines: &mut String, number: usize, outcome: Outcome) {
    match outcome {
        Outcome::Nothing => {}
        Outcome::Sender(answer) => {
            print_frame(lines, number, 'S', answer.frame);
            match answer.report {
                None => {}
                Some(sender::Report::Sent { ticks, frames }) => {
                    print_line(lines, number, 'S', &format!("sent {ticks} {frames}"));
                }
                Some(sender::Report::Failed {
                    cause,
                    ticks,
                    frames,
                }) => {
                    print_line(
                        lines,
                        number,
                        'S',
                        &format!("failed {cause} {ticks} {frames}"),
                    );
                }
            }
        }
        Outcome::Receiver(answer) => {
            print_frame(lines, number, 'R', answer.frame);
            match answer.report {
                None => {}
                Some(receiver::Report::Delivered { l }) => {
                    print_line(lines, number, 'R', &format!("delivered {l}"));
                }
                Some(receiver::Report::Failed { cause }) => {
                    print_line(lines, number, 'R', &format!("failed {cause}"));
                }
                Some(receiver::Report::Short(bytes)) => {
                    print_line(lines, number, 'R', &format!("short {}", pairs(bytes)));
                }
            }
        }
    }
}

fn print_frame(lines: &mut String, number: usize, end: char, frame: Option<Frame>) {
    if let Some(frame) = frame {
        print_line(
            lines,
            number,
            end,
            &format!("{} {}", frame.kind, pairs(frame.data)),
        );
    }
}

fn print_line(lines: &mut String, number: usize, end: char, rest: &str) {
    writeln!(lines, "{number} {end} {rest}").expect("a string takes every line");
}

/// "byte pairs in a frame, which are hexadecimal"
fn pairs(bytes: [u8; 8]) -> String {
    bytes.map(|byte| format!("{byte:02X}")).join(" ")
}
