//! A sender, a receiver and its buffer, and the table's calls of them.

use face::interface::{Ends, Summary};
use face::values::*;

use crate::words::{bytes, decimal, eight, hex, told};

pub struct Transfer<'a, F> {
    pub face: &'a F,
    pub sender: FlatSender,
    receiver: FlatReceiver,
    pub message: Vec<u8>,
    buffer: [u8; 1785],
    pub counts: Vec<u8>,
}

/// The phase with what it has beside the transfer's own numbers; a phase that no call leaves is told whole.
pub fn told_sender(s: FlatSender) -> String {
    let (wait, misses, start, last) = (s.wait, s.misses, s.start, s.last);
    match s.phase {
        0 => " Idle".into(),
        1 => format!(" Opening wait {wait} misses {misses}"),
        2 => {
            let (due, gap) = (s.due, s.count);
            format!(" Sending {due} to {last} start {start} gap {gap} misses {misses}")
        }
        3 => format!(" Waiting last {last} start {start} wait {wait} misses {misses}"),
        4 if misses == 0 => format!(" Short wait {wait}"),
        _ => format!(" {s:?}"),
    }
}

/// The same of a receiver: Held is Open with the mark.
fn told_receiver(r: FlatReceiver) -> String {
    let (frames, length, wait, misses) = (r.frames, r.length, r.wait, r.misses);
    let without = FlatReceiver {
        timeout: r.timeout,
        window: r.window,
        capacity: r.capacity,
        phase: r.phase,
        ..FlatReceiver::default()
    };
    let remembering = FlatReceiver {
        frames,
        length,
        ..without
    };
    match r.phase {
        0 if r == without => " Idle".into(),
        1 if r == remembering => format!(" Done {frames} {length}"),
        2 => {
            let name = if r.held { "Held" } else { "Open" };
            let (e, w, holds) = (r.expected, r.last, r.holds);
            format!(" {name} e {e} w {w} wait {wait} misses {misses} holds {holds}")
        }
        _ => format!(" {r:?}"),
    }
}

/// The frame that goes out.
fn said(emits: bool, frame: FlatFrame) -> String {
    match emits {
        true => format!(" says {}{}", frame.kind, hex(&frame.bytes)),
        false if frame == FlatFrame::default() => String::new(),
        false => format!(" keeps {}{}", frame.kind, hex(&frame.bytes)),
    }
}

fn sender_report(a: FlatSenderAnswer) -> String {
    match (a.outcome, a.refusal, a.cause, a.ticks, a.frames) {
        (0, 0, 0, 0, 0) => String::new(),
        (1, number, 0, 0, 0) => format!(" refused {number}"),
        (3, 0, cause, ticks, frames) => format!(" failed {cause} {ticks} {frames}"),
        (5, 0, 0, ticks, frames) => format!(" sent {ticks} {frames}"),
        other => format!(" {other:?}"),
    }
}

fn receiver_report(a: FlatReceiverAnswer) -> String {
    let bytes = (a.bytes != [0; 8]).then(|| hex(&a.bytes));
    match (a.outcome, a.refusal, a.cause, a.length, bytes) {
        (0, 0, 0, 0, None) => String::new(),
        (1, number, 0, 0, None) => format!(" refused {number}"),
        (2, 0, 0, length, None) => format!(" delivered {length}"),
        (3, 0, cause, 0, None) => format!(" failed {cause}"),
        (4, 0, 0, 0, Some(bytes)) => format!(" short{bytes}"),
        other => format!(" {other:?}"),
    }
}

/// A kind and its eight bytes.
pub fn frame(words: &[&str]) -> FlatFrame {
    FlatFrame {
        kind: words[0].parse().expect("a kind"),
        bytes: eight(&words[1..]),
    }
}

pub fn small<const COUNT: usize>(words: &[&str]) -> [u16; COUNT] {
    decimal(words).map(|number| number.try_into().expect("two bytes"))
}

/// The sender after a call, the frame that it says, and its report.
pub fn told_answer(answer: FlatSenderAnswer) -> String {
    let emitted = said(answer.emits, answer.frame);
    told_sender(answer.next) + &emitted + &sender_report(answer)
}

impl<'a, F: Ends + Summary> Transfer<'a, F> {
    pub fn new(face: &'a F) -> Transfer<'a, F> {
        Transfer {
            face,
            sender: FlatSender::default(),
            receiver: FlatReceiver::default(),
            message: Vec::new(),
            buffer: [0xAA; 1785],
            counts: vec![0; COUNTS],
        }
    }

    pub fn answer(&mut self, words: &[&str]) -> String {
        match *words {
            ["sender", ref settings @ ..] => {
                let [gap, timeout, limit] = small(settings);
                let made = self.face.sender_make(gap, timeout, limit);
                told(made.refusal, made.sender, |sender| {
                    self.sender = sender;
                    self.counts.fill(0);
                    told_sender(sender)
                })
            }
            ["receiver", ref settings @ ..] => {
                let [timeout, window, capacity] = small(settings);
                let made = self.face.receiver_make(timeout, window, capacity);
                told(made.refusal, made.receiver, |receiver| {
                    self.receiver = receiver;
                    self.buffer = [0xAA; 1785];
                    told_receiver(receiver)
                })
            }
            ["S", "wait", count] => {
                self.ticks(count, |transfer| drop(transfer.sender_call(&["tick"])));
                told_sender(self.sender)
            }
            ["R", "wait", count] => {
                self.ticks(count, |transfer| drop(transfer.receiver_call(&["tick"])));
                told_receiver(self.receiver)
            }
            ["R", "zeros", first, last] => {
                let [first, last] = small(&[first, last]);
                for number in first..=last {
                    drop(self.receiver_call(&[
                        "hear",
                        "1",
                        &format!("{number:02X}"),
                        "00",
                        "00",
                        "00",
                        "00",
                        "00",
                        "00",
                        "00",
                    ]));
                }
                told_receiver(self.receiver)
            }
            ["R", "buffer", count] => hex(&self.buffer[..count.parse().expect("a count")]),
            ["K", ref call @ ..] => self.summary_call(call),
            ["S", ref call @ ..] => self.sender_call(call),
            ["R", ref call @ ..] => self.receiver_call(call),
            _ => panic!("no such call: {words:?}"),
        }
    }

    pub fn ticks(&mut self, count: &str, mut tick: impl FnMut(&mut Self)) {
        for _ in 0..count.parse().expect("a count") {
            tick(self);
        }
    }

    fn sender_call(&mut self, words: &[&str]) -> String {
        let answer = match *words {
            ["begin", ref message @ ..] => {
                self.message = bytes(message);
                self.face.sender_begin(self.sender, &self.message)
            }
            ["tick"] => self.face.sender_tick(self.sender, &self.message),
            ["hear", ref heard @ ..] => self.face.sender_hear(self.sender, frame(heard)),
            _ => panic!("no such call: {words:?}"),
        };
        self.sender = answer.next;
        told_answer(answer)
    }

    fn receiver_call(&mut self, words: &[&str]) -> String {
        let receiver = self.receiver;
        let answer = match *words {
            ["tick"] => self.face.receiver_tick(receiver),
            ["hold"] => self.face.receiver_hold(receiver),
            ["resume"] => self.face.receiver_resume(receiver),
            ["hear", ref heard @ ..] => {
                self.face
                    .receiver_hear(receiver, frame(heard), &mut self.buffer)
            }
            _ => panic!("no such call: {words:?}"),
        };
        self.receiver = answer.next;
        let emitted = said(answer.emits, answer.frame);
        told_receiver(answer.next) + &emitted + &receiver_report(answer)
    }
}
