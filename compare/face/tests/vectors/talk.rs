//! A talk between a charger and a vehicle, and the table's lines.

use face::interface::Face;
use face::values::*;

use crate::single;
use crate::transfer::Transfer;
use crate::words::{byte, bytes, eight, hex, hexadecimal, told, version, RESULTS};

/// A side, what it said last, and how many messages it sent.
#[derive(Clone, Copy)]
struct Speaker {
    talker: FlatTalker,
    last: [u8; 8],
    sent: u32,
}

impl Speaker {
    fn new(talker: FlatTalker) -> Speaker {
        let last = [0xFF; 8];
        Speaker {
            talker,
            last,
            sent: 0,
        }
    }
}

pub struct Talk<'a, F> {
    face: &'a F,
    sides: [Speaker; 2],
    clock: u32,
    transfer: Transfer<'a, F>,
}

fn place(side: &str) -> usize {
    match side {
        "C" => 0,
        "V" => 1,
        _ => panic!("no such side: {side}"),
    }
}

/// State, result, and the version at Ns.
fn told_talker(talker: FlatTalker) -> String {
    let result = RESULTS[usize::from(talker.verdict)];
    let at_ns = version(talker.versions.numbers[talker.place as usize]);
    format!(" S{} {result} {at_ns}", talker.state)
}

/// The talker after a call, its message, and its report.
fn told_answer(answer: FlatTalkerAnswer) -> String {
    let message = match (answer.emits, answer.bytes) {
        (true, said) => format!(" says{}", hex(&said.bytes)),
        (false, none) if none == FlatVersionBytes::default() => String::new(),
        (false, kept) => format!(" keeps{}", hex(&kept.bytes)),
    };
    let report = match (answer.outcome, answer.refusal, answer.version) {
        (0, 0, 0) => String::new(),
        (1, number, 0) => format!(" refused {number}"),
        (6, 0, agreed) => format!(" agreed {}", version(agreed)),
        (3, 0, 0) => " failed".into(),
        (7, 0, 0) => " left".into(),
        other => format!(" {other:?}"),
    };
    told_talker(answer.next) + &message + &report
}

impl<'a, F: Face> Talk<'a, F> {
    pub fn new(face: &'a F) -> Talk<'a, F> {
        let sides = [Speaker::new(FlatTalker::default()); 2];
        Talk {
            face,
            sides,
            clock: 0,
            transfer: Transfer::new(face),
        }
    }

    /// A line of the table with this face's answer. The lines of messages come with the ticks before them.
    pub fn line(&mut self, line: &str) -> String {
        if line.is_empty() || line.starts_with('#') {
            return format!("{line}\n");
        }
        let call = line.split(':').next().unwrap_or(line);
        let words: Vec<&str> = call.split(' ').collect();
        match words[..] {
            ["tick", count] => format!("{call}\n{}", self.ticks(count)),
            ["wait", count] => {
                self.ticks(count);
                format!("{call}\n")
            }
            ["make", side, control, "with", ref list @ ..] => {
                format!("{call}:{}\n", self.make(side, control, list))
            }
            ["talker", count, "of", ref numbers @ ..] => {
                format!("{call}:{}\n", self.made_of(count, numbers))
            }
            ["sender" | "receiver" | "S" | "R" | "K", ..] => {
                format!("{call}:{}\n", self.transfer.answer(&words))
            }
            [_, "C" | "V"] => String::new(),
            [_, "said"] => {
                let [charger, vehicle] = self.sides.map(|side| side.sent);
                format!("{} said: {charger} {vehicle}\n", self.clock)
            }
            [_, side @ ("C" | "V"), name, ref heard @ ..] => {
                let answer = self.call(place(side), name, heard);
                format!("{} {}:{answer}\n", self.clock, words[1..].join(" "))
            }
            _ => format!(
                "{call}:{}\n",
                single::answer(self.face, words[0], &words[1..])
            ),
        }
    }

    fn make(&mut self, side: &str, control: &str, list: &[&str]) -> String {
        let listed = self.face.version_list(&bytes(list));
        told(listed.refusal, listed.versions, |versions| {
            let place = place(side);
            let made = self.face.talker_make(place as u8, versions, byte(control));
            told(made.refusal, made.talker, |talker| {
                self.sides[place] = Speaker::new(talker);
                self.clock = 0;
                told_talker(talker)
            })
        })
    }

    /// A talker of a count and up to eight numbers, 0 in the places left; it is not kept.
    fn made_of(&self, count: &str, words: &[&str]) -> String {
        let mut numbers = [0; 8];
        for (place, word) in numbers.iter_mut().zip(words) {
            let [number] = hexadecimal(&[word]);
            *place = number;
        }
        let count = count.parse().expect("a count");
        let versions = FlatVersions { count, numbers };
        let made = self.face.talker_make(1, versions, 0x0A);
        told(made.refusal, made.talker, told_talker)
    }

    fn call(&mut self, place: usize, name: &str, heard: &[&str]) -> String {
        let talker = self.sides[place].talker;
        let bytes = match heard {
            [] => self.sides[1 - place].last,
            words => eight(words),
        };
        let answer = match name {
            "connect" => self.face.talker_connect(talker),
            "stop" => self.face.talker_stop(talker),
            "greet" => self.face.talker_greet(talker),
            "functions" => self.face.talker_functions_heard(talker),
            "hear" => self.face.talker_hear(talker, FlatVersionBytes { bytes }),
            _ => panic!("no such call: {name}"),
        };
        self.take(place, answer);
        told_answer(answer)
    }

    fn take(&mut self, place: usize, answer: FlatTalkerAnswer) {
        let side = &mut self.sides[place];
        side.talker = answer.next;
        if answer.emits {
            side.last = answer.bytes.bytes;
            side.sent += 1;
        }
    }

    /// Ticks of both sides; a line for each message.
    fn ticks(&mut self, count: &str) -> String {
        let mut lines = String::new();
        for _ in 0..count.parse().expect("a count") {
            self.clock += 1;
            for (place, letter) in ["C", "V"].into_iter().enumerate() {
                let answer = self.face.talker_tick(self.sides[place].talker);
                self.take(place, answer);
                if answer.emits {
                    lines += &format!("{} {letter}:{}\n", self.clock, told_answer(answer));
                }
            }
        }
        lines
    }
}
