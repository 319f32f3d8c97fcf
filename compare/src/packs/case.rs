//! One run pack in parts, and its description for `tools/make_pack`.

use std::fmt::Write;

use crate::reference::player::{build, Settings};

/// The bodies in the order of the contents table.
const BODIES: [&str; 3] = ["settings", "message", "events"];
/// "one count byte, 3; a contents table"
const HEAD: usize = 13;

/// A run pack, sound or damaged.
#[derive(Clone, Debug, PartialEq, Eq)]
pub struct Case {
    pub settings: Settings,
    pub message: Vec<u8>,
    /// Event numbers; those outside 1 to 8 make the pack a refused one.
    pub events: Vec<u8>,
    pub damage: Option<Damage>,
}

/// What is wrong with the pack's shape.
#[derive(Clone, Debug, PartialEq, Eq)]
pub enum Damage {
    /// Another count byte.
    Count(u8),
    /// Another word in the contents table: 0 is the settings' offset, 1 their length, and so on.
    Row { place: usize, value: u16 },
    /// Another settings body.
    SettingsBody(Vec<u8>),
    /// The message before the settings, and the table says so.
    MessageFirst,
    /// Bytes after the last body.
    Trailing(Vec<u8>),
    /// Only so many bytes of the pack.
    CutAfter(usize),
}

impl Case {
    pub fn pack(&self) -> Vec<u8> {
        let mut pack = build(&self.settings, &self.message, &self.events);
        match &self.damage {
            None => {}
            Some(Damage::Count(count)) => pack[0] = *count,
            Some(Damage::Row { place, value }) => put_word(&mut pack, *place, *value),
            Some(Damage::SettingsBody(body)) => return self.with_settings_body(&pack, body),
            Some(Damage::MessageFirst) => self.message_first(&mut pack),
            Some(Damage::Trailing(bytes)) => pack.extend(bytes),
            Some(Damage::CutAfter(count)) => pack.truncate(*count),
        }
        pack
    }

    fn with_settings_body(&self, pack: &[u8], body: &[u8]) -> Vec<u8> {
        let mut changed = pack[..HEAD].to_vec();
        changed.extend(body);
        changed.extend(&pack[HEAD + 10..]);
        let message = HEAD + body.len();
        put_word(&mut changed, 1, body.len() as u16);
        put_word(&mut changed, 2, message as u16);
        put_word(&mut changed, 4, (message + self.message.len()) as u16);
        changed
    }

    fn message_first(&self, pack: &mut [u8]) {
        let events = HEAD + 10 + self.message.len();
        pack[HEAD..events].rotate_left(10);
        put_word(pack, 0, (HEAD + self.message.len()) as u16);
        put_word(pack, 2, HEAD as u16);
    }

    /// The text from which `tools/make_pack` makes this pack.
    pub fn description(&self) -> String {
        let mut text = String::new();
        if let Some(Damage::SettingsBody(body)) = &self.damage {
            line(&mut text, &format!("settings body {}", pairs(body)));
        } else {
            self.describe_settings(&mut text);
        }
        match self.message.len() {
            0 => line(&mut text, "message empty"),
            _ => line(&mut text, &format!("message {}", pairs(&self.message))),
        }
        for run in self.events.chunk_by(|one, next| one == next) {
            let name = event_name(run[0]);
            match run.len() {
                1 => line(&mut text, &name),
                count => line(&mut text, &format!("{name} x {count}")),
            }
        }
        self.describe_damage(&mut text);
        text
    }

    fn describe_settings(&self, text: &mut String) {
        let s = &self.settings;
        line(text, &format!("gap {}", s.gap));
        line(text, &format!("sender timeout {}", s.sender_timeout));
        line(text, &format!("sending time {}", s.sending_time));
        line(text, &format!("receiver timeout {}", s.receiver_timeout));
        line(text, &format!("window {}", s.window));
        line(text, &format!("capacity {}", s.capacity));
    }

    fn describe_damage(&self, text: &mut String) {
        match &self.damage {
            None | Some(Damage::SettingsBody(_)) => {}
            Some(Damage::Count(count)) => line(text, &format!("count {count}")),
            Some(Damage::Row { place, value }) => {
                let part = ["offset", "length"][place % 2];
                line(text, &format!("{} {part} {value}", BODIES[place / 2]));
            }
            Some(Damage::MessageFirst) => line(text, "order message settings events"),
            Some(Damage::Trailing(bytes)) => line(text, &format!("trailing {}", pairs(bytes))),
            Some(Damage::CutAfter(_)) => {
                line(text, &format!("cut after {}", self.pack().len()));
            }
        }
    }
}

/// Writes a word of the contents table.
fn put_word(pack: &mut [u8], place: usize, value: u16) {
    pack[1 + 2 * place..3 + 2 * place].copy_from_slice(&value.to_le_bytes());
}

fn event_name(number: u8) -> String {
    let names = [
        "sender tick",
        "receiver tick",
        "forward hear",
        "forward lose",
        "forward repeat",
        "back hear",
        "back lose",
        "back repeat",
    ];
    match number {
        1..=8 => names[usize::from(number) - 1].to_string(),
        _ => format!("event {number}"),
    }
}

fn line(text: &mut String, rest: &str) {
    writeln!(text, "{rest}").expect("a string takes every line");
}

pub fn pairs(bytes: &[u8]) -> String {
    let pairs: Vec<String> = bytes.iter().map(|byte| format!("{byte:02X}")).collect();
    pairs.join(" ")
}
