//! Calls that stand alone: clean figures, groups, identifiers, version lists and messages.

use face::interface::Around;
use face::values::*;

use crate::words::{
    byte, bytes, decimal, eight, hex, hexadecimal, told, version, version_of, versions, RESULTS,
};

/// The answer to a call of these words.
pub fn answer(face: &impl Around, call: &str, words: &[&str]) -> String {
    match call {
        "clean" => {
            let [length, gap] = decimal(words);
            let clean = face.clean_figures_of(length, gap);
            let tell = |(ticks, frames)| format!(" {ticks} {frames}");
            told(clean.refusal, (clean.ticks, clean.frames), tell)
        }
        "find" => {
            let found = face.group_find(byte(words[0]));
            told(found.refusal, found.row, row)
        }
        "read" => {
            let read = face.group_read(&bytes(words));
            told(read.refusal, read.group, group)
        }
        "write" => write(face, words),
        "named" => {
            let [secc, evcc] = [face.charger_address(), face.vehicle_address()];
            let [charger, vehicle] = [
                face.charger_version_identifier(),
                face.vehicle_version_identifier(),
            ];
            format!(" {secc:X} {evcc:X} {charger:08X} {vehicle:08X}")
        }
        "join" => {
            let joined = face.identifier_join(parts_of(words));
            let tell = |identifier| format!(" {identifier:08X}");
            told(joined.refusal, joined.identifier, tell)
        }
        "split" => {
            let [identifier] = hexadecimal(words);
            let split = face.identifier_split(identifier);
            told(split.refusal, split.parts, parts)
        }
        "list" => {
            let listed = face.version_list(&bytes(words));
            told(listed.refusal, listed.versions, versions)
        }
        "message" => {
            let bytes = eight(words);
            let read = face.version_message_read(FlatVersionBytes { bytes });
            told(read.refusal, read.message, message)
        }
        "say" => {
            let written = face.version_message_write(message_of(words));
            told(written.refusal, written.bytes, |said| hex(&said.bytes))
        }
        _ => panic!("no such call: {call}"),
    }
}

fn row(row: FlatGroupRow) -> String {
    let sender = ["charger", "vehicle"][usize::from(row.side)];
    let reliable = if row.reliable { " reliable" } else { "" };
    let kinds = [row.first, row.second, row.third, row.fourth].map(|kind| format!(" {kind}"));
    let kinds = kinds.concat();
    format!(" {:02X} {} {sender}{reliable}{kinds}", row.code, row.length)
}

fn group(group: FlatGroup) -> String {
    let values = [group.first, group.second, group.third, group.fourth];
    let values = values.map(|value| format!(" {value}")).concat();
    format!(" {:02X}{values}", group.code)
}

/// A group's code and values, `into`, and the lent bytes.
fn write(face: &impl Around, words: &[&str]) -> String {
    let value = |place: usize| words[place].parse().expect("a value");
    let group = FlatGroup {
        code: byte(words[0]),
        first: value(1),
        second: value(2),
        third: value(3),
        fourth: value(4),
    };
    assert_eq!(words[5], "into");
    let mut lent = bytes(&words[6..]);
    let done = face.group_write(group, &mut lent);
    told(done.refusal, (), |()| " done".into()) + &hex(&lent)
}

fn parts(parts: FlatIdentifierParts) -> String {
    let parts = [parts.p, parts.edp, parts.dp, parts.pf, parts.ps, parts.sa];
    parts.map(|part| format!(" {part:X}")).concat()
}

fn parts_of(words: &[&str]) -> FlatIdentifierParts {
    let [p, edp, dp, pf, ps, sa] = hexadecimal(words);
    FlatIdentifierParts {
        p,
        edp,
        dp,
        pf,
        ps,
        sa,
    }
}

fn message(message: FlatVersionMessage) -> String {
    let result = RESULTS[usize::from(message.verdict)];
    format!(
        " {result} {} {:02X}",
        version(message.version),
        message.control
    )
}

fn message_of(words: &[&str]) -> FlatVersionMessage {
    let named = RESULTS.iter().position(|&result| result == words[0]);
    let verdict = named.map_or_else(|| byte(words[0]), |place| place as u8);
    FlatVersionMessage {
        verdict,
        version: version_of(words[1]),
        control: byte(words[2]),
    }
}
