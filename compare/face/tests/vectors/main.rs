//! The table of `tests/vectors.txt`: each call in it is made on the proved code and on the reference, and each of them must
//! answer as the table says.

mod counting;
mod single;
mod talk;
mod transfer;
mod words;

use face::broken::{around, clean, filler, hold, summary, types, Broken};
use face::interface::Face;
use face::Reference;

use talk::Talk;

const TABLE: &str = include_str!("../../../../tests/vectors.txt");

/// The first line at which a face answers otherwise than the table, by its number.
fn difference(face: &impl Face, table: &str) -> Option<String> {
    let mut talk = Talk::new(face);
    let answered: String = table.lines().map(|line| talk.line(line)).collect();
    let end = ["(the end)"];
    let expected = table.lines().chain(end);
    let mut pairs = expected.zip(answered.lines().chain(end)).enumerate();
    let (place, (line, answer)) = pairs.find(|(_, (line, answer))| line != answer)?;
    Some(format!("{}: {line}\nanswered: {answer}", place + 1))
}

fn check(face: &impl Face) {
    if let Some(difference) = difference(face, TABLE) {
        panic!("tests/vectors.txt:{difference}");
    }
}

#[test]
fn the_reference_answers_as_the_table_says() {
    check(&Reference);
}

#[test]
#[cfg(feature = "proved")]
fn the_proved_code_answers_as_the_table_says() {
    check(&face::ffi::Proved);
}

/// All but nine that show in states alone which no calls make, one that shows with another buffer, which no line has, and two
/// in lists and places above 255, which none has either.
#[test]
fn the_table_catches_every_mistake() {
    let missed: Vec<&str> = [
        clean::MISTAKES,
        hold::MISTAKES,
        filler::MISTAKES,
        types::MISTAKES,
        summary::MISTAKES,
        around::MISTAKES,
    ]
    .concat()
    .into_iter()
    .filter(|(_, mistake)| difference(&Broken(*mistake), TABLE).is_none())
    .map(|(name, _)| name)
    .collect();
    let beyond = [
        "an opening takes up an old mark",
        "an opening takes up an old count",
        "the rule goes before NACK 4",
        "a frame before the last is judged",
        "14 before 5",
        "a held timeout leaves the wait after a frame",
        "a resume leaves the wait after a frame",
        "an opening takes up old misses",
        "another number of misses is kept",
        "another number of misses is the last one",
        "a list is counted modulo 256",
        "a place is taken modulo 256",
    ];
    assert_eq!(missed, beyond);
}

/// In a call's answer, a message's time and a line left out or added.
#[test]
fn an_altered_table_is_found() {
    for (line, altered) in [
        ("clean 9 1: 2 3", "clean 9 1: 2 2"),
        ("R hold: Idle refused 13", "R hold: Idle"),
        ("misses 2 holds 19", "misses 2 holds 18"),
        ("wait 0 misses 4 holds", "wait 0 misses 1 holds"),
        ("S wait 5: Waiting", "S wait 4: Waiting"),
        ("counts 0:2 1:1 2:3", "counts 0:2 1:1 2:2"),
        ("K most: 2 3", "K most: 2 2"),
        ("K most: 127 7", "K most: 128 7"),
        ("counts none", "counts 0:1"),
        ("find 71: 71 2 charger", "find 71: 71 3 charger"),
        ("list 01 01: refused 11", "list 01 01: refused 10"),
        ("310 said: 3 5", "310 said: 3 6"),
        ("\n271 V: S3", "\n270 V: S3"),
        ("says 00 01 02 00 00 02 01 FF\n160 C", "\n160 C"),
        ("\n160 C functions", "\n160 C: S3\n160 C functions"),
    ] {
        assert!(TABLE.contains(line), "{line}");
        let table = TABLE.replacen(line, altered, 1);
        assert!(difference(&Reference, &table).is_some(), "{line}");
    }
}
