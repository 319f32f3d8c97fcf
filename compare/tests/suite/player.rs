//! Chapter "The player".

use crate::help::through;
use compare::reference::player::{build, play, Settings};
use compare::sessions::SESSIONS;

const GOOD: Settings = Settings {
    gap: 1,
    sender_timeout: 10,
    sending_time: 100,
    receiver_timeout: 10,
    window: 2,
    capacity: 1785,
};

const NINE: [u8; 9] = [1, 2, 3, 4, 5, 6, 7, 8, 9];
const EVENTS: [u8; 7] = [3, 6, 1, 3, 1, 3, 6];

/// What the example prints; `samples/` has it as a file.
const EXAMPLE: &str = include_str!("../../../samples/document-01.out");

/// The pack of the example, byte by byte from the text: count byte, table, bodies.
#[test]
fn example_pack_by_hand() {
    let pack = [
        3, // one count byte
        13, 0, 10, 0, // settings at 13, 10 bytes
        23, 0, 9, 0, // message at 23, 9 bytes
        32, 0, 7, 0, // events at 32, 7 bytes
        1, 10, 0, 100, 0, 10, 0, 2, 0xF9, 0x06, // G, T, M, T, C, K
        1, 2, 3, 4, 5, 6, 7, 8, 9, // message
        3, 6, 1, 3, 1, 3, 6, // events
    ];
    assert_eq!(build(&GOOD, &NINE, &EVENTS), pack);
    assert_eq!(play(&pack), EXAMPLE);
}

fn through_the_program(pack: &[u8]) -> String {
    through(env!("CARGO_BIN_EXE_reference_player"), pack)
}

/// The program prints the seven lines of the example, and refusals.
#[test]
fn the_program() {
    assert_eq!(through_the_program(&build(&GOOD, &NINE, &EVENTS)), EXAMPLE);
    assert_eq!(through_the_program(&[]), "refused 12\n");
    assert_eq!(through_the_program(&vec![3; 70000]), "refused 12\n");
}

fn refused(pack: &[u8], number: u8) {
    assert_eq!(play(pack), format!("refused {number}\n"));
}

/// Refusal 12: the pack's form.
#[test]
fn bad_packs() {
    let good = build(&GOOD, &NINE, &EVENTS);
    // Cut short anywhere, or longer than the bodies.
    for length in 0..good.len() {
        refused(&good[..length], 12);
    }
    let mut longer = good.clone();
    longer.push(1);
    refused(&longer, 12);
    // The count byte.
    for count in [0, 1, 2, 4, 255] {
        let mut pack = good.clone();
        pack[0] = count;
        refused(&pack, 12);
    }
    // Every offset and length, low and high byte, one off.
    for place in 1..13 {
        for change in [1_u8, 255] {
            let mut pack = good.clone();
            pack[place] = pack[place].wrapping_add(change);
            refused(&pack, 12);
        }
    }
    // Events outside 1 to 8.
    for event in [0, 9, 255] {
        for place in 0..EVENTS.len() {
            let mut events = EVENTS;
            events[place] = event;
            refused(&build(&GOOD, &NINE, &events), 12);
        }
    }
}

/// A settings body of another length, in a pack that is otherwise whole.
#[test]
fn settings_of_another_length() {
    let good = build(&GOOD, &NINE, &EVENTS);
    for length in [0_usize, 9, 11] {
        let mut pack = vec![3];
        let mut body = good[13..23].to_vec();
        body.resize(length, 0);
        for (offset, count) in [(13, length), (13 + length, 9), (22 + length, 7)] {
            pack.extend((offset as u16).to_le_bytes());
            pack.extend((count as u16).to_le_bytes());
        }
        pack.extend(body);
        pack.extend(&good[23..]);
        refused(&pack, 12);
    }
}

/// Bodies in another order than the table's, a gap, and bodies that share bytes: all 12.
#[test]
fn bodies_out_of_place() {
    let settings = [1, 10, 0, 100, 0, 10, 0, 2, 0xF9, 0x06];
    // message first, then settings and events
    let mut pack = vec![3, 22, 0, 10, 0, 13, 0, 9, 0, 32, 0, 7, 0];
    pack.extend(NINE);
    pack.extend(settings);
    pack.extend(EVENTS);
    refused(&pack, 12);
    // a gap of one byte before the events
    let mut pack = vec![3, 13, 0, 10, 0, 23, 0, 9, 0, 33, 0, 7, 0];
    pack.extend(settings);
    pack.extend(NINE);
    pack.push(0);
    pack.extend(EVENTS);
    refused(&pack, 12);
    // the events begin within the message
    let mut pack = vec![3, 13, 0, 10, 0, 23, 0, 9, 0, 31, 0, 1, 0];
    pack.extend(settings);
    pack.extend(NINE);
    refused(&pack, 12);
}

/// "the whole pack at most 65535 bytes"
#[test]
fn largest_pack() {
    let room = 65535 - 13 - 10 - 9;
    let largest = build(&GOOD, &NINE, &vec![2; room]);
    assert_eq!(largest.len(), 65535);
    assert_eq!(play(&largest), "0 S 1 00 02 09 00 FF FF FF FF\n");
    let over = build(&GOOD, &NINE, &vec![2; room + 1]);
    assert_eq!(over.len(), 65536);
    refused(&over, 12);
}

/// Refusals 1 and 2 come after 12, in this order, at each limit.
#[test]
fn order_of_12_1_2() {
    let bad_settings = [
        Settings { gap: 0, ..GOOD },
        Settings { gap: 11, ..GOOD },
        Settings {
            sender_timeout: 0,
            ..GOOD
        },
        Settings {
            sender_timeout: 10001,
            ..GOOD
        },
        Settings {
            sending_time: 0,
            ..GOOD
        },
        Settings {
            sending_time: 60001,
            ..GOOD
        },
        Settings {
            receiver_timeout: 0,
            ..GOOD
        },
        Settings {
            receiver_timeout: 10001,
            ..GOOD
        },
        Settings { window: 0, ..GOOD },
        Settings {
            capacity: 8,
            ..GOOD
        },
        Settings {
            capacity: 1786,
            ..GOOD
        },
    ];
    for settings in bad_settings {
        refused(&build(&settings, &NINE, &EVENTS), 1);
        refused(&build(&settings, &[], &EVENTS), 1);
        refused(&build(&settings, &[0; 1786], &EVENTS), 1);
        refused(&build(&settings, &NINE, &[9]), 12);
        refused(&build(&settings, &[], &[9]), 12);
    }
    refused(&build(&GOOD, &[], &EVENTS), 2);
    refused(&build(&GOOD, &[0; 1786], &EVENTS), 2);
    refused(&build(&GOOD, &[], &[0]), 12);
    assert!(play(&build(&GOOD, &[0; 1785], &EVENTS)).starts_with("0 S 1 00 FF F9 06 FF"));
}

/// No events: begin alone.
#[test]
fn begin_alone() {
    assert_eq!(
        play(&build(&GOOD, &NINE, &[])),
        "0 S 1 00 02 09 00 FF FF FF FF\n"
    );
}

/// A line of 64 takes no more. Frame 0 repeated 66 times draws 66 LM_ACKs; all are printed, 64 are
/// on the line.
#[test]
fn line_of_64() {
    let mut events = vec![5; 66];
    // Only 64 hearings find an LM_ACK. Each restarts the gap of 2, and one tick after each emits
    // nothing while they come; at the 65th the gap count reaches 2.
    let settings = Settings {
        gap: 2,
        sending_time: 1000,
        ..GOOD
    };
    for _ in 0..66 {
        events.extend([6, 1]);
    }
    let printed = play(&build(&settings, &NINE, &events));
    let lines: Vec<&str> = printed.lines().collect();
    assert_eq!(lines[0], "0 S 1 00 02 09 00 FF FF FF FF");
    for (event, line) in lines.iter().enumerate().take(67).skip(1) {
        assert_eq!(*line, format!("{event} R 2 01 02 FF FF FF FF FF FF"));
    }
    // The 65th pair of events: 66 + 2 * 65 = 196 is its tick.
    assert_eq!(lines[67], "196 S 1 01 01 02 03 04 05 06 07");
    assert_eq!(lines.len(), 68);
}

/// The same bound on forward: SM_RM at every tick, T 1; the 65th and later find 64 before them.
#[test]
fn line_of_64_forward() {
    let settings = Settings {
        sender_timeout: 1,
        sending_time: 1000,
        ..GOOD
    };
    let mut events = vec![1; 70];
    events.extend(vec![3; 70]);
    let printed = play(&build(&settings, &[0x42], &events));
    let emitted = printed
        .lines()
        .filter(|line| line.contains(" S 5 "))
        .count();
    let heard = printed
        .lines()
        .filter(|line| line.contains(" R short "))
        .count();
    assert_eq!((emitted, heard), (71, 64));
}

/// Room comes back when the line empties.
#[test]
fn line_has_room_again() {
    let settings = Settings {
        sender_timeout: 1,
        sending_time: 1000,
        ..GOOD
    };
    // begin and 63 ticks fill it; one is lost; a hearing makes room for one more.
    let mut events = vec![1; 64];
    events.extend([3, 1, 1]);
    events.extend(vec![3; 70]);
    let printed = play(&build(&settings, &[0x42], &events));
    let heard = printed
        .lines()
        .filter(|line| line.contains(" R short "))
        .count();
    assert_eq!(heard, 65);
}

/// The frame stands before the report, and a report's form by end.
#[test]
fn forms_of_reports() {
    let text = |name: &str| {
        let session = SESSIONS
            .iter()
            .find(|session| session.name == name)
            .unwrap();
        play(&session.pack())
    };
    assert!(text("sending-time-over")
        .contains("11 S 3 03 FF FF FF FF FF FF FF\n11 S failed 3 6 4\n12 R failed 1\n"));
    assert!(text("three-timeouts-receiver")
        .contains("15 R 3 02 FF FF FF FF FF FF FF\n15 R failed 2\n18 S failed 1 2 3\n"));
    assert!(text("short-lost-until-M").ends_with("14 S failed 3 8 3\n"));
    assert!(text("no-space").ends_with("2 R 3 01 FF FF FF FF FF FF FF\n3 S failed 1 1 1\n"));
    assert!(text("repeated-ack").ends_with("20 S failed 2 15 10\n"));
    assert!(text("lost-and-repeated").ends_with("43 S sent 18 8\n"));
}
