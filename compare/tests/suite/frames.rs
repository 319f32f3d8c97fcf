//! Chapter "Frames", and what document 02, E3 adds to reading one.

use compare::reference::frame::{self, Content, Frame};
use compare::reference::Refused;

#[test]
fn builders_and_reader_agree() {
    let pairs = [
        (
            frame::announcement(2, 9),
            [1, 0, 2, 9, 0, 255, 255, 255, 255],
            Content::Announcement { n: 2, l: 9 },
        ),
        (
            frame::information(2, &[1, 2, 3, 4, 5, 6, 7, 8, 9]),
            [1, 2, 8, 9, 255, 255, 255, 255, 255],
            Content::Information {
                i: 2,
                bytes: [8, 9, 255, 255, 255, 255, 255],
                clean: true,
            },
        ),
        (
            frame::lm_ack(3, 4),
            [2, 3, 4, 255, 255, 255, 255, 255, 255],
            Content::LmAck { s: 3, c: 4 },
        ),
        (
            frame::lm_nack(5),
            [3, 5, 255, 255, 255, 255, 255, 255, 255],
            Content::LmNack { cause: 5 },
        ),
        (
            frame::endof_ack(255, 1785),
            [4, 255, 0xF9, 6, 255, 255, 255, 255, 255],
            Content::EndofAck { n: 255, l: 1785 },
        ),
        (
            frame::sm_rm(&[7, 8]),
            [5, 7, 8, 255, 255, 255, 255, 255, 255],
            Content::SmRm([7, 8, 255, 255, 255, 255, 255, 255]),
        ),
        (
            frame::sm_ack(0),
            [6, 0, 255, 255, 255, 255, 255, 255, 255],
            Content::SmAck { first: 0 },
        ),
        (
            frame::sm_urm(&[1, 2, 3, 4, 5, 6, 7, 8]),
            [7, 1, 2, 3, 4, 5, 6, 7, 8],
            Content::SmUrm([1, 2, 3, 4, 5, 6, 7, 8]),
        ),
    ];
    for (built, bytes, content) in pairs {
        let mut data = [0; 8];
        data.copy_from_slice(&bytes[1..]);
        assert_eq!(
            built,
            Frame {
                kind: bytes[0],
                data
            }
        );
        assert_eq!(frame::read(built, 9), Ok(content));
    }
}

/// N at the lengths around which it changes.
#[test]
fn number_of_frames() {
    for (l, n) in [
        (1, 1),
        (7, 1),
        (8, 2),
        (9, 2),
        (14, 2),
        (15, 3),
        (1778, 254),
        (1779, 255),
        (1785, 255),
    ] {
        assert_eq!(frame::frames_for(l), n);
    }
}

/// Refusal 6 for a kind that there is not.
#[test]
fn other_kinds_are_refused() {
    for kind in 0..=255 {
        let all_filler = Frame {
            kind,
            data: [0xFF; 8],
        };
        let read = frame::read(all_filler, 1785);
        assert_eq!(read.is_ok(), (1..=7).contains(&kind), "kind {kind}");
        if read.is_err() {
            assert_eq!(read, Err(Refused(6)));
        }
    }
}

/// Refusal 6 for each place of filler in each kind, and for none where message bytes stand.
#[test]
fn filler_is_judged_where_it_is_filler() {
    // kind, d0, number of named bytes
    for (kind, first, named) in [
        (1, 0, 4),
        (1, 1, 8),
        (1, 255, 8),
        (2, 1, 2),
        (3, 1, 1),
        (4, 1, 3),
        (5, 0, 8),
        (6, 0, 1),
        (7, 0, 8),
    ] {
        for place in 0..8 {
            for byte in [0x00, 0x7F, 0xFE] {
                let mut data = [0xFF; 8];
                data[0] = first;
                if place > 0 {
                    data[place] = byte;
                }
                // The length has no part in it.
                let read = frame::read(Frame { kind, data }, 1785);
                let other = frame::read(Frame { kind, data }, 0);
                assert_eq!(read.is_ok(), other.is_ok());
                if place < named {
                    assert!(read.is_ok(), "kind {kind} place {place}");
                } else {
                    assert_eq!(read, Err(Refused(6)), "kind {kind} place {place}");
                }
            }
        }
    }
}

/// The frames of a message hold its bytes in their order, and filler behind the last.
#[test]
fn information_frames_carry_the_message() {
    let message: Vec<u8> = (0..1785).map(|place| (place * 7 % 253) as u8).collect();
    for length in [9, 13, 14, 15, 1779, 1785] {
        let message = &message[..length];
        let mut carried: Vec<u8> = Vec::new();
        for i in 1..=frame::frames_for(length as u16) as u8 {
            let built = frame::information(i, message);
            assert_eq!((built.kind, built.data[0]), (1, i));
            carried.extend(&built.data[1..]);
        }
        assert_eq!(carried[..length], *message);
        assert!(carried[length..].iter().all(|&byte| byte == 0xFF));
    }
}

/// Whether reading tells this frame of kind 1 to be clean.
fn is_clean(data: [u8; 8], l: u16) -> bool {
    match frame::read(Frame { kind: 1, data }, l) {
        Ok(Content::Information { i, bytes, clean }) => {
            assert_eq!((i, &bytes[..]), (data[0], &data[1..]));
            clean
        }
        other => panic!("{other:?}"),
    }
}

/// How many bytes of a message each frame carries, worked by hand: full ones, the last, those past it.
#[test]
fn bytes_that_a_frame_carries() {
    for (l, i, carried) in [
        (9, 1, 7),
        (9, 2, 2),
        (9, 3, 0),
        (9, 255, 0),
        (13, 2, 6),
        (14, 2, 7),
        (14, 3, 0),
        (15, 2, 7),
        (15, 3, 1),
        (16, 3, 2),
        (1784, 254, 7),
        (1784, 255, 6),
        (1785, 255, 7),
        (1778, 254, 7),
        (1778, 255, 0),
        // No length of a message, but two bytes hold it.
        (0, 1, 0),
        (1, 1, 1),
        (65535, 255, 7),
    ] {
        assert_eq!(frame::carried(i, l), carried, "frame {i} of {l} bytes");
    }
}

/// For each number of message bytes in the last frame, 1 to 7: a byte other than 0xFF shows at each
/// place behind them and at none of theirs.
#[test]
fn each_place_behind_the_message() {
    // l, i, the places behind the message
    for (l, i, behind) in [
        (15, 3, 2..8),
        (9, 2, 3..8),
        (17, 3, 4..8),
        (11, 2, 5..8),
        (1783, 255, 6..8),
        (1784, 255, 7..8),
        (1785, 255, 8..8),
    ] {
        let mut filled = [0xFF; 8];
        filled[0] = i;
        assert!(is_clean(filled, l));
        for place in 1..8 {
            for byte in [0x00, 0x01, 0x7F, 0x80, 0xFE] {
                let mut data = filled;
                data[place] = byte;
                let dirty = behind.contains(&place);
                assert_eq!(is_clean(data, l), !dirty, "{l} bytes, d{place} {byte:02X}");
            }
        }
    }
}

/// Frames that the message fills have nothing to judge, and so has every frame of the longest one. In a
/// frame past the message's end all seven bytes are filler.
#[test]
fn frames_without_filler_and_without_message() {
    for i in 1..=255 {
        assert!(is_clean([i, 0, 0, 0, 0, 0, 0, 0], 1785), "{i}");
        let past = is_clean([i, 0, 0, 0, 0, 0, 0, 0], 7 * (u16::from(i) - 1));
        assert!(!past, "{i}");
    }
    for data in [[1, 1, 2, 3, 4, 5, 6, 7], [2, 0, 0, 0, 0, 0, 0, 0]] {
        assert!(is_clean(data, 14));
    }
    for place in 1..8 {
        let mut data = [0xFF; 8];
        data[0] = 3;
        assert!(is_clean(data, 14));
        data[place] = 0;
        assert!(!is_clean(data, 14));
    }
}
