//! Chapter "Frames", and document 02, E3: what stands behind the message in an information frame.

use super::{refusal, Refused};

/// The longest short message; "Lengths 1 to 8".
pub const SHORT_MOST: usize = 8;
/// The least length of a long message.
pub const LONG_LEAST: u16 = 9;
/// The greatest length of any message.
pub const LONG_MOST: u16 = 1785;
/// What a receiver's hearing is lent, room for the longest message.
pub const BUFFER_LENGTH: usize = 1785;
/// Message bytes in an information frame: "d1 to d7".
pub const PER_FRAME: u16 = 7;

/// "Unnamed bytes are 0xFF filler."
pub const FILLER: u8 = 0xFF;

/// "1 no space (as a report: NACK heard)"
pub const CAUSE_NO_SPACE: u8 = 1;
/// "2 three timeouts"
pub const CAUSE_TIMEOUTS: u8 = 2;
/// "3 sending time over"
pub const CAUSE_SENDING_TIME: u8 = 3;
/// "4 frame number above N"
pub const CAUSE_NUMBER: u8 = 4;
/// "5 bad announcement"
pub const CAUSE_ANNOUNCEMENT: u8 = 5;

/// A kind, and d0 to d7 in their order.
#[derive(Clone, Copy, Debug, PartialEq, Eq)]
pub struct Frame {
    pub kind: u8,
    pub data: [u8; 8],
}

/// What a read frame says.
#[derive(Clone, Copy, Debug, PartialEq, Eq)]
pub enum Content {
    /// Kind 1 with number 0: a transfer of l bytes in n frames is announced.
    Announcement { n: u8, l: u16 },
    /// Kind 1 with another number: the i-th seven bytes of the message; clean where only filler stands
    /// behind its last byte. Of the other contents reading has judged the filler, or nobody does (5, 7).
    Information { i: u8, bytes: [u8; 7], clean: bool },
    /// Kind 2: c frames are asked for, from s on.
    LmAck { s: u8, c: u8 },
    /// Kind 3.
    LmNack { cause: u8 },
    /// Kind 4: a message of l bytes in n frames has come whole.
    EndofAck { n: u8, l: u16 },
    /// Kind 5: a short message that asks for SM_ACK.
    SmRm([u8; 8]),
    /// Kind 6: the short message that begins with this byte has come.
    SmAck { first: u8 },
    /// Kind 7: a short message that asks for nothing.
    SmUrm([u8; 8]),
}

/// N of a length L.
pub fn frames_for(l: u16) -> u16 {
    l.div_ceil(PER_FRAME)
}

/// How many of the l bytes of a message its frame i carries: seven, fewer at the end, none past it.
pub fn carried(i: u8, l: u16) -> usize {
    let before = PER_FRAME * u16::from(i).saturating_sub(1);
    l.saturating_sub(before).min(PER_FRAME).into()
}

/// "Words of two bytes go low byte first".
fn word(low: u8, high: u8) -> u16 {
    u16::from_le_bytes([low, high])
}

/// Reads a frame of a message of l bytes: refusal 6 for an unknown kind, and for a byte other than
/// 0xFF where the kind names none. Frames that carry message bytes have no such places; of those with
/// a number it is told whether what stands behind the message is filler.
pub fn read(frame: Frame, l: u16) -> Result<Content, Refused> {
    let d = frame.data;
    // How many bytes are named.
    let named = match frame.kind {
        1 if d[0] == 0 => 4, // d0 number, d1 N, d2 d3 L
        1 | 5 | 7 => 8,      // message bytes to the end
        2 => 2,              // d0 s, d1 c
        3 | 6 => 1,          // d0
        4 => 3,              // d0 N, d1 d2 L
        _ => return Err(refusal::FRAME),
    };
    if d[named..].iter().any(|&byte| byte != FILLER) {
        return Err(refusal::FRAME);
    }
    Ok(match frame.kind {
        1 if d[0] == 0 => Content::Announcement {
            n: d[1],
            l: word(d[2], d[3]),
        },
        1 => Content::Information {
            i: d[0],
            bytes: [d[1], d[2], d[3], d[4], d[5], d[6], d[7]],
            clean: d[1 + carried(d[0], l)..].iter().all(|&byte| byte == FILLER),
        },
        2 => Content::LmAck { s: d[0], c: d[1] },
        3 => Content::LmNack { cause: d[0] },
        4 => Content::EndofAck {
            n: d[0],
            l: word(d[1], d[2]),
        },
        5 => Content::SmRm(d),
        6 => Content::SmAck { first: d[0] },
        _ => Content::SmUrm(d),
    })
}

/// A frame of this kind with these bytes first, at most eight, and filler after them.
fn filled(kind: u8, bytes: &[u8]) -> Frame {
    let mut data = [FILLER; 8];
    for (place, &byte) in data.iter_mut().zip(bytes) {
        *place = byte;
    }
    Frame { kind, data }
}

/// Information, number 0.
pub fn announcement(n: u8, l: u16) -> Frame {
    let [low, high] = l.to_le_bytes();
    filled(1, &[0, n, low, high])
}

/// Information, number i from 1: seven bytes of the message behind those of the i - 1 frames before;
/// filler where the message ends sooner.
pub fn information(i: u8, message: &[u8]) -> Frame {
    let start = usize::from(PER_FRAME) * usize::from(i).saturating_sub(1);
    let mut bytes = vec![i];
    bytes.extend(message.iter().skip(start).take(usize::from(PER_FRAME)));
    filled(1, &bytes)
}

/// Kind 2.
pub fn lm_ack(s: u8, c: u8) -> Frame {
    filled(2, &[s, c])
}

/// Kind 3.
pub fn lm_nack(cause: u8) -> Frame {
    filled(3, &[cause])
}

/// Kind 4.
pub fn endof_ack(n: u8, l: u16) -> Frame {
    let [low, high] = l.to_le_bytes();
    filled(4, &[n, low, high])
}

/// Kind 5.
pub fn sm_rm(message: &[u8]) -> Frame {
    filled(5, message)
}

/// Kind 6.
pub fn sm_ack(first: u8) -> Frame {
    filled(6, &[first])
}

/// Kind 7.
pub fn sm_urm(message: &[u8]) -> Frame {
    filled(7, message)
}
