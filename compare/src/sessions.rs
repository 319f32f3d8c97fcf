//! The sessions, as data: settings, message and events of one player run each.
//!
//! Events are the numbers of the chapter "The player": 1 is a tick of the sender and 2 of the
//! receiver; 3 to 5 are done to forward and 6 to 8 to back, each time hear, lose, repeat.

use crate::reference::player::{build, Settings};

/// One player run with a name.
#[derive(Clone, Copy, Debug)]
pub struct Session {
    pub name: &'static str,
    pub settings: Settings,
    pub message: &'static [u8],
    pub events: &'static [u8],
}

impl Session {
    /// The run pack of this session.
    pub fn pack(&self) -> Vec<u8> {
        build(&self.settings, self.message, self.events)
    }
}

/// Settings in the order of the pack: G, sender T, M, receiver T, C, K.
const fn settings(
    gap: u8,
    sender_timeout: u16,
    sending_time: u16,
    receiver_timeout: u16,
    window: u8,
    capacity: u16,
) -> Settings {
    Settings {
        gap,
        sender_timeout,
        sending_time,
        receiver_timeout,
        window,
        capacity,
    }
}

/// The bytes 01, 02, ... of which the long messages below are the beginnings.
const COUNTING: [u8; 30] = [
    0x01, 0x02, 0x03, 0x04, 0x05, 0x06, 0x07, 0x08, 0x09, 0x0A, 0x0B, 0x0C, 0x0D, 0x0E, 0x0F, 0x10,
    0x11, 0x12, 0x13, 0x14, 0x15, 0x16, 0x17, 0x18, 0x19, 0x1A, 0x1B, 0x1C, 0x1D, 0x1E,
];

const fn counting(length: usize) -> &'static [u8] {
    COUNTING.split_at(length).0
}

/// All sessions, in order.
pub const SESSIONS: [Session; 17] = [
    // 1: the example of document 01.
    Session {
        name: "document-01",
        settings: settings(1, 10, 100, 10, 2, 1785),
        message: counting(9),
        events: &[3, 6, 1, 3, 1, 3, 6],
    },
    // 2: no loss, window of 3, 29 bytes, so N = 5 and windows of 3 and 2.
    Session {
        name: "no-loss",
        settings: settings(1, 20, 200, 20, 3, 1785),
        message: counting(29),
        events: &[3, 6, 1, 3, 1, 3, 1, 3, 6, 1, 3, 1, 3, 6],
    },
    // 3: frame 2 of a window of 3 is lost, frame 3 is ignored without restarting the receiver's
    // wait, the receiver's timeout asks for 2 again.
    Session {
        name: "lost-frame",
        settings: settings(1, 20, 200, 4, 3, 1785),
        message: counting(21),
        events: &[3, 6, 1, 1, 1, 3, 4, 2, 3, 2, 2, 2, 6, 1, 1, 3, 3, 6],
    },
    // 4: LM_ACK 3, 1 is lost. The sender's timeout brings its window's last frame again, which
    // the receiver ignores (its wait goes on); the receiver's timeout asks again.
    Session {
        name: "lost-ack",
        settings: settings(1, 4, 100, 6, 2, 1785),
        message: counting(16),
        events: &[
            3, 6, 1, 1, 3, 3, 7, 2, 2, 1, 1, 1, 1, 3, 2, 2, 2, 2, 6, 1, 3, 6,
        ],
    },
    // 5: frames 1 and 2 are heard three times each; one delivery, EndofACK three times.
    Session {
        name: "repeated-frame",
        settings: settings(1, 20, 100, 20, 2, 1785),
        message: counting(12),
        events: &[3, 6, 1, 5, 5, 3, 1, 5, 5, 3, 6, 6, 6],
    },
    // 6: frame 0 opens and is heard twice more at e = 1; the wait goes on, so the fifth receiver
    // tick is a timeout. (Frame 0 at e > 1 cannot come about in a player run: see NOTES.md.)
    Session {
        name: "repeated-announcement",
        settings: settings(1, 20, 100, 5, 2, 1785),
        message: counting(13),
        events: &[5, 2, 2, 5, 2, 2, 3, 2, 6, 7, 7, 7, 1, 3, 1, 3, 6],
    },
    // 7: EndofACK is lost; the sender's timeout brings the last frame again.
    Session {
        name: "last-frame-again",
        settings: settings(2, 5, 100, 9, 2, 100),
        message: &[0xA0, 0xA1, 0xA2, 0xA3, 0xA4, 0xA5, 0xA6, 0xA7, 0xA8, 0xA9],
        events: &[3, 6, 1, 1, 1, 1, 3, 3, 7, 2, 1, 1, 1, 1, 1, 3, 6],
    },
    // 8: LM_ACK 3, 1 is lost and M is reached before any timeout.
    Session {
        name: "sending-time-over",
        settings: settings(1, 20, 6, 20, 2, 1785),
        message: counting(16),
        events: &[3, 6, 1, 3, 1, 3, 7, 1, 1, 1, 1, 3, 2],
    },
    // 9: silence in Opening; a tenth tick finds the sender Idle, NACK 2 finds the receiver Idle.
    Session {
        name: "three-timeouts-sender",
        settings: settings(1, 3, 10, 3, 1, 9),
        message: &[0x11, 0x12, 0x13, 0x14, 0x15, 0x16, 0x17, 0x18, 0x19],
        events: &[1, 1, 1, 1, 1, 1, 1, 1, 1, 1, 4, 4, 4, 3],
    },
    // 10: both information frames are lost and the receiver's LM_ACKs after them too.
    Session {
        name: "three-timeouts-receiver",
        settings: settings(1, 50, 200, 3, 2, 1785),
        message: counting(9),
        events: &[3, 6, 1, 4, 1, 4, 2, 2, 2, 2, 2, 2, 2, 2, 2, 7, 7, 6],
    },
    // 11: a short message, acknowledged.
    Session {
        name: "short-acknowledged",
        settings: settings(1, 10, 100, 10, 1, 9),
        message: &[0x31, 0x32, 0x33, 0x34, 0x35],
        events: &[1, 3, 1, 6, 1],
    },
    // 12, first run: SM_RM is lost and goes again at T.
    Session {
        name: "short-lost",
        settings: settings(1, 4, 50, 10, 1, 9),
        message: &[0x41, 0x42, 0x43],
        events: &[4, 1, 1, 1, 1, 3, 6],
    },
    // 12, second run: every SM_ACK is lost until M.
    Session {
        name: "short-lost-until-M",
        settings: settings(1, 3, 8, 10, 1, 9),
        message: &[0x51, 0x52, 0x53, 0x54, 0x55, 0x56, 0x57, 0x58],
        events: &[3, 7, 1, 1, 1, 3, 7, 1, 1, 1, 3, 7, 1, 1, 6],
    },
    // 13: L 10 finds a capacity of 9.
    Session {
        name: "no-space",
        settings: settings(1, 10, 100, 10, 2, 9),
        message: counting(10),
        events: &[1, 3, 6],
    },
    // 14: C = 1, 30 bytes, no loss: an LM_ACK for every frame.
    Session {
        name: "window-of-1",
        settings: settings(1, 20, 200, 20, 1, 1785),
        message: counting(30),
        events: &[3, 6, 1, 3, 6, 1, 3, 6, 1, 3, 6, 1, 3, 6, 1, 3, 6],
    },
    // 15: LM_ACK 1, 2 is heard again in Sending (events 4 and 12) and in Waiting (event 10): the
    // window starts again each time. The miss of event 9 is kept, so two more make NACK 2.
    Session {
        name: "repeated-ack",
        settings: settings(1, 3, 100, 20, 2, 1785),
        message: counting(9),
        events: &[3, 8, 1, 8, 1, 1, 1, 1, 1, 8, 1, 6, 1, 1, 1, 1, 1, 1, 1, 1],
    },
    // 16: frame 0, frame 2 and an EndofACK are lost; frame 0, frame 1, LM_ACK 4, 2 and frame 5 are
    // repeated.
    Session {
        name: "lost-and-repeated",
        settings: settings(2, 6, 200, 7, 2, 1785),
        message: counting(30),
        events: &[
            4, 1, 1, 1, 1, 1, 1, 5, 3, 6, 6, 1, 1, 1, 1, 5, 3, 4, 2, 2, 2, 2, 2, 2, 2, 6, 1, 1, 1,
            1, 3, 3, 8, 6, 1, 1, 1, 1, 3, 5, 7, 3, 6,
        ],
    },
];
