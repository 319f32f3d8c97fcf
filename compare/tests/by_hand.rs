//! Outputs of sessions 1, 3, 7, 9 and 11, written by hand from document 01 before the reference
//! was written. Each line carries its reasoning; steps that print nothing are comments alone.

use compare::reference::player::play;
use compare::sessions::SESSIONS;

fn check(name: &str, expected: &[&str]) {
    let session = SESSIONS
        .iter()
        .find(|s| s.name == name)
        .expect("a session of that name");
    let printed = play(&session.pack());
    let lines: Vec<&str> = printed.lines().collect();
    assert_eq!(lines, expected, "session {name}");
    assert!(printed.ends_with('\n'));
}

/// Session 1: the seven lines stand in document 01 itself.
#[test]
fn document_01() {
    check(
        "document-01",
        &[
            "0 S 1 00 02 09 00 FF FF FF FF",
            "1 R 2 01 02 FF FF FF FF FF FF",
            "3 S 1 01 01 02 03 04 05 06 07",
            "5 S 1 02 08 09 FF FF FF FF FF",
            "6 R 4 02 09 00 FF FF FF FF FF",
            "6 R delivered 9",
            "7 S sent 2 3",
        ],
    );
}

/// Session 3: G 1, sender T 20, M 200, receiver T 4, C 3, K 1785; 21 bytes 01 to 15 (hex), so
/// N = 3; events 3 6 1 1 1 3 4 2 3 2 2 2 6 1 1 3 3 6.
#[test]
fn lost_frame() {
    check(
        "lost-frame",
        &[
            // Begin, long: frame 0 with d1 = N = 3, d2 d3 = L = 0x0015, low byte first.
            "0 S 1 00 03 15 00 FF FF FF FF",
            // 1, forward hear: Open, e = 1, w = min(C 3, N 3) = 3, LM_ACK 1, 3.
            "1 R 2 01 03 FF FF FF FF FF FF",
            // 2, back hear: Sending from 1 to min(1 + 3 - 1, 3) = 3, gap count 0.
            // 3, sender tick: gap count 1 = G, frame 1 with bytes 0 to 6.
            "3 S 1 01 01 02 03 04 05 06 07",
            // 4: frame 2 with bytes 7 to 13.
            "4 S 1 02 08 09 0A 0B 0C 0D 0E",
            // 5: frame 3 with bytes 14 to 20, no filler; the window's last, so Waiting, wait 0.
            "5 S 1 03 0F 10 11 12 13 14 15",
            // 6, forward hear of frame 1 = e, neither N nor w: e = 2. wait 0.
            // 7, forward lose: frame 2 is gone.
            // 8, receiver tick: wait 1.
            // 9, forward hear of frame 3, other than e: ignored, wait stays 1.
            // 10, 11: wait 2, 3.
            // 12, receiver tick: wait 4 = T, wait 0, misses 1, w = min(2 + 3 - 1, 3) = 3, LM_ACK
            // e = 2, w - e + 1 = 2.
            "12 R 2 02 02 FF FF FF FF FF FF",
            // 13, back hear in Waiting: s 2 is not below 1: Sending from 2 to min(3, 3) = 3.
            // 14: frame 2 again.
            "14 S 1 02 08 09 0A 0B 0C 0D 0E",
            // 15: frame 3 again, Waiting.
            "15 S 1 03 0F 10 11 12 13 14 15",
            // 16, forward hear of frame 2 = e: e = 3.
            // 17, forward hear of frame 3 = e = N: EndofACK d0 = N, d1 d2 = L; delivered 21.
            "17 R 4 03 15 00 FF FF FF FF FF",
            "17 R delivered 21",
            // 18, back hear in Waiting with this N and L. Sender ticks 3, 4, 5, 14, 15 make 5;
            // frames 0, 1, 2, 3, 2, 3 make 6.
            "18 S sent 5 6",
        ],
    );
}

/// Session 7: G 2, sender T 5, M 100, receiver T 9, C 2, K 100; 10 bytes A0 to A9, N = 2; events
/// 3 6 1 1 1 1 3 3 7 2 1 1 1 1 1 3 6.
#[test]
fn last_frame_again() {
    check(
        "last-frame-again",
        &[
            "0 S 1 00 02 0A 00 FF FF FF FF",
            // 1: Open, e = 1, w = min(2, 2).
            "1 R 2 01 02 FF FF FF FF FF FF",
            // 2: Sending 1 to 2, gap count 0.
            // 3: gap count 1, below G = 2.
            // 4: gap count 2 = G: frame 1.
            "4 S 1 01 A0 A1 A2 A3 A4 A5 A6",
            // 5: gap count 1.
            // 6: frame 2: bytes 7, 8, 9 and four bytes of filler; Waiting, wait 0.
            "6 S 1 02 A7 A8 A9 FF FF FF FF",
            // 7: frame 1 = e, not N, not w: e = 2.
            // 8: frame 2 = e = N.
            "8 R 4 02 0A 00 FF FF FF FF FF",
            "8 R delivered 10",
            // 9: EndofACK is lost.
            // 10: receiver tick, Idle: nothing.
            // 11 to 14: sender's wait 1 to 4.
            // 15: wait 5 = T: wait 0, misses 1, the window's last frame.
            "15 S 1 02 A7 A8 A9 FF FF FF FF",
            // 16: frame 2, Idle, is the last delivered N: EndofACK, and no second delivery.
            "16 R 4 02 0A 00 FF FF FF FF FF",
            // 17: ticks 3, 4, 5, 6, 11, 12, 13, 14, 15 make 9; frames 0, 1, 2, 2 make 4.
            "17 S sent 9 4",
        ],
    );
}

/// Session 9: G 1, sender T 3, M 10, receiver T 3, C 1, K 9; 9 bytes 11 to 19 (hex); events 1 ten
/// times, 4 4 4 3. An edge case of document 01.
#[test]
fn three_timeouts_sender() {
    check(
        "three-timeouts-sender",
        &[
            "0 S 1 00 02 09 00 FF FF FF FF",
            // Tick 3: wait 3 = T, misses 1.
            "3 S 1 00 02 09 00 FF FF FF FF",
            // Tick 6: misses 2.
            "6 S 1 00 02 09 00 FF FF FF FF",
            // Tick 9: the third miss; age 9 is not M = 10. Cause 2, 9 ticks, frames 0, 0, 0 and
            // the NACK make 4.
            "9 S 3 02 FF FF FF FF FF FF FF",
            "9 S failed 2 9 4",
            // 10: Idle: nothing. 11 to 13: the three announcements are lost. 14: the receiver
            // hears NACK 2, Idle: nothing.
        ],
    );
}

/// Session 11: G 1, both T 10, M 100, C 1, K 9; 5 bytes 31 to 35 (hex); events 1 3 1 6 1.
#[test]
fn short_acknowledged() {
    check(
        "short-acknowledged",
        &[
            // Begin, short: SM_RM with the message filled with 0xFF.
            "0 S 5 31 32 33 34 35 FF FF FF",
            // 1: wait 1.
            // 2: SM_ACK with the message's first byte, and a short delivery of its eight bytes.
            "2 R 6 31 FF FF FF FF FF FF FF",
            "2 R short 31 32 33 34 35 FF FF FF",
            // 3: wait 2.
            // 4: SM_ACK with the first byte: two ticks, one frame.
            "4 S sent 2 1",
            // 5: Idle: nothing.
        ],
    );
}
