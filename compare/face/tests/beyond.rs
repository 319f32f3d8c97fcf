//! What `forged` leaves out: states of which documents 01 and 02 say nothing, each with a call on which the face and the
//! reference go their own ways. Should one of these become alike, `forged` can draw it.
#![cfg(feature = "proved")]

use face::call::{Call, Pair, Part};
use face::ffi::Proved;
use face::values::*;
use face::Reference;

fn differs(call: Call) {
    let mut pair = Pair::new(&Proved, &Reference);
    let compared = pair.compare(call.clone());
    assert!(compared.is_err(), "alike: {call:?}");
}

const MESSAGE: Part = Part {
    from: 0,
    length: 20,
};

/// A long transfer of 20 bytes; settings 5, all counts one below.
fn sender(phase: u8) -> FlatSender {
    FlatSender {
        gap: 5,
        timeout: 5,
        limit: 5,
        phase,
        length: 20,
        frames: 3,
        emitted: 1,
        start: 1,
        due: 1,
        last: 2,
        ..FlatSender::default()
    }
}

fn receiver(frames: u8, expected: u8) -> FlatReceiver {
    FlatReceiver {
        timeout: 5,
        window: 2,
        capacity: 1785,
        phase: 2,
        frames,
        length: 20,
        expected,
        last: 2,
        wait: 4,
        misses: misses::NONE_AFTER_ACK,
        held: false,
        holds: 0,
    }
}

/// "= M", "At T", "At G", "the third": the face reads at least, the reference exactly.
#[test]
fn counts_past_their_limits() {
    let tick = |sender| differs(Call::SenderTick(sender, MESSAGE));
    tick(FlatSender {
        age: 5,
        ..sender(1)
    });
    tick(FlatSender {
        wait: 5,
        ..sender(1)
    });
    tick(FlatSender {
        wait: 5,
        ..sender(3)
    });
    tick(FlatSender {
        wait: 5,
        ..sender(4)
    });
    tick(FlatSender {
        count: 5,
        ..sender(2)
    });
    let third = FlatSender {
        wait: 4,
        misses: 3,
        ..sender(1)
    };
    tick(third);
}

/// The same at the receiver: "At T", "a 21st".
#[test]
fn counts_of_the_receiver_past_their_limits() {
    let late = FlatReceiver {
        wait: 5,
        ..receiver(3, 1)
    };
    differs(Call::ReceiverTick(late));
    let held = FlatReceiver {
        held: true,
        holds: 21,
        ..receiver(3, 2)
    };
    differs(Call::ReceiverTick(held));
}

/// A wait after a frame where none has been accepted: an announcement that comes again leaves it in the face, and in the
/// reference its LM_ACK is the later.
#[test]
fn a_wait_after_a_frame_before_the_first() {
    let waiting = FlatReceiver {
        misses: misses::NONE_AFTER_FRAME,
        ..receiver(3, 1)
    };
    let announcement = FlatFrame {
        kind: 1,
        bytes: [0, 3, 20, 0, 0xFF, 0xFF, 0xFF, 0xFF],
    };
    differs(Call::ReceiverHear(waiting, announcement, 1785));
}

/// The reference counts N from L.
#[test]
fn another_n() {
    let other = FlatSender {
        frames: 4,
        ..sender(1)
    };
    differs(Call::SenderTick(other, MESSAGE));
}

/// w − e + 1 where w is below e: 0 in the face, 1 in the reference.
#[test]
fn a_window_below_the_frame_expected() {
    differs(Call::ReceiverTick(receiver(3, 0)));
    differs(Call::ReceiverTick(receiver(3, 5)));
    let held = FlatReceiver {
        held: true,
        ..receiver(3, 5)
    };
    differs(Call::ReceiverResume(held));
    let none = FlatReceiver {
        window: 0,
        ..receiver(3, 1)
    };
    differs(Call::ReceiverTick(none));
}

fn talker(state: u8) -> FlatTalker {
    FlatTalker {
        side: 1,
        versions: FlatVersions {
            count: 1,
            numbers: [0x020000, 0, 0, 0, 0, 0, 0, 0],
        },
        state,
        ..FlatTalker::default()
    }
}

/// Continue with the version at Ns, which is past the list: to the face it is no version of the list.
#[test]
fn a_place_past_the_list() {
    let past = FlatTalker {
        place: 8,
        ..talker(1)
    };
    let zero = FlatVersionBytes { bytes: [0; 8] };
    differs(Call::TalkerHear(past, zero));
}

/// A talker's counts past their limits, and timers that its state has not.
#[test]
fn talkers() {
    let tick = |talker| differs(Call::TalkerTick(talker));
    tick(FlatTalker {
        period: 50,
        ..talker(1)
    });
    tick(FlatTalker {
        age: 15000,
        ..talker(1)
    });
    for state in [0, 2, 4, 5] {
        tick(FlatTalker {
            timing: true,
            period: 49,
            ..talker(state)
        });
    }
}
