//! Random runs. A sender is played while a run is made, so that calls can be drawn by where it stands
//! and transfers go forward.

use super::plain_call;
use super::run::{Call, Run, Settings, Turn, BYTES};
use crate::packs::random::Random;
use crate::reference::frame::{self, Frame, LONG_MOST, SHORT_MOST};
use crate::reference::sender::{Phase, Sender};

/// Lengths that are lent in place of the summary's.
const OTHER_LENGTHS: [usize; 8] = [0, 1, 256, 510, 511, 513, 514, 1024];

/// How a run's calls are drawn.
#[derive(Clone, Copy)]
struct Manner {
    /// So many times in a hundred the call is the one that brings the transfer forward.
    forward: usize,
    /// Otherwise by these weights: silence, a refused tick, a begin, a post, a frame heard again, an old
    /// or any LM_ACK, a held receiver's, a wrong end, a NACK, a start above N, a refused frame, any frame.
    weights: [usize; 12],
}

const ORDERLY: Manner = Manner {
    forward: 90,
    weights: [4, 1, 2, 4, 4, 2, 2, 1, 0, 0, 1, 0],
};
const ROUGH: Manner = Manner {
    forward: 55,
    weights: [8, 3, 4, 4, 8, 6, 4, 3, 1, 1, 3, 2],
};
const SILENT: Manner = Manner {
    forward: 10,
    weights: [20, 1, 2, 2, 2, 1, 1, 1, 0, 0, 1, 0],
};
const WILD: Manner = Manner {
    forward: 10,
    weights: [1; 12],
};

struct Maker<'a> {
    random: &'a mut Random,
    sender: Sender,
    bytes: Vec<u8>,
    /// The last frame that was heard and not refused.
    heard: Frame,
    turns: Vec<Turn>,
}

/// The run of this seed.
pub fn run(seed: u64) -> Run {
    let random = &mut Random::new(seed);
    let insisting = random.percent(4);
    let settings = settings(random, insisting);
    let bytes: Vec<u8> = (0..BYTES).map(|_| random.byte()).collect();
    let mut maker = Maker {
        random,
        sender: settings.sender(),
        bytes,
        heard: frame::lm_ack(1, 1),
        turns: Vec::new(),
    };
    if insisting {
        maker.insist();
    }
    let manners = [ORDERLY, ROUGH, SILENT, WILD];
    let manner = manners[maker.random.weighted(&[30, 40, 20, 10])];
    for _ in 0..maker.random.between(5, 120) {
        maker.draw(manner);
    }
    let (bytes, turns) = (maker.bytes, maker.turns);
    Run {
        settings,
        bytes,
        turns,
    }
}

/// Mostly small, so that timeouts come; room for many frames where the receiver insists.
fn settings(random: &mut Random, insisting: bool) -> Settings {
    if insisting {
        return Settings {
            gap: 1,
            timeout: random.pick(&[5, 10000]),
            sending_time: random.pick(&[600, 2000, 60000]),
        };
    }
    Settings {
        gap: random.pick(&[1, 1, 1, 1, 2, 3, 10]),
        timeout: random.pick(&[1, 2, 3, 5, 20, 10000]),
        sending_time: random.pick(&[1, 2, 3, 5, 12, 60, 300, 3000, 60000]),
    }
}

impl Maker<'_> {
    /// Adds a call. At times other bytes are lent, which the sender does not see.
    fn add(&mut self, call: Call, times: usize) {
        let other = self.random.percent(3);
        let lent = other.then(|| self.random.pick(&OTHER_LENGTHS));
        let times = u16::try_from(times).expect("no turn is that long");
        if lent.is_none() {
            for _ in 0..times {
                let given = call.given(&self.bytes);
                let answer = plain_call(&mut self.sender, given);
                if let (Call::Hear(heard), true) = (call, answer.is_ok()) {
                    self.heard = heard;
                }
            }
        }
        self.turns.push(Turn { call, lent, times });
    }

    fn tick(&mut self, times: usize) {
        self.add(Call::Tick(self.sender.length.into()), times);
    }

    fn hear(&mut self, frame: Frame) {
        self.add(Call::Hear(frame), 1);
    }

    /// N of the begun message.
    fn n(&self) -> u8 {
        frame::frames_for(self.sender.length).min(255) as u8
    }

    fn draw(&mut self, manner: Manner) {
        if self.random.percent(manner.forward) {
            return self.forward();
        }
        match self.random.weighted(&manner.weights) {
            0 => self.silence(),
            1 => self.refused_tick(),
            2 => self.begin(),
            3 => self.post(),
            4 => self.hear(self.heard),
            5 => self.any_lm_ack(),
            6 => self.hear(frame::lm_ack(self.sender.start.unwrap_or(2) - 1, 1)),
            7 => self.wrong_end(),
            8 => self.nack(),
            9 => self.hear(frame::lm_ack(self.n().saturating_add(1), 1)),
            10 => self.refused_frame(),
            _ => self.any_frame(),
        }
    }

    /// The call that brings the transfer forward.
    fn forward(&mut self) {
        let most = self.random.pick(&[1, 2, 3, 7, 40, 255]);
        let window = self.random.between(1, most) as u8;
        match self.sender.phase {
            Phase::Idle => self.begin(),
            Phase::Opening => self.hear(frame::lm_ack(1, window)),
            Phase::Sending { next, last } => {
                let left = usize::from(last.saturating_sub(next)) + 1;
                let frames = self.random.between(1, left);
                self.tick(frames * usize::from(self.sender.gap));
            }
            Phase::Waiting { last } if last == self.n() => {
                self.hear(frame::endof_ack(last, self.sender.length));
            }
            Phase::Waiting { last } => self.hear(frame::lm_ack(last + 1, window)),
            Phase::Short => self.hear(frame::sm_ack(self.sender.first)),
        }
    }

    /// A begin, also where none is due, and at times of a bad length.
    fn begin(&mut self) {
        let long = usize::from(LONG_MOST);
        let length = match self.random.weighted(&[25, 45, 12, 3, 6, 9]) {
            0 => self.random.between(1, SHORT_MOST),
            1 => self.random.between(9, 40),
            2 => self.random.between(41, 300),
            3 => self.random.between(301, long),
            4 => self.random.pick(&[8, 9, 14, 15, long - 1, long]),
            _ => self.random.pick(&[0, long + 1, BYTES]),
        };
        self.add(Call::Begin(length), 1);
    }

    /// Ticks up to about a timeout, or three.
    fn silence(&mut self) {
        let timeout = usize::from(self.sender.timeout).min(40);
        let times = self.random.between(1, timeout + 1) * self.random.pick(&[1, 1, 3]);
        self.tick(times);
    }

    fn refused_tick(&mut self) {
        let length = usize::from(self.sender.length);
        let other = [0, length.saturating_sub(1), length + 1, BYTES];
        let length = self.random.pick(&other);
        self.add(Call::Tick(length), 1);
    }

    fn post(&mut self) {
        let length = self.random.pick(&[1, 2, 7, 8, 8, 0, 9, BYTES]);
        self.add(Call::Post(length), 1);
    }

    /// Mostly of a start that was taken before.
    fn any_lm_ack(&mut self) {
        let most = match self.random.percent(70) {
            true => self.sender.start.unwrap_or(1),
            false => self.n(),
        };
        let start = self.random.between(0, most.into()) as u8;
        let count = self.random.pick(&[0, 1, 1, 2, 5, 255]);
        self.hear(frame::lm_ack(start, count));
    }

    /// EndofACK or SM_ACK of another message.
    fn wrong_end(&mut self) {
        let (n, l) = (self.n(), self.sender.length);
        let first = self.sender.first.wrapping_add(1);
        let frames = [
            frame::endof_ack(n, l.wrapping_add(1)),
            frame::endof_ack(n.wrapping_add(1), l),
            frame::sm_ack(first),
        ];
        let frame = self.random.pick(&frames);
        self.hear(frame);
    }

    fn nack(&mut self) {
        let cause = self.random.pick(&[0, 1, 2, 5, 255]);
        self.hear(frame::lm_nack(cause));
    }

    /// No kind, something in place of filler, or a frame for the receiver.
    fn refused_frame(&mut self) {
        let mut dirty = self.heard;
        dirty.data[7] = self.random.between(0, 254) as u8;
        let none = Frame {
            kind: self.random.pick(&[0, 8, 255]),
            ..self.heard
        };
        let frames = [
            dirty,
            none,
            frame::information(self.random.byte().max(1), &self.bytes),
            frame::announcement(2, 9),
            frame::sm_rm(&[1]),
            frame::sm_urm(&[1]),
        ];
        let frame = self.random.pick(&frames);
        self.hear(frame);
    }

    fn any_frame(&mut self) {
        let mut data = [frame::FILLER; 8];
        for byte in data.iter_mut().take(3) {
            *byte = self.random.pick(&[0, 1, 2, 3, 0xFF]);
        }
        let kind = self.random.between(0, 9) as u8;
        self.hear(Frame { kind, data });
    }

    /// A receiver that asks for the same window over and over, so that a count passes 255.
    fn insist(&mut self) {
        let few = self.random.between(9, 60);
        let length = self.random.pick(&[few, few, few, usize::from(LONG_MOST)]);
        self.add(Call::Begin(length), 1);
        self.hear(frame::lm_ack(1, 1));
        let n = self.n();
        let start = self.random.pick(&[1, 1, 2, n]);
        let count = self.random.pick(&[1, 1, 1, 2]);
        for _ in 0..self.random.between(250, 700) {
            self.hear(frame::lm_ack(start, count));
            self.tick(count.into());
        }
    }
}
