//! Random runs of the reference, and what a check says of itself.

use compare::reference::frame::Frame;
use compare::reference::sender::{Answer, Sender};
use compare::reference::summary::Most;
use compare::reference::Refused;
use compare::summary::generate;
use compare::summary::play::{play, reference, Error};
use compare::summary::{Given, SummarySender};

const SEED: u64 = 1;
const CALLS: u64 = 500_000;

/// The reference: the claims hold, and all was reached.
#[test]
fn half_a_million_calls() {
    let counts = play(SEED, CALLS, &reference).unwrap_or_else(|error| panic!("{error}"));
    println!("{counts}");
    assert!(counts.calls >= CALLS);
    assert_eq!(counts.missing(), []);
}

/// A seed has one run.
#[test]
fn runs_of_a_seed() {
    for seed in 0..200 {
        assert_eq!(generate::run(seed), generate::run(seed));
    }
    assert_ne!(generate::run(1), generate::run(2));
}

/// A check of a few calls reaches too little, and says so.
#[test]
fn an_empty_check_is_an_error() {
    let Err(Error::Empty(missing, counts)) = play(SEED, 1, &reference) else {
        panic!("an empty check passes");
    };
    assert_eq!(missing, counts.missing());
    assert!(!missing.is_empty());
}

/// A sender that does nothing is a fault, at the first call that should do something.
struct Mute;

impl SummarySender for Mute {
    fn call(&mut self, _: Given<'_>, _: &mut [u8]) -> Result<Answer, Refused> {
        Ok(Answer::default())
    }

    fn most(&self, _: &[u8]) -> Result<Most, Refused> {
        let (number, count) = (0, 0);
        Ok(Most { number, count })
    }

    fn count(&self, _: &[u8], _: u8) -> Result<u16, Refused> {
        Ok(0)
    }
}

#[test]
fn a_mute_sender_is_a_fault() {
    let Err(Error::Fault(fault)) = play(SEED, CALLS, &|_| Box::new(Mute)) else {
        panic!("a mute sender passes");
    };
    assert_eq!(fault.run.turns.len(), 1);
    assert_eq!(fault.violation.call, 1);
}

/// Over forged states and bytes: a call answers and goes on as the sender's own, a refused one leaves
/// the bytes, and of an accepted one no count moves but that of the frame, by 1 up to 65535.
#[test]
fn forged_states_and_bytes() {
    for seed in 0..300 {
        for (sender, bytes, given_bytes, call) in forged::cases(seed) {
            check_forged(&sender, &bytes, call.given(&given_bytes));
        }
    }
}

fn check_forged(sender: &Sender, bytes: &[u8], given: Given) {
    let (mut plain, mut kept) = (sender.clone(), sender.clone());
    let mut after = bytes.to_vec();
    let answer = SummarySender::call(&mut kept, given, &mut after);
    assert_eq!(answer, compare::summary::plain_call(&mut plain, given));
    assert_eq!(kept, plain);
    let mut due = bytes.to_vec();
    if let (Given::Begin(_), Ok(_)) = (given, answer) {
        due = vec![0; 512];
    }
    if let Ok(Answer {
        frame: Some(Frame { kind: 1, data }),
        ..
    }) = answer
    {
        let (low, high) = (2 * usize::from(data[0]), 2 * usize::from(data[0]) + 1);
        match (due[low], due[high]) {
            (255, 255) => {}
            (255, above) => (due[low], due[high]) = (0, above + 1),
            (below, _) => due[low] = below + 1,
        }
    }
    assert_eq!(after, due);
}

mod forged {
    use compare::packs::random::Random;
    use compare::reference::frame;
    use compare::reference::sender::{Phase, Sender};
    use compare::summary::run::Call;

    const EDGES: [u8; 6] = [0, 1, 2, 254, 255, 7];

    fn phase(random: &mut Random) -> Phase {
        let (next, last) = (random.pick(&EDGES), random.pick(&EDGES));
        match random.between(0, 4) {
            0 => Phase::Idle,
            1 => Phase::Opening,
            2 => Phase::Sending { next, last },
            3 => Phase::Waiting { last },
            _ => Phase::Short,
        }
    }

    fn sender(random: &mut Random) -> Sender {
        let near = [0, 1, 2, 3, 65534, 65535];
        let mut sender =
            Sender::make(1, random.pick(&[1, 2]), random.pick(&[1, 3, 60000])).unwrap();
        sender.phase = phase(random);
        sender.length = random.pick(&[0, 3, 9, 20]);
        sender.first = random.pick(&EDGES);
        sender.age = random.pick(&near);
        sender.wait = random.pick(&near);
        sender.misses = random.pick(&near);
        sender.gap_count = random.pick(&near);
        sender.start = random.percent(50).then(|| random.pick(&EDGES));
        sender.frames = random.pick(&near);
        sender
    }

    fn call(random: &mut Random, sender: &Sender) -> Call {
        let length = random.pick(&[0, 3, 9, 20, sender.length.into()]);
        let (s, c) = (random.pick(&EDGES), random.pick(&EDGES));
        match random.between(0, 6) {
            0 => Call::Begin(length),
            1 => Call::Post(length),
            2 => Call::Hear(frame::lm_ack(s, c)),
            3 => Call::Hear(frame::lm_nack(s)),
            _ => Call::Tick(length),
        }
    }

    /// A sender, the bytes of its summary, bytes for messages, and a call.
    pub fn cases(seed: u64) -> Vec<(Sender, Vec<u8>, Vec<u8>, Call)> {
        let random = &mut Random::new(seed);
        let bytes = [0x00, 0x01, 0xFE, 0xFF, 0xFF, 0xFF];
        let mut cases = Vec::new();
        for _ in 0..40 {
            let sender = sender(random);
            let summary = (0..512).map(|_| random.pick(&bytes)).collect();
            let call = call(random, &sender);
            cases.push((sender, summary, (1..=20).collect(), call));
        }
        cases
    }
}
