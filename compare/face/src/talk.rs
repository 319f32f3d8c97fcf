//! A version talk between a charger (side 0) and a vehicle (side 1), and random talks.

use compare::packs::random::Random;

use crate::call::{Answer, Call, Mismatch, Pair};
use crate::frames::random_bytes;
use crate::interface::Face;
use crate::lists::{accepted, message, standing, three};
use crate::values::*;

/// Steps of one side, but for the ticks of both.
#[derive(Clone, Copy, Debug, PartialEq, Eq)]
pub enum TalkStep {
    Connect(usize),
    /// It hears what the other side said last, if anything.
    Hear(usize),
    HearBytes(usize, FlatVersionBytes),
    Stop(usize),
    Greet(usize),
    Functions(usize),
    /// So many ticks of both sides.
    Ticks(u16),
}

#[derive(Clone, Debug, PartialEq, Eq)]
pub struct Talk {
    /// The lent bytes of each side's list.
    pub lists: [Vec<u8>; 2],
    pub controls: [u8; 2],
    pub steps: Vec<TalkStep>,
}

struct Sides {
    talkers: [FlatTalker; 2],
    said: [Option<FlatVersionBytes>; 2],
}

impl Talk {
    /// Plays it on both faces, up to the first mismatch.
    pub fn play<L: Face, R: Face>(&self, pair: &mut Pair<L, R>) -> Result<(), Box<Mismatch>> {
        let mut talkers = [FlatTalker::default(); 2];
        for (side, talker) in talkers.iter_mut().enumerate() {
            let Answer::Listing(listing) = pair.compare(Call::List(self.lists[side].clone()))?
            else {
                unreachable!("a list is answered by a listing");
            };
            if listing.refusal != 0 {
                return Ok(());
            }
            let make = Call::TalkerMake(side as u8, listing.versions, self.controls[side]);
            let Answer::TalkerMade(made) = pair.compare(make)? else {
                unreachable!("making is answered by a talker or its refusal");
            };
            *talker = made.talker;
        }
        let said = [None; 2];
        let mut sides = Sides { talkers, said };
        for &step in &self.steps {
            sides.step(step, pair)?;
        }
        Ok(())
    }
}

impl Sides {
    fn step<L: Face, R: Face>(
        &mut self,
        step: TalkStep,
        pair: &mut Pair<L, R>,
    ) -> Result<(), Box<Mismatch>> {
        let (side, call) = match step {
            TalkStep::Ticks(count) => {
                for side in (0..count).flat_map(|_| [0, 1]) {
                    self.call(side, Call::TalkerTick(self.talkers[side]), pair)?;
                }
                return Ok(());
            }
            TalkStep::Hear(side) => match self.said[1 - side] {
                Some(bytes) => (side, Call::TalkerHear(self.talkers[side], bytes)),
                None => return Ok(()),
            },
            TalkStep::HearBytes(side, bytes) => (side, Call::TalkerHear(self.talkers[side], bytes)),
            TalkStep::Connect(side) => (side, Call::TalkerConnect(self.talkers[side])),
            TalkStep::Stop(side) => (side, Call::TalkerStop(self.talkers[side])),
            TalkStep::Greet(side) => (side, Call::TalkerGreet(self.talkers[side])),
            TalkStep::Functions(side) => (side, Call::TalkerFunctionsHeard(self.talkers[side])),
        };
        self.call(side, call, pair)
    }

    fn call<L: Face, R: Face>(
        &mut self,
        side: usize,
        call: Call,
        pair: &mut Pair<L, R>,
    ) -> Result<(), Box<Mismatch>> {
        if let Answer::Talk(answer) = pair.compare(call)? {
            self.talkers[side] = answer.next;
            if answer.emits {
                self.said[side] = Some(answer.bytes);
            }
        }
        Ok(())
    }
}

/// A random talk: both connect, then ticks and hearings by turns, with stops, greetings and odd messages between.
pub fn draw(random: &mut Random) -> Talk {
    let versions = [accepted(random), accepted(random)];
    let lists = versions.map(|list| {
        standing(&list)
            .iter()
            .flat_map(|&version| three(version))
            .collect()
    });
    let mut steps = vec![TalkStep::Connect(0), TalkStep::Connect(1)];
    if random.percent(10) {
        steps.remove(random.between(0, 1));
    }
    for _ in 0..random.between(2, 12) {
        steps.push(step(random, &versions));
    }
    Talk {
        lists,
        controls: random_bytes(random),
        steps,
    }
}

fn step(random: &mut Random, versions: &[FlatVersions; 2]) -> TalkStep {
    let side = random.between(0, 1);
    match random.weighted(&[30, 50, 8, 2, 2, 6, 2]) {
        0 => TalkStep::Ticks(match random.between(1, 300) {
            1 => random.pick(&[14949, 14999, 15000, 15001]),
            _ => random.pick(&[1, 2, 10, 48, 49, 50, 51, 101]),
        }),
        1 => TalkStep::Hear(side),
        2 => TalkStep::HearBytes(side, message(random, &versions[side])),
        3 => TalkStep::Stop(side),
        4 => TalkStep::Greet(side),
        5 => TalkStep::Functions(side),
        _ => TalkStep::Connect(side),
    }
}
