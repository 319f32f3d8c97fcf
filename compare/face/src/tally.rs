//! How often each function was called, with what outcome, and what was met.

use crate::call::{Answer, Call, NAMES};
use crate::counting::Counting;
use crate::filling::{Filling, PLACES};
use crate::holding::Met;
use crate::typing::{Typing, NUMBERS};

/// The outcomes of the ends and of talkers: 0 to 7.
pub const OUTCOMES: usize = 8;

/// From so many calls on, all that can be met of a hold, of a last frame's filler, of misses and of counts has to be.
const USUAL: u64 = 1_000_000;

/// Calls by function, answers by function and outcome, and what was met of a hold, of a last frame's filler, of misses and of
/// counts.
#[derive(Clone, Debug)]
pub struct Tally {
    pub calls: [u64; NAMES.len()],
    /// At each function: outcome 0 to 7; where it answers none, 1 is refused.
    pub outcomes: [[u64; OUTCOMES]; NAMES.len()],
    /// In the order of `Met`.
    pub met: [u64; Met::ALL.len()],
    /// In the order of `Filling`, each by the places behind the message.
    pub fillings: [[u64; PLACES]; Filling::ALL.len()],
    /// In the order of `Typing`, each by the misses' number.
    pub typings: [[u64; NUMBERS]; Typing::ALL.len()],
    /// In the order of `Counting`.
    pub countings: [u64; Counting::ALL.len()],
}

impl Default for Tally {
    fn default() -> Tally {
        Tally {
            calls: [0; NAMES.len()],
            outcomes: [[0; OUTCOMES]; NAMES.len()],
            met: [0; Met::ALL.len()],
            fillings: [[0; PLACES]; Filling::ALL.len()],
            typings: [[0; NUMBERS]; Typing::ALL.len()],
            countings: [0; Counting::ALL.len()],
        }
    }
}

impl Tally {
    pub fn total(&self) -> u64 {
        self.calls.iter().sum()
    }

    pub fn add(&mut self, call: &Call, answer: &Answer) {
        let place = call.place();
        self.calls[place] += 1;
        self.outcomes[place][usize::from(outcome(answer)).min(OUTCOMES - 1)] += 1;
        if let Some(met) = Met::by(call, answer) {
            self.met[met as usize] += 1;
        }
        if let Some((filling, places)) = Filling::by(call, answer) {
            self.fillings[filling as usize][places] += 1;
        }
        if let Some((typing, number)) = Typing::by(call, answer) {
            self.typings[typing as usize][number] += 1;
        }
        if let Some(counting) = Counting::by(call, answer) {
            self.countings[counting as usize] += 1;
        }
    }

    /// What was met of a hold fewer times than this.
    pub fn rare_holds(&self, times: u64) -> Vec<String> {
        let rare = Met::ALL
            .iter()
            .filter(|&&met| self.met[met as usize] < times);
        rare.map(|met| format!("{met:?}")).collect()
    }

    /// The same of a last frame's filler, with the places behind the message.
    pub fn rare_fillings(&self, times: u64) -> Vec<String> {
        let each = Filling::ALL
            .iter()
            .flat_map(|&filling| filling.places().map(move |places| (filling, places)));
        each.filter(|&(filling, places)| self.fillings[filling as usize][places] < times)
            .map(|(filling, places)| format!("{filling:?} with {places}"))
            .collect()
    }

    /// The same of misses, with their number.
    pub fn rare_typings(&self, times: u64) -> Vec<String> {
        let each = Typing::ALL.iter().flat_map(|&typing| {
            let numbers = typing.numbers().into_iter();
            numbers.map(move |number| (typing, number))
        });
        each.filter(|&(typing, number)| self.typings[typing as usize][number] < times)
            .map(|(typing, number)| format!("{typing:?} with misses {number}"))
            .collect()
    }

    /// The same of counts.
    pub fn rare_countings(&self, times: u64) -> Vec<String> {
        let rare = Counting::ALL
            .iter()
            .filter(|&&counting| self.countings[counting as usize] < times);
        rare.map(|counting| format!("{counting:?}")).collect()
    }

    /// What was never met. Only in a run of usual size does that say anything.
    pub fn unmet(&self) -> Vec<String> {
        match self.total() < USUAL {
            true => Vec::new(),
            false => [
                self.rare_holds(1),
                self.rare_fillings(1),
                self.rare_typings(1),
                self.rare_countings(1),
            ]
            .concat(),
        }
    }
}

fn outcome(answer: &Answer) -> u8 {
    match answer {
        Answer::SenderMade(made) => u8::from(made.refusal != 0),
        Answer::Sender(answer) | Answer::Kept(answer, _) => answer.outcome,
        Answer::Counted(count) => u8::from(count.refusal != 0),
        Answer::ReceiverMade(made) => u8::from(made.refusal != 0),
        Answer::Receiver(answer) => answer.outcome,
        Answer::Figures(figures) => u8::from(figures.refusal != 0),
        Answer::Joining(joined) => u8::from(joined.refusal != 0),
        Answer::Splitting(parted) => u8::from(parted.refusal != 0),
        Answer::Listing(listing) => u8::from(listing.refusal != 0),
        Answer::Message(reading) => u8::from(reading.refusal != 0),
        Answer::Talk(answer) => answer.outcome,
        Answer::Group(reading) => u8::from(reading.refusal != 0),
        Answer::Written(writing, _) => u8::from(writing.refusal != 0),
        Answer::Finding(finding) => u8::from(finding.refusal != 0),
        Answer::Bytes(writing) => u8::from(writing.refusal != 0),
        Answer::TalkerMade(made) => u8::from(made.refusal != 0),
        Answer::Number(_) => 0,
    }
}
