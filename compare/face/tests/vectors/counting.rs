//! The sender's calls with a summary, and the table's calls of what is read of its counts.

use face::interface::{Ends, Summary};
use face::values::*;

use crate::transfer::{frame, small, told_answer, told_sender, Transfer};
use crate::words::{bytes, told};

impl<F: Ends + Summary> Transfer<'_, F> {
    pub fn summary_call(&mut self, words: &[&str]) -> String {
        match *words {
            ["lent", count, ref call @ ..] => {
                self.lent_call(call, count.parse().expect("a length"))
            }
            ["set", number, count] => {
                let [number, count] = small(&[number, count]);
                let place = 2 * usize::from(number);
                self.counts[place..place + 2].copy_from_slice(&count.to_le_bytes());
                self.told_counts()
            }
            ["wait", count] => {
                self.ticks(count, |transfer| {
                    drop(transfer.lent_call(&["tick"], COUNTS))
                });
                told_sender(self.sender) + &self.told_counts()
            }
            _ => self.lent_call(words, COUNTS),
        }
    }

    /// With so many bytes of the counts lent; bytes that they have not are 0, and must stay.
    fn lent_call(&mut self, words: &[&str], length: usize) -> String {
        let mut lent = self.counts.clone();
        lent.resize(length, 0);
        if let ["most"] | ["count", _] = *words {
            return self.read(words, &lent);
        }
        let answer = self.kept(words, &mut lent);
        self.sender = answer.next;
        let shorter = length.min(COUNTS);
        self.counts[..shorter].copy_from_slice(&lent[..shorter]);
        assert!(lent[shorter..].iter().all(|&byte| byte == 0), "{words:?}");
        told_answer(answer) + &self.told_counts()
    }

    fn kept(&mut self, words: &[&str], lent: &mut [u8]) -> FlatSenderAnswer {
        let (face, sender) = (self.face, self.sender);
        match *words {
            ["begin", ref message @ ..] => {
                self.message = bytes(message);
                face.summary_begin(sender, &self.message, lent)
            }
            ["tick"] => face.summary_tick(sender, &self.message, lent),
            ["tick", ref message @ ..] => face.summary_tick(sender, &bytes(message), lent),
            ["hear", ref heard @ ..] => face.summary_hear(sender, frame(heard), lent),
            ["post", ref message @ ..] => face.summary_post(sender, &bytes(message), lent),
            _ => panic!("no such call: {words:?}"),
        }
    }

    fn read(&self, words: &[&str], lent: &[u8]) -> String {
        let read = match *words {
            ["count", number] => {
                let number = number.parse().expect("a number");
                self.face.summary_count(number, lent)
            }
            _ => self.face.summary_most(lent),
        };
        let tell = |(number, count)| format!(" {number} {count}");
        told(read.refusal, (read.number, read.count), tell)
    }

    /// The counts that are not 0.
    fn told_counts(&self) -> String {
        let words = self.counts.chunks(2).enumerate();
        let counts = words.map(|(number, word)| (number, u16::from_le_bytes([word[0], word[1]])));
        let counted: String = counts
            .filter(|&(_, count)| count > 0)
            .map(|(number, count)| format!(" {number}:{count}"))
            .collect();
        match counted.as_str() {
            "" => " counts none".into(),
            counted => format!(" counts{counted}"),
        }
    }
}
