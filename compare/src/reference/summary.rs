//! Document 02, E6: how often each information frame went out since begin. The counts lie in bytes that
//! are lent to each call beside the sender.

use super::frame::Frame;
use super::sender::{Answer, Sender};
use super::{refusal, Refused};

/// A word for each number 0 to 255, in their order; all 0 at first.
pub const SUMMARY_LENGTH: usize = 512;

/// The number sent most often, and its count.
#[derive(Clone, Copy, Debug, PartialEq, Eq)]
pub struct Most {
    pub number: u8,
    pub count: u16,
}

/// The sender's begin. All counts begin anew; a long one has then emitted number 0 once.
pub fn begin(sender: &mut Sender, message: &[u8], summary: &mut [u8]) -> Result<Answer, Refused> {
    judge(summary)?;
    let answer = sender.begin(message)?;
    summary.fill(0);
    keep(answer, summary);
    Ok(answer)
}

/// The sender's tick.
pub fn tick(sender: &mut Sender, message: &[u8], summary: &mut [u8]) -> Result<Answer, Refused> {
    judge(summary)?;
    let answer = sender.tick(message)?;
    keep(answer, summary);
    Ok(answer)
}

/// The sender's hearing. The one frame that it can emit is a NACK, which is not counted.
pub fn hear(sender: &mut Sender, heard: Frame, summary: &mut [u8]) -> Result<Answer, Refused> {
    judge(summary)?;
    let answer = sender.hear(heard)?;
    keep(answer, summary);
    Ok(answer)
}

/// The sender's post, which adds nothing.
pub fn post(sender: &Sender, message: &[u8], summary: &[u8]) -> Result<Answer, Refused> {
    judge(summary)?;
    sender.post(message)
}

/// The number with the greatest count, the lowest of those that share it.
pub fn most(summary: &[u8]) -> Result<Most, Refused> {
    judge(summary)?;
    let mut most = Most {
        number: 0,
        count: word(summary, 0),
    };
    for number in 1..=255 {
        let count = word(summary, number);
        if count > most.count {
            most = Most { number, count };
        }
    }
    Ok(most)
}

/// How often this number was sent.
pub fn count(summary: &[u8], number: u8) -> Result<u16, Refused> {
    judge(summary)?;
    Ok(word(summary, number))
}

/// Refusal 5, before all others and in every state.
fn judge(summary: &[u8]) -> Result<(), Refused> {
    if summary.len() != SUMMARY_LENGTH {
        return Err(refusal::BUFFER);
    }
    Ok(())
}

/// Counts the frame of a call that was not refused, if it is an information frame.
fn keep(answer: Answer, summary: &mut [u8]) {
    let Some(Frame { kind: 1, data }) = answer.frame else {
        return;
    };
    let place = 2 * usize::from(data[0]);
    let count = word(summary, data[0]).saturating_add(1);
    summary[place..place + 2].copy_from_slice(&count.to_le_bytes());
}

/// "Words of two bytes go low byte first".
fn word(summary: &[u8], number: u8) -> u16 {
    let place = 2 * usize::from(number);
    u16::from_le_bytes([summary[place], summary[place + 1]])
}
