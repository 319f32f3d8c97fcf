//! Document 02, E1: the figures of a clean long transfer.

use super::frame::{frames_for, LONG_LEAST, LONG_MOST};
use super::{refusal, Refused};

/// What its report of sent carries.
#[derive(Clone, Copy, Debug, Default, PartialEq, Eq)]
pub struct Figures {
    pub ticks: u16,
    pub frames: u16,
}

/// After the announcement a frame goes out at every G-th tick, each of the N once. Refusal 2 for a
/// length that does not go long, before refusal 1 for a gap that no sender can have.
pub fn figures(length: u32, gap: u32) -> Result<Figures, Refused> {
    if !(LONG_LEAST.into()..=LONG_MOST.into()).contains(&length) {
        return Err(refusal::LENGTH);
    }
    if !(1..=10).contains(&gap) {
        return Err(refusal::SETTING);
    }
    // Both fit: 255 frames and 10 ticks at most.
    let (n, gap) = (frames_for(length as u16), gap as u16);
    Ok(Figures {
        ticks: n * gap,
        frames: n + 1,
    })
}
