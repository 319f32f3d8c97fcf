//! The 29-bit identifier of "Around the transport": from its highest bit on, three bits of P, one
//! each of EDP and DP, eight each of PF, PS and SA.

use super::{refusal, Refused};

/// The charger's address.
pub const SECC: u8 = 0x56;
/// The vehicle's address.
pub const EVCC: u8 = 0xF4;

/// The parts of an identifier, before and after judging alike, so wide enough to be over width.
#[derive(Clone, Copy, Debug, PartialEq, Eq)]
pub struct Parts {
    pub p: u32,
    pub edp: u32,
    pub dp: u32,
    pub pf: u32,
    pub ps: u32,
    pub sa: u32,
}

/// Refusal 8 for a number of more than 29 bits, and for a set EDP or DP.
pub fn read(identifier: u32) -> Result<Parts, Refused> {
    if identifier >> 29 != 0 {
        return Err(refusal::IDENTIFIER);
    }
    let parts = Parts {
        p: identifier >> 26,
        edp: (identifier >> 25) & 1,
        dp: (identifier >> 24) & 1,
        pf: (identifier >> 16) & 0xFF,
        ps: (identifier >> 8) & 0xFF,
        sa: identifier & 0xFF,
    };
    if parts.edp != 0 || parts.dp != 0 {
        return Err(refusal::IDENTIFIER);
    }
    Ok(parts)
}

/// Refusal 8 for a part that its bits cannot hold, and for a set EDP or DP.
pub fn build(parts: Parts) -> Result<u32, Refused> {
    let Parts {
        p,
        edp,
        dp,
        pf,
        ps,
        sa,
    } = parts;
    if p > 7 || edp != 0 || dp != 0 || pf > 0xFF || ps > 0xFF || sa > 0xFF {
        return Err(refusal::IDENTIFIER);
    }
    Ok(p << 26 | pf << 16 | ps << 8 | sa)
}
