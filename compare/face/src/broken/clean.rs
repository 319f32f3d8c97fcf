//! Mistakes in the clean figures.

use super::Mistake;
use crate::interface::Around;
use crate::values::*;
use crate::Reference;

pub const MISTAKES: &[(&str, Mistake)] = &[
    ("8 bytes have clean figures", Mistake::Clean(takes_8)),
    ("9 bytes have no clean figures", Mistake::Clean(refuses_9)),
    (
        "1785 bytes have no clean figures",
        Mistake::Clean(refuses_1785),
    ),
    ("1786 bytes have clean figures", Mistake::Clean(takes_1786)),
    ("a gap of 0 has clean figures", Mistake::Clean(takes_gap_0)),
    (
        "a gap of 1 has no clean figures",
        Mistake::Clean(refuses_gap_1),
    ),
    (
        "a gap of 10 has no clean figures",
        Mistake::Clean(refuses_gap_10),
    ),
    (
        "a gap of 11 has clean figures",
        Mistake::Clean(takes_gap_11),
    ),
    ("1 before 2 at the clean figures", Mistake::Clean(gap_first)),
    (
        "clean figures of a length modulo 65536",
        Mistake::Clean(length_modulo),
    ),
    (
        "clean figures of a gap modulo 256",
        Mistake::Clean(gap_modulo),
    ),
    ("clean figures of N + 1", Mistake::Clean(one_more)),
    ("clean figures of N rounded down", Mistake::Clean(rounded)),
    ("clean ticks one too few", Mistake::Clean(early)),
    (
        "clean frames without the announcement",
        Mistake::Clean(unannounced),
    ),
    ("refused clean figures are there", Mistake::Clean(kept)),
];

/// As if the length and the gap had no limits.
fn unlimited([length, gap]: [u32; 2]) -> FlatCleanFigures {
    let n = length.div_ceil(7);
    FlatCleanFigures {
        refusal: 0,
        ticks: (n * gap) as u16,
        frames: (n + 1) as u16,
    }
}

fn refused(refusal: u8) -> FlatCleanFigures {
    FlatCleanFigures {
        refusal,
        ticks: 0,
        frames: 0,
    }
}

fn is_gap(gap: u32) -> bool {
    (1..=10).contains(&gap)
}

fn takes_8(given: [u32; 2], figures: &mut FlatCleanFigures) {
    if given[0] == 8 && is_gap(given[1]) {
        *figures = unlimited(given);
    }
}

fn refuses_9([length, _]: [u32; 2], figures: &mut FlatCleanFigures) {
    if length == 9 {
        *figures = refused(2);
    }
}

fn refuses_1785([length, _]: [u32; 2], figures: &mut FlatCleanFigures) {
    if length == 1785 {
        *figures = refused(2);
    }
}

fn takes_1786(given: [u32; 2], figures: &mut FlatCleanFigures) {
    if given[0] == 1786 && is_gap(given[1]) {
        *figures = unlimited(given);
    }
}

fn takes_gap_0(given: [u32; 2], figures: &mut FlatCleanFigures) {
    if figures.refusal == 1 && given[1] == 0 {
        *figures = unlimited(given);
    }
}

fn refuses_gap_1([_, gap]: [u32; 2], figures: &mut FlatCleanFigures) {
    if figures.refusal == 0 && gap == 1 {
        *figures = refused(1);
    }
}

fn refuses_gap_10([_, gap]: [u32; 2], figures: &mut FlatCleanFigures) {
    if figures.refusal == 0 && gap == 10 {
        *figures = refused(1);
    }
}

fn takes_gap_11(given: [u32; 2], figures: &mut FlatCleanFigures) {
    if figures.refusal == 1 && given[1] == 11 {
        *figures = unlimited(given);
    }
}

fn gap_first([_, gap]: [u32; 2], figures: &mut FlatCleanFigures) {
    if !is_gap(gap) {
        *figures = refused(1);
    }
}

fn length_modulo([length, gap]: [u32; 2], figures: &mut FlatCleanFigures) {
    *figures = Reference.clean_figures_of(length % 65536, gap);
}

fn gap_modulo([length, gap]: [u32; 2], figures: &mut FlatCleanFigures) {
    *figures = Reference.clean_figures_of(length, gap % 256);
}

fn one_more([length, gap]: [u32; 2], figures: &mut FlatCleanFigures) {
    if figures.refusal == 0 {
        *figures = unlimited([length + 7, gap]);
    }
}

fn rounded([length, gap]: [u32; 2], figures: &mut FlatCleanFigures) {
    if figures.refusal == 0 {
        *figures = unlimited([length - length % 7, gap]);
    }
}

fn early(_: [u32; 2], figures: &mut FlatCleanFigures) {
    figures.ticks = figures.ticks.saturating_sub(1);
}

fn unannounced(_: [u32; 2], figures: &mut FlatCleanFigures) {
    figures.frames = figures.frames.saturating_sub(1);
}

fn kept([length, _]: [u32; 2], figures: &mut FlatCleanFigures) {
    if figures.refusal == 1 {
        figures.frames = unlimited([length, 1]).frames;
    }
}
