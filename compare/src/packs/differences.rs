//! Plays the packs of a seed and those after it with a player and with the reference.

use std::collections::BTreeMap;
use std::fmt;

use super::case::{pairs, Case};
use super::generate;
use super::shrink::shrink;
use crate::reference::player::play;

/// What a player prints for a pack, or why it cannot be run at all.
pub type Player<'a> = dyn Fn(&[u8]) -> Result<String, String> + 'a;

/// How often the reference printed what: `S sent`, `R failed 2`, `refused 12` and the like.
pub type Tally = BTreeMap<String, usize>;

/// A pack that the player plays otherwise than the reference.
#[derive(Debug)]
pub struct Difference {
    pub seed: u64,
    /// The pack's size before it was shortened.
    pub size: usize,
    pub case: Case,
    pub reference: String,
    pub printed: String,
}

/// Compares on `count` packs, the first of them that of `seed`, the next of `seed + 1`, and so on.
pub fn first_difference(
    player: &Player,
    seed: u64,
    count: u64,
    tally: &mut Tally,
) -> Result<Option<Difference>, String> {
    for seed in seed..seed.saturating_add(count) {
        let case = generate::case(seed);
        let pack = case.pack();
        let reference = play(&pack);
        if player(&pack)? != reference {
            return shortened(player, seed, case).map(Some);
        }
        add(tally, &reference);
    }
    Ok(None)
}

/// The difference on the case of this seed, made smaller.
pub(super) fn shortened(player: &Player, seed: u64, case: Case) -> Result<Difference, String> {
    let size = case.pack().len();
    let mut differs = |case: &Case| {
        let pack = case.pack();
        player(&pack).is_ok_and(|printed| printed != play(&pack))
    };
    let case = shrink(case, &mut differs);
    let pack = case.pack();
    Ok(Difference {
        seed,
        size,
        reference: play(&pack),
        printed: player(&pack)?,
        case,
    })
}

/// Counts the reports and refusals of a text, each sort once for a pack.
fn add(tally: &mut Tally, text: &str) {
    let mut sorts: Vec<String> = text.lines().filter_map(sort).collect();
    sorts.sort();
    sorts.dedup();
    for sort in sorts {
        *tally.entry(sort).or_default() += 1;
    }
}

/// The sort of a line that is no frame.
pub(super) fn sort(line: &str) -> Option<String> {
    let words: Vec<&str> = line.split(' ').collect();
    match words[..] {
        ["refused", number] => Some(format!("refused {number}")),
        [_, end, "failed", cause, ..] => Some(format!("{end} failed {cause}")),
        [_, end, report @ ("sent" | "delivered" | "short"), ..] => Some(format!("{end} {report}")),
        _ => None,
    }
}

impl fmt::Display for Difference {
    fn fmt(&self, f: &mut fmt::Formatter) -> fmt::Result {
        writeln!(f, "DIFFERENT at seed {0} (--seed {0} --count 1)", self.seed)?;
        self.tell(f)
    }
}

impl Difference {
    /// All but the seed.
    pub(super) fn tell(&self, f: &mut fmt::Formatter) -> fmt::Result {
        let pack = self.case.pack();
        let (reference, printed) = first_lines(&self.reference, &self.printed);
        writeln!(f, "reference: {reference}")?;
        writeln!(f, "player:    {printed}")?;
        writeln!(
            f,
            "the pack, shortened from {} bytes to {}:",
            self.size,
            pack.len()
        )?;
        for (row, bytes) in pack.chunks(16).enumerate() {
            writeln!(f, "    {:04X}  {}", 16 * row, pairs(bytes))?;
        }
        writeln!(f, "the same for tools/make_pack:")?;
        for line in self.case.description().lines() {
            writeln!(f, "    {line}")?;
        }
        Ok(())
    }
}

/// The first lines in which two texts differ.
fn first_lines<'a>(one: &'a str, other: &'a str) -> (&'a str, &'a str) {
    let (mut one, mut other) = (one.split_inclusive('\n'), other.split_inclusive('\n'));
    loop {
        match (one.next(), other.next()) {
            (Some(a), Some(b)) if a == b => {}
            (a, b) => {
                let shown = |line: Option<&'a str>| line.map_or("(no line)", str::trim_end);
                return (shown(a), shown(b));
            }
        }
    }
}
