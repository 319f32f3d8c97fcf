//! For callgrind, which counts instructions: every row's calls, each side in one call of `counted`, and no timing.

use std::hint::black_box;

use crate::measure::{Calls, Row};

/// callgrind counts in here alone; `tools/instructions` names it. It must return by itself, and not by a jump to the calls.
#[inline(never)]
fn counted(calls: &mut Calls, count: u64) {
    calls(count);
    black_box(());
}

/// Prints a title, and under it the names in the order in which they are counted, each with its number of sides.
pub fn count_table<const SIDES: usize>(title: &str, rows: Vec<Row<SIDES>>, count: u64) {
    println!("{title}");
    for mut row in rows {
        println!("| {} | {}", row.name, row.sides.len());
        for calls in &mut row.sides {
            counted(calls, count);
        }
    }
}
