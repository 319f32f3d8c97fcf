//! Reads a run pack on standard input, plays it and prints the summary of its sender (document 02, E6).

use std::io::{self, Write};

use compare::reference::player::take;
use compare::reference::summary_player::summarize;

fn main() -> io::Result<()> {
    let pack = take(io::stdin())?;
    io::stdout().write_all(summarize(&pack).as_bytes())
}
