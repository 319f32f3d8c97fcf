//! Reads a run pack on standard input and prints what the player prints.

use std::io::{self, Write};

use compare::reference::player::{play, take};

fn main() -> io::Result<()> {
    let pack = take(io::stdin())?;
    io::stdout().write_all(play(&pack).as_bytes())
}
