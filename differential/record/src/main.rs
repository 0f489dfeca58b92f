//! Writes a sample of the Rust original's answers to standard output, in the format of docs/REPLAY.md: the input of the program `replay`,
//! or with the word `mesh` that of `replay_mesh`. The same on every machine.
mod leaves;
mod lists;
mod meshes;
mod regions;
mod runs;
mod sample;

// The generator and the edges that the comparison draws its inputs from.
#[allow(dead_code)]
#[path = "../../src/inputs.rs"]
mod inputs;

use std::io::{self, Write};

fn main() -> io::Result<()> {
    let mut sample = sample::Sample::default();
    if std::env::args().nth(1).as_deref() == Some("mesh") {
        regions::all(&mut sample);
    } else {
        leaves::all(&mut sample);
        lists::all(&mut sample);
        meshes::all(&mut sample);
        runs::all(&mut sample);
    }
    io::stdout().write_all(&sample.bytes())
}
