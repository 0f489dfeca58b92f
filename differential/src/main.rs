//! Runs the proved library and the Rust original on the same inputs and compares what they give, bit by bit.
//!
//!     differential [--cases N] [--long] [--seed S] [--only FUNCTION] [--shape FILE]
//!
//! Prints a line for each function: how many cases, how many differences, and the smallest inputs that have one, as bits. Ends with
//! status 1 where there are any. `--cases` is how many random inputs a leaf gets beside its edges, and functions over lists get fewer in
//! proportion; `--long` means twenty times as many, and the largest tables and runs, which take some
//! gigabytes. `--shape` names the program that job strips are put through; without it none are.
mod calls;
mod compare;
mod filter;
mod inputs;
mod leaves;
mod lists;
mod mesh;
mod oc;
mod plain;
mod region;
mod runs;
mod shares;
mod shifts;
mod strips;
mod whole;

use std::path::PathBuf;
use std::process::ExitCode;

use compare::Run;

const CASES: usize = 1_000_000;
const LONG: usize = 20 * CASES;

fn options() -> Option<(Run, Option<PathBuf>)> {
    let (mut cases, mut seed, mut only, mut long, mut shape) = (CASES, 1, None, false, None);
    let mut words = std::env::args().skip(1);
    while let Some(word) = words.next() {
        match word.as_str() {
            "--cases" => cases = words.next()?.parse().ok()?,
            "--long" => (cases, long) = (LONG, true),
            "--seed" => seed = words.next()?.parse().ok()?,
            "--only" => only = Some(words.next()?),
            "--shape" => shape = Some(PathBuf::from(words.next()?)),
            _ => return None,
        }
    }
    let mut run = Run::new(cases, seed);
    (run.only, run.long) = (only, long);
    Some((run, shape))
}

fn main() -> ExitCode {
    if std::env::args().nth(1).as_deref() == Some("strips") {
        print!("{}", strips::sample());
        return ExitCode::SUCCESS;
    }
    let Some((mut run, shape)) = options() else {
        eprintln!("usage: differential [--cases N] [--long] [--seed S] [--only FUNCTION] [--shape FILE]\n       differential strips");
        return ExitCode::from(2);
    };
    leaves::all(&mut run);
    mesh::all(&mut run);
    region::all(&mut run);
    filter::all(&mut run);
    shares::all(&mut run);
    shifts::all(&mut run);
    oc::all(&mut run);
    runs::all(&mut run);
    calls::all(&mut run);
    if let Some(shape) = shape {
        strips::all(&mut run, &shape);
    }
    if run.close() { ExitCode::SUCCESS } else { ExitCode::FAILURE }
}
