//! The proved library for Rust, in the modules and under the names that it has there.
//!
//! Every function of the library has a result for every input, so nothing is tested here. Lists are lent: the library keeps none.
pub mod faces;
#[rustfmt::skip]
pub mod ffi;
pub mod filter;
pub mod geom;
pub mod ieee;
pub mod mesh;
pub mod oc;
pub mod region;
pub mod run;
pub mod shift;
pub mod table;
pub mod topo;

/// The number of a refusal: document 01, "What a refusal hands back"; docs/API.md, "Refusals", has their table.
#[derive(Clone, Copy, Debug, PartialEq, Eq)]
pub struct Refused(pub u32);

fn refusal(number: u32) -> Result<(), Refused> {
    if number == 0 { Ok(()) } else { Err(Refused(number)) }
}
