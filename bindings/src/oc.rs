//! The parts of a round, and the update of the design.
//!
//! Lists have one place an element. A call that gives a `Result` refuses lists that differ in count with 1, and a list to write that is
//! shorter with 14; then all lists are as before. Of a longer one the rest stays as it is. The others go as far as the shorter list.
use crate::table::Table;
use crate::{Refused, ffi, refusal};
pub use ffi::Start;

/// Whether `solid` of a part's `total` volume, held solid, leaves no room to come down to `target`.
pub fn no_room(solid: f64, total: f64, target: f64) -> bool {
    ffi::sokdrib_no_room(solid, total, target)
}

/// Where a run starts: the first design, each element's volume where it is not held solid, and the numbers of the whole run.
pub fn start(volumes: &[f64], passive: &[bool], fraction: f64, design: &mut [f64], free: &mut [f64]) -> Result<Start, Refused> {
    let start = ffi::sokdrib_start(volumes, passive, fraction, design, free);
    refusal(start.refused).map(|()| start)
}

/// A filtered density `v` sharpened at the steepness `beta`, and how fast it moves with `v`.
pub fn project(v: f64, beta: f64) -> (f64, f64) {
    let p = ffi::sokdrib_project(v, beta);
    (p.density, p.slope)
}

/// What a solve is given from a design: each element's density, and how fast each moves with its filtered density.
pub struct Seen<'a> {
    pub density: &'a mut [f64],
    pub slope: &'a mut [f64],
}

/// What a solve is given from the design `x`: filtered, and sharpened at the steepness `beta` if there is one, 1 where passive.
pub fn see(t: Table<'_>, passive: &[bool], x: &[f64], beta: Option<f64>, seen: Seen<'_>) -> Result<(), Refused> {
    let (sharpen, beta) = (beta.is_some(), beta.unwrap_or(1.0));
    refusal(ffi::sokdrib_see(t.starts, t.near, t.coef, passive, x, sharpen, beta, seen.density, seen.slope))
}

/// How the work of the loads goes with each design value, from what the solve saw and the energies that it gave. `by_density` is for
/// the call's own use.
pub fn work_slope(
    t: Table<'_>,
    passive: &[bool],
    density: &[f64],
    slope: &[f64],
    energies: &[f64],
    by_density: &mut [f64],
    out: &mut [f64],
) -> Result<(), Refused> {
    refusal(ffi::sokdrib_work_slope(t.starts, t.near, t.coef, passive, density, slope, energies, by_density, out))
}

/// How the volume kept goes with each design value, `free` each element's volume where it is not held solid. `by_density` is for the
/// call's own use.
pub fn volume_slope(t: Table<'_>, slope: &[f64], free: &[f64], by_density: &mut [f64], out: &mut [f64]) -> Result<(), Refused> {
    refusal(ffi::sokdrib_volume_slope(t.starts, t.near, t.coef, slope, free, by_density, out))
}

/// How the volume that a design keeps is reckoned.
#[derive(Clone, Copy, Debug, PartialEq)]
pub enum Rule {
    /// Along the slope of the volume, from the volume held solid.
    Straight(f64),
    /// Of the densities that a solve would see at this steepness.
    Sharpened(f64),
}

impl Rule {
    fn numbers(self) -> (u32, f64) {
        match self {
            Rule::Straight(solid) => (0, solid),
            Rule::Sharpened(beta) => (1, beta),
        }
    }
}

/// The volume that the design `y` keeps, `straight` the slope of the volume where the rule is [`Rule::Straight`]. `density` is for the
/// call's own use.
pub fn kept(
    rule: Rule,
    straight: &[f64],
    t: Table<'_>,
    volumes: &[f64],
    passive: &[bool],
    y: &[f64],
    density: &mut [f64],
) -> Result<f64, Refused> {
    let (rule, value) = rule.numbers();
    let kept = ffi::sokdrib_kept(rule, value, straight, t.starts, t.near, t.coef, volumes, passive, y, density);
    refusal(kept.refused).map(|()| kept.volume)
}

/// How an update ended.
#[derive(Clone, Copy, Debug, PartialEq)]
pub enum Ending {
    /// The kept volume, as near to the target as asked.
    Met(f64),
    /// The rates of the bracket, between which no rate lies; or the kept volume is no number.
    Cramped(f64, f64),
    /// The kept volume when no more volumes may be reckoned.
    Spent(f64),
}

#[derive(Clone, Copy, Debug, PartialEq)]
pub struct Updated {
    pub ending: Ending,
    /// How many volumes were reckoned.
    pub passes: usize,
}

/// What an update goes by: the slopes `dc` of the work and `dv` of the volume, the most `m` that a value moves, and how near (`tolerance`)
/// the volume kept is to come to `target`.
#[derive(Clone, Copy, Debug)]
pub struct Aim<'a> {
    pub dc: &'a [f64],
    pub dv: &'a [f64],
    pub m: f64,
    pub target: f64,
    pub tolerance: f64,
    pub rule: Rule,
}

/// What an update writes: the updated design, and two lists for its own use.
pub struct Next<'a> {
    pub design: &'a mut [f64],
    pub gain: &'a mut [f64],
    pub work: &'a mut [f64],
}

/// One update of the design `x`.
pub fn update(x: &[f64], aim: Aim<'_>, t: Table<'_>, volumes: &[f64], passive: &[bool], next: Next<'_>) -> Result<Updated, Refused> {
    let Aim { dc, dv, m, target, tolerance, rule } = aim;
    let Next { design, gain, work } = next;
    let (rule, value) = rule.numbers();
    let (starts, near, coef) = (t.starts, t.near, t.coef);
    let told = ffi::sokdrib_update(x, dc, dv, passive, m, target, tolerance, rule, value, starts, near, coef, volumes, design, gain, work);
    let ending = match told.ending {
        0 => Ending::Met(told.first),
        1 => Ending::Cramped(told.first, told.second),
        _ => Ending::Spent(told.first),
    };
    refusal(told.refused).map(|()| Updated { ending, passes: told.passes })
}

/// The work of the loads, from the energy that each element holds.
pub fn compliance(energies: &[f64]) -> f64 {
    ffi::sokdrib_compliance(energies)
}

/// The share of the total volume that the densities keep, as far as both lists go.
pub fn fraction(volumes: &[f64], density: &[f64], total: f64) -> f64 {
    ffi::sokdrib_fraction(volumes, density, total)
}

/// The most that any element changed, as far as both lists go.
pub fn change(next: &[f64], x: &[f64]) -> f64 {
    ffi::sokdrib_change(next, x)
}

/// How far from solid or empty the densities are, as far as both lists go: `total` is the volume that is not held solid.
pub fn grey(density: &[f64], free: &[f64], total: f64) -> f64 {
    ffi::sokdrib_grey(density, free, total)
}
