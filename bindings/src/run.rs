//! A run: the loop of `optimize` as questions and answers. It is opened, and then each question is answered, until it stops.
//!
//! State and lists are the caller's, and each call is to get them as the last one left them. [`State::default`] is the fresh state, with no run open.
//! A state whose phase or choice of sharpening is above 2 is no run's: both calls refuse it with 20 and leave it and all lists as before.
use crate::filter::Work;
use crate::{Refused, ffi};
pub use ffi::{RunRecord as Iteration, RunState as State};

/// Whether the densities are sharpened, at steepness 1, 2, 4, 8 and then 16 to the end, and when a run moves on from each below 16. The numbers are
/// those of [`State`]'s field `sharpen`.
#[derive(Clone, Copy, Debug, Default, PartialEq, Eq)]
pub enum Sharpening {
    #[default]
    Off = 0,
    /// On after 20 rounds, or a change below 0.01: the Rust's way.
    Early = 1,
    /// On after exactly 20 rounds, however small the change.
    Full = 2,
}

/// What is asked for: the share of the volume to keep, the filter's radius, the sharpening, and the most rounds.
#[derive(Clone, Copy, Debug, Default, PartialEq)]
pub struct Goal {
    pub fraction: f64,
    pub radius: f64,
    pub sharpen: Sharpening,
    pub max_iterations: usize,
}

impl From<Goal> for ffi::RunGoal {
    fn from(goal: Goal) -> ffi::RunGoal {
        let Goal { fraction, radius, sharpen, max_iterations } = goal;
        ffi::RunGoal { fraction, radius, sharpen: sharpen as u32, max_iterations }
    }
}

/// Why a run stopped.
#[derive(Clone, Copy, Debug, PartialEq, Eq)]
pub enum Stop {
    Settled,
    LevelledOff,
    Limit,
    Budget,
    Stopped,
}

/// What is asked for next, or how it ended.
#[derive(Clone, Copy, Debug, PartialEq, Eq)]
pub enum Reply {
    /// The energies of the solid part, whose densities are all 1.
    Solid,
    /// Those of this round's densities.
    Round(usize),
    /// It is over. The densities of the last record's round are in `last`.
    Stop(Stop),
}

fn reply(returned: &ffi::RunReturned) -> Result<Reply, Refused> {
    match returned.reply {
        0 => Err(Refused(returned.number as u32)),
        1 => Ok(Reply::Solid),
        2 => Ok(Reply::Round(returned.number)),
        _ => Ok(Reply::Stop(match returned.number {
            0 => Stop::Settled,
            1 => Stop::LevelledOff,
            2 => Stop::Limit,
            3 => Stop::Budget,
            _ => Stop::Stopped,
        })),
    }
}

/// What the solver said to the last question.
#[derive(Clone, Copy, Debug, PartialEq)]
pub enum Said<'a> {
    /// Each element's energy.
    Gave(&'a [f64]),
    Failed,
    Halted,
}

/// What is to be shaped: each element's volume, middle and whether it is held solid; and planes of symmetry, a point and then the normal.
#[derive(Clone, Copy, Debug)]
pub struct Part<'a> {
    pub volumes: &'a [f64],
    pub centroids: &'a [[f64; 3]],
    pub passive: &'a [bool],
    pub mirrors: &'a [[f64; 6]],
}

/// The lists of a run: the filter's table, the design, the densities asked for, those of the last record's round, and a record for each round
/// allowed.
pub struct Lists<'a> {
    pub starts: &'a mut [u32],
    pub near: &'a mut [u32],
    pub coef: &'a mut [f64],
    pub design: &'a mut [f64],
    pub density: &'a mut [f64],
    pub last: &'a mut [f64],
    pub history: &'a mut [Iteration],
}

/// Opens a run on a state with none open. The working lists are those of a filter's build.
pub fn open(state: &mut State, part: Part<'_>, goal: Goal, flag: bool, lists: Lists<'_>, work: &mut Work) -> Result<Reply, Refused> {
    let Lists { starts, near, coef, design, density, last, history } = lists;
    let Work { cell, order, first, sorted, stamp, weight, found, bits } = work;
    let returned = ffi::sokdrib_open(
        history.len(),
        *state,
        goal.into(),
        flag,
        part.volumes,
        part.centroids,
        part.passive,
        part.mirrors,
        starts,
        near,
        coef,
        design,
        density,
        last,
        cell,
        order,
        first,
        sorted,
        stamp,
        weight,
        found,
        bits,
    );
    *state = returned.state;
    reply(&returned)
}

/// Lists for an answer's own use, of one place an element.
#[derive(Clone, Debug, Default, PartialEq)]
pub struct Scratch {
    pub free: Vec<f64>,
    pub slope: Vec<f64>,
    pub spare: Vec<f64>,
    pub dc: Vec<f64>,
    pub dv: Vec<f64>,
}

impl Scratch {
    /// Just long enough for `n` elements.
    pub fn of(n: usize) -> Scratch {
        let list = || vec![0.0; n];
        Scratch { free: list(), slope: list(), spare: list(), dc: list(), dv: list() }
    }
}

/// The solver's answer to the last question; whether the run is to stop (`flag`); and the milliseconds elapsed and allowed.
#[derive(Clone, Copy, Debug, PartialEq)]
pub struct Answer<'a> {
    pub said: Said<'a>,
    pub flag: bool,
    pub elapsed: u64,
    pub allowed: u64,
}

/// Takes an answer. Of `part` the volumes and the marks are read, as they were when the run was opened.
pub fn answer(state: &mut State, answer: Answer<'_>, part: Part<'_>, lists: Lists<'_>, work: &mut Scratch) -> Result<Reply, Refused> {
    let Answer { said, flag, elapsed, allowed } = answer;
    let (said, energies): (u32, &[f64]) = match said {
        Said::Gave(energies) => (0, energies),
        Said::Failed => (1, &[]),
        Said::Halted => (2, &[]),
    };
    let Lists { starts, near, coef, design, density, last, history } = lists;
    let Scratch { free, slope, spare, dc, dv } = work;
    let step = ffi::sokdrib_answer(
        history.len(),
        *state,
        ffi::RunHeard { said, flag, elapsed, allowed },
        energies,
        part.volumes,
        part.passive,
        starts,
        near,
        coef,
        design,
        density,
        last,
        free,
        slope,
        spare,
        dc,
        dv,
    );
    if let Some(place) = history.get_mut(step.at) {
        *place = step.entry;
    }
    *state = step.returned.state;
    reply(&step.returned)
}
