//! One solver, many jobs: a shift says whose question is next.
//!
//! The shift is the caller's, and each call is to get it as the last one left it. Jobs have the numbers 0 and up, in the order in which the shift began with them.
use crate::{Refused, ffi, refusal};
pub use ffi::Shift;

/// A shift of 1 to 16 jobs with nothing granted. Of each job its share, 1 to 1,000, and the most questions that it may be granted, 0 to 1,000,000: 30 otherwise.
pub fn begin(jobs: &[[u32; 2]]) -> Result<Shift, Refused> {
    let begun = ffi::sokdrib_shift_begin(jobs);
    refusal(begun.refused).map(|()| begun.shift)
}

/// Grants one question: to the job with the smallest (granted + 1)/share, the lowest on a tie, of those named that are below their limit. Gives its number, and
/// counts it in the shift. 20: numbers that no shift has; 30: a number that no job has; 31: nobody waits, or all 1,000,000 questions are granted.
pub fn grant(shift: &mut Shift, named: &[u32]) -> Result<u32, Refused> {
    let granted = ffi::sokdrib_shift_grant(*shift, named);
    *shift = granted.shift;
    refusal(granted.refused).map(|()| granted.job)
}
