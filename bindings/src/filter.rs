//! The filter's table, built from the middles and volumes of elements.
use crate::{Refused, ffi, refusal};

/// How many places the list of bits needs, for any number of elements.
pub const BITS: usize = 1040;

/// The lists that a table is built into: `starts` needs a place more than there are elements, `near` and `coef` the last row's end.
pub struct Into<'a> {
    pub starts: &'a mut [u32],
    pub near: &'a mut [u32],
    pub coef: &'a mut [f64],
}

/// Lists for the build's own use: `first` needs a place more than there are elements, `bits` [`BITS`], each other one place an element.
#[derive(Clone, Debug, Default, PartialEq)]
pub struct Work {
    pub cell: Vec<[u64; 3]>,
    pub order: Vec<u32>,
    pub first: Vec<u32>,
    pub sorted: Vec<[f64; 3]>,
    pub stamp: Vec<u32>,
    pub weight: Vec<f64>,
    pub found: Vec<u32>,
    pub bits: Vec<u64>,
}

impl Work {
    /// Just long enough for `n` elements.
    pub fn of(n: usize) -> Work {
        Work {
            cell: vec![[0; 3]; n],
            order: vec![0; n],
            first: vec![0; n + 1],
            sorted: vec![[0.0; 3]; n],
            stamp: vec![0; n],
            weight: vec![0.0; n],
            found: vec![0; n],
            bits: vec![0; BITS],
        }
    }
}

/// The table for elements with these middles and volumes, over `radius`, the same on both sides of each of `planes`: a point, then the normal.
///
/// Refused with 1, 2, 3, with 4, 8, 9, 10, 11 or 12 where a volume, the radius, a middle or the planes are outside the domain, and then with 14 where a
/// list is shorter than is known before the first row, in this order: all lists are as before. Refused at a row with 13 (the table would take more than 512 MB) or 14 (the row ends past `near` or `coef`): then all lists are zero throughout.
pub fn build(
    centroids: &[[f64; 3]],
    volumes: &[f64],
    radius: f64,
    planes: &[[f64; 6]],
    table: Into<'_>,
    work: &mut Work,
) -> Result<(), Refused> {
    let Into { starts, near, coef } = table;
    let Work { cell, order, first, sorted, stamp, weight, found, bits } = work;
    refusal(ffi::sokdrib_filter_build(
        centroids, volumes, radius, planes, starts, near, coef, cell, order, first, sorted, stamp, weight, found, bits,
    ))
}
