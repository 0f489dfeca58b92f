//! The filter's table, a sparse matrix by rows in three lists, and the two products with it.
use crate::ffi;

/// A table in lists of the caller's: row `e` has the places from `starts[e]` up to `starts[e + 1]`, and place `k` has the column
/// `near[k]` and the number `coef[k]`. A row whose places are not in the lists is empty.
#[derive(Clone, Copy, Debug, Default, PartialEq)]
pub struct Table<'a> {
    pub starts: &'a [u32],
    pub near: &'a [u32],
    pub coef: &'a [f64],
}

impl Table<'_> {
    /// The densities `x` seen through the filter, one row for each place of `out`. What stands past the end of `x` counts as 0.
    pub fn apply(self, x: &[f64], out: &mut [f64]) {
        ffi::sokdrib_apply(self.starts, self.near, self.coef, x, out)
    }

    /// Slopes against the filtered densities carried back to the densities, one row for each place of `g`.
    pub fn back(self, g: &[f64], out: &mut [f64]) {
        ffi::sokdrib_back(self.starts, self.near, self.coef, g, out)
    }
}
