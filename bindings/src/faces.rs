//! Distances to the part's boundary.
use crate::ffi;
use crate::geom::Vec3;

/// The square of the distance from `p` to the triangle `a`, `b`, `c`.
pub fn dist2_to_triangle(p: Vec3, a: Vec3, b: Vec3, c: Vec3) -> f64 {
    ffi::sokdrib_dist2_to_triangle(p, a, b, c)
}

/// [`dist2_to_triangle`] of each point and the triangle at the same place (its corners in a row), as far as all three lists go; the
/// rest of `out` stays as it is.
pub fn dist2_each(points: &[[f64; 3]], triangles: &[[f64; 9]], out: &mut [f64]) {
    ffi::sokdrib_dist2_each(points, triangles, out)
}
