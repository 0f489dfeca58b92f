//! Points, vectors and planes of symmetry.
use std::ops::{Add, Mul, Sub};

use crate::ffi;
pub use crate::ffi::{Mirror, Vec3};

impl Vec3 {
    pub const ZERO: Vec3 = Vec3 { x: 0.0, y: 0.0, z: 0.0 };

    pub fn new(x: f64, y: f64, z: f64) -> Vec3 {
        ffi::sokdrib_vec3_new(x, y, z)
    }

    /// The smaller by component.
    pub fn min(self, o: Vec3) -> Vec3 {
        ffi::sokdrib_vec3_min(self, o)
    }

    /// The larger by component.
    pub fn max(self, o: Vec3) -> Vec3 {
        ffi::sokdrib_vec3_max(self, o)
    }

    pub fn dot(self, o: Vec3) -> f64 {
        ffi::sokdrib_vec3_dot(self, o)
    }

    pub fn cross(self, o: Vec3) -> Vec3 {
        ffi::sokdrib_vec3_cross(self, o)
    }

    /// The square of the length.
    pub fn len2(self) -> f64 {
        ffi::sokdrib_vec3_len2(self)
    }

    pub fn len(self) -> f64 {
        ffi::sokdrib_vec3_len(self)
    }

    /// The distance of two points.
    pub fn dist(self, o: Vec3) -> f64 {
        ffi::sokdrib_vec3_dist(self, o)
    }

    /// Each component divided by the length.
    pub fn normalized(self) -> Vec3 {
        ffi::sokdrib_vec3_normalized(self)
    }

    /// Whether every component is finite.
    pub fn is_finite(self) -> bool {
        ffi::sokdrib_vec3_is_finite(self)
    }
}

impl Add for Vec3 {
    type Output = Vec3;
    fn add(self, o: Vec3) -> Vec3 {
        ffi::sokdrib_vec3_add(self, o)
    }
}

impl Sub for Vec3 {
    type Output = Vec3;
    fn sub(self, o: Vec3) -> Vec3 {
        ffi::sokdrib_vec3_sub(self, o)
    }
}

impl Mul<f64> for Vec3 {
    type Output = Vec3;
    fn mul(self, k: f64) -> Vec3 {
        ffi::sokdrib_vec3_scale(self, k)
    }
}

impl Mirror {
    /// Where `p` is seen in the plane.
    pub fn image(self, p: Vec3) -> Vec3 {
        ffi::sokdrib_mirror_image(self, p)
    }
}
