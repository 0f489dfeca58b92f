//! IEEE 754 binary64 as the optimiser uses it.
use crate::ffi;

/// The size of `x`.
pub fn abs(x: f64) -> f64 {
    ffi::sokdrib_abs(x)
}

/// The larger; where one is not a number, the other.
pub fn max(x: f64, y: f64) -> f64 {
    ffi::sokdrib_max(x, y)
}

/// The smaller; where one is not a number, the other.
pub fn min(x: f64, y: f64) -> f64 {
    ffi::sokdrib_min(x, y)
}

/// `x` brought into 0 to 1; a not-a-number stays one.
pub fn clamp(x: f64) -> f64 {
    ffi::sokdrib_clamp(x)
}

/// Whether `x` is neither an infinity nor a not-a-number.
pub fn is_finite(x: f64) -> bool {
    ffi::sokdrib_is_finite(x)
}

/// The hyperbolic tangent by Lambert's continued fraction.
pub fn tanh(z: f64) -> f64 {
    ffi::sokdrib_tanh(z)
}

/// [`tanh`] of each of `zs`, as far as both lists go; the rest of `out` stays as it is.
pub fn tanh_each(zs: &[f64], out: &mut [f64]) {
    ffi::sokdrib_tanh_each(zs, out)
}

pub mod root {
    use crate::ffi;

    /// IEEE 754's square root, the nearest value.
    pub fn sqrt(x: f64) -> f64 {
        ffi::sokdrib_sqrt(x)
    }

    /// [`sqrt`] of each of `xs`, as far as both lists go; the rest of `out` stays as it is.
    pub fn sqrt_each(xs: &[f64], out: &mut [f64]) {
        ffi::sokdrib_sqrt_each(xs, out)
    }
}

pub mod whole {
    use crate::ffi;

    /// `x.floor() as i64`, counted from -2^63: 0 is i64's least.
    pub fn floor_at(x: f64) -> u64 {
        ffi::sokdrib_floor_at(x)
    }

    /// `x.round() as u64`: the nearest whole number, halves away from zero, brought into the range.
    pub fn round_half_away(x: f64) -> u64 {
        ffi::sokdrib_round_half_away(x)
    }
}

pub mod bits {
    use crate::ffi;

    /// The pattern of `x`; every not-a-number has one.
    pub fn to_bits(x: f64) -> u64 {
        ffi::sokdrib_to_bits(x)
    }

    /// The number of a pattern; every pattern of a not-a-number gives the same one.
    pub fn from_bits(n: u64) -> f64 {
        ffi::sokdrib_from_bits(n)
    }

    /// A key whose order is IEEE 754's totalOrder.
    pub fn total_key(x: f64) -> u64 {
        ffi::sokdrib_total_key(x)
    }
}
