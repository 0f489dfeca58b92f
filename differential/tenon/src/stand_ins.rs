//! What stands in for the crates and the functions that the original leans on: document 01, "Domain and stand-ins".
use std::cell::Cell;
use std::ops::{Add, Mul, Sub};
use std::time::Duration;

/// 01: "sums, `min`, `max` and scaling go by component; `dot` adds x, y, z products in order; `len2` is `dot` with itself, `len` its
/// root, `dist` the `len` of the difference; `cross` is (y1·z2 − z1·y2, z1·x2 − x1·z2, x1·y2 − y1·x2); `normalized` divides each
/// component by `len`."
#[derive(Clone, Copy, Debug, Default, PartialEq)]
pub struct Vec3 {
    pub x: f64,
    pub y: f64,
    pub z: f64,
}

impl Vec3 {
    pub const ZERO: Vec3 = Vec3::new(0.0, 0.0, 0.0);

    pub const fn new(x: f64, y: f64, z: f64) -> Vec3 {
        Vec3 { x, y, z }
    }

    pub fn min(self, o: Vec3) -> Vec3 {
        Vec3::new(self.x.min(o.x), self.y.min(o.y), self.z.min(o.z))
    }

    pub fn max(self, o: Vec3) -> Vec3 {
        Vec3::new(self.x.max(o.x), self.y.max(o.y), self.z.max(o.z))
    }

    pub fn dot(self, o: Vec3) -> f64 {
        self.x * o.x + self.y * o.y + self.z * o.z
    }

    pub fn cross(self, o: Vec3) -> Vec3 {
        Vec3::new(self.y * o.z - self.z * o.y, self.z * o.x - self.x * o.z, self.x * o.y - self.y * o.x)
    }

    pub fn len2(self) -> f64 {
        self.dot(self)
    }

    pub fn len(self) -> f64 {
        self.len2().sqrt()
    }

    pub fn dist(self, o: Vec3) -> f64 {
        (self - o).len()
    }

    pub fn normalized(self) -> Vec3 {
        let len = self.len();
        Vec3::new(self.x / len, self.y / len, self.z / len)
    }

    pub fn is_finite(self) -> bool {
        self.x.is_finite() && self.y.is_finite() && self.z.is_finite()
    }
}

impl Add for Vec3 {
    type Output = Vec3;
    fn add(self, o: Vec3) -> Vec3 {
        Vec3::new(self.x + o.x, self.y + o.y, self.z + o.z)
    }
}

impl Sub for Vec3 {
    type Output = Vec3;
    fn sub(self, o: Vec3) -> Vec3 {
        Vec3::new(self.x - o.x, self.y - o.y, self.z - o.z)
    }
}

impl Mul<f64> for Vec3 {
    type Output = Vec3;
    fn mul(self, k: f64) -> Vec3 {
        Vec3::new(self.x * k, self.y * k, self.z * k)
    }
}

pub mod study {
    use super::Vec3;

    /// 01: "`planes_square` refuses a pair whose `dot` exceeds 1e-9 in magnitude."
    pub fn planes_square(normals: &[Vec3]) -> Result<(), String> {
        for (i, a) in normals.iter().enumerate() {
            if normals[i + 1..].iter().any(|b| a.dot(*b).abs() > 1e-9) {
                return Err("two planes of symmetry are not at right angles".into());
            }
        }
        Ok(())
    }
}

/// 01: "Lambert's continued fraction worked from the inside: r = 63, then for k = 61, 59, .. 1: r = k + (z·z)/r, each operation
/// rounded once, and the answer is z/r."
pub fn tanh(z: f64) -> f64 {
    let zz = z * z;
    let (mut r, mut k) = (63.0, 61.0);
    while k > 0.0 {
        r = k + zz / r;
        k -= 2.0;
    }
    z / r
}

thread_local! {
    static CLOCK: Cell<Duration> = const { Cell::new(Duration::ZERO) };
    static ENDED: Cell<Ended> = const { Cell::new(Ended { passes: 0, kept: 0.0, low: 0.0, high: 0.0 }) };
}

/// Sets what the original's clock shows to this thread.
pub fn set_clock(now: Duration) {
    CLOCK.set(now);
}

/// The original's clock, which shows what it was last set to.
#[derive(Clone, Copy, Debug)]
pub struct Instant(Duration);

impl Instant {
    pub fn now() -> Instant {
        Instant(CLOCK.get())
    }

    pub fn elapsed(&self) -> Duration {
        CLOCK.get().saturating_sub(self.0)
    }
}

/// How an update ended: the volumes it evaluated, the last of them, and the two rates of its bracket.
#[derive(Clone, Copy, Debug, PartialEq)]
pub struct Ended {
    pub passes: usize,
    pub kept: f64,
    pub low: f64,
    pub high: f64,
}

pub fn tell(passes: usize, kept: f64, low: f64, high: f64) {
    ENDED.set(Ended { passes, kept, low, high });
}

/// How this thread's last update ended.
pub fn ended() -> Ended {
    ENDED.get()
}
