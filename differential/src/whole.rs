//! Whole numbers below 2 to the power 2560, for sums and products of floats without rounding.
use std::cmp::Ordering;

const WORDS: usize = 40;

#[derive(Clone, Copy, PartialEq, Eq, Debug)]
pub struct Whole([u64; WORDS]);

impl Whole {
    /// m times 2 to the power `shift`.
    pub fn of(m: u128, shift: usize) -> Whole {
        let mut w = [0; WORDS];
        let (at, by) = (shift / 64, shift % 64);
        let parts = [m << by, if by == 0 { 0 } else { m >> (128 - by) }];
        for (k, part) in [parts[0] as u64, (parts[0] >> 64) as u64, parts[1] as u64].into_iter().enumerate() {
            if part != 0 {
                w[at + k] = part;
            }
        }
        Whole(w)
    }

    /// A finite float that is not below 0, in units of 2 to the power −1074.
    pub fn amount(x: f64) -> Whole {
        let (m, shift) = parts(x);
        Whole::of(m.into(), shift)
    }

    pub fn plus(self, o: Whole) -> Whole {
        let (mut w, mut carry) = (self.0, false);
        for (a, b) in w.iter_mut().zip(o.0) {
            let (s, c) = a.overflowing_add(b);
            let (s, d) = s.overflowing_add(carry.into());
            (*a, carry) = (s, c || d);
        }
        assert!(!carry, "a number past its words");
        Whole(w)
    }

    /// Times 2 to the power 1074, which is what 1 has.
    pub fn times_one(self) -> Whole {
        let (mut w, by) = ([0; WORDS], 1074 % 64);
        for k in 0..WORDS - 1074 / 64 {
            let low = if k == 0 { 0 } else { self.0[k - 1] >> (64 - by) };
            w[k + 1074 / 64] = self.0[k] << by | low;
        }
        Whole(w)
    }

    /// How far apart two of them are.
    pub fn apart(self, o: Whole) -> Whole {
        let (more, less) = if self >= o { (self, o) } else { (o, self) };
        let (mut w, mut borrow) = (more.0, false);
        for (a, b) in w.iter_mut().zip(less.0) {
            let (s, c) = a.overflowing_sub(b);
            let (s, d) = s.overflowing_sub(borrow.into());
            (*a, borrow) = (s, c || d);
        }
        Whole(w)
    }

    /// About self / o, as a float.
    pub fn over(self, o: Whole) -> f64 {
        let (a, b) = (self.top(), o.top());
        a.0 / b.0 * 2f64.powi(a.1 - b.1)
    }

    /// The highest words, and the power of two that they count.
    fn top(self) -> (f64, i32) {
        let k = self.0.iter().rposition(|w| *w != 0).unwrap_or(0).max(1);
        (self.0[k] as f64 * 2f64.powi(64) + self.0[k - 1] as f64, 64 * (k as i32 - 1))
    }
}

impl PartialOrd for Whole {
    fn partial_cmp(&self, o: &Whole) -> Option<Ordering> {
        Some(self.cmp(o))
    }
}

impl Ord for Whole {
    fn cmp(&self, o: &Whole) -> Ordering {
        self.0.iter().rev().cmp(o.0.iter().rev())
    }
}

/// A finite float that is not below 0 as m times 2 to the power shift − 1074.
pub fn parts(x: f64) -> (u64, usize) {
    assert!(x.is_finite() && x.is_sign_positive(), "{x} has no amount");
    let (exponent, m) = ((x.to_bits() >> 52) as usize, x.to_bits() & ((1 << 52) - 1));
    if exponent == 0 { (m, 0) } else { (m | 1 << 52, exponent - 1) }
}

#[cfg(test)]
mod tests {
    use super::*;

    #[test]
    fn amounts() {
        assert_eq!(Whole::amount(5e-324), Whole::of(1, 0));
        assert_eq!(Whole::amount(f64::MIN_POSITIVE), Whole::of(1, 52));
        assert_eq!(Whole::amount(1.0), Whole::of(1, 1074));
        assert_eq!(Whole::amount(0.75).plus(Whole::amount(0.25)), Whole::of(1, 1074));
        assert_eq!(Whole::amount(f64::MAX), Whole::of((1 << 53) - 1, 2045));
    }

    #[test]
    fn times_one() {
        assert_eq!(Whole::amount(0.75).times_one(), Whole::of(3, 2146));
        assert_eq!(Whole::of(u128::MAX, 7).times_one(), Whole::of(u128::MAX, 1081));
    }

    #[test]
    fn carries_and_borrows() {
        for shift in [0, 1, 63, 64, 65, 1000] {
            let (big, one) = (Whole::of(u128::MAX, shift), Whole::of(1, shift));
            assert_eq!(big.plus(one), Whole::of(1, shift + 128));
            assert_eq!(Whole::of(1, shift + 128).apart(one), big);
            assert_eq!(one.apart(Whole::of(1, shift + 128)), big);
            assert!(big < big.plus(one) && one < big);
        }
    }

    #[test]
    fn shares() {
        assert_eq!(Whole::of(3, 2000).over(Whole::of(1, 2002)), 0.75);
        assert_eq!(Whole::of(0, 0).over(Whole::of(7, 100)), 0.0);
    }
}
