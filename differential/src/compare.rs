//! Two functions on the same inputs, compared bit by bit: both zeros as one, every not-a-number as one.
use std::cmp::Ordering;
use std::time::Instant;

use crate::inputs::Gen;

/// How many differences of one function are shown: those of the smallest inputs.
const SHOWN: usize = 4;
/// How many numbers of an input or a result are shown.
const MOST: usize = 400;

/// What is given or handed back: as it is compared, and as it is shown.
pub trait Value {
    /// The numbers that are compared.
    fn keys(&self) -> Vec<u64>;
    /// The numbers as they are, so that a case can be typed in again.
    fn bits(&self) -> Vec<u64>;
    /// As `keys` compares; written out where that saves making lists.
    fn same(&self, o: &Self) -> bool {
        self.keys() == o.keys()
    }
}

/// A float as it is compared.
pub fn key(x: f64) -> u64 {
    if x.is_nan() {
        f64::NAN.to_bits()
    } else if x == 0.0 {
        0
    } else {
        x.to_bits()
    }
}

impl Value for f64 {
    fn keys(&self) -> Vec<u64> {
        vec![key(*self)]
    }
    fn bits(&self) -> Vec<u64> {
        vec![self.to_bits()]
    }
    fn same(&self, o: &f64) -> bool {
        key(*self) == key(*o)
    }
}

/// Whole numbers are compared as they are.
macro_rules! whole {
    ($($t:ty),*) => { $(impl Value for $t {
        fn keys(&self) -> Vec<u64> {
            vec![*self as u64]
        }
        fn bits(&self) -> Vec<u64> {
            self.keys()
        }
        fn same(&self, o: &$t) -> bool {
            self == o
        }
    })* };
}
whole!(bool, u16, u32, u64, usize, Ordering);

macro_rules! lists {
    ($(($($bound:tt)*) $t:ty),*) => { $(impl<T: Value, $($bound)*> Value for $t {
        fn keys(&self) -> Vec<u64> {
            self.iter().flat_map(Value::keys).collect()
        }
        fn bits(&self) -> Vec<u64> {
            self.iter().flat_map(Value::bits).collect()
        }
        fn same(&self, o: &$t) -> bool {
            self.len() == o.len() && self.iter().zip(o).all(|(a, b)| a.same(b))
        }
    })* };
}
lists!((const N: usize) [T; N], () Vec<T>);

impl<A: Value, B: Value> Value for (A, B) {
    fn keys(&self) -> Vec<u64> {
        [self.0.keys(), self.1.keys()].concat()
    }
    fn bits(&self) -> Vec<u64> {
        [self.0.bits(), self.1.bits()].concat()
    }
    fn same(&self, o: &(A, B)) -> bool {
        self.0.same(&o.0) && self.1.same(&o.1)
    }
}

impl<A: Value, B: Value, C: Value> Value for (A, B, C) {
    fn keys(&self) -> Vec<u64> {
        [self.0.keys(), self.1.keys(), self.2.keys()].concat()
    }
    fn bits(&self) -> Vec<u64> {
        [self.0.bits(), self.1.bits(), self.2.bits()].concat()
    }
    fn same(&self, o: &(A, B, C)) -> bool {
        self.0.same(&o.0) && self.1.same(&o.1) && self.2.same(&o.2)
    }
}

/// A struct by its fields.
#[macro_export]
macro_rules! fields {
    ($t:ty: $($field:ident),*) => { impl $crate::compare::Value for $t {
        fn keys(&self) -> Vec<u64> {
            [$($crate::compare::Value::keys(&self.$field)),*].concat()
        }
        fn bits(&self) -> Vec<u64> {
            [$($crate::compare::Value::bits(&self.$field)),*].concat()
        }
        fn same(&self, o: &$t) -> bool {
            $($crate::compare::Value::same(&self.$field, &o.$field))&&*
        }
    } };
}

fn shown(bits: &[u64]) -> String {
    let mut text = bits.iter().take(MOST).map(|b| format!("{b:x}")).collect::<Vec<_>>().join(" ");
    if bits.len() > MOST {
        text += &format!(" .. ({} numbers)", bits.len());
    }
    text
}

/// One run over all functions.
pub struct Run {
    /// How many random cases a leaf gets, beside its edges.
    pub cases: usize,
    pub seed: u64,
    /// The one function that is compared; all where there is no name.
    pub only: Option<String>,
    /// Whether the largest cases are compared too.
    pub long: bool,
    pub functions: usize,
    pub total: usize,
    pub differences: usize,
    began: Instant,
}

impl Run {
    pub fn new(cases: usize, seed: u64) -> Run {
        Run { cases, seed, only: None, long: false, functions: 0, total: 0, differences: 0, began: Instant::now() }
    }

    /// Compares one leaf on its edges and on random inputs, and prints its line.
    pub fn leaf<I: Value + Clone, O: Value>(
        &mut self,
        name: &str,
        edges: impl IntoIterator<Item = I>,
        random: impl FnMut(&mut Gen) -> I,
        original: impl Fn(I) -> O,
        ours: impl Fn(I) -> O,
    ) {
        self.jobs(name, 1, edges, random, original, ours);
    }

    /// The same for a function that takes lists: it gets one random case for every `share` of a leaf's.
    pub fn jobs<I: Value + Clone, O: Value>(
        &mut self,
        name: &str,
        share: usize,
        edges: impl IntoIterator<Item = I>,
        mut random: impl FnMut(&mut Gen) -> I,
        original: impl Fn(I) -> O,
        ours: impl Fn(I) -> O,
    ) {
        if self.only.as_ref().is_some_and(|only| only != name) {
            return;
        }
        let began = Instant::now();
        let mut random_inputs = Gen::of(self.seed, name);
        let (mut cases, mut differences) = (0, 0);
        let mut smallest: Vec<(usize, String)> = Vec::new();
        let all = edges.into_iter().chain((0..self.cases.div_ceil(share)).map(|_| random(&mut random_inputs)));
        for input in all {
            cases += 1;
            let (a, b) = (original(input.clone()), ours(input.clone()));
            if !a.same(&b) {
                differences += 1;
                let given = input.bits();
                let text = format!(
                    "{name}: case {cases}: {}\n    original {}\n    ours     {}",
                    shown(&given),
                    shown(&a.bits()),
                    shown(&b.bits())
                );
                smallest.push((given.len(), text));
                smallest.sort_by_key(|(size, _)| *size);
                smallest.truncate(SHOWN);
            }
        }
        smallest.iter().for_each(|(_, text)| println!("{text}"));
        println!("{name:<20} {cases:>10} cases {differences:>6} differences {:>7.1} s", began.elapsed().as_secs_f64());
        self.functions += 1;
        self.total += cases;
        self.differences += differences;
    }

    /// Holds numbers of the library to a bound, and prints a line with the worst share of it. An input gives a share for each of its cases, and whether it
    /// keeps the bound; it gets one random input for every `share` of a leaf's.
    pub fn bound<I: Value>(
        &mut self,
        name: &str,
        share: usize,
        edges: impl IntoIterator<Item = I>,
        mut random: impl FnMut(&mut Gen) -> I,
        measured: impl Fn(&I) -> Vec<(f64, bool)>,
    ) {
        if self.only.as_ref().is_some_and(|only| only != name) {
            return;
        }
        let began = Instant::now();
        let mut random_inputs = Gen::of(self.seed, name);
        let (mut cases, mut broken, mut worst) = (0, 0, 0.0f64);
        let all = edges.into_iter().chain((0..self.cases.div_ceil(share)).map(|_| random(&mut random_inputs)));
        for input in all {
            for (part, kept) in measured(&input) {
                cases += 1;
                worst = worst.max(part);
                if !kept {
                    broken += 1;
                    if broken <= SHOWN {
                        println!("{name}: {part} of the bound: {}", shown(&input.bits()));
                    }
                }
            }
        }
        println!(
            "{name:<20} {cases:>10} cases {broken:>6} differences {:>7.1} s, worst share of the bound {worst:.5}",
            began.elapsed().as_secs_f64()
        );
        self.functions += 1;
        self.total += cases;
        self.differences += broken;
    }

    /// Prints the sum of all; whether they agree, and there is one.
    pub fn close(&self) -> bool {
        println!(
            "differential: {} functions, {} cases, {} differences (seed {}, {:.1} s)",
            self.functions,
            self.total,
            self.differences,
            self.seed,
            self.began.elapsed().as_secs_f64()
        );
        self.differences == 0 && self.functions > 0
    }
}

#[cfg(test)]
mod tests {
    use super::*;

    fn found(original: fn(f64) -> f64, ours: fn(f64) -> f64) -> usize {
        let mut run = Run::new(100, 1);
        run.leaf("test", [0.0, -0.0, f64::NAN, -f64::NAN], Gen::float, original, ours);
        assert_eq!(run.total, 104);
        run.differences
    }

    #[test]
    fn zeros_and_not_a_numbers_are_one() {
        assert_eq!(found(|x| x, |x| if x == 0.0 || x.is_nan() { -x } else { x }), 0);
    }

    #[test]
    fn one_bit_is_a_difference() {
        assert!(found(|x| x, f64::next_up) >= 90);
        assert!(!1.0.same(&1.0f64.next_down()) && !0.0.same(&5e-324) && !f64::NAN.same(&f64::INFINITY));
    }

    #[test]
    fn lists_of_other_lengths_differ() {
        assert!(!vec![1.0].same(&vec![1.0, 1.0]) && vec![0.0, 1.0].same(&vec![-0.0, 1.0]));
    }
}
