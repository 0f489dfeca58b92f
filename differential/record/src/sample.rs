//! A sample: sections of cases, as 64-bit words.
use crate::inputs::Gen;

const SEED: u64 = 1;

/// What stands in a case: its arguments, then its results.
pub trait Words {
    fn put(&self, to: &mut Vec<u64>);
}

impl Words for u64 {
    fn put(&self, to: &mut Vec<u64>) {
        to.push(*self);
    }
}

macro_rules! as_words {
    ($($t:ty),*) => {$(
        impl Words for $t {
            fn put(&self, to: &mut Vec<u64>) {
                to.push(u64::from(*self));
            }
        }
    )*};
}
as_words!(bool, u16, u32);

/// 01: "all not-a-numbers as one".
impl Words for f64 {
    fn put(&self, to: &mut Vec<u64>) {
        to.push(if self.is_nan() { f64::NAN.to_bits() } else { self.to_bits() });
    }
}

impl<T: Words, const N: usize> Words for [T; N] {
    fn put(&self, to: &mut Vec<u64>) {
        self.iter().for_each(|x| x.put(to));
    }
}

impl<A: Words, B: Words> Words for (A, B) {
    fn put(&self, to: &mut Vec<u64>) {
        self.0.put(to);
        self.1.put(to);
    }
}

#[derive(Default)]
pub struct Sample {
    words: Vec<u64>,
}

impl Sample {
    /// The section of a function: some inputs, and `more` drawn ones, each with what the original gives.
    pub fn section<I: Words + Clone, O: Words>(
        &mut self,
        function: u64,
        name: &str,
        some: impl IntoIterator<Item = I>,
        more: usize,
        mut draw: impl FnMut(&mut Gen) -> I,
        mut theirs: impl FnMut(I) -> O,
    ) {
        let mut g = Gen::of(SEED, name);
        let mut inputs: Vec<I> = some.into_iter().collect();
        inputs.extend((0..more).map(|_| draw(&mut g)));
        self.words.extend([function, inputs.len() as u64]);
        for input in inputs {
            input.put(&mut self.words);
            theirs(input).put(&mut self.words);
        }
    }

    pub fn bytes(&self) -> Vec<u8> {
        self.words.iter().flat_map(|w| w.to_le_bytes()).collect()
    }
}
