//! Lists as a caller lends them: a table of any kind, and lists that are now and then too short or longer than needed.
use crate::fields;
use crate::inputs::Gen;
use sokdrib::table::Table;
use tenon::topo::Filter;

/// The three lists of a table.
#[derive(Clone, Default)]
pub struct Lists {
    pub starts: Vec<u32>,
    pub near: Vec<u32>,
    pub coef: Vec<f64>,
}
fields!(Lists: starts, near, coef);

impl Lists {
    pub fn of(filter: &Filter) -> Lists {
        Lists { starts: filter.start.clone(), near: filter.near.clone(), coef: filter.coef.clone() }
    }

    pub fn theirs(&self) -> Filter {
        Filter { start: self.starts.clone(), near: self.near.clone(), coef: self.coef.clone() }
    }

    pub fn ours(&self) -> Table<'_> {
        Table { starts: &self.starts, near: &self.near, coef: &self.coef }
    }

    fn push(&mut self, row: impl IntoIterator<Item = (u32, f64)>) {
        if self.starts.is_empty() {
            self.starts.push(0);
        }
        for (i, a) in row {
            self.near.push(i);
            self.coef.push(a);
        }
        self.starts.push(self.near.len() as u32);
    }
}

/// A table of `n` rows over `n` columns: each row itself, a mean of its neighbours, a few elements, any numbers, or not well formed.
pub fn table(g: &mut Gen, n: usize) -> Lists {
    let kind = g.below(8);
    let mut t = Lists { starts: vec![0], ..Lists::default() };
    for e in 0..n {
        match kind {
            0 => t.push([(e as u32, 1.0)]),
            1 | 2 => {
                let near = e.saturating_sub(1)..(e + 2).min(n);
                let share = 1.0 / near.len() as f64;
                t.push(near.map(|i| (i as u32, share)));
            }
            3 => t.push((0..g.below(4)).map(|_| (g.below(n) as u32, g.float())).collect::<Vec<_>>()),
            _ => {
                let weights: Vec<f64> = (0..1 + g.below(5)).map(|_| g.unit()).collect();
                let sum: f64 = weights.iter().sum();
                t.push(weights.iter().map(|w| (g.below(n) as u32, w / sum)).collect::<Vec<_>>());
            }
        }
    }
    if g.below(16) == 0 {
        broken(g, &mut t);
    }
    t
}

/// Starts that fall or lie past the lists, columns past the end, or one list longer than the other.
fn broken(g: &mut Gen, t: &mut Lists) {
    let past = t.near.len() + 3;
    for _ in 0..1 + g.below(3) {
        match g.below(5) {
            0 => {
                let e = g.below(t.starts.len());
                t.starts[e] = g.below(past) as u32;
            }
            1 => {
                let e = g.below(t.starts.len());
                t.starts[e] = g.pick(&[0, 1, u32::MAX, u32::MAX - 1, 1 << 31]);
            }
            2 if !t.near.is_empty() => {
                let k = g.below(t.near.len());
                t.near[k] = g.pick(&[u32::MAX, past as u32, t.starts.len() as u32 - 1, t.starts.len() as u32]);
            }
            3 => drop(t.near.pop()),
            _ => drop(t.coef.pop()),
        }
    }
}

/// How many elements: mostly few.
pub fn elements(g: &mut Gen) -> usize {
    match g.below(64) {
        0 => 0,
        1 => 1000 + g.below(2000),
        2..8 => 30 + g.below(200),
        _ => 1 + g.below(12),
    }
}

/// `n` of them; now and then one more or one less.
pub fn list<T>(g: &mut Gen, n: usize, mut one: impl FnMut(&mut Gen) -> T) -> Vec<T> {
    let n = match g.below(256) {
        0 => n + 1,
        1 => n.saturating_sub(1),
        _ => n,
    };
    (0..n).map(|_| one(g)).collect()
}

/// A list to be written: with places to spare one time in four, and now and then too short.
pub fn lent(g: &mut Gen, n: usize) -> Vec<f64> {
    let n = match g.below(64) {
        0 => n.saturating_sub(1),
        1..16 => n + g.below(4),
        _ => n,
    };
    (0..n).map(|_| g.float()).collect()
}

/// What the calls refuse lists for: 1 where some differ in count, 14 where one is shorter than needed.
pub fn refused(n: usize, counts: &[usize], lent: &[&Vec<f64>]) -> u32 {
    if counts.iter().any(|c| *c != n) {
        1
    } else if lent.iter().any(|l| l.len() < n) {
        14
    } else {
        0
    }
}

/// `list` with its first places overwritten.
pub fn laid(new: Vec<f64>, mut list: Vec<f64>) -> Vec<f64> {
    list[..new.len()].copy_from_slice(&new);
    list
}

/// Of a list for a call's own use only what is past its needs is compared; where the call is refused, all.
pub fn unused(number: u32, n: usize, list: Vec<f64>) -> Vec<f64> {
    if number == 0 { list[n..].to_vec() } else { list }
}

/// The number of a refusal, and 0 where there is none.
pub fn number<T>(result: &Result<T, sokdrib::Refused>) -> u32 {
    result.as_ref().err().map_or(0, |r| r.0)
}
