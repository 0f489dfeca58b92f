//! The filter's products and the update, over tables of 12 rows and 48 entries.
use tenon::stand_ins::ended;
use tenon::topo::{Design, Filter, MOVE, STAGES, oc};

use crate::inputs::Gen;
use crate::sample::{Sample, Words};

const N: usize = 12;
const ENTRIES: usize = 48;

#[derive(Clone)]
struct Table {
    starts: [u32; N + 1],
    near: [u32; ENTRIES],
    coef: [f64; ENTRIES],
}

impl Words for Table {
    fn put(&self, to: &mut Vec<u64>) {
        self.starts.put(to);
        self.near.put(to);
        self.coef.put(to);
    }
}

impl Table {
    /// Rows of up to four neighbours whose shares add to about 1; now and then not well formed.
    fn random(g: &mut Gen) -> Table {
        let mut t = Table { starts: [0; N + 1], near: [0; ENTRIES], coef: [0.0; ENTRIES] };
        let mut at = 0;
        for e in 0..N {
            let count = g.below(5);
            for _ in 0..count {
                t.near[at] = g.below(N) as u32;
                t.coef[at] = (0.5 + g.unit()) / count as f64;
                at += 1;
            }
            t.starts[e + 1] = at as u32;
        }
        match g.below(8) {
            0 => t.starts[g.below(N + 1)] = g.pick(&[0, 7, 48, 49, u32::MAX]),
            1 => t.near[g.below(ENTRIES)] = g.pick(&[N as u32, N as u32 + 1, u32::MAX]),
            2 => t.coef[g.below(ENTRIES)] = g.float(),
            _ => {}
        }
        t
    }

    fn filter(&self) -> Filter {
        Filter { start: self.starts.to_vec(), near: self.near.to_vec(), coef: self.coef.to_vec() }
    }
}

fn floats(g: &mut Gen, mut one: impl FnMut(&mut Gen) -> f64) -> [f64; N] {
    std::array::from_fn(|_| one(g))
}

/// The whole of a list that the original makes.
fn whole(list: Vec<f64>) -> [f64; N] {
    list.try_into().expect("one place a row")
}

pub fn all(s: &mut Sample) {
    let shares = |g: &mut Gen| (Table::random(g), floats(g, |g| if g.below(16) == 0 { g.float() } else { g.unit() }));
    s.section(14, "apply", [], 40, shares, |(t, x)| whole(t.filter().apply(&x)));
    s.section(15, "back", [], 40, shares, |(t, x)| whole(t.filter().back(&x)));
    s.section(16, "update", [], 50, Job::random, Job::update);
}

/// What an update is given.
#[derive(Clone)]
struct Job {
    x: [f64; N],
    dc: [f64; N],
    dv: [f64; N],
    passive: [bool; N],
    m: f64,
    target: f64,
    tolerance: f64,
    sharpen: bool,
    value: f64,
    table: Table,
    volumes: [f64; N],
}

impl Words for Job {
    fn put(&self, to: &mut Vec<u64>) {
        ((self.x, (self.dc, self.dv)), (self.passive, [self.m, self.target, self.tolerance])).put(to);
        (self.sharpen, self.value).put(to);
        self.table.put(to);
        self.volumes.put(to);
    }
}

impl Job {
    fn random(g: &mut Gen) -> Job {
        let sharpen = g.below(2) == 0;
        let held = g.pick(&[0, 1, 4]);
        let volumes = floats(g, |g| 0.5 + g.unit());
        let total: f64 = volumes.iter().sum();
        // Now and then a slope of any kind, a share that cannot be met, a tolerance of 0.
        let any = g.below(6) == 0;
        let value = if sharpen { g.pick(&STAGES) } else { g.unit() * total };
        Job {
            x: floats(g, |g| 1e-3 + 0.999 * g.unit()),
            dc: floats(g, |g| if any && g.below(4) == 0 { g.float() } else { -g.unit() }),
            dv: floats(g, |g| if any && g.below(4) == 0 { g.float() } else { g.unit() }),
            passive: std::array::from_fn(|_| g.below(8) < held),
            m: if sharpen { MOVE / value.sqrt() } else { MOVE },
            target: g.unit() * 1.2 * total,
            tolerance: if g.below(8) == 0 { 0.0 } else { 1e-10 * total },
            sharpen,
            value,
            table: Table::random(g),
            volumes,
        }
    }

    /// How it ended (0 met and 2 spent, with the kept volume; 1 cramped, with both rates), the passes and the design.
    fn update(self) -> ((u64, [f64; 2]), (u64, [f64; N])) {
        let filter = self.table.filter();
        let design = Design { volumes: self.volumes.to_vec(), centroids: Vec::new(), passive: self.passive.to_vec() };
        let mut kept = |y: &[f64]| match self.sharpen {
            true => oc::kept(&filter, &design, y, Some(self.value)),
            false => self.value + oc::dot(&self.dv, y),
        };
        let y = oc::update(&self.x, &self.dc, &self.dv, &self.passive, self.m, self.target, self.tolerance, &mut kept);
        let e = ended();
        let told = if (e.kept - self.target).abs() <= self.tolerance {
            (0, [e.kept, 0.0])
        } else if !e.kept.is_nan() && e.passes == 200 {
            (2, [e.kept, 0.0])
        } else {
            (1, [e.low, e.high])
        };
        (told, (e.passes as u64, whole(y)))
    }
}
