//! The parts of a round and the update, each beside the original's; and whole runs of them, beside `optimize`.
use std::sync::Arc;
use std::sync::atomic::AtomicBool;
use std::time::Duration;

use crate::compare::Run;
use crate::fields;
use crate::inputs::{Gen, beside, edges};
use crate::lists::{Lists, elements, laid, lent, list, number, refused, table, unused};
use sokdrib::oc::{self, Aim, Ending, Next, Rule, Seen};
use sokdrib::table::Table;
use tenon::stand_ins::ended;
use tenon::topo::oc as original;
use tenon::topo::{
    Design, Filter, Goal, LEVEL_OFF, LEVEL_OFF_RUN, MOVE, SETTLED, STAGE_ITERATIONS, STAGES, Stiffness, Stop, level_of, modulus,
};

pub fn all(run: &mut Run) {
    numbers(run);
    parts(run);
    updates(run);
    rounds(run);
}

/// 01's five steepnesses; now and then another.
fn steepness(g: &mut Gen) -> f64 {
    if g.below(16) == 0 { g.float() } else { g.pick(&STAGES) }
}

/// A value of a design: mostly as an update leaves it.
fn value(g: &mut Gen) -> f64 {
    match g.below(16) {
        0 => g.float(),
        1 => g.pick(&[1e-3, 1.0, 0.5, 0.0, 0.2, 0.8]),
        _ => 1e-3 + 0.999 * g.unit(),
    }
}

/// A volume of 01's domain: mostly near 1, now and then of any size there.
fn volume(g: &mut Gen) -> f64 {
    match g.below(16) {
        0 => g.pick(&[5e-324, 1e-300, f64::MIN_POSITIVE, 1e20, 1e-9]),
        1 => g.scaled().abs().max(5e-324),
        2 => 1.0,
        _ => 0.5 + g.unit(),
    }
}

fn numbers(run: &mut Run) {
    let sharp = edges().into_iter().chain((0..=1000).flat_map(|k| beside(f64::from(k) / 1000.0)));
    let sharp = sharp.flat_map(|v| STAGES.map(|beta| [v, beta]));
    let random = |g: &mut Gen| match g.below(4) {
        0 => [g.float(), g.float()],
        _ => [g.unit(), steepness(g)],
    };
    run.leaf("project", sharp, random, |[v, beta]| original::project(v, beta), |[v, beta]| oc::project(v, beta));
    let room = |g: &mut Gen| {
        let total = if g.below(4) == 0 { g.float() } else { g.unit() * 100.0 };
        let solid = if g.below(4) == 0 { g.float() } else { g.unit() * total };
        let target = if g.below(2) == 0 { solid + 1e-3 * (total - solid) } else { g.unit() * total };
        [solid, total, g.nudged(target)]
    };
    run.leaf("no_room", [], room, |[s, t, v]| original::no_room(s, t, v), |[s, t, v]| oc::no_room(s, t, v));
    // The lines of `optimize` that are no functions there.
    let sums = |g: &mut Gen| -> (Vec<f64>, Vec<f64>, f64) {
        let n = elements(g);
        (list(g, n, |g| if g.below(8) == 0 { g.float() } else { g.unit() }), list(g, n, |g| g.float()), g.float())
    };
    run.jobs("compliance", 100, [], sums, |(a, _, _)| 2.0 * a.iter().sum::<f64>(), |(a, _, _)| oc::compliance(&a));
    run.jobs("fraction", 100, [], sums, |(a, b, t)| original::dot(&a, &b) / t, |(a, b, t)| oc::fraction(&a, &b, t));
    let change = |(a, b, _): (Vec<f64>, Vec<f64>, f64)| a.iter().zip(&b).map(|(a, b)| (a - b).abs()).fold(0.0, f64::max);
    run.jobs("change", 100, [], sums, change, |(a, b, _)| oc::change(&a, &b));
    let grey = |(a, b, t): (Vec<f64>, Vec<f64>, f64)| a.iter().zip(&b).map(|(x, v)| 4.0 * x * (1.0 - x) * v).sum::<f64>() / t;
    run.jobs("grey", 100, [], sums, grey, |(a, b, t)| oc::grey(&a, &b, t));
}

/// What the parts of a round are given, and the lists that they write.
#[derive(Clone)]
struct Part {
    table: Lists,
    volumes: Vec<f64>,
    passive: Vec<bool>,
    x: Vec<f64>,
    slope: Vec<f64>,
    energies: Vec<f64>,
    number: f64,
    sharpen: bool,
    a: Vec<f64>,
    b: Vec<f64>,
}
fields!(Part: table, volumes, passive, x, slope, energies, number, sharpen, a, b);

impl Part {
    fn random(g: &mut Gen) -> Part {
        let n = elements(g);
        let sharpen = g.below(3) > 0;
        let held = g.pick(&[0, 1, 4, 8]);
        Part {
            table: table(g, n),
            volumes: list(g, n, volume),
            passive: list(g, n, |g| g.below(8) < held),
            x: list(g, n, value),
            slope: list(g, n, |g| if g.below(8) == 0 { g.float() } else { g.unit() }),
            energies: list(g, n, |g| if g.below(8) == 0 { g.float() } else { g.unit() }),
            number: if sharpen { steepness(g) } else { g.float() },
            sharpen,
            a: lent(g, n),
            b: lent(g, n),
        }
    }

    /// The table for as many rows as there are elements.
    fn theirs(&self, n: usize) -> Filter {
        let mut filter = self.table.theirs();
        filter.start.resize(n + 1, 0);
        filter
    }

    fn beta(&self) -> Option<f64> {
        self.sharpen.then_some(self.number)
    }

    fn rule(&self) -> Rule {
        if self.sharpen { Rule::Sharpened(self.number) } else { Rule::Straight(self.number) }
    }
}

type Left = (u32, Vec<f64>, Vec<f64>);

fn parts(run: &mut Run) {
    run.jobs("start", 30, [], Part::random, start_theirs, start_ours);
    run.jobs("see", 30, [], Part::random, see_theirs, see_ours);
    run.jobs("work_slope", 30, [], Part::random, work_slope_theirs, work_slope_ours);
    run.jobs("volume_slope", 30, [], Part::random, volume_slope_theirs, volume_slope_ours);
    run.jobs("kept", 30, [], Part::random, kept_theirs, kept_ours);
}

/// The first lines of `optimize`.
fn start_theirs(p: Part) -> ([f64; 5], Left) {
    let n = p.volumes.len();
    let refused = refused(n, &[p.passive.len()], &[&p.a, &p.b]);
    if refused != 0 {
        return ([0.0; 5], (refused, p.a, p.b));
    }
    let total: f64 = p.volumes.iter().sum();
    let solid: f64 = p.volumes.iter().zip(&p.passive).filter(|(_, p)| **p).map(|(v, _)| *v).sum();
    let target = p.number * total;
    let start = (target - solid) / (total - solid);
    let x = p.passive.iter().map(|p| if *p { 1.0 } else { start }).collect();
    let free = p.volumes.iter().zip(&p.passive).map(|(v, p)| if *p { 0.0 } else { *v }).collect();
    ([total, solid, target, 1e-10 * total, start], (0, laid(x, p.a), laid(free, p.b)))
}

fn start_ours(mut p: Part) -> ([f64; 5], Left) {
    let told = oc::start(&p.volumes, &p.passive, p.number, &mut p.a, &mut p.b);
    let numbers = told.map_or([0.0; 5], |s| [s.total, s.solid, s.target, s.tolerance, s.density]);
    (numbers, (number(&told), p.a, p.b))
}

fn see_theirs(p: Part) -> Left {
    let n = p.passive.len();
    let refused = refused(n, &[p.x.len()], &[&p.a, &p.b]);
    if refused != 0 {
        return (refused, p.a, p.b);
    }
    let seen = original::see(&p.theirs(n), &p.passive, &p.x, p.beta());
    (0, laid(seen.density, p.a), laid(seen.slope, p.b))
}

fn see_ours(mut p: Part) -> Left {
    let told = oc::see(p.table.ours(), &p.passive, &p.x, p.beta(), Seen { density: &mut p.a, slope: &mut p.b });
    (number(&told), p.a, p.b)
}

fn work_slope_theirs(p: Part) -> Left {
    let n = p.passive.len();
    let refused = refused(n, &[p.x.len(), p.slope.len(), p.energies.len()], &[&p.a, &p.b]);
    if refused != 0 {
        return (refused, p.a, p.b);
    }
    let levels: Vec<u16> = p.x.iter().map(|v| level_of(*v)).collect();
    let seen = original::Seen { density: p.x.clone(), slope: p.slope.clone() };
    let slope = original::work_slope(&p.theirs(n), &p.passive, &seen, &levels, &p.energies);
    (0, unused(0, n, p.a), laid(slope, p.b))
}

fn work_slope_ours(mut p: Part) -> Left {
    let told = oc::work_slope(p.table.ours(), &p.passive, &p.x, &p.slope, &p.energies, &mut p.a, &mut p.b);
    (number(&told), unused(number(&told), p.passive.len(), p.a), p.b)
}

fn volume_slope_theirs(p: Part) -> Left {
    let n = p.slope.len();
    let refused = refused(n, &[p.volumes.len()], &[&p.a, &p.b]);
    if refused != 0 {
        return (refused, p.a, p.b);
    }
    let seen = original::Seen { density: Vec::new(), slope: p.slope.clone() };
    let slope = original::volume_slope(&p.theirs(n), &seen, &p.volumes);
    (0, unused(0, n, p.a), laid(slope, p.b))
}

fn volume_slope_ours(mut p: Part) -> Left {
    let told = oc::volume_slope(p.table.ours(), &p.slope, &p.volumes, &mut p.a, &mut p.b);
    (number(&told), unused(number(&told), p.slope.len(), p.a), p.b)
}

/// The volume that a design keeps by the original: `kept`, or the closure that `optimize` hands to `update`.
fn kept_by(rule: Rule, straight: &[f64], filter: &Filter, volumes: &[f64], passive: &[bool]) -> impl FnMut(&[f64]) -> f64 {
    let design = Design { volumes: volumes.to_vec(), centroids: Vec::new(), passive: passive.to_vec() };
    move |y| match rule {
        Rule::Straight(solid) => solid + original::dot(straight, y),
        Rule::Sharpened(beta) => original::kept(filter, &design, y, Some(beta)),
    }
}

fn kept_theirs(p: Part) -> Left {
    let n = p.passive.len();
    let refused = refused(n, &[p.volumes.len(), p.x.len()], &[&p.a]);
    if refused != 0 {
        return (refused, p.a, Vec::new());
    }
    let filter = p.theirs(n);
    let kept = kept_by(p.rule(), &p.slope, &filter, &p.volumes, &p.passive)(&p.x);
    (0, unused(0, n, p.a), vec![kept])
}

fn kept_ours(mut p: Part) -> Left {
    let told = oc::kept(p.rule(), &p.slope, p.table.ours(), &p.volumes, &p.passive, &p.x, &mut p.a);
    (number(&told), unused(number(&told), p.passive.len(), p.a), told.into_iter().collect())
}

/// What an update is given, and the lists that it writes.
#[derive(Clone)]
struct Job {
    x: Vec<f64>,
    dc: Vec<f64>,
    dv: Vec<f64>,
    passive: Vec<bool>,
    m: f64,
    target: f64,
    tolerance: f64,
    sharpen: bool,
    number: f64,
    table: Lists,
    volumes: Vec<f64>,
    design: Vec<f64>,
    gain: Vec<f64>,
    work: Vec<f64>,
}
fields!(Job: x, dc, dv, passive, m, target, tolerance, sharpen, number, table, volumes, design, gain, work);

impl Job {
    fn rule(&self) -> Rule {
        if self.sharpen { Rule::Sharpened(self.number) } else { Rule::Straight(self.number) }
    }

    fn random(g: &mut Gen) -> Job {
        let n = elements(g).max(1);
        let sharpen = g.below(2) == 0;
        let table = table(g, n);
        let plain = g.below(4) > 0;
        let volumes: Vec<f64> = list(g, n, |g| if plain { 0.5 + g.unit() } else { volume(g) });
        let held = g.pick(&[0, 0, 1, 4, 8]);
        let passive: Vec<bool> = list(g, n, |g| g.below(8) < held);
        let x: Vec<f64> = list(g, n, |g| if plain { 1e-3 + 0.999 * g.unit() } else { value(g) });
        // Slopes as a run has them, of either sign, or such that gains are infinite, no numbers, or too small or too large to halve.
        let kind = g.below(8);
        let size = 10f64.powi(g.below(617) as i32 - 308);
        let slope = |g: &mut Gen, sign: f64| match kind {
            0 => g.float(),
            1 => g.pick(&[0.0, -0.0, f64::INFINITY, f64::NEG_INFINITY, f64::NAN, 1.0, -1.0]),
            2 => g.signed() * size,
            3 => sign * if g.below(4) == 0 { g.unit() * size } else { g.unit() },
            _ => sign * g.unit(),
        };
        let dc = list(g, n, |g| slope(g, -1.0));
        let dv: Vec<f64> = if kind == 4 { list(g, n, |g| g.unit() * size) } else { list(g, n, |g| slope(g, 1.0)) };
        let number = if sharpen { steepness(g) } else { g.unit() * volumes.len() as f64 };
        let total: f64 = volumes.iter().sum();
        let m = match g.below(8) {
            0 => g.float(),
            1 => g.pick(&[0.0, 1.0, 5e-324, f64::NAN, -0.2]),
            _ if sharpen => MOVE / number.sqrt(),
            _ => MOVE,
        };
        let mut job = Job {
            design: lent(g, n),
            gain: lent(g, n),
            work: lent(g, n),
            target: g.unit() * total,
            tolerance: 1e-10 * total,
            x,
            dc,
            dv,
            passive,
            m,
            sharpen,
            number,
            table,
            volumes,
        };
        // A target that some design keeps exactly, or one that none can.
        job.target = match g.below(8) {
            0 => g.float(),
            1 => g.pick(&[0.0, 2.0 * total, f64::INFINITY, f64::NAN, -1.0]),
            2..5 => {
                let filter = job.filter();
                let kept = kept_by(job.rule(), &job.dv, &filter, &job.volumes, &job.passive)(&job.x);
                kept * (0.5 + g.unit())
            }
            5 => {
                let filter = job.filter();
                kept_by(job.rule(), &job.dv, &filter, &job.volumes, &job.passive)(&job.x)
            }
            _ => job.target,
        };
        // Little kept of a design that is little, so that the first rate keeps too much and is doubled.
        if g.below(16) == 0 {
            job.x.iter_mut().for_each(|x| *x = 0.1 + 0.1 * g.unit());
            (job.dc, job.dv) = (job.dc.iter().map(|_| -1.0 - g.unit()).collect(), job.dv.iter().map(|_| 1.0).collect());
            if !sharpen {
                job.number = 0.0;
            }
            let filter = job.filter();
            job.target = kept_by(job.rule(), &job.dv, &filter, &job.volumes, &job.passive)(&vec![1e-3; job.x.len()]) * (1.0 + g.unit());
        }
        job.tolerance = match g.below(16) {
            0 => g.float(),
            1 => g.pick(&[0.0, f64::INFINITY, f64::NAN, -1.0, total]),
            _ => job.tolerance,
        };
        job
    }

    fn filter(&self) -> Filter {
        let mut filter = self.table.theirs();
        filter.start.resize(self.x.len() + 1, 0);
        filter
    }
}

/// 01: "met with the kept volume, cramped with both rates of its bracket, or spent with the kept volume", as numbers, and the passes.
fn told(target: f64, tolerance: f64) -> [f64; 4] {
    let e = ended();
    let (kind, first, second) = if (e.kept - target).abs() <= tolerance {
        (0.0, e.kept, 0.0)
    } else if !e.kept.is_nan() && e.passes == 200 {
        (2.0, e.kept, 0.0)
    } else {
        (1.0, e.low, e.high)
    };
    [kind, first, second, e.passes as f64]
}

fn numbers_of(updated: &oc::Updated) -> [f64; 4] {
    let passes = updated.passes as f64;
    match updated.ending {
        Ending::Met(kept) => [0.0, kept, 0.0, passes],
        Ending::Cramped(low, high) => [1.0, low, high, passes],
        Ending::Spent(kept) => [2.0, kept, 0.0, passes],
    }
}

fn update_theirs(j: Job) -> ([f64; 4], Left, Vec<f64>) {
    let n = j.x.len();
    let refused = refused(n, &[j.dc.len(), j.dv.len(), j.passive.len(), j.volumes.len()], &[&j.design, &j.gain, &j.work]);
    if refused != 0 {
        return ([0.0; 4], (refused, j.gain, j.work), j.design);
    }
    let filter = j.filter();
    let mut kept = kept_by(j.rule(), &j.dv, &filter, &j.volumes, &j.passive);
    let design = original::update(&j.x, &j.dc, &j.dv, &j.passive, j.m, j.target, j.tolerance, &mut kept);
    drop(kept);
    (told(j.target, j.tolerance), (0, unused(0, n, j.gain), unused(0, n, j.work)), laid(design, j.design))
}

fn update_ours(mut j: Job) -> ([f64; 4], Left, Vec<f64>) {
    let aim = Aim { dc: &j.dc, dv: &j.dv, m: j.m, target: j.target, tolerance: j.tolerance, rule: j.rule() };
    let next = Next { design: &mut j.design, gain: &mut j.gain, work: &mut j.work };
    let updated = oc::update(&j.x, aim, j.table.ours(), &j.volumes, &j.passive, next);
    let (k, n) = (number(&updated), j.x.len());
    (updated.map_or([0.0; 4], |u| numbers_of(&u)), (k, unused(k, n, j.gain), unused(k, n, j.work)), j.design)
}

fn updates(run: &mut Run) {
    run.jobs("update", 100, [], Job::random, update_theirs, update_ours);
}

/// A whole run: a part whose solver gives each element the energy weight / (2·modulus(level, 1)).
#[derive(Clone)]
struct Whole {
    volumes: Vec<f64>,
    passive: Vec<bool>,
    weights: Vec<f64>,
    fraction: f64,
    radius: f64,
    sharpen: bool,
    rounds: usize,
    table: Lists,
    middles: Vec<[f64; 3]>,
}
fields!(Whole: volumes, passive, weights, fraction, radius, sharpen, rounds, table, middles);

fn energies(weights: &[f64], levels: impl Iterator<Item = u16>) -> Vec<f64> {
    weights.iter().zip(levels).map(|(w, level)| w / (2.0 * modulus(level, 1.0))).collect()
}

struct Weights<'a>(&'a [f64]);

impl Stiffness for Weights<'_> {
    fn energies(&mut self, levels: &[u16]) -> Result<Vec<f64>, String> {
        Ok(energies(self.0, levels.iter().copied()))
    }
}

impl Whole {
    fn random(g: &mut Gen) -> Whole {
        let n = match g.below(16) {
            0 => 100 + g.below(400),
            _ => 1 + g.below(40),
        };
        let even = g.below(2) == 0;
        let held = g.pick(&[0, 0, 1, 2]);
        let middles: Vec<[f64; 3]> = (0..n).map(|_| std::array::from_fn(|_| 10.0 * g.unit())).collect();
        let volumes: Vec<f64> = (0..n).map(|_| if even { 1.0 } else { 0.1 + g.unit() }).collect();
        let most = g.pick(&[12, 12, 12, 120]);
        let radius = g.pick(&[0.001, 1.0, 2.5, 4.0, 30.0]);
        let filter = Filter::new(&vectors(&middles), &volumes, radius, &[]).unwrap_or_default();
        Whole {
            passive: (0..n).map(|_| g.below(8) < held).collect(),
            weights: (0..n).map(|_| if g.below(8) == 0 { 0.0 } else { g.unit() * 10f64.powi(g.below(9) as i32 - 4) }).collect(),
            fraction: 0.05 + 0.9 * g.unit(),
            radius,
            sharpen: g.below(2) == 0,
            rounds: 1 + g.below(most),
            table: Lists::of(&filter),
            middles,
            volumes,
        }
    }
}

fn vectors(points: &[[f64; 3]]) -> Vec<tenon::Vec3> {
    points.iter().map(|p| tenon::Vec3::new(p[0], p[1], p[2])).collect()
}

/// Records of rounds as numbers, the densities of the last, and the number of the stop; nothing where the run is refused.
type Told = (Vec<[f64; 7]>, Vec<f64>, usize);

fn whole_theirs(w: Whole) -> Told {
    let design = Design { volumes: w.volumes.clone(), centroids: vectors(&w.middles), passive: w.passive.clone() };
    let goal = Goal {
        fraction: w.fraction,
        radius: w.radius,
        sharpen: w.sharpen,
        max_iterations: w.rounds,
        budget: Duration::MAX,
        mirrors: Vec::new(),
    };
    let mut records = Vec::new();
    let never = Arc::new(AtomicBool::new(false));
    let done = tenon::topo::optimize(&design, &goal, &mut Weights(&w.weights), &never, &mut |i| {
        records.push([i.number as f64, i.compliance, i.fraction, i.change, i.sharpness, i.grey, ended().passes as f64]);
    });
    match done {
        Ok(done) => (records, done.density, done.stop as usize),
        Err(_) => (Vec::new(), Vec::new(), 0),
    }
}

/// `optimize` over the library's parts.
fn whole_ours(w: Whole) -> Told {
    let n = w.volumes.len();
    let t: Table<'_> = w.table.ours();
    let (mut x, mut free) = (vec![0.0; n], vec![0.0; n]);
    let Ok(start) = oc::start(&w.volumes, &w.passive, w.fraction, &mut x, &mut free) else { return Default::default() };
    if oc::no_room(start.solid, start.total, start.target) {
        return Default::default();
    }
    let solid_work = oc::compliance(&energies(&w.weights, std::iter::repeat_n(1000, n)));
    if solid_work <= 0.0 {
        return Default::default();
    }
    let free_total: f64 = free.iter().sum();
    let mut straight = vec![0.0; n];
    t.back(&free, &mut straight);
    let [mut density, mut slope, mut dc, mut dv, mut own, mut design, mut gain, mut work] = std::array::from_fn(|_| vec![0.0; n]);
    let mut records: Vec<[f64; 7]> = Vec::new();
    let (mut stage, mut at_stage, mut steady, mut before) = (0, 0, 0, None::<f64>);
    loop {
        let beta = w.sharpen.then(|| STAGES[stage]);
        let seen = Seen { density: &mut density, slope: &mut slope };
        let mut sure = oc::see(t, &w.passive, &x, beta, seen).is_ok();
        let u = energies(&w.weights, density.iter().map(|v| sokdrib::topo::level_of(*v)));
        let compliance = oc::compliance(&u);
        sure &= oc::work_slope(t, &w.passive, &density, &slope, &u, &mut own, &mut dc).is_ok();
        sure &= oc::volume_slope(t, &slope, &free, &mut own, &mut dv).is_ok();
        let (dv, m, rule) = match beta {
            None => (&straight, MOVE, Rule::Straight(start.solid)),
            Some(b) => (&dv, MOVE / sokdrib::ieee::root::sqrt(b), Rule::Sharpened(b)),
        };
        let aim = Aim { dc: &dc, dv, m, target: start.target, tolerance: start.tolerance, rule };
        let next = Next { design: &mut design, gain: &mut gain, work: &mut work };
        let Ok(updated) = oc::update(&x, aim, t, &w.volumes, &w.passive, next) else { return Default::default() };
        if !sure {
            return Default::default();
        }
        let change = oc::change(&design, &x);
        let (share, grey) = (oc::fraction(&w.volumes, &density, start.total), oc::grey(&density, &free, free_total));
        records.push([records.len() as f64 + 1.0, compliance, share, change, beta.unwrap_or(1.0), grey, updated.passes as f64]);
        std::mem::swap(&mut x, &mut design);
        let sharpest = !w.sharpen || stage + 1 >= STAGES.len();
        if sharpest {
            steady = if before.is_some_and(|c| (compliance - c).abs() < LEVEL_OFF * compliance) { steady + 1 } else { 0 };
        }
        before = Some(compliance);
        let stop = if sharpest && change < SETTLED {
            Some(Stop::Settled)
        } else if sharpest && steady >= LEVEL_OFF_RUN {
            Some(Stop::LevelledOff)
        } else if records.len() >= w.rounds {
            Some(Stop::Limit)
        } else {
            None
        };
        if let Some(stop) = stop {
            return (records, density, stop as usize);
        }
        if !sharpest {
            at_stage += 1;
            if at_stage >= STAGE_ITERATIONS || change < SETTLED {
                (stage, at_stage) = (stage + 1, 0);
            }
        }
    }
}

fn rounds(run: &mut Run) {
    run.jobs("rounds", 2000, [], Whole::random, whole_theirs, whole_ours);
}

/// That the random inputs reach what they are meant for.
#[cfg(test)]
mod tests {
    use super::*;
    use std::collections::BTreeMap;

    #[test]
    fn updates_end_in_every_way() {
        let mut g = Gen::of(1, "update");
        let mut seen: BTreeMap<String, usize> = BTreeMap::new();
        for _ in 0..3000 {
            let job = Job::random(&mut g);
            let sharp = if job.sharpen { "sharpened" } else { "straight" };
            let ([kind, first, second, passes], (refused, _, _), _) = update_ours(job.clone());
            let mut count = |what: String| *seen.entry(what).or_default() += 1;
            count(format!("refused {refused}"));
            if refused == 0 {
                count(format!("{sharp} {kind}"));
                count(format!(
                    "{sharp} {}",
                    if passes == 1.0 {
                        "one pass"
                    } else if passes == 200.0 {
                        "200 passes"
                    } else {
                        "some passes"
                    }
                ));
                if kind == 1.0 && second == f64::INFINITY {
                    count("an infinite rate".into());
                }
                let gains = job.dc.iter().zip(&job.dv).map(|(c, v)| -c / v);
                if kind == 1.0 && gains.clone().all(|b| b > 0.0) && first >= 1e4 * gains.fold(0.0, f64::max) {
                    count("raised".into());
                }
                if job.sharpen && STAGES.contains(&job.number) {
                    count(format!("steepness {}", job.number));
                }
            }
        }
        let wanted = [
            "refused 0",
            "refused 1",
            "refused 14",
            "straight 0",
            "straight 1",
            "straight 2",
            "sharpened 0",
            "sharpened 1",
            "sharpened 2",
            "straight one pass",
            "straight some passes",
            "straight 200 passes",
            "sharpened one pass",
            "sharpened some passes",
            "sharpened 200 passes",
            "an infinite rate",
            "raised",
            "steepness 1",
            "steepness 2",
            "steepness 4",
            "steepness 8",
            "steepness 16",
        ];
        for what in wanted {
            assert!(seen.get(what).is_some_and(|n| *n >= 10), "{what}: {seen:?}");
        }
    }

    #[test]
    fn runs_reach_every_stop_and_steepness() {
        let mut g = Gen::of(1, "rounds");
        let mut seen: BTreeMap<String, usize> = BTreeMap::new();
        for _ in 0..300 {
            let (records, _, stop) = whole_ours(Whole::random(&mut g));
            let mut count = |what: String| *seen.entry(what).or_default() += 1;
            match records.last() {
                None => count("refused".into()),
                Some(last) => {
                    count(format!("stop {stop}"));
                    count(format!("steepness {}", last[4]));
                }
            }
        }
        for what in ["refused", "stop 0", "stop 1", "stop 2", "steepness 1", "steepness 2", "steepness 16"] {
            assert!(seen.contains_key(what), "{what}: {seen:?}");
        }
    }
}
