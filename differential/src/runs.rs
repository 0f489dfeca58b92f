//! Whole runs, question by question: the original's `optimize` beside the plain run; of full stages, which it does not know, its loop without the early move.
use std::sync::Arc;
use std::sync::atomic::{AtomicBool, Ordering};
use std::time::Duration;

use crate::compare::Run;
use crate::fields;
use crate::inputs::Gen;
use crate::plain::{Answer, Opening, Plain, Record, Reply, Room, Said, Sharpening, mirrors};
use tenon::stand_ins::{ended, set_clock};
use tenon::tools::{Cancel, STOPPED};
use tenon::topo::{Design, Goal, SETTLED, Stiffness, Stop, full, level_of, modulus, optimize};

pub fn all(run: &mut Run) {
    run.jobs("plain run", 1000, [], small, |job| original_trace(&job), |job| plain_trace(&job));
    run.jobs("full plain run", 4000, [], staged, |job| original_trace(&job), |job| plain_trace(&job));
}

/// A job that opens, mostly of few elements; now and then one that is about to settle or to level off.
pub fn small(g: &mut Gen) -> Job {
    loop {
        let n = if g.below(64) == 0 { 100 + g.below(300) } else { 1 + g.below(24) };
        let job = match g.below(32) {
            0 => Job::settling(g),
            1 => Job::swinging(g),
            _ => Job::random(g, n),
        };
        if opens(&job) {
            return job;
        }
    }
}

/// The same with full stages, every other one of few elements with rounds for some or all of them and nothing that ends it sooner.
pub fn staged(g: &mut Gen) -> Job {
    let mut job = small(g);
    if job.weights.len() < 100 && g.below(2) == 0 {
        (job.event, job.flag, job.allowed, job.opening.flag) = ((0, Event::Works), None, u64::MAX, false);
        job.opening.rounds = g.pick(&[20, 21, 79, 80, 81, 82, 100, 120]);
    }
    job.opening.sharpen = Sharpening::Full;
    job
}

/// What the solver does when it is asked. The place is taken modulo the elements.
#[derive(Clone, Copy, PartialEq)]
pub enum Event {
    Works,
    Fails,
    Halts,
    /// One energy too few, one too many.
    Short,
    Long,
    /// This energy at one place.
    Odd(f64, usize),
    /// This energy everywhere.
    All(f64),
    /// At each question all the energy is at one of two places, in turn, and the work 1000 or 1001: what it changes by is 0.001 of the one.
    Swings,
}

/// A run's opening, and what the solver and the caller do at each question, the solid part's first. The lists go on as their last entry.
#[derive(Clone)]
pub struct Job {
    pub opening: Opening,
    pub weights: Vec<f64>,
    /// How much the energies of one question vary from another's.
    pub noise: f64,
    pub event: (usize, Event),
    /// The question with whose answer the flag is up.
    pub flag: Option<usize>,
    pub elapsed: Vec<u64>,
    pub allowed: u64,
}

impl crate::compare::Value for Job {
    fn keys(&self) -> Vec<u64> {
        self.bits()
    }
    fn bits(&self) -> Vec<u64> {
        let o = &self.opening;
        let mut all = vec![o.volumes.len() as u64, o.rounds as u64, o.sharpen as u64, o.planes.len() as u64, u64::from(o.flag)];
        all.extend([o.fraction, o.radius, self.noise].map(f64::to_bits));
        all.extend([self.event.0 as u64, self.flag.map_or(u64::MAX, |q| q as u64), self.allowed, self.elapsed.len() as u64]);
        let numbers = o.volumes.iter().chain(o.centroids.iter().flatten()).chain(o.planes.iter().flatten()).chain(&self.weights);
        all.extend(numbers.map(|v| v.to_bits()));
        all.extend(o.passive.iter().map(|p| u64::from(*p)));
        all.extend(&self.elapsed);
        all
    }
}

impl Job {
    /// A job within the domain, of `n` elements.
    pub fn random(g: &mut Gen, n: usize) -> Job {
        let even = g.below(2) == 0;
        let held = g.pick(&[0, 0, 1, 2]);
        let side = g.pick(&[1.0, 10.0, 10.0, 1000.0]) * (n as f64).cbrt();
        let centroids: Vec<[f64; 3]> = (0..n).map(|_| std::array::from_fn(|_| side * g.unit())).collect();
        let tiny = g.below(24) == 0;
        let volume = |g: &mut Gen| match g.below(8) {
            0 if tiny => g.pick(&[5e-324, 1e-320, 1e-300, 1e20]),
            _ if tiny => 5e-324,
            _ if even => 1.0,
            _ => 0.1 + g.unit(),
        };
        let planes = match g.below(4) {
            0 => vec![[side / 2.0, 0.0, 0.0, 2.0, 0.0, 0.0]],
            1 if g.below(2) == 0 => vec![[side / 2.0, 0.0, 0.0, 1.0, 0.0, 0.0], [0.0, side / 3.0, 0.0, 0.0, -1.0, 0.0]],
            _ => Vec::new(),
        };
        // So that each element has some tens of neighbours at the most.
        let near = side * (4.0 / n as f64).cbrt().min(1.0);
        let most = g.pick(&[3, 12, 12, 12, 120]);
        let rounds = 1 + g.below(if n > 400 { 8 } else { most });
        let odd = [f64::NAN, f64::INFINITY, f64::NEG_INFINITY, 1e308, -1.0, -1e300, 5e-324];
        let event = match g.below(10) {
            0 => Event::Fails,
            1 => Event::Halts,
            2 => Event::Short,
            3 => Event::Long,
            4 => Event::Odd(g.pick(&odd), g.below(n)),
            5 => Event::All(g.pick(&[0.0, -0.0, 1.7e308, -1.0, 5e-324])),
            _ => Event::Works,
        };
        let late = g.below(3) == 0;
        let (when, after) = if late { (g.below(40), g.below(40)) } else { (g.below(4), g.below(4)) };
        let timed = g.below(4) == 0;
        Job {
            opening: Opening {
                volumes: (0..n).map(|_| volume(g)).collect(),
                passive: (0..n).map(|_| g.below(8) < held).collect(),
                fraction: 0.05 + 0.9 * g.unit(),
                radius: g.pick(&[0.001, 0.3, 0.6, 1.0, 1.0]) * near.max(0.001),
                sharpen: g.pick(&[Sharpening::Early, Sharpening::Off]),
                flag: g.below(32) == 0,
                centroids,
                rounds,
                planes,
            },
            weights: (0..n).map(|_| if g.below(8) == 0 { 0.0 } else { g.unit() * 10f64.powi(g.below(9) as i32 - 4) }).collect(),
            noise: g.pick(&[0.0, 0.0, 0.0, 1e-4, 0.5]),
            event: (when, event),
            flag: (g.below(4) == 0).then_some(after),
            elapsed: if timed { (0..1 + g.below(40)).map(|q| q as u64 * 7 + g.below(9) as u64).collect() } else { vec![0] },
            allowed: if timed { g.pick(&[0, 1, 10, 50, 200, 1_000_000]) } else { u64::MAX },
        }
    }

    /// A job of nothing but its rounds: no element held, none with a neighbour, and nothing that stops it but its changes, its work and its
    /// limit.
    fn bare(g: &mut Gen, n: usize, fraction: f64, rounds: usize) -> Job {
        let job = Job::random(g, n);
        let opening =
            Opening { volumes: vec![1.0; n], passive: vec![false; n], fraction, radius: 0.001, flag: false, rounds, ..job.opening };
        Job { opening, noise: 0.0, event: (0, Event::Works), flag: None, allowed: u64::MAX, ..job }
    }

    /// A job whose first change is 0.01, or as near to it as a change comes: one element's energy is searched for that. The densities are
    /// so small that 0.01 is a difference of two.
    fn settling(g: &mut Gen) -> Job {
        let (n, fraction, rounds) = (4 + g.below(12), 0.0125 + 0.003 * g.unit(), 2 + g.below(6));
        let mut job = Job::bare(g, n, fraction, rounds);
        job.weights = (0..n).map(|_| 1.0 + 0.2 * g.unit()).collect();
        let mut first = job.clone();
        first.opening.rounds = 1;
        let mut below = |energy: f64| {
            first.event = (1, Event::Odd(energy, 0));
            original_trace(&first).records.first().is_some_and(|r| r.change < SETTLED)
        };
        // The others are some 10^5: with that this element changes little, and with 1 it falls by more than 0.01. (Of one that rises by as
        // much, the rates that are tried go with its energy, and the change leaps.)
        let (mut low, mut high) = (1f64, 1e5f64);
        while low.next_up() < high {
            let middle = f64::from_bits((low.to_bits() + high.to_bits()) / 2);
            if below(middle) { high = middle } else { low = middle }
        }
        job.event = (1, Event::Odd(if g.below(4) == 0 { high } else { low }, 0));
        job
    }

    /// A job whose work differs from the round before's by just 0.001 times its own every other round, and by less in between.
    fn swinging(g: &mut Gen) -> Job {
        let (n, fraction, rounds) = (2 + g.below(8), 0.3 + 0.4 * g.unit(), g.pick(&[8, 12, 100]));
        Job { event: (0, Event::Swings), ..Job::bare(g, n, fraction, rounds) }
    }

    /// What the solver says to question `q`, the first being the solid part.
    pub fn said(&self, q: usize, levels: &[u16]) -> Said {
        let n = levels.len();
        let mut energies: Vec<f64> = self.weights.iter().zip(levels).map(|(w, level)| w / (2.0 * modulus(*level, 1.0))).collect();
        if self.noise > 0.0 {
            let mut g = Gen::of(q as u64, "noise");
            energies.iter_mut().for_each(|u| *u *= 1.0 + self.noise * g.signed());
        }
        if self.event.1 == Event::Swings {
            energies.fill(0.0);
            energies[q % 2] = if q % 2 == 0 { 500.0 } else { 500.5 };
        }
        if q == self.event.0 {
            match self.event.1 {
                Event::Works | Event::Swings => {}
                Event::Fails => return Said::Failed,
                Event::Halts => return Said::Halted,
                Event::Short => energies.truncate(n - 1),
                Event::Long => energies.push(1.0),
                Event::Odd(energy, place) => energies[place % n] = energy,
                Event::All(energy) => energies.fill(energy),
            }
        }
        Said::Gave(energies)
    }

    pub fn elapsed(&self, q: usize) -> u64 {
        self.elapsed[q.min(self.elapsed.len() - 1)]
    }

    pub fn flag(&self, q: usize) -> bool {
        self.flag == Some(q)
    }
}

/// The levels asked for, the records, and how it ended: a refusal's number, or 100 and the stop's; the densities handed back; and the solid
/// part's work, where there is a stop.
#[derive(Clone, Default)]
pub struct Trace {
    pub levels: Vec<Vec<u16>>,
    pub records: Vec<Record>,
    pub end: usize,
    pub density: Vec<f64>,
    pub solid_work: f64,
}
fields!(Trace: levels, records, end, density, solid_work);
fields!(Record: number, compliance, fraction, change, sharpness, grey, passes);

impl Trace {
    pub fn stops(&mut self, stop: Stop, density: Vec<f64>, solid_work: f64) {
        (self.end, self.density, self.solid_work) = (100 + stop as usize, density, solid_work);
    }
}

/// The original's solver: says what the job says, sets its clock and raises its flag.
struct Solver<'a> {
    job: &'a Job,
    levels: Vec<Vec<u16>>,
    flag: Cancel,
}

impl Stiffness for Solver<'_> {
    fn energies(&mut self, levels: &[u16]) -> Result<Vec<f64>, String> {
        let q = self.levels.len();
        self.levels.push(levels.to_vec());
        set_clock(Duration::from_millis(self.job.elapsed(q)));
        if self.job.flag(q) {
            self.flag.store(true, Ordering::Relaxed);
        }
        match self.job.said(q, levels) {
            Said::Gave(energies) => Ok(energies),
            Said::Halted => Err(STOPPED.into()),
            Said::Failed => Err("it failed".into()),
        }
    }
}

/// 01's number of the original's words.
fn number_of(words: &str) -> usize {
    let all = [("told the energy of", 16), ("an energy that is not a number", 17), ("it failed", 18), ("do no work", 19), (STOPPED, 15)];
    all.iter().find(|(part, _)| words.contains(part)).map_or(0, |(_, number)| *number)
}

pub fn original_trace(job: &Job) -> Trace {
    let o = &job.opening;
    let design = Design {
        volumes: o.volumes.clone(),
        centroids: o.centroids.iter().map(|c| tenon::Vec3::new(c[0], c[1], c[2])).collect(),
        passive: o.passive.clone(),
    };
    let budget = if job.allowed == u64::MAX { Duration::MAX } else { Duration::from_millis(job.allowed) };
    let sharpen = o.sharpen != Sharpening::Off;
    let goal = Goal { fraction: o.fraction, radius: o.radius, sharpen, max_iterations: o.rounds, budget, mirrors: mirrors(&o.planes) };
    let flag = Arc::new(AtomicBool::new(o.flag));
    let mut solver = Solver { job, levels: Vec::new(), flag: flag.clone() };
    let mut trace = Trace::default();
    let records = &mut trace.records;
    set_clock(Duration::ZERO);
    let optimize = if o.sharpen == Sharpening::Full { full::optimize } else { optimize };
    let done = optimize(&design, &goal, &mut solver, &flag, &mut |i| {
        records.push(Record {
            number: i.number,
            compliance: i.compliance,
            fraction: i.fraction,
            change: i.change,
            sharpness: i.sharpness,
            grey: i.grey,
            passes: ended().passes,
        });
    });
    trace.levels = solver.levels;
    match done {
        Ok(done) => trace.stops(done.stop, done.density, done.solid_compliance),
        Err(words) => trace.end = number_of(&words),
    }
    trace
}

/// Whether the original does not refuse the job before it asks anything: its words for that have no numbers here.
pub fn opens(job: &Job) -> bool {
    let room = Room::exact(job.opening.volumes.len(), usize::MAX, job.opening.rounds);
    !matches!(Plain::open(&job.opening, &room).1, Reply::Refused(k) if k != 15)
}

pub fn plain_trace(job: &Job) -> Trace {
    let mut trace = Trace::default();
    let n = job.opening.volumes.len();
    let room = Room::exact(n, usize::MAX, job.opening.rounds);
    let (run, mut reply, _) = Plain::open(&job.opening, &room);
    let mut run = run.expect("the job opens");
    for q in 0.. {
        let density = match reply {
            Reply::Refused(number) => {
                trace.end = number as usize;
                break;
            }
            Reply::Stopped(stop, density) => {
                trace.stops(stop, density, run.solid_work);
                break;
            }
            Reply::Solid(density) | Reply::Round(_, density) => density,
        };
        let levels: Vec<u16> = density.iter().map(|d| level_of(*d)).collect();
        let said = job.said(q, &levels);
        trace.levels.push(levels);
        let answer = Answer { said, flag: job.flag(q), elapsed: job.elapsed(q), allowed: job.allowed, room };
        reply = run.answer(&answer).0;
    }
    trace.records = run.records;
    trace
}

#[cfg(test)]
mod tests {
    use super::*;
    use crate::compare::Value;
    use std::collections::BTreeMap;

    /// The plain run is the original's, at every kind of end.
    #[test]
    fn the_plain_run_is_the_original_run() {
        let mut g = Gen::of(1, "plain");
        let mut seen: BTreeMap<usize, usize> = BTreeMap::new();
        let mut steepest = 0;
        for k in 0..3000 {
            let job = small(&mut g);
            let (a, b) = (original_trace(&job), plain_trace(&job));
            assert!(a.same(&b), "job {k}: ended {} and {}, {} and {} records", a.end, b.end, a.records.len(), b.records.len());
            *seen.entry(a.end).or_default() += 1;
            steepest += usize::from(a.records.last().is_some_and(|r| r.sharpness == 16.0));
        }
        for end in [15, 16, 17, 18, 19, 100, 101, 102, 103, 104] {
            assert!(seen.get(&end).is_some_and(|n| *n >= 10), "{end}: {seen:?}");
        }
        assert!(steepest >= 10, "{steepest} at 16");
    }

    /// The steepness of each record.
    fn steepnesses(trace: &Trace) -> Vec<f64> {
        trace.records.iter().map(|r| r.sharpness).collect()
    }

    /// CR 13: "the promise of at most 20 becomes exactly 20 and round 81, if it is reached, is the first at 16"; and the plain run is the original's
    /// without its early move, at every kind of end. Of most jobs the course is another with the early move.
    #[test]
    fn full_stages_are_of_20_rounds() {
        let mut g = Gen::of(1, "full");
        let course: Vec<f64> = (0..120).map(|k| [1.0, 2.0, 4.0, 8.0, 16.0][(k / 20).min(4)]).collect();
        let (mut seen, mut last, mut other) = (BTreeMap::new(), 0, 0);
        for k in 0..500 {
            let job = staged(&mut g);
            let (a, b) = (original_trace(&job), plain_trace(&job));
            assert!(a.same(&b), "job {k}: ended {} and {}, {} and {} records", a.end, b.end, a.records.len(), b.records.len());
            assert_eq!(steepnesses(&a), course[..a.records.len()], "job {k}");
            *seen.entry(a.end).or_insert(0) += 1;
            last += usize::from(a.records.len() > 80);
            let early = Job { opening: Opening { sharpen: Sharpening::Early, ..job.opening.clone() }, ..job };
            other += usize::from(steepnesses(&original_trace(&early)) != steepnesses(&a));
        }
        for end in [15, 16, 17, 18, 19, 100, 101, 102, 103, 104] {
            assert!(seen.contains_key(&end), "{end}: {seen:?}");
        }
        assert!(last >= 50 && other >= 50, "{last} at 16, {other} with another course by the early move: {seen:?}");
    }

    /// That jobs which are about to settle change by just 0.01, and those about to level off differ by just 0.001 times the work.
    #[test]
    fn changes_just_at_the_limits() {
        let mut g = Gen::of(1, "settling");
        let (mut at, mut near) = ([0; 2], 0); // by the choice, Off and Early
        for _ in 0..100 {
            let job = Job::settling(&mut g);
            let first = original_trace(&job).records[0].change;
            at[job.opening.sharpen as usize] += usize::from(first == SETTLED);
            near += usize::from((first - SETTLED).abs() < 1e-17);
        }
        assert!(at[0] >= 10 && at[1] >= 10 && near >= 90, "{at:?} at 0.01 and {near} beside it");
        let works: Vec<f64> = original_trace(&Job::swinging(&mut g)).records.iter().map(|r| r.compliance).collect();
        assert!(works.starts_with(&[1001.0, 1000.0, 1001.0, 1000.0, 1001.0, 1000.0]), "{works:?}");
    }
}
