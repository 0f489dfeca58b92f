//! Whole runs of eight elements, over a solver that answers by a script: what `optimize` asks, records and ends with.
use std::sync::Arc;
use std::sync::atomic::{AtomicBool, Ordering};
use std::time::Duration;

use tenon::Vec3;
use tenon::stand_ins::{ended, set_clock};
use tenon::tools::STOPPED;
use tenon::topo::{Design, Goal, Iteration, Mirror, Stiffness, modulus, optimize};

use crate::inputs::{Gen, Point};
use crate::sample::{Sample, Words};

const ELEMENTS: usize = 8;

/// What comes up in the script at one question.
#[derive(Clone, Copy, PartialEq)]
enum Event {
    Nothing,
    Fails,
    Halts,
    /// The flag is set while the solver works.
    Flag,
    /// An energy is no number.
    Bad,
    /// No energy anywhere.
    Idle,
}

#[derive(Clone)]
struct Job<const PLANES: usize> {
    volumes: [f64; ELEMENTS],
    middles: [Point; ELEMENTS],
    passive: [bool; ELEMENTS],
    planes: [[f64; 6]; PLANES],
    fraction: f64,
    radius: f64,
    sharpen: bool,
    rounds: usize,
    weights: [f64; ELEMENTS],
    /// What comes up, and at which question, the solid part's being 0.
    event: Event,
    at: usize,
    /// The milliseconds that each question takes, and those allowed.
    takes: u64,
    allowed: u64,
}

impl<const PLANES: usize> Words for Job<PLANES> {
    fn put(&self, to: &mut Vec<u64>) {
        self.volumes.put(to);
        self.middles.put(to);
        self.passive.put(to);
        self.planes.put(to);
        [self.fraction, self.radius].put(to);
        self.sharpen.put(to);
        to.push(self.rounds as u64);
    }
}

impl<const PLANES: usize> Job<PLANES> {
    fn random(g: &mut Gen) -> Job<PLANES> {
        let held = g.pick(&[0, 0, 1, 3]);
        let rounds = g.pick(&[1, 2, 6, 12, 30]);
        Job {
            volumes: std::array::from_fn(|_| 0.5 + g.unit()),
            middles: std::array::from_fn(|_| std::array::from_fn(|_| g.below(3) as f64)),
            passive: std::array::from_fn(|_| g.below(8) < held),
            planes: std::array::from_fn(|_| [1.0, 0.0, 0.0, g.pick(&[1.0, -2.0]), 0.0, 0.0]),
            fraction: 0.1 + 0.8 * g.unit(),
            radius: g.pick(&[0.5, 1.0, 1.5, 2.5]),
            sharpen: g.below(2) == 0,
            rounds,
            weights: std::array::from_fn(|_| if g.below(8) == 0 { 0.0 } else { g.unit() * 10f64.powi(g.below(5) as i32 - 2) }),
            event: g.pick(&[
                Event::Nothing,
                Event::Nothing,
                Event::Nothing,
                Event::Fails,
                Event::Halts,
                Event::Flag,
                Event::Bad,
                Event::Idle,
            ]),
            at: if g.below(3) == 0 { 0 } else { g.below(rounds + 1) },
            takes: 7,
            allowed: g.pick(&[1_000_000, 1_000_000, 50]),
        }
    }

    fn run(self) -> Told {
        let design =
            Design { volumes: self.volumes.to_vec(), centroids: self.middles.map(vector).to_vec(), passive: self.passive.to_vec() };
        let mirror = |p: [f64; 6]| Mirror { point: vector([p[0], p[1], p[2]]), normal: vector([p[3], p[4], p[5]]) };
        let goal = Goal {
            fraction: self.fraction,
            radius: self.radius,
            sharpen: self.sharpen,
            max_iterations: self.rounds,
            budget: Duration::from_millis(self.allowed),
            mirrors: self.planes.map(mirror).to_vec(),
        };
        set_clock(Duration::ZERO);
        let flag = Arc::new(AtomicBool::new(false));
        let mut records = Vec::new();
        let mut script = Script { job: self.clone(), flag: flag.clone(), asked: Vec::new() };
        let done = optimize(&design, &goal, &mut script, &flag, &mut |i| records.push((*i, ended().passes)));
        let end = match done {
            Ok(done) => {
                let density = done.density.clone().try_into().expect("one an element");
                End::Stop(done.stop as u64, done.solid_compliance, density)
            }
            Err(_) => End::Refused(self.refusal(script.asked.len())),
        };
        Told { asked: script.asked, records, end }
    }

    /// The number of a refusal after so many questions: at the opening that there is no room, later what the script says.
    fn refusal(&self, asked: usize) -> u64 {
        match self.event {
            _ if asked == 0 => 7,
            Event::Fails => 18,
            Event::Bad => 17,
            Event::Halts | Event::Flag => 15,
            Event::Nothing | Event::Idle => 19,
        }
    }
}

fn vector([x, y, z]: Point) -> Vec3 {
    Vec3::new(x, y, z)
}

/// A question and its answer.
struct Asked {
    levels: [u16; ELEMENTS],
    said: u64,
    flag: bool,
    elapsed: u64,
    allowed: u64,
    energies: [f64; ELEMENTS],
}

struct Script<const PLANES: usize> {
    job: Job<PLANES>,
    flag: Arc<AtomicBool>,
    asked: Vec<Asked>,
}

impl<const PLANES: usize> Stiffness for Script<PLANES> {
    fn energies(&mut self, levels: &[u16]) -> Result<Vec<f64>, String> {
        let n = self.asked.len();
        let event = if n == self.job.at { self.job.event } else { Event::Nothing };
        let elapsed = self.job.takes * (n as u64 + 1);
        set_clock(Duration::from_millis(elapsed));
        self.flag.fetch_or(event == Event::Flag, Ordering::Relaxed);
        let energies: [f64; ELEMENTS] = std::array::from_fn(|e| match event {
            Event::Bad if e == 3 => f64::INFINITY,
            Event::Idle => 0.0,
            _ => self.job.weights[e] / (2.0 * modulus(levels[e], 1.0)),
        });
        let (said, told) = match event {
            Event::Fails => (1, Err("it failed".into())),
            Event::Halts => (2, Err(STOPPED.into())),
            _ => (0, Ok(energies.to_vec())),
        };
        self.asked.push(Asked {
            levels: levels.try_into().expect("one an element"),
            said,
            flag: self.flag.load(Ordering::Relaxed),
            elapsed,
            allowed: self.job.allowed,
            energies,
        });
        told
    }
}

enum End {
    Refused(u64),
    Stop(u64, f64, [f64; ELEMENTS]),
}

struct Told {
    asked: Vec<Asked>,
    records: Vec<(Iteration, usize)>,
    end: End,
}

/// A reply is two words: 0 refused, with the number; 1 the solid part; 2 a round, with its number; 3 a stop, with its number.
impl Words for Told {
    fn put(&self, to: &mut Vec<u64>) {
        let last = match self.end {
            End::Refused(n) => [0, n],
            End::Stop(n, _, _) => [3, n],
        };
        to.extend(if self.asked.is_empty() { last } else { [1, 0] });
        for (n, a) in self.asked.iter().enumerate() {
            a.levels.put(to);
            to.extend([a.said, u64::from(a.flag), a.elapsed, a.allowed]);
            a.energies.put(to);
            // The answer to question n made record n: the solid part's made none.
            let made = n.checked_sub(1).and_then(|k| self.records.get(k));
            made.is_some().put(to);
            if let Some((i, passes)) = made {
                to.push(i.number as u64);
                [i.compliance, i.fraction, i.change, i.sharpness, i.grey].put(to);
                to.push(*passes as u64);
            }
            to.extend(if n + 1 == self.asked.len() { last } else { [2, n as u64 + 1] });
        }
        match self.end {
            End::Refused(_) => to.push(0),
            End::Stop(_, work, density) => {
                to.push(1);
                work.put(to);
                density.put(to);
            }
        }
    }
}

pub fn all(s: &mut Sample) {
    // Two runs go through all five steepnesses.
    let long = |g: &mut Gen| Job {
        passive: [false; ELEMENTS],
        fraction: 0.5,
        sharpen: true,
        rounds: 100,
        event: Event::Nothing,
        allowed: 1_000_000,
        ..Job::random(g)
    };
    let mut g = Gen::of(1, "long runs");
    s.section(20, "run", [long(&mut g), long(&mut g)], 38, Job::<0>::random, Job::run);
    s.section(21, "run of a plane", [], 20, Job::<1>::random, Job::run);
}
