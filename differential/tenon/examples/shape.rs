//! What program `shape` must print of a job strip, by the Rust original with its stand-ins.
//!
//!     cargo run -p tenon --example shape < STRIP
//!
//! The original refuses in words, and knows neither document 01's domain nor lent lists: the numbers of refusals are worked out here, from 01's table. A job of
//! full stages, which it does not know either, goes through its loop without the early move.
use std::io::Read;
use std::sync::Arc;
use std::sync::atomic::AtomicBool;
use std::time::Duration;

use tenon::Vec3;
use tenon::stand_ins::ended;
use tenon::topo::{Design, Filter, Goal, Mirror, Optimized, Stiffness, full, modulus, oc::no_room, optimize};

/// Energy = weight / (2·modulus(level, 1)).
struct Weights(Vec<f64>);

impl Stiffness for Weights {
    fn energies(&mut self, levels: &[u16]) -> Result<Vec<f64>, String> {
        let all: Vec<f64> = self.0.iter().zip(levels).map(|(w, level)| w / (2.0 * modulus(*level, 1.0))).collect();
        if all.iter().any(|e| !e.is_finite()) { Err("17".into()) } else { Ok(all) }
    }
}

struct Job {
    design: Design,
    goal: Goal,
    full: bool,
    weights: Vec<f64>,
}

/// The words of a strip, in order.
struct Strip<'a> {
    words: &'a [u32],
    at: usize,
}

impl Strip<'_> {
    fn take(&mut self, kind: u32, most: u32) -> Option<u32> {
        let word = *self.words.get(self.at)?;
        self.at += 1;
        (word >> 28 == kind && word << 4 >> 4 <= most).then_some(word << 4 >> 4)
    }

    fn count(&mut self, kind: u32) -> Option<usize> {
        Some(self.take(kind, u32::MAX)? as usize)
    }

    fn number(&mut self) -> Option<f64> {
        let (top, next, last) = (self.take(2, 255)?, self.take(3, u32::MAX)?, self.take(4, u32::MAX)?);
        Some(f64::from_bits((top as u64) << 56 | (next as u64) << 28 | last as u64))
    }

    fn point(&mut self) -> Option<Vec3> {
        Some(Vec3::new(self.number()?, self.number()?, self.number()?))
    }

    fn job(&mut self) -> Option<Job> {
        let n = self.count(1)?;
        let (fraction, radius) = (self.number()?, self.number()?);
        let (choice, max_iterations) = (self.take(5, 2)?, self.count(6)?);
        let mut mirrors = Vec::new();
        for _ in 0..self.take(6, 3)? {
            mirrors.push(Mirror { point: self.point()?, normal: self.point()? });
        }
        let mut design = Design { volumes: Vec::new(), centroids: Vec::new(), passive: Vec::new() };
        let mut weights = Vec::new();
        for _ in 0..n {
            design.volumes.push(self.number()?);
            design.centroids.push(self.point()?);
            weights.push(self.number()?);
            design.passive.push(self.take(5, 1)? == 1);
        }
        let before = self.at;
        let whole = self.count(7)? == before && self.at == self.words.len();
        let goal = Goal { fraction, radius, sharpen: choice > 0, max_iterations, budget: Duration::MAX, mirrors };
        whole.then_some(Job { design, goal, full: choice == 2, weights })
    }
}

fn far(p: Vec3) -> bool {
    [p.x, p.y, p.z].iter().any(|c| !(c.abs() <= 1e6))
}

fn len(p: Vec3) -> f64 {
    (p.x * p.x + p.y * p.y + p.z * p.z).sqrt()
}

fn square(a: Vec3, b: Vec3) -> bool {
    let (s, t) = (len(a), len(b));
    (a.x / s * (b.x / t) + a.y / s * (b.y / t) + a.z / s * (b.z / t)).abs() <= 1e-9
}

/// The first refusal of an opening, in 01's order.
fn refusal(d: &Design, g: &Goal) -> Option<u32> {
    let total: f64 = d.volumes.iter().sum();
    let held: f64 = d.volumes.iter().zip(&d.passive).filter(|(_, p)| **p).map(|(v, _)| *v).sum();
    let m = &g.mirrors;
    let pairs = || (0..m.len()).flat_map(|i| (0..i).map(move |j| (i, j)));
    let tests: [(u32, &dyn Fn() -> bool); 10] = [
        (14, &|| d.volumes.len() > 256 || g.max_iterations > 64),
        (2, &|| d.volumes.is_empty()),
        (4, &|| d.volumes.iter().any(|v| !(*v > 0.0 && *v <= 1e20))),
        (5, &|| !(g.fraction > 0.0 && g.fraction < 1.0)),
        (6, &|| g.max_iterations == 0),
        (7, &|| no_room(held, total, g.fraction * total)),
        (8, &|| !(g.radius >= 0.001 && g.radius <= 1e6)),
        (9, &|| d.centroids.iter().any(|p| far(*p))),
        (11, &|| m.iter().any(|p| far(p.point) || far(p.normal) || !(len(p.normal) > 1e-12))),
        (12, &|| pairs().any(|(i, j)| !square(m[i].normal, m[j].normal))),
    ];
    tests.iter().find(|(_, test)| test()).map(|(number, _)| *number)
}

fn run(job: Job) -> Result<(Optimized, Vec<usize>), u32> {
    if let Some(number) = refusal(&job.design, &job.goal) {
        return Err(number);
    }
    let filter = Filter::new(&job.design.centroids, &job.design.volumes, job.goal.radius, &job.goal.mirrors).map_err(|_| 13u32)?;
    if filter.near.len() > 4096 {
        return Err(14);
    }
    let mut passes = Vec::new();
    let stop = Arc::new(AtomicBool::new(false));
    let optimize = if job.full { full::optimize } else { optimize };
    match optimize(&job.design, &job.goal, &mut Weights(job.weights), &stop, &mut |_| passes.push(ended().passes)) {
        Ok(done) => Ok((done, passes)),
        Err(why) => Err(if why == "17" { 17 } else { 19 }),
    }
}

/// 01: all not-a-numbers are one.
fn bits(x: f64) -> String {
    format!("{:016X}", if x.is_nan() { 0x7FF8000000000000 } else { x.to_bits() })
}

fn main() {
    let mut bytes = Vec::new();
    std::io::stdin().read_to_end(&mut bytes).expect("standard input");
    let words: Vec<u32> = bytes.chunks_exact(4).map(|w| u32::from_le_bytes([w[0], w[1], w[2], w[3]])).collect();
    let job = if bytes.len() % 4 == 0 { Strip { words: &words, at: 0 }.job() } else { None };
    match job.ok_or(22).and_then(run) {
        Err(number) => println!("refused {number}"),
        Ok((done, passes)) => {
            println!("solid {}", bits(done.solid_compliance));
            for (it, passes) in done.history.iter().zip(passes) {
                let numbers = [it.compliance, it.fraction, it.change, it.sharpness, it.grey].map(bits).join(" ");
                println!("round {} {numbers} {passes}", it.number);
            }
            println!("stop {:?}", done.stop);
            for (e, density) in done.density.iter().enumerate() {
                println!("{} {}", e + 1, bits(*density));
            }
        }
    }
}
