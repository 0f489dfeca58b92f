//! Document 01's plain run, with 02's full stages, and what each call leaves in the lists that it is lent: written from their text, over the original's
//! formulas.
//!
//! It is fed the calls' arguments alone: of an opening's lists that are written, and of an answer's lists other than the energies, only the
//! lengths. The steady rounds and the rounds at a steepness are read off its own records.
use tenon::stand_ins::ended;
use tenon::topo::oc::{self as original, Seen};
use tenon::topo::{Design, Filter, Mirror, Stop, level_of};
use tenon::{Vec3, study};

/// Places that the list of bits needs, for a filter's build.
pub const WORDS: usize = 1040;

/// The goal's choice: 01's flag, and CR 13's third value.
#[derive(Clone, Copy, Debug, Default, PartialEq, Eq, PartialOrd, Ord)]
pub enum Sharpening {
    #[default]
    Off,
    Early,
    Full,
}

/// An opening's arguments.
#[derive(Clone, Default)]
pub struct Opening {
    pub volumes: Vec<f64>,
    pub centroids: Vec<[f64; 3]>,
    pub passive: Vec<bool>,
    pub fraction: f64,
    pub radius: f64,
    pub sharpen: Sharpening,
    pub rounds: usize,
    pub planes: Vec<[f64; 6]>,
    pub flag: bool,
}

/// How long the lists are that a call is lent. An opening's working lists are cell, order, first, sorted, stamp, weight, found and bits;
/// an answer's are free, slope, spare, dc and dv.
#[derive(Clone, Copy, PartialEq)]
pub struct Room {
    pub volumes: usize,
    pub passive: usize,
    pub starts: usize,
    pub near: usize,
    pub coef: usize,
    pub design: usize,
    pub density: usize,
    pub last: usize,
    pub history: usize,
    pub opening: [usize; 8],
    pub answer: [usize; 5],
}

impl Room {
    /// Just enough for `n` elements, `entries` of the table and so many rounds.
    pub fn exact(n: usize, entries: usize, rounds: usize) -> Room {
        Room {
            volumes: n,
            passive: n,
            starts: n + 1,
            near: entries,
            coef: entries,
            design: n,
            density: n,
            last: n,
            history: rounds,
            opening: [n, n, n + 1, n, n, n, n, WORDS],
            answer: [n; 5],
        }
    }

    /// 14, for what opening and answer both look at.
    fn short(&self, n: usize, rounds: usize) -> bool {
        self.starts < n + 1 || [self.design, self.density, self.last].iter().any(|l| *l < n) || self.history < rounds
    }
}

/// What the solver said.
#[derive(Clone)]
pub enum Said {
    Gave(Vec<f64>),
    Failed,
    Halted,
}

/// An answer's arguments.
#[derive(Clone)]
pub struct Answer {
    pub said: Said,
    pub flag: bool,
    pub elapsed: u64,
    pub allowed: u64,
    pub room: Room,
}

/// A round's record.
#[derive(Clone, Copy, Debug, Default, PartialEq)]
pub struct Record {
    pub number: usize,
    pub compliance: f64,
    pub fraction: f64,
    pub change: f64,
    pub sharpness: f64,
    pub grey: f64,
    pub passes: usize,
}

/// What a call comes to. The densities are those asked with, and of a stop those of the last record's round.
#[derive(Clone, Debug, PartialEq)]
pub enum Reply {
    Refused(u32),
    Solid(Vec<f64>),
    Round(usize, Vec<f64>),
    Stopped(Stop, Vec<f64>),
}

/// What a call does to the lists.
#[derive(Clone, Copy, Debug, PartialEq)]
pub enum Effect {
    /// All lists as before.
    Kept,
    /// The filter's lists and the opening's working lists are zero throughout, all else kept.
    Zeroed,
    /// The finished filter is in its lists; the opening's working lists are zero.
    Filtered,
    /// The filter, the start's design and the solid part's densities.
    Opened,
    /// The densities asked for.
    Asked,
    /// A record, the updated design and the densities of its round; and the densities asked for where another round follows.
    Recorded,
}

#[derive(Clone, Copy, PartialEq)]
pub enum Part {
    Nothing,
    Solid,
    Round(usize),
}

/// 01's steepnesses.
const STEEPNESSES: [f64; 5] = [1.0, 2.0, 4.0, 8.0, 16.0];

/// The plain run.
#[derive(Clone)]
pub struct Plain {
    pub given: Opening,
    pub filter: Filter,
    pub part: Part,
    pub design: Vec<f64>,
    /// In [`STEEPNESSES`].
    stage: usize,
    pub solid_work: f64,
    /// The densities asked for.
    pub asked: Vec<f64>,
    /// The densities asked with its last record's round.
    pub last: Vec<f64>,
    pub records: Vec<Record>,
}

fn outside(v: f64) -> bool {
    !(v.is_finite() && v.abs() <= 1e6)
}

fn vector(p: &[f64]) -> Vec3 {
    Vec3::new(p[0], p[1], p[2])
}

pub fn mirrors(planes: &[[f64; 6]]) -> Vec<Mirror> {
    planes.iter().map(|p| Mirror { point: vector(&p[..3]), normal: vector(&p[3..]) }).collect()
}

/// 4: not above 0 and at most 10^20.
pub fn volume_outside(v: f64) -> bool {
    !(v > 0.0 && v <= 1e20)
}

/// 8 to 12 in order; 0 where there is none.
pub fn shape_refused(radius: f64, centroids: &[[f64; 3]], planes: &[[f64; 6]]) -> u32 {
    if !(radius >= 0.001 && radius <= 1e6) {
        return 8;
    }
    if centroids.iter().flatten().any(|v| outside(*v)) {
        return 9;
    }
    if planes.len() > 3 {
        return 10;
    }
    let normals: Vec<Vec3> = mirrors(planes).iter().map(|m| m.normal).collect();
    if planes.iter().flatten().any(|v| outside(*v)) || normals.iter().any(|n| !(n.len() > 1e-12)) {
        return 11;
    }
    if study::planes_square(&normals.iter().map(|n| n.normalized()).collect::<Vec<_>>()).is_err() {
        return 12;
    }
    0
}

/// 1 to 12 in order, then the first 14; 0 where there is none.
fn refused_before_rows(o: &Opening, room: &Room) -> u32 {
    let n = o.volumes.len();
    if o.centroids.len() != n || o.passive.len() != n {
        return 1;
    }
    if n == 0 {
        return 2;
    }
    if n > 65_535 {
        return 3;
    }
    if o.volumes.iter().any(|v| volume_outside(*v)) {
        return 4;
    }
    if !(o.fraction > 0.0 && o.fraction < 1.0) {
        return 5;
    }
    if o.rounds == 0 {
        return 6;
    }
    let (total, held) = volumes_of(o);
    if held + 0.001 * (total - held) >= o.fraction * total {
        return 7;
    }
    let shape = shape_refused(o.radius, &o.centroids, &o.planes);
    if shape != 0 {
        return shape;
    }
    let needed = [n, n, n + 1, n, n, n, n, WORDS];
    if room.short(n, o.rounds) || room.opening.iter().zip(needed).any(|(has, needs)| *has < needs) {
        return 14;
    }
    0
}

/// All volumes added up, and those that are held.
fn volumes_of(o: &Opening) -> (f64, f64) {
    let total = o.volumes.iter().fold(0.0, |s, v| s + v);
    (total, o.volumes.iter().zip(&o.passive).filter(|(_, held)| **held).fold(0.0, |s, (v, _)| s + v))
}

/// The table, or 13 or 14 as a row refuses it. `None`: the original refuses the table for its size, which is 13 unless an earlier row
/// ends past the lists.
fn table(o: &Opening, room: &Room) -> Result<Filter, u32> {
    let middles: Vec<Vec3> = o.centroids.iter().map(|c| vector(c)).collect();
    let places = room.near.min(room.coef);
    match Filter::new(&middles, &o.volumes, o.radius, &mirrors(&o.planes)) {
        Ok(filter) if filter.near.len() > places => Err(14),
        Ok(filter) => Ok(filter),
        // Whatever rows came before it ended within 512 MB, at 12 bytes an entry.
        Err(_) if places >= 44_739_242 => Err(13),
        // Lists so short that a row before it ends past them.
        Err(_) => Err(14),
    }
}

impl Plain {
    /// An opening on a state with no run open.
    pub fn open(o: &Opening, room: &Room) -> (Option<Plain>, Reply, Effect) {
        let number = refused_before_rows(o, room);
        if number != 0 {
            return (None, Reply::Refused(number), Effect::Kept);
        }
        let filter = match table(o, room) {
            Err(number) => return (None, Reply::Refused(number), Effect::Zeroed),
            Ok(filter) => filter,
        };
        let (total, held) = volumes_of(o);
        let start = (o.fraction * total - held) / (total - held);
        let run = Plain {
            part: if o.flag { Part::Nothing } else { Part::Solid },
            design: o.passive.iter().map(|held| if *held { 1.0 } else { start }).collect(),
            stage: 0,
            solid_work: 0.0,
            asked: vec![1.0; o.volumes.len()],
            last: Vec::new(),
            records: Vec::new(),
            given: o.clone(),
            filter,
        };
        if o.flag {
            return (Some(run), Reply::Refused(15), Effect::Filtered);
        }
        let asked = run.asked.clone();
        (Some(run), Reply::Solid(asked), Effect::Opened)
    }

    fn unsharpened(&self) -> bool {
        self.given.sharpen == Sharpening::Off
    }

    fn beta(&self) -> Option<f64> {
        (!self.unsharpened()).then(|| STEEPNESSES[self.stage])
    }

    /// "At 16, or unsharpened throughout"
    fn sharpest(&self) -> bool {
        self.unsharpened() || STEEPNESSES[self.stage] == 16.0
    }

    fn see(&self) -> Seen {
        original::see(&self.filter, &self.given.passive, &self.design, self.beta())
    }

    fn ends(&mut self, reply: Reply, effect: Effect) -> (Reply, Effect) {
        self.part = Part::Nothing;
        (reply, effect)
    }

    fn asks(&mut self, round: usize, effect: Effect) -> (Reply, Effect) {
        self.part = Part::Round(round);
        self.asked = self.see().density;
        (Reply::Round(round, self.asked.clone()), effect)
    }

    pub fn answer(&mut self, a: &Answer) -> (Reply, Effect) {
        let n = self.given.volumes.len();
        let refused = |number| Reply::Refused(number);
        if self.part == Part::Nothing {
            return (refused(20), Effect::Kept);
        }
        let (room, entries) = (&a.room, self.filter.near.len());
        let short = room.short(n, self.given.rounds)
            || room.volumes < n
            || room.passive < n
            || room.near < entries
            || room.coef < entries
            || room.answer.iter().any(|l| *l < n);
        if short {
            return (refused(14), Effect::Kept);
        }
        let energies = match &a.said {
            Said::Halted if self.records.is_empty() => return self.ends(refused(15), Effect::Kept),
            Said::Halted => {
                let last = self.last.clone();
                return self.ends(Reply::Stopped(Stop::Stopped, last), Effect::Kept);
            }
            Said::Failed => return self.ends(refused(18), Effect::Kept),
            Said::Gave(energies) => energies,
        };
        if energies.len() != n {
            return self.ends(refused(16), Effect::Kept);
        }
        if energies.iter().any(|u| !u.is_finite()) {
            return self.ends(refused(17), Effect::Kept);
        }
        let work = 2.0 * energies.iter().fold(0.0, |s, u| s + u);
        match self.part {
            Part::Solid if !(work > 0.0) => self.ends(refused(19), Effect::Kept),
            Part::Solid => {
                self.solid_work = work;
                if a.flag { self.ends(refused(15), Effect::Kept) } else { self.asks(1, Effect::Asked) }
            }
            _ => self.solved(a, energies, work),
        }
    }

    /// "Answer n: work and one update by the formulas above; record n with its reckonings; the updated design."
    fn solved(&mut self, a: &Answer, energies: &[f64], work: f64) -> (Reply, Effect) {
        let o = &self.given;
        let (total, held) = volumes_of(o);
        let free: Vec<f64> = o.volumes.iter().zip(&o.passive).map(|(v, held)| if *held { 0.0 } else { *v }).collect();
        let seen = self.see();
        let levels: Vec<u16> = seen.density.iter().map(|d| level_of(*d)).collect();
        let dc = original::work_slope(&self.filter, &o.passive, &seen, &levels, energies);
        let (target, tolerance) = (o.fraction * total, 1e-10 * total);
        let parts = Design { volumes: o.volumes.clone(), centroids: Vec::new(), passive: o.passive.clone() };
        let next = match self.beta() {
            None => {
                let straight = self.filter.back(&free);
                let mut kept = |y: &[f64]| held + original::dot(&straight, y);
                original::update(&self.design, &dc, &straight, &o.passive, 0.2, target, tolerance, &mut kept)
            }
            Some(beta) => {
                let dv = original::volume_slope(&self.filter, &seen, &free);
                let mut kept = |y: &[f64]| original::kept(&self.filter, &parts, y, Some(beta));
                original::update(&self.design, &dc, &dv, &o.passive, 0.2 / beta.sqrt(), target, tolerance, &mut kept)
            }
        };
        let change = next.iter().zip(&self.design).fold(0.0, |most: f64, (a, b)| most.max((a - b).abs()));
        let grey = seen.density.iter().zip(&free).fold(0.0, |s, (x, v)| s + 4.0 * x * (1.0 - x) * v) / free.iter().fold(0.0, |s, v| s + v);
        self.records.push(Record {
            number: self.records.len() + 1,
            compliance: work,
            fraction: original::dot(&o.volumes, &seen.density) / total,
            change,
            sharpness: STEEPNESSES[self.stage],
            grey,
            passes: ended().passes,
        });
        self.design = next;
        self.last = seen.density;
        match self.stop(a, change) {
            Some(stop) => {
                let last = self.last.clone();
                self.ends(Reply::Stopped(stop, last), Effect::Recorded)
            }
            None => {
                if !self.sharpest() && self.moves_on(change) {
                    self.stage += 1;
                }
                self.asks(self.records.len() + 1, Effect::Recorded)
            }
        }
    }

    /// 01: "moving on after 20 rounds or a change below 0.01"; CR 13: "after exactly 20 rounds, however small the change".
    fn moves_on(&self, change: f64) -> bool {
        let here = self.records.iter().filter(|r| r.sharpness == STEEPNESSES[self.stage]).count();
        match self.given.sharpen {
            Sharpening::Full => here == 20,
            _ => here >= 20 || change < 0.01,
        }
    }

    /// The first stop that applies: Settled, LevelledOff, Limit, Budget, the flag's Stopped.
    fn stop(&self, a: &Answer, change: f64) -> Option<Stop> {
        if self.sharpest() && change < 0.01 {
            Some(Stop::Settled)
        } else if self.sharpest() && self.steady() >= 5 {
            Some(Stop::LevelledOff)
        } else if self.records.len() >= self.given.rounds {
            Some(Stop::Limit)
        } else if a.elapsed >= a.allowed {
            Some(Stop::Budget)
        } else {
            a.flag.then_some(Stop::Stopped)
        }
    }

    /// The rounds running, up to the last and at 16 or unsharpened, whose work differs from the round before's by less than 0.001 times
    /// their own.
    fn steady(&self) -> usize {
        let level = |pair: &&[Record]| {
            let [before, this] = pair else { return false };
            let counts = self.unsharpened() || this.sharpness == 16.0;
            counts && (this.compliance - before.compliance).abs() < 0.001 * this.compliance
        };
        self.records.windows(2).rev().take_while(level).count()
    }
}
