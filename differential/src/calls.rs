//! The calls of a run: the library beside the plain run, with openings at both sides of each limit, lists that are short or longer than needed, calls
//! out of turn, and states whose numbers fail the test. After each call every list is compared.
use std::hash::{DefaultHasher, Hash, Hasher};

use crate::compare::{Run, Value};
use crate::inputs::Gen;
use crate::plain::{Answer, Effect, Opening, Part as Asked, Plain, Reply, Room, Said, Sharpening};
use crate::runs::{Job, Trace, opens, original_trace, small, staged};
use sokdrib::Refused;
use sokdrib::filter::Work;
use sokdrib::run::{self, Goal, Iteration, Lists, Part, Scratch, State};
use tenon::topo::{Filter, Stop, level_of};

pub fn all(run: &mut Run) {
    let long = if run.long { vec![large(65_535), large(30_000)] } else { Vec::new() };
    run.jobs("run", 1000, long, small, |job| original_trace(&job), |job| ours_trace(&job));
    run.jobs("full run", 4000, [], staged, |job| original_trace(&job), |job| ours_trace(&job));
    run.jobs("calls", 250, many(), Script::random, |s| s.theirs(), |s| s.ours());
}

/// A long job.
fn large(n: usize) -> Job {
    let mut g = Gen::of(1, "large");
    loop {
        let job = Job::random(&mut g, n);
        if job.opening.rounds > 2 && opens(&job) && plain_entries(&job.opening) < 10_000_000 {
            return job;
        }
    }
}

fn filter_of(o: &Opening) -> Option<Filter> {
    let middles: Vec<tenon::Vec3> = o.centroids.iter().map(|c| tenon::Vec3::new(c[0], c[1], c[2])).collect();
    Filter::new(&middles, &o.volumes, o.radius, &crate::plain::mirrors(&o.planes)).ok()
}

fn plain_entries(o: &Opening) -> usize {
    filter_of(o).map_or(0, |f| f.near.len())
}

/// All lists of a run, whole: a call is lent a front part of each.
#[derive(Clone)]
struct Memory {
    starts: Vec<u32>,
    near: Vec<u32>,
    coef: Vec<f64>,
    design: Vec<f64>,
    density: Vec<f64>,
    last: Vec<f64>,
    history: Vec<Iteration>,
    work: Work,
    scratch: Scratch,
}

/// What a list for a call's own use is filled with, so that what is not written shows.
const FILL: f64 = 7.5;

impl Memory {
    fn of(room: &Room) -> Memory {
        let [cell, order, first, sorted, stamp, weight, found, bits] = room.opening;
        let [free, slope, spare, dc, dv] = room.answer.map(|n| vec![FILL; n]);
        Memory {
            starts: vec![7; room.starts],
            near: vec![7; room.near],
            coef: vec![FILL; room.coef],
            design: vec![FILL; room.design],
            density: vec![FILL; room.density],
            last: vec![FILL; room.last],
            history: vec![Iteration { number: 7, ..Iteration::default() }; room.history],
            work: Work {
                cell: vec![[7; 3]; cell],
                order: vec![7; order],
                first: vec![7; first],
                sorted: vec![[FILL; 3]; sorted],
                stamp: vec![7; stamp],
                weight: vec![FILL; weight],
                found: vec![7; found],
                bits: vec![7; bits],
            },
            scratch: Scratch { free, slope, spare, dc, dv },
        }
    }

    fn lists(&mut self, room: &Room) -> (Lists<'_>, &mut Work, &mut Scratch) {
        let lists = Lists {
            starts: &mut self.starts[..room.starts],
            near: &mut self.near[..room.near],
            coef: &mut self.coef[..room.coef],
            design: &mut self.design[..room.design],
            density: &mut self.density[..room.density],
            last: &mut self.last[..room.last],
            history: &mut self.history[..room.history],
        };
        (lists, &mut self.work, &mut self.scratch)
    }

    /// What an opening used is filled again.
    fn refill_work(&mut self, n: usize) {
        let w = &mut self.work;
        w.cell[..n].fill([7; 3]);
        w.sorted[..n].fill([FILL; 3]);
        w.weight[..n].fill(FILL);
        w.first[..=n].fill(7);
        w.bits[..crate::plain::WORDS].fill(7);
        [&mut w.order, &mut w.stamp, &mut w.found].into_iter().for_each(|l| l[..n].fill(7));
    }

    fn refill_scratch(&mut self, n: usize) {
        let s = &mut self.scratch;
        [&mut s.free, &mut s.slope, &mut s.spare, &mut s.dc, &mut s.dv].into_iter().for_each(|l| l[..n].fill(FILL));
    }

    fn zero_work(&mut self, room: &Room) {
        let [cell, order, first, sorted, stamp, weight, found, bits] = room.opening;
        let w = &mut self.work;
        w.cell[..cell].fill([0; 3]);
        w.order[..order].fill(0);
        w.first[..first].fill(0);
        w.sorted[..sorted].fill([0.0; 3]);
        w.stamp[..stamp].fill(0);
        w.weight[..weight].fill(0.0);
        w.found[..found].fill(0);
        w.bits[..bits].fill(0);
    }

    /// One number for each list.
    fn hashes(&self) -> Vec<u64> {
        fn of<T: Hash>(list: &[T]) -> u64 {
            let mut h = DefaultHasher::new();
            list.hash(&mut h);
            h.finish()
        }
        let float = |l: &Vec<f64>| of(&l.keys());
        let w = &self.work;
        let s = &self.scratch;
        let records: Vec<u64> = self
            .history
            .iter()
            .flat_map(|r| {
                let numbers = [r.compliance, r.fraction, r.change, r.sharpness, r.grey].map(|v| v.keys()[0]);
                [r.number as u64, r.passes as u64].into_iter().chain(numbers)
            })
            .collect();
        let mut all = vec![
            of(&self.starts),
            of(&self.near),
            float(&self.coef),
            float(&self.design),
            float(&self.density),
            float(&self.last),
            of(&records),
        ];
        all.extend([
            of(&w.cell),
            of(&w.order),
            of(&w.first),
            of(&w.sorted.keys()),
            of(&w.stamp),
            float(&w.weight),
            of(&w.found),
            of(&w.bits),
        ]);
        all.extend([float(&s.free), float(&s.slope), float(&s.spare), float(&s.dc), float(&s.dv)]);
        all
    }
}

fn part(o: &Opening) -> Part<'_> {
    Part { volumes: &o.volumes, centroids: &o.centroids, passive: &o.passive, mirrors: &o.planes }
}

fn goal(o: &Opening) -> Goal {
    let sharpen = match o.sharpen {
        Sharpening::Off => run::Sharpening::Off,
        Sharpening::Early => run::Sharpening::Early,
        Sharpening::Full => run::Sharpening::Full,
    };
    Goal { fraction: o.fraction, radius: o.radius, sharpen, max_iterations: o.rounds }
}

fn stop_of(stop: run::Stop) -> Stop {
    match stop {
        run::Stop::Settled => Stop::Settled,
        run::Stop::LevelledOff => Stop::LevelledOff,
        run::Stop::Limit => Stop::Limit,
        run::Stop::Budget => Stop::Budget,
        run::Stop::Stopped => Stop::Stopped,
    }
}

/// A run of the library over lists that are just long enough.
pub fn ours_trace(job: &Job) -> Trace {
    let o = &job.opening;
    let n = o.volumes.len();
    let room = Room::exact(n, plain_entries(o), o.rounds);
    let (mut memory, mut state, mut trace) = (Memory::of(&room), State::default(), Trace::default());
    let (lists, work, _) = memory.lists(&room);
    let mut reply = run::open(&mut state, part(o), goal(o), o.flag, lists, work);
    for q in 0.. {
        match reply {
            Err(Refused(number)) => {
                trace.end = number as usize;
                break;
            }
            Ok(run::Reply::Stop(stop)) => {
                trace.stops(stop_of(stop), memory.last.clone(), state.solid_compliance);
                break;
            }
            Ok(_) => {}
        }
        let levels: Vec<u16> = memory.density.iter().map(|d| level_of(*d)).collect();
        let said = job.said(q, &levels);
        trace.levels.push(levels);
        let answer = run::Answer { said: lent(&said), flag: job.flag(q), elapsed: job.elapsed(q), allowed: job.allowed };
        let (lists, _, scratch) = memory.lists(&room);
        reply = run::answer(&mut state, answer, part(o), lists, scratch);
    }
    trace.records = memory.history[..state.rounds].iter().map(record).collect();
    trace
}

fn lent(said: &Said) -> run::Said<'_> {
    match said {
        Said::Gave(energies) => run::Said::Gave(energies),
        Said::Failed => run::Said::Failed,
        Said::Halted => run::Said::Halted,
    }
}

fn record(r: &Iteration) -> crate::plain::Record {
    crate::plain::Record {
        number: r.number,
        compliance: r.compliance,
        fraction: r.fraction,
        change: r.change,
        sharpness: r.sharpness,
        grey: r.grey,
        passes: r.passes,
    }
}

/// What a caller does between two calls of a run.
#[derive(Clone, Copy, PartialEq)]
enum Aside {
    Nothing,
    /// Opens while a run is open.
    Open,
    /// Answers with this list one place short: the filter's three, design, density, last, history, volumes, passive, the five working lists.
    Short(usize),
    /// Answers with a state whose numbers fail the test.
    Broken(usize),
}

/// An opening with its lists, and what the caller does; after its end the run is answered once more, and opened again. Each opening is tried first on
/// states whose phase or choice of sharpening is no run's.
#[derive(Clone)]
struct Script {
    job: Job,
    /// The opening's lists.
    room: Room,
    /// How much longer than needed the answers' lists are.
    spare: usize,
    entries: usize,
    asides: Vec<Aside>,
}

impl Value for Script {
    fn keys(&self) -> Vec<u64> {
        self.bits()
    }
    fn bits(&self) -> Vec<u64> {
        self.job.bits()
    }
}

/// Numbers at both sides of a limit.
fn about(g: &mut Gen, limits: &[f64]) -> f64 {
    let limit = g.pick(limits);
    let odd = [0.0, -0.0, -1.0, 5e-324, f64::NAN, f64::INFINITY, f64::NEG_INFINITY, 1.0];
    match g.below(5) {
        0 => limit,
        1 => limit.next_up(),
        2 => limit.next_down(),
        3 => -limit,
        _ => g.pick(&odd),
    }
}

/// Changes one argument of an opening to what is at a limit.
fn change(g: &mut Gen, o: &mut Opening) {
    let n = o.volumes.len();
    let place = g.below(n.max(1));
    match g.below(14) {
        0 => drop(o.volumes.pop()),
        1 => o.centroids.push([0.0; 3]),
        2 => o.passive.push(false),
        3 => *o = Opening { volumes: Vec::new(), centroids: Vec::new(), passive: Vec::new(), ..o.clone() },
        4 if n > 0 => o.volumes[place] = about(g, &[1e20]),
        5 => o.fraction = about(g, &[1.0, 0.001]),
        6 => o.rounds = 0,
        7 => o.passive.fill(true),
        // Just the room that equality refuses.
        8 if n > 0 => {
            let (total, held) = o.volumes.iter().zip(&o.passive).fold((0.0, 0.0), |(t, h), (v, p)| (t + v, if *p { h + v } else { h }));
            o.fraction = g.nudged((held + 0.001 * (total - held)) / total);
        }
        9 => o.radius = about(g, &[0.001, 1e6]),
        10 if place < o.centroids.len() => o.centroids[place][g.below(3)] = about(g, &[1e6]),
        11 => o.planes = vec![[0.0, 0.0, 0.0, 1.0, 0.0, 0.0]; 4],
        12 => {
            let mut plane = [0.0, 0.0, 0.0, 1.0, 0.0, 0.0];
            plane[g.below(6)] = about(g, &[1e6, 1e-12]);
            o.planes = vec![plane];
        }
        _ => {
            let lean = g.pick(&[1e-9, 1e-9f64.next_up(), 1.5e-9, 9e-10, 0.5, f64::NAN]);
            o.planes = vec![[0.0, 0.0, 0.0, 1.0, 0.0, 0.0], [0.0, 0.0, 0.0, lean, 1.0, 0.0]];
        }
    }
}

impl Script {
    fn random(g: &mut Gen) -> Script {
        let n = if g.below(64) == 0 { 60 + g.below(100) } else { 1 + g.below(12) };
        let mut job = Job::random(g, n);
        job.opening.rounds = job.opening.rounds.min(30);
        if g.below(3) == 0 {
            job.opening.sharpen = Sharpening::Full;
        }
        if g.below(3) == 0 {
            (0..1 + g.below(3)).for_each(|_| change(g, &mut job.opening));
        }
        Script::of(job, g)
    }

    fn of(job: Job, g: &mut Gen) -> Script {
        let o = &job.opening;
        let n = o.volumes.len();
        let refused = matches!(Plain::open(o, &Room::exact(n, usize::MAX, o.rounds)).1, Reply::Refused(k) if k != 15);
        let entries = if refused { 3 } else { plain_entries(o) };
        let mut room = Room::exact(n, entries, o.rounds);
        let spare = g.pick(&[0, 0, 1, 3]);
        grow(&mut room, spare);
        if g.below(4) == 0 {
            shorten(&mut room, g.below(15), 1 + spare + if g.below(4) == 0 { g.below(3) } else { 0 });
        }
        let aside = |g: &mut Gen| match g.below(12) {
            0 => Aside::Open,
            1 => Aside::Short(g.below(14)),
            2 => Aside::Broken(g.below(BROKEN)),
            _ => Aside::Nothing,
        };
        Script { asides: (0..20).map(|_| aside(g)).collect(), job, room, spare, entries }
    }

    /// What an answer is lent.
    fn answer_room(&self, short: Option<usize>) -> Room {
        let o = &self.job.opening;
        let mut room = Room::exact(o.volumes.len(), self.entries, o.rounds);
        grow(&mut room, self.spare);
        // Volumes and marks are lent as the opening had them.
        (room.volumes, room.passive) = (o.volumes.len(), o.passive.len());
        match short {
            Some(k @ 0..=6) => shorten(&mut room, k, 1 + self.spare),
            Some(7) => room.volumes = room.volumes.saturating_sub(1),
            Some(8) => room.passive = room.passive.saturating_sub(1),
            Some(k) => room.answer[k - 9] = room.answer[k - 9].saturating_sub(1 + self.spare),
            None => {}
        }
        room
    }

    /// Lists long enough for every call.
    fn memory(&self) -> Memory {
        let mut most = Room::exact(self.job.opening.volumes.len(), self.entries, self.job.opening.rounds);
        grow(&mut most, self.spare);
        Memory::of(&most)
    }

    fn theirs(&self) -> Vec<u64> {
        let mut side = Theirs { memory: self.memory(), run: None, log: Vec::new() };
        self.drive(&mut side);
        side.log
    }

    fn ours(&self) -> Vec<u64> {
        let mut side = Ours { memory: self.memory(), state: State::default(), log: Vec::new() };
        self.drive(&mut side);
        side.log
    }

    fn drive(&self, side: &mut dyn Side) {
        let whole = self.answer_room(None);
        let nothing = Answer { said: Said::Gave(Vec::new()), flag: false, elapsed: 0, allowed: 1, room: whole };
        // Out of turn: no run is open yet.
        side.answer(self, &nothing, None);
        for again in [false, true] {
            let mut opening = self.job.opening.clone();
            opening.flag &= !again;
            (UNKNOWN..BROKEN).for_each(|how| drop(side.open(self, &opening, &self.room, Some(how))));
            let mut asked = side.open(self, &opening, &self.room, None);
            let mut q = 0;
            while let Some(density) = asked {
                match self.asides[(q + usize::from(again)) % self.asides.len()] {
                    Aside::Nothing => {}
                    Aside::Open => drop(side.open(self, &opening, &self.room, None)),
                    Aside::Short(k) => drop(side.answer(self, &Answer { room: self.answer_room(Some(k)), ..nothing.clone() }, None)),
                    Aside::Broken(k) => drop(side.answer(self, &nothing, Some(k))),
                }
                let levels: Vec<u16> = density.iter().map(|d| level_of(*d)).collect();
                let answer = Answer {
                    said: self.job.said(q, &levels),
                    flag: self.job.flag(q),
                    elapsed: self.job.elapsed(q),
                    allowed: self.job.allowed,
                    room: whole,
                };
                asked = side.answer(self, &answer, None);
                q += 1;
            }
            side.answer(self, &nothing, None);
        }
    }
}

fn grow(room: &mut Room, by: usize) {
    for l in [&mut room.starts, &mut room.near, &mut room.coef, &mut room.design, &mut room.density, &mut room.last, &mut room.history] {
        *l += by;
    }
    room.opening.iter_mut().chain(&mut room.answer).for_each(|l| *l += by);
}

/// Takes places from one list: the filter's three, design, density, last, history, then the opening's working lists.
fn shorten(room: &mut Room, list: usize, by: usize) {
    let place = match list {
        0 => &mut room.starts,
        1 => &mut room.near,
        2 => &mut room.coef,
        3 => &mut room.design,
        4 => &mut room.density,
        5 => &mut room.last,
        6 => &mut room.history,
        k => &mut room.opening[k - 7],
    };
    *place = place.saturating_sub(by);
}

/// More elements than the domain has, and the most.
fn many() -> Vec<Script> {
    let mut g = Gen::of(1, "many");
    let mut all = Vec::new();
    for n in [65_535, 65_536] {
        let mut job = Job::random(&mut g, n);
        job.opening = Opening {
            volumes: vec![1.0; n],
            centroids: (0..n).map(|k| [(k % 41) as f64, (k / 41 % 41) as f64, (k / 1681) as f64]).collect(),
            passive: vec![false; n],
            fraction: 0.5,
            radius: 0.5,
            rounds: 1,
            ..Opening::default()
        };
        (job.elapsed, job.allowed, job.flag) = (vec![0], u64::MAX, None);
        all.push(Script::of(job, &mut g));
    }
    all
}

/// One side of the comparison: gives the densities of the question that is put, if one is.
trait Side {
    fn open(&mut self, s: &Script, o: &Opening, room: &Room, broken: Option<usize>) -> Option<Vec<f64>>;
    fn answer(&mut self, s: &Script, a: &Answer, broken: Option<usize>) -> Option<Vec<f64>>;
}

struct Theirs {
    memory: Memory,
    run: Option<Plain>,
    log: Vec<u64>,
}

impl Theirs {
    fn note(&mut self, reply: &Reply, kept: bool) -> Option<Vec<f64>> {
        let (kind, number, density) = match reply {
            Reply::Refused(k) => (0, *k as usize, None),
            Reply::Solid(d) => (1, 0, Some(d)),
            Reply::Round(n, d) => (2, *n, Some(d)),
            Reply::Stopped(stop, d) => (3, *stop as usize, Some(d)),
        };
        self.log.extend([kind, number as u64, u64::from(kept)]);
        self.log.extend(density.map_or(Vec::new(), |d| d.keys()));
        self.log.extend(self.memory.hashes());
        density.filter(|_| kind < 3).cloned()
    }
}

fn laid<T: Clone>(new: &[T], list: &mut [T]) {
    list[..new.len()].clone_from_slice(new);
}

impl Side for Theirs {
    fn open(&mut self, _: &Script, o: &Opening, room: &Room, broken: Option<usize>) -> Option<Vec<f64>> {
        if broken.is_some() || self.run.as_ref().is_some_and(|r| r.part != Asked::Nothing) {
            return self.note(&Reply::Refused(20), true);
        }
        let (opened, reply, effect) = Plain::open(o, room);
        let m = &mut self.memory;
        match effect {
            Effect::Zeroed => {
                m.starts[..room.starts].fill(0);
                m.near[..room.near].fill(0);
                m.coef[..room.coef].fill(0.0);
                m.zero_work(room);
            }
            Effect::Filtered | Effect::Opened => {
                if let Some(run) = &opened {
                    laid(&run.filter.start, &mut m.starts);
                    laid(&run.filter.near, &mut m.near);
                    laid(&run.filter.coef, &mut m.coef);
                    if effect == Effect::Opened {
                        laid(&run.design, &mut m.design);
                        laid(&run.asked, &mut m.density);
                        m.refill_work(o.volumes.len());
                    } else {
                        m.zero_work(room);
                    }
                }
            }
            _ => {}
        }
        self.run = opened;
        let kept = matches!(reply, Reply::Refused(_));
        let asked = self.note(&reply, kept);
        self.log.push(0);
        asked
    }

    fn answer(&mut self, _: &Script, a: &Answer, broken: Option<usize>) -> Option<Vec<f64>> {
        let Some(run) = self.run.as_mut().filter(|_| broken.is_none()) else { return self.note(&Reply::Refused(20), true) };
        let (reply, effect) = run.answer(a);
        let kept = matches!(reply, Reply::Refused(14 | 20));
        let n = run.given.volumes.len();
        let m = &mut self.memory;
        match effect {
            Effect::Asked => {
                laid(&run.asked, &mut m.density);
                m.refill_scratch(n);
            }
            Effect::Recorded => {
                laid(&run.design, &mut m.design);
                laid(&run.last, &mut m.last);
                laid(&run.asked, &mut m.density);
                let at = run.records.len() - 1;
                let r = run.records[at];
                m.history[at] = Iteration {
                    number: r.number,
                    compliance: r.compliance,
                    fraction: r.fraction,
                    change: r.change,
                    sharpness: r.sharpness,
                    grey: r.grey,
                    passes: r.passes,
                };
                m.refill_scratch(n);
            }
            _ => {}
        }
        self.note(&reply, kept)
    }
}

struct Ours {
    memory: Memory,
    state: State,
    log: Vec<u64>,
}

impl Ours {
    fn note(&mut self, reply: Result<run::Reply, Refused>, kept: bool, n: usize) -> Option<Vec<f64>> {
        let (kind, number, density) = match reply {
            Err(Refused(k)) => (0, k as usize, None),
            Ok(run::Reply::Solid) => (1, 0, Some(&self.memory.density)),
            Ok(run::Reply::Round(number)) => (2, number, Some(&self.memory.density)),
            Ok(run::Reply::Stop(stop)) => (3, stop as usize, Some(&self.memory.last)),
        };
        let density = density.map(|d| d[..n].to_vec());
        self.log.extend([kind, number as u64, u64::from(kept)]);
        self.log.extend(density.as_ref().map_or(Vec::new(), |d| d.keys()));
        self.log.extend(self.memory.hashes());
        density.filter(|_| kind < 3)
    }
}

/// How many ways there are to break a state.
const BROKEN: usize = 12;
/// From this one on the phase, or the choice of sharpening, is no run's, which an opening refuses too.
const UNKNOWN: usize = 8;

/// A state whose numbers fail the test, made of one that passes.
fn broken(s: &State, how: usize) -> State {
    match how {
        0 => State { stage: 5, ..*s },
        1 => State { at_stage: 20, ..*s },
        2 => State { steady: 5, ..*s },
        3 => State { elements: 65_536, ..*s },
        4 => State { phase: 1, rounds: 1, ..*s },
        5 => State { phase: 2, rounds: s.max_iterations, ..*s },
        6 => State { stage: usize::MAX, ..*s },
        7 => State { phase: 2, rounds: usize::MAX, ..*s },
        UNKNOWN => State { phase: 3, ..*s },
        9 => State { phase: u32::MAX, ..*s },
        10 => State { sharpen: 3, ..*s },
        _ => State { sharpen: u32::MAX, ..*s },
    }
}

fn same(a: &State, b: &State) -> bool {
    let floats = |s: &State| [s.fraction, s.solid_compliance, s.compliance].map(f64::to_bits);
    let wholes = |s: &State| [s.elements, s.entries, s.max_iterations, s.rounds, s.stage, s.at_stage, s.steady];
    a.phase == b.phase && a.sharpen == b.sharpen && floats(a) == floats(b) && wholes(a) == wholes(b)
}

impl Side for Ours {
    fn open(&mut self, _: &Script, o: &Opening, room: &Room, how: Option<usize>) -> Option<Vec<f64>> {
        let mut state = how.map_or(self.state, |how| broken(&self.state, how));
        let before = state;
        let [cell, order, first, sorted, stamp, weight, found, bits] = room.opening;
        // Lists lent too short are parts of the same lists.
        let mut all = std::mem::take(&mut self.memory.work);
        let mut work = Work {
            cell: all.cell[..cell].to_vec(),
            order: all.order[..order].to_vec(),
            first: all.first[..first].to_vec(),
            sorted: all.sorted[..sorted].to_vec(),
            stamp: all.stamp[..stamp].to_vec(),
            weight: all.weight[..weight].to_vec(),
            found: all.found[..found].to_vec(),
            bits: all.bits[..bits].to_vec(),
        };
        let (lists, _, _) = self.memory.lists(room);
        let reply = run::open(&mut state, part(o), goal(o), o.flag, lists, &mut work);
        laid(&work.cell, &mut all.cell);
        laid(&work.order, &mut all.order);
        laid(&work.first, &mut all.first);
        laid(&work.sorted, &mut all.sorted);
        laid(&work.stamp, &mut all.stamp);
        laid(&work.weight, &mut all.weight);
        laid(&work.found, &mut all.found);
        laid(&work.bits, &mut all.bits);
        self.memory.work = all;
        if reply.is_ok() {
            self.memory.refill_work(o.volumes.len());
        }
        let kept = same(&before, &state);
        if how.is_none() {
            self.state = state;
        }
        let asked = self.note(reply, kept, o.volumes.len());
        if reply != Err(Refused(20)) {
            self.log.push(u64::from(reply.is_err() && self.state.phase != 0));
        }
        asked
    }

    fn answer(&mut self, s: &Script, a: &Answer, how: Option<usize>) -> Option<Vec<f64>> {
        let mut state = how.map_or(self.state, |how| broken(&self.state, how));
        let before = state;
        let o = &s.job.opening;
        let part = Part { volumes: &o.volumes[..a.room.volumes], passive: &o.passive[..a.room.passive], ..part(o) };
        let mut all = std::mem::take(&mut self.memory.scratch);
        let [free, slope, spare, dc, dv] = a.room.answer;
        let mut scratch = Scratch {
            free: all.free[..free].to_vec(),
            slope: all.slope[..slope].to_vec(),
            spare: all.spare[..spare].to_vec(),
            dc: all.dc[..dc].to_vec(),
            dv: all.dv[..dv].to_vec(),
        };
        let answer = run::Answer { said: lent(&a.said), flag: a.flag, elapsed: a.elapsed, allowed: a.allowed };
        let (lists, _, _) = self.memory.lists(&a.room);
        let reply = run::answer(&mut state, answer, part, lists, &mut scratch);
        laid(&scratch.free, &mut all.free);
        laid(&scratch.slope, &mut all.slope);
        laid(&scratch.spare, &mut all.spare);
        laid(&scratch.dc, &mut all.dc);
        laid(&scratch.dv, &mut all.dv);
        self.memory.scratch = all;
        if reply.is_ok() && matches!(a.said, Said::Gave(_)) {
            self.memory.refill_scratch(o.volumes.len());
        }
        let kept = same(&before, &state);
        if how.is_none() {
            self.state = state;
        }
        self.note(reply, kept && matches!(reply, Err(Refused(14 | 20))), o.volumes.len())
    }
}

#[cfg(test)]
mod tests {
    use super::*;
    use std::collections::BTreeMap;

    /// That the scripts reach every refusal of 01's table that a run has, and every stop.
    #[test]
    fn scripts_of_every_kind() {
        let mut g = Gen::of(1, "calls");
        let mut seen: BTreeMap<String, usize> = BTreeMap::new();
        for _ in 0..6000 {
            let s = Script::random(&mut g);
            let reply = Plain::open(&s.job.opening, &s.room).1;
            let mut count = |what: String| *seen.entry(what).or_default() += 1;
            if let Reply::Refused(k) = reply {
                count(format!("opening {k}"));
            } else {
                s.asides.iter().for_each(|a| match a {
                    Aside::Nothing => {}
                    Aside::Open => count("opened again".into()),
                    Aside::Short(k) => count(format!("short {k}")),
                    Aside::Broken(k) => count(format!("broken {k}")),
                });
            }
        }
        let openings = [1, 2, 4, 5, 6, 7, 8, 9, 10, 11, 12, 14, 15].map(|k| format!("opening {k}"));
        let asides = (0..14).map(|k| format!("short {k}")).chain((0..BROKEN).map(|k| format!("broken {k}")));
        for what in openings.into_iter().chain(asides).chain(["opened again".into()]) {
            assert!(seen.get(&what).is_some_and(|n| *n >= 10), "{what}: {seen:?}");
        }
    }
}
