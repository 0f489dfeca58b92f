//! Document 02's shift, held to a reference in exact fractions over whole lists of calls.
use std::cmp::Ordering;
use std::collections::BTreeSet;

use crate::compare::Run;
use crate::fields;
use crate::inputs::Gen;
use sokdrib::Refused;
use sokdrib::shift::{Shift, begin, grant};

const MILLION: u32 = 1_000_000;

fields!(Shift: jobs, share, limit, granted);

pub fn all(run: &mut Run) {
    run.jobs("shift_begin", 20, beginnings(), any_jobs, begun, |jobs| {
        begin(&jobs).map_or_else(|Refused(n)| (n, Shift::default()), |shift| (0, shift))
    });
    run.jobs(
        "shift_grant",
        5,
        spoiled_each(),
        any_call,
        |(shift, named)| granted(shift, &named),
        |(mut shift, named)| {
            let told = grant(&mut shift, &named);
            (told.map_or_else(|Refused(n)| (n, 0), |job| (0, job)), shift)
        },
    );
    run.jobs("shift_calls", 1000, small_shifts(), |g| Calls::random(g), |c| (c.by_reference(), true), |c| c.by_library());
    run.jobs(
        "shift_used_up",
        run.cases.max(1),
        [vec![1, 1], vec![1, 2, 1000]],
        |g| vec![1 + g.below(1000) as u32; 1 + g.below(16)],
        used_up_reference,
        used_up,
    );
}

// ---- the reference

/// (granted + 1)/share
struct Fraction {
    top: u128,
    bottom: u128,
}

impl Fraction {
    fn of(shift: &Shift, job: u32) -> Fraction {
        Fraction { top: u128::from(shift.granted[job as usize]) + 1, bottom: u128::from(shift.share[job as usize]) }
    }

    fn cmp(&self, o: &Fraction) -> Ordering {
        (self.top * o.bottom).cmp(&(o.top * self.bottom))
    }
}

fn fits([share, limit]: [u32; 2]) -> bool {
    (1..=1000).contains(&share) && limit <= MILLION
}

fn begun(jobs: Vec<[u32; 2]>) -> (u32, Shift) {
    if !(1..=16).contains(&jobs.len()) || !jobs.iter().all(|job| fits(*job)) {
        return (30, Shift::default());
    }
    let mut shift = Shift { jobs: jobs.len() as u32, ..Shift::default() };
    for (j, [share, limit]) in jobs.into_iter().enumerate() {
        (shift.share[j], shift.limit[j]) = (share, limit);
    }
    (0, shift)
}

/// 20's test, as docs/API.md fixes it.
fn passes(s: &Shift) -> bool {
    let place = |j: usize| {
        let numbers = [s.share[j], s.limit[j], s.granted[j]];
        if j < s.jobs as usize { fits([numbers[0], numbers[1]]) && numbers[2] <= numbers[1] } else { numbers == [0; 3] }
    };
    (1..=16).contains(&s.jobs) && (0..16).all(place) && total(s) <= u128::from(MILLION)
}

fn total(s: &Shift) -> u128 {
    s.granted.iter().map(|n| u128::from(*n)).sum()
}

fn waiting(s: &Shift, named: &[u32]) -> BTreeSet<u32> {
    named.iter().copied().filter(|j| s.granted[*j as usize] < s.limit[*j as usize]).collect()
}

fn granted(mut s: Shift, named: &[u32]) -> ((u32, u32), Shift) {
    if !passes(&s) {
        return ((20, 0), s);
    }
    if named.iter().any(|j| *j >= s.jobs) {
        return ((30, 0), s);
    }
    // the first of equal ones is the lowest
    match waiting(&s, named).into_iter().min_by(|a, b| Fraction::of(&s, *a).cmp(&Fraction::of(&s, *b))) {
        Some(job) if total(&s) < u128::from(MILLION) => {
            s.granted[job as usize] += 1;
            ((0, job), s)
        }
        _ => ((31, 0), s),
    }
}

// ---- beginnings and single calls

fn beginnings() -> Vec<Vec<[u32; 2]>> {
    let mut all: Vec<_> = (0..=18).map(|n| vec![[1, 1]; n]).collect();
    for share in [0, 1, 2, 999, 1000, 1001, u32::MAX] {
        for limit in [0, 1, MILLION - 1, MILLION, MILLION + 1, u32::MAX] {
            all.extend([vec![[share, limit]], vec![[7, 7], [share, limit]], [vec![[1, 0]; 15], vec![[share, limit]]].concat()]);
        }
    }
    all
}

fn any_jobs(g: &mut Gen) -> Vec<[u32; 2]> {
    let spoil = g.below(4) == 0;
    let job = |g: &mut Gen| match g.below(20) {
        0 if spoil => g.pick(&[[0, 1], [1001, 1], [1, MILLION + 1], [u32::MAX, 0]]),
        k if k < 8 => [1 + g.below(5) as u32, g.below(5) as u32],
        _ => [1 + g.below(1000) as u32, g.below(1_000_001) as u32],
    };
    (0..g.below(18)).map(|_| job(g)).collect()
}

/// A shift of 1 to 16 jobs on its way.
fn any_shift(g: &mut Gen) -> Shift {
    let mut s = Shift { jobs: 1 + g.below(16) as u32, ..Shift::default() };
    let (shares, limits, room) = (g.pick(&[2, 10, 1000]), g.pick(&[4, 100, 1_000_001]), MILLION as usize / s.jobs as usize);
    for j in 0..s.jobs as usize {
        (s.share[j], s.limit[j]) = (1 + g.below(shares) as u32, g.below(limits) as u32);
        s.granted[j] = if g.below(4) == 0 { s.limit[j].min(room as u32) } else { g.below(1 + room.min(s.limit[j] as usize)) as u32 };
    }
    // now and then all but used up, or used up
    if g.below(8) == 0 {
        s.limit[0] = MILLION;
        s.granted[0] = 0;
        let others = s.granted.iter().sum::<u32>();
        s.granted[0] = MILLION - others.min(MILLION) - g.below(2).min((MILLION - others.min(MILLION)) as usize) as u32;
    }
    s
}

fn spoil(g: &mut Gen, s: &mut Shift) {
    let wild = [0, 1, 2, 16, 17, 1000, 1001, MILLION, MILLION + 1, u32::MAX];
    let (j, value) = (g.below(16), g.pick(&wild));
    match g.below(4) {
        0 => s.jobs = value,
        1 => s.share[j] = value,
        2 => s.limit[j] = value,
        _ => s.granted[j] = value,
    }
}

fn any_call(g: &mut Gen) -> (Shift, Vec<u32>) {
    let mut s = any_shift(g);
    if g.below(3) == 0 {
        spoil(g, &mut s);
    }
    let named = any_named(g, s.jobs);
    (s, named)
}

/// Some jobs, in any order, some of them again and again; now and then a number that no job has.
fn any_named(g: &mut Gen, jobs: u32) -> Vec<u32> {
    let jobs = jobs.clamp(1, 16) as usize;
    let mut named: Vec<u32> = (0..g.pick(&[0, 1, 2, 4, 16, 40])).map(|_| g.below(jobs) as u32).collect();
    if g.below(6) == 0 {
        let at = g.below(named.len() + 1);
        named.insert(at, g.pick(&[jobs as u32, 15, 16, 17, u32::MAX]));
    }
    named
}

/// Each number of a shift of two jobs in turn at each side of its range.
fn spoiled_each() -> Vec<(Shift, Vec<u32>)> {
    let (_, fresh) = begun(vec![[3, 5], [1000, MILLION]]);
    let values = [0, 1, 2, 3, 5, 6, 16, 17, 1000, 1001, MILLION - 5, MILLION, MILLION + 1, u32::MAX];
    let mut all = Vec::new();
    for value in values {
        for named in [vec![], vec![0], vec![1], vec![0, 1], vec![1, 0, 1], vec![2], vec![1, 15, 16]] {
            all.push((Shift { jobs: value, ..fresh }, named.clone()));
            for j in [0, 1, 2, 15] {
                let mut s = [fresh; 3];
                (s[0].share[j], s[1].limit[j], s[2].granted[j]) = (value, value, value);
                all.extend(s.map(|s| (s, named.clone())));
            }
        }
    }
    all
}

// ---- lists of calls

#[derive(Clone)]
struct Calls {
    jobs: Vec<[u32; 2]>,
    named: Vec<Vec<u32>>,
}

fields!(Calls: jobs, named);

impl Calls {
    fn random(g: &mut Gen) -> Calls {
        let shares = g.pick(&[3, 1000]);
        let jobs: Vec<[u32; 2]> = (0..1 + g.below(16)).map(|_| [1 + g.below(shares) as u32, g.pick(&[2, 300, 5000, MILLION])]).collect();
        let (count, always) = (g.pick(&[20, 300, 3000]), g.below(jobs.len()) as u32);
        let named = |g: &mut Gen| {
            let mut named = any_named(g, jobs.len() as u32);
            named.push(always);
            named
        };
        Calls { named: (0..count).map(|_| named(g)).collect(), jobs }
    }

    /// Each reply, and the shift at the end.
    fn by_reference(&self) -> (Vec<(u32, u32)>, Shift) {
        let (_, mut shift) = begun(self.jobs.clone());
        let replies = self.named.iter().map(|named| {
            let (reply, left) = granted(shift, named);
            shift = left;
            reply
        });
        (replies.collect(), shift)
    }

    /// The same, and whether the counts add up after each call and each job that waited at every grant has its whole part.
    fn by_library(&self) -> ((Vec<(u32, u32)>, Shift), bool) {
        let mut shift = begin(&self.jobs).expect("a shift");
        let (mut made, mut holds) = (0, true);
        let mut waited = vec![true; self.jobs.len()];
        let shares: u128 = self.jobs.iter().map(|[share, _]| u128::from(*share)).sum();
        let mut replies = Vec::with_capacity(self.named.len());
        for named in &self.named {
            let before = shift;
            let reply = grant(&mut shift, named).map_or_else(|Refused(n)| (n, 0), |job| (0, job));
            if reply.0 == 0 {
                made += 1;
                let waits = waiting(&before, named);
                (0..).zip(&mut waited).for_each(|(j, w)| *w &= waits.contains(&j));
            }
            let part = |j: usize| made * u128::from(shift.share[j]) / shares;
            holds &=
                total(&shift) == made && passes(&shift) && (0..waited.len()).all(|j| !waited[j] || u128::from(shift.granted[j]) >= part(j));
            replies.push(reply);
        }
        ((replies, shift), holds)
    }
}

/// All shifts of up to three jobs with shares 1 to 3, few limits, and every list of a few calls over every set of jobs.
fn small_shifts() -> impl Iterator<Item = Calls> {
    [(1, 6), (2, 5), (3, 3)].into_iter().flat_map(|(jobs, calls)| {
        let terms = [[1, 1], [1, 9], [2, 0], [2, 9], [3, 2], [3, 9]];
        let sets = 1usize << jobs;
        (0..terms.len().pow(jobs)).flat_map(move |t| {
            (0..sets.pow(calls)).map(move |c| Calls {
                jobs: (0..jobs).map(|j| terms[t / terms.len().pow(j) % terms.len()]).collect(),
                named: (0..calls).map(|k| (0..jobs).filter(|j| c / sets.pow(k) % sets >> j & 1 == 1).collect()).collect(),
            })
        })
    })
}

// ---- a shift to its last question

fn used_up_reference(shares: Vec<u32>) -> (u32, Vec<u32>) {
    // each grant goes to the smallest next fraction, the lowest on a tie: the first million of all fractions, in order
    let mut counts = vec![0u32; shares.len()];
    for _ in 0..MILLION {
        let next = |j: usize| Fraction { top: u128::from(counts[j]) + 1, bottom: u128::from(shares[j]) };
        let job = (0..shares.len()).min_by(|a, b| next(*a).cmp(&next(*b))).expect("a job");
        counts[job] += 1;
    }
    (31, counts)
}

fn used_up(shares: Vec<u32>) -> (u32, Vec<u32>) {
    let jobs: Vec<[u32; 2]> = shares.iter().map(|share| [*share, MILLION]).collect();
    let named: Vec<u32> = (0..shares.len() as u32).collect();
    let mut shift = begin(&jobs).expect("a shift");
    let refused = (0..=MILLION).find_map(|_| grant(&mut shift, &named).err()).map_or(0, |Refused(number)| number);
    (refused, shift.granted[..shares.len()].to_vec())
}
