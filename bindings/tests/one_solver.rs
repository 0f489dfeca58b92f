//! Several small runs of different shapes share one solver to their ends, and each has the bits of running alone.
use sokdrib::filter::Work;
use sokdrib::run::{Answer, Goal, Iteration, Lists, Part, Reply, Said, Scratch, Sharpening, State, answer, open};
use sokdrib::shift;
use sokdrib::topo::{level_of, modulus};

/// A part of `weights.len()` elements and its run. A weight says how much an element carries.
#[derive(Clone, Debug, PartialEq)]
struct Job {
    weights: Vec<f64>,
    centroids: Vec<[f64; 3]>,
    volumes: Vec<f64>,
    passive: Vec<bool>,
    mirrors: Vec<[f64; 6]>,
    goal: Goal,
    state: State,
    starts: Vec<u32>,
    near: Vec<u32>,
    coef: Vec<f64>,
    floats: [Vec<f64>; 3],
    history: Vec<Iteration>,
    scratch: Scratch,
    questions: u32,
}

impl Job {
    /// A row, a plate or a block of elements: so many along each edge, the first one held.
    fn new([x, y, z]: [usize; 3], mirrors: &[[f64; 6]], goal: Goal) -> Job {
        let n = x * y * z;
        let place = |e: usize| [e % x, e / x % y, e / (x * y)].map(|k| k as f64);
        Job {
            weights: (0..n).map(|e| 1.0 + ((7 * e + 3) % 11) as f64).collect(),
            centroids: (0..n).map(place).collect(),
            volumes: (0..n).map(|e| 1.0 + (e % 3) as f64 / 4.0).collect(),
            passive: (0..n).map(|e| e == 0).collect(),
            mirrors: mirrors.to_vec(),
            goal,
            state: State::default(),
            starts: vec![0; n + 1],
            near: vec![0; n * n],
            coef: vec![0.0; n * n],
            floats: std::array::from_fn(|_| vec![0.0; n]),
            history: vec![Iteration::default(); goal.max_iterations],
            scratch: Scratch::of(n),
            questions: 0,
        }
    }

    /// Makes a call with this job's part and lists.
    fn with<T>(&mut self, call: impl FnOnce(&mut State, Part<'_>, Lists<'_>, &mut Scratch) -> T) -> T {
        let part = Part { volumes: &self.volumes, centroids: &self.centroids, passive: &self.passive, mirrors: &self.mirrors };
        let [design, density, last] = &mut self.floats;
        let (starts, near, coef, history) = (&mut self.starts, &mut self.near, &mut self.coef, &mut self.history);
        call(&mut self.state, part, Lists { starts, near, coef, design, density, last, history }, &mut self.scratch)
    }

    fn open(&mut self) -> Reply {
        let (goal, n) = (self.goal, self.weights.len());
        self.with(|state, part, lists, _| open(state, part, goal, false, lists, &mut Work::of(n))).unwrap()
    }

    /// Puts this job's question to the solver and hands on what it says.
    fn ask(&mut self, solver: &mut Solver) -> Reply {
        self.questions += 1;
        let energies = solver.solve(&self.weights, &self.floats[1]);
        self.with(|state, part, lists, scratch| {
            answer(state, Answer { said: Said::Gave(&energies), flag: false, elapsed: 0, allowed: 1 }, part, lists, scratch)
        })
        .unwrap()
    }
}

/// The one solver: it is at one question at a time.
#[derive(Default)]
struct Solver {
    solved: u32,
}

impl Solver {
    fn solve(&mut self, weights: &[f64], density: &[f64]) -> Vec<f64> {
        self.solved += 1;
        weights.iter().zip(density).map(|(w, x)| w / (2.0 * modulus(level_of(*x), 1.0))).collect()
    }
}

fn ended(reply: Reply) -> bool {
    matches!(reply, Reply::Stop(_))
}

#[test]
fn runs_that_share_one_solver() {
    let goal = Goal { fraction: 0.5, radius: 1.5, sharpen: Sharpening::Off, max_iterations: 40 };
    let fresh = [
        Job::new([9, 1, 1], &[], goal),
        Job::new(
            [4, 5, 1],
            &[[1.5, 0.0, 0.0, 1.0, 0.0, 0.0]],
            Goal { fraction: 0.4, sharpen: Sharpening::Early, max_iterations: 130, ..goal },
        ),
        Job::new([3, 3, 3], &[], Goal { fraction: 0.7, radius: 2.5, ..goal }),
        Job::new([2, 2, 1], &[], Goal { max_iterations: 3, ..goal }),
    ];

    let mut alone = fresh.clone();
    for job in &mut alone {
        let mut solver = Solver::default();
        let mut reply = job.open();
        while !ended(reply) {
            reply = job.ask(&mut solver);
        }
        assert_eq!((solver.solved, job.state.rounds as u32 + 1), (job.questions, job.questions));
    }

    // the last job comes after four questions of the others
    let mut shift = shift::begin(&[[1, 1_000], [3, 1_000], [2, 1_000], [10, 1_000]]).unwrap();
    let (mut shared, mut solver) = (fresh, Solver::default());
    let mut replies: Vec<Option<Reply>> = vec![None; 4];
    let (mut order, mut most) = (Vec::new(), 0);
    loop {
        for (j, job) in shared.iter_mut().enumerate() {
            if replies[j].is_none() && (j < 3 || solver.solved == 4) {
                replies[j] = Some(job.open());
            }
        }
        let waiting: Vec<u32> = (0..4).filter(|j| replies[*j as usize].is_some_and(|reply| !ended(reply))).collect();
        most = most.max(waiting.len());
        let Ok(granted) = shift::grant(&mut shift, &waiting) else {
            assert!(waiting.is_empty());
            break;
        };
        replies[granted as usize] = Some(shared[granted as usize].ask(&mut solver));
        order.push(granted);
    }

    assert_eq!(most, 4);
    assert!(!order.is_sorted());
    assert_eq!(shift.granted[..4].to_vec(), shared.iter().map(|job| job.questions).collect::<Vec<_>>());
    assert_eq!(shift.granted.iter().sum::<u32>(), solver.solved);
    for (with_others, by_itself) in shared.iter().zip(&alone) {
        assert_eq!(bits(with_others), bits(by_itself));
        assert_eq!(
            (with_others.state, &with_others.history, with_others.questions),
            (by_itself.state, &by_itself.history, by_itself.questions)
        );
    }
}

/// The design, the last densities and the records, as patterns.
fn bits(job: &Job) -> Vec<u64> {
    let records = job.history.iter().flat_map(|r| [r.compliance, r.fraction, r.change, r.sharpness, r.grey]);
    job.floats.iter().flatten().copied().chain(records).map(f64::to_bits).collect()
}
