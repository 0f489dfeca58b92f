//! Document 01's worked job, question by question, and calls that are refused, through the bindings.
use sokdrib::filter::Work;
use sokdrib::run::{Answer, Goal, Iteration, Lists, Part, Reply, Said, Scratch, Sharpening, State, Stop, answer, open};
use sokdrib::{Refused, ffi};

const PART: Part<'static> = Part { volumes: &[1.0, 1.0], centroids: &[[0.0; 3], [10.0, 0.0, 0.0]], passive: &[true, false], mirrors: &[] };
const GOAL: Goal = Goal { fraction: 0.75, radius: 1.0, sharpen: Sharpening::Off, max_iterations: 1 };

#[derive(Clone, Debug, Default, PartialEq)]
struct Held {
    starts: [u32; 3],
    near: [u32; 2],
    coef: [f64; 2],
    floats: [[f64; 2]; 3],
    history: [Iteration; 1],
}

impl Held {
    fn lend(&mut self, records: usize) -> Lists<'_> {
        let [design, density, last] = &mut self.floats;
        Lists {
            starts: &mut self.starts,
            near: &mut self.near,
            coef: &mut self.coef,
            design,
            density,
            last,
            history: &mut self.history[..records],
        }
    }
}

#[test]
fn two_elements() {
    let (mut state, mut held, mut work, mut scratch) = (State::default(), Held::default(), Work::of(2), Scratch::of(2));
    let gave = |energies| Answer { said: Said::Gave(energies), flag: false, elapsed: 0, allowed: 1 };
    let mut asks = |state: &mut State, held: &mut Held, a, records| answer(state, a, PART, held.lend(records), &mut scratch);
    assert_eq!(asks(&mut state, &mut held, gave(&[]), 1), Err(Refused(20)));
    assert_eq!(open(&mut state, PART, Goal { fraction: 1.0, ..GOAL }, false, held.lend(1), &mut work), Err(Refused(5)));
    assert_eq!(open(&mut state, PART, GOAL, false, held.lend(0), &mut work), Err(Refused(14)));
    assert_eq!(open(&mut state, PART, GOAL, true, held.lend(1), &mut work), Err(Refused(15)));
    assert_eq!(open(&mut state, PART, GOAL, false, held.lend(1), &mut work), Ok(Reply::Solid));
    assert_eq!(open(&mut state, PART, GOAL, false, held.lend(1), &mut work), Err(Refused(20)));
    assert_eq!(held.floats[1], [1.0, 1.0]);
    assert_eq!(asks(&mut state, &mut held, gave(&[0.5, 0.0]), 0), Err(Refused(14)));
    assert_eq!(asks(&mut state, &mut held, gave(&[0.5, 0.0]), 1), Ok(Reply::Round(1)));
    assert_eq!(held.floats[1], [1.0, 0.5]);
    assert_eq!(asks(&mut state, &mut held, gave(&[0.5, 0.0]), 1), Ok(Reply::Stop(Stop::Limit)));
    assert_eq!((held.floats[2], state.solid_compliance, state.rounds), ([1.0, 0.5], 1.0, 1));
    let r = held.history[0];
    let numbers = [r.compliance, r.fraction, r.change, r.sharpness, r.grey].map(f64::to_bits);
    assert_eq!(numbers, [0x3FF0000000000000, 0x3FE8000000000000, 0x3FC999999999999A, 0x3FF0000000000000, 0x3FF0000000000000]);
    assert_eq!((r.number, r.passes), (1, 200));
    assert_eq!(asks(&mut state, &mut held, gave(&[0.5, 0.0]), 1), Err(Refused(20)));
}

#[test]
fn answers_that_end_a_run() {
    for (said, number) in
        [(Said::Failed, 18), (Said::Halted, 15), (Said::Gave(&[1.0]), 16), (Said::Gave(&[1.0, f64::NAN]), 17), (Said::Gave(&[0.0; 2]), 19)]
    {
        let (mut state, mut held, mut scratch) = (State::default(), Held::default(), Scratch::of(2));
        assert_eq!(open(&mut state, PART, GOAL, false, held.lend(1), &mut Work::of(2)), Ok(Reply::Solid));
        let said = Answer { said, flag: false, elapsed: 0, allowed: 1 };
        assert_eq!(answer(&mut state, said, PART, held.lend(1), &mut scratch), Err(Refused(number)));
        assert_eq!(answer(&mut state, said, PART, held.lend(1), &mut scratch), Err(Refused(20)));
    }
}

#[test]
fn phases_that_no_run_has() {
    let (mut state, mut held, mut work, mut scratch) = (State::default(), Held::default(), Work::of(2), Scratch::of(2));
    let gave = Answer { said: Said::Gave(&[0.5, 0.0]), flag: false, elapsed: 0, allowed: 1 };
    for opened in [false, true] {
        if opened {
            assert_eq!(open(&mut state, PART, GOAL, false, held.lend(1), &mut work), Ok(Reply::Solid));
        }
        for phase in [3, u32::MAX] {
            let before = (State { phase, ..state }, held.clone(), work.clone(), scratch.clone());
            let mut spoiled = before.0;
            assert_eq!(open(&mut spoiled, PART, GOAL, false, held.lend(1), &mut work), Err(Refused(20)));
            assert_eq!(answer(&mut spoiled, gave, PART, held.lend(1), &mut scratch), Err(Refused(20)));
            assert_eq!((spoiled, held.clone(), work.clone(), scratch.clone()), before);
        }
    }
    assert_eq!(answer(&mut state, gave, PART, held.lend(1), &mut scratch), Ok(Reply::Round(1)));
}

/// An opening with a goal of numbers.
fn opened(state: State, goal: ffi::RunGoal, held: &mut Held, work: &mut Work) -> ffi::RunReturned {
    let Lists { starts, near, coef, design, density, last, history } = held.lend(1);
    let Work { cell, order, first, sorted, stamp, weight, found, bits } = work;
    let Part { volumes, centroids, passive, mirrors } = PART;
    ffi::sokdrib_open(
        history.len(),
        state,
        goal,
        false,
        volumes,
        centroids,
        passive,
        mirrors,
        starts,
        near,
        coef,
        design,
        density,
        last,
        cell,
        order,
        first,
        sorted,
        stamp,
        weight,
        found,
        bits,
    )
}

#[test]
fn choices_are_numbers_across_c() {
    for (number, sharpen) in [(0, Sharpening::Off), (1, Sharpening::Early), (2, Sharpening::Full)] {
        let goal = ffi::RunGoal::from(Goal { sharpen, ..GOAL });
        assert_eq!(goal, ffi::RunGoal { fraction: 0.75, radius: 1.0, sharpen: number, max_iterations: 1 });
        let returned = opened(State::default(), goal, &mut Held::default(), &mut Work::of(2));
        assert_eq!((returned.reply, returned.number, returned.state.sharpen), (1, 0, number));
    }
}

#[test]
fn choices_that_no_run_has() {
    let (mut state, mut held, mut work, mut scratch) = (State::default(), Held::default(), Work::of(2), Scratch::of(2));
    (held.starts, held.near, held.coef, held.floats) = ([7; 3], [7; 2], [7.5; 2], [[7.5; 2]; 3]);
    (work.order[0], work.sorted[0], work.weight[0], work.bits[0], scratch.dc[0]) = (7, [7.5; 3], 7.5, 7, 7.5);
    let gave = Answer { said: Said::Gave(&[0.5, 0.0]), flag: false, elapsed: 0, allowed: 1 };
    for open_already in [false, true] {
        if open_already {
            assert_eq!(open(&mut state, PART, GOAL, false, held.lend(1), &mut work), Ok(Reply::Solid));
        }
        for sharpen in [3, u32::MAX] {
            let before = (held.clone(), work.clone(), scratch.clone());
            // In a goal, before any other test: a share of 7 is 5's.
            for fraction in [GOAL.fraction, 7.0] {
                let returned = opened(state, ffi::RunGoal { fraction, sharpen, ..GOAL.into() }, &mut held, &mut work);
                assert_eq!((returned.state, returned.reply, returned.number), (state, 0, 20));
            }
            let mut spoiled = State { sharpen, ..state };
            assert_eq!(answer(&mut spoiled, gave, PART, held.lend(1), &mut scratch), Err(Refused(20)));
            assert_eq!(open(&mut spoiled, PART, GOAL, false, held.lend(1), &mut work), Err(Refused(20)));
            assert_eq!(spoiled, State { sharpen, ..state });
            assert_eq!((held.clone(), work.clone(), scratch.clone()), before);
        }
    }
    assert_eq!(answer(&mut state, gave, PART, held.lend(1), &mut scratch), Ok(Reply::Round(1)));
}
