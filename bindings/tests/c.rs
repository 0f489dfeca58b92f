//! The generated header serves C: programs over it compile without a warning, link with the library and run.
use sokdrib::Refused;
use sokdrib::filter::Work;
use sokdrib::run::{Answer, Goal, Iteration, Lists, Part, Reply, Said, Scratch, Sharpening, State, answer, open};
use sokdrib::topo::{level_of, modulus};
use std::path::{Path, PathBuf};
use std::process::Command;

/// The program of tests/NAME.c.
fn program(name: &str) -> Command {
    let here = Path::new(env!("CARGO_MANIFEST_DIR"));
    let folder = std::env::var_os("SOKDRIB_LIB_DIR").map_or_else(|| here.join("../target/staticlib"), PathBuf::from);
    let program = Path::new(env!("CARGO_TARGET_TMPDIR")).join(name);
    let built = Command::new("cc")
        .args(["-std=c11", "-Wall", "-Wextra", "-Wpedantic", "-Werror", "-I"])
        .arg(here.join("include"))
        .arg(here.join("tests").join(name).with_extension("c"))
        .arg(folder.join("libcapi.a"))
        .arg("-o")
        .arg(&program)
        .status()
        .expect("cc runs");
    assert!(built.success());
    Command::new(program)
}

#[test]
fn a_c_program_calls_the_library() {
    assert_eq!(program("call").status().expect("it runs").code(), Some(0));
}

/// Document 01, "The job strip and its program".
const WORKED: &str = "solid 3FF0000000000000
round 1 3FF0000000000000 3FE8000000000000 3FC999999999999A 3FF0000000000000 3FF0000000000000 200
stop Limit
1 3FF0000000000000
2 3FE0000000000000
";

/// A job run to its end, and what `run.c` is to print of it.
fn told(part: Part<'_>, goal: Goal, weights: &[f64]) -> String {
    let n = weights.len();
    let (mut starts, mut near, mut coef) = (vec![0; n + 1], vec![0; n * n], vec![0.0; n * n]);
    let (mut design, mut density, mut last) = (vec![0.0; n], vec![0.0; n], vec![0.0; n]);
    let mut history = vec![Iteration::default(); goal.max_iterations];
    let (mut state, mut work, mut scratch) = (State::default(), Work::of(n), Scratch::of(n));
    macro_rules! lists {
        () => {
            Lists {
                starts: &mut starts,
                near: &mut near,
                coef: &mut coef,
                design: &mut design,
                density: &mut density,
                last: &mut last,
                history: &mut history,
            }
        };
    }
    let mut reply = open(&mut state, part, goal, false, lists!(), &mut work);
    while let Ok(Reply::Solid | Reply::Round(_)) = reply {
        let energies: Vec<f64> = weights.iter().zip(&density).map(|(w, x)| w / (2.0 * modulus(level_of(*x), 1.0))).collect();
        let gave = Answer { said: Said::Gave(&energies), flag: false, elapsed: 0, allowed: 1 };
        reply = answer(&mut state, gave, part, lists!(), &mut scratch);
    }
    let why = match reply {
        Ok(Reply::Stop(why)) => why,
        Ok(_) => unreachable!("a question is answered"),
        Err(Refused(number)) => return format!("refused {number}\n"),
    };
    let mut text = format!("solid {:016X}\n", state.solid_compliance.to_bits());
    for r in &history[..state.rounds] {
        let [work, share, change, steep, grey] = [r.compliance, r.fraction, r.change, r.sharpness, r.grey].map(f64::to_bits);
        text += &format!("round {} {work:016X} {share:016X} {change:016X} {steep:016X} {grey:016X} {}\n", r.number, r.passes);
    }
    text += &format!("stop {why:?}\n");
    for (e, x) in last.iter().enumerate() {
        text += &format!("{} {:016X}\n", e + 1, x.to_bits());
    }
    text
}

#[test]
fn a_c_program_runs_jobs() {
    let worked = Part { volumes: &[1.0, 1.0], centroids: &[[0.0; 3], [10.0, 0.0, 0.0]], passive: &[true, false], mirrors: &[] };
    let one = Goal { fraction: 0.75, radius: 1.0, sharpen: Sharpening::Off, max_iterations: 1 };
    let eight = Part {
        volumes: &[1.0, 1.0, 1.25, 1.25, 0.75, 0.75, 1.0, 1.0],
        centroids: &[0, 1, 2, 3, 4, 5, 6, 7].map(|e| [f64::from(e / 2) + 0.5, f64::from(e % 2) - 0.5, 0.0]),
        passive: &[true, true, false, false, false, false, false, false],
        mirrors: &[[0.0, 0.0, 0.0, 0.0, 1.0, 0.0]],
    };
    let sharpened = Goal { fraction: 0.5, radius: 1.5, sharpen: Sharpening::Early, max_iterations: 60 };
    let weights = &[4.0, 4.0, 3.0, 2.5, 2.0, 2.0, 0.5, 1.0];
    let texts = [
        told(worked, one, &[1.0, 0.0]),
        told(eight, sharpened, weights),
        told(eight, Goal { sharpen: Sharpening::Full, max_iterations: 85, ..sharpened }, weights),
        "refused 20\n".into(),
        told(worked, Goal { fraction: 0.1, ..one }, &[1.0, 0.0]),
    ];
    assert_eq!(texts[0], WORKED);
    assert_eq!(texts[1].matches("round").count(), 60);
    // 20 rounds at each steepness below 16, and round 81 the first at 16
    let steepness = |line: &str| u64::from_str_radix(line.split(' ').nth(5)?, 16).ok().map(f64::from_bits);
    let course: Vec<f64> = texts[2].lines().filter(|line| line.starts_with("round")).filter_map(steepness).collect();
    let stages = [1.0, 2.0, 4.0, 8.0, 16.0];
    assert!(course.len() > 80 && course.iter().enumerate().all(|(k, beta)| *beta == stages[(k / 20).min(4)]), "{course:?}");
    assert_eq!(texts[4], "refused 7\n");
    let ran = program("run").output().expect("it runs");
    assert!(ran.status.success());
    assert_eq!(String::from_utf8(ran.stdout).expect("it is text"), texts.concat());
}
