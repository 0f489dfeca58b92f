//! Document 01's worked job, run by the original with its stand-ins: what 01 prints of it.
use std::sync::Arc;
use std::sync::atomic::AtomicBool;
use std::time::Duration;

use tenon::Vec3;
use tenon::stand_ins::ended;
use tenon::topo::{Design, Goal, Stiffness, Stop, modulus, optimize};

/// Energy = weight / (2·modulus(level, 1)).
struct Weights(Vec<f64>);

impl Stiffness for Weights {
    fn energies(&mut self, levels: &[u16]) -> Result<Vec<f64>, String> {
        Ok(self.0.iter().zip(levels).map(|(w, level)| w / (2.0 * modulus(*level, 1.0))).collect())
    }
}

#[test]
fn two_elements() {
    let design = Design { volumes: vec![1.0; 2], centroids: vec![Vec3::ZERO, Vec3::new(10.0, 0.0, 0.0)], passive: vec![true, false] };
    let goal = Goal { fraction: 0.75, radius: 1.0, sharpen: false, max_iterations: 1, budget: Duration::MAX, mirrors: Vec::new() };
    let mut passes = 0;
    let run = optimize(&design, &goal, &mut Weights(vec![1.0, 0.0]), &Arc::new(AtomicBool::new(false)), &mut |_| passes = ended().passes);
    let done = run.expect("it is not refused");
    let [it] = done.history[..] else { panic!("one round") };
    assert_eq!(done.solid_compliance.to_bits(), 0x3FF0000000000000);
    let record = [it.compliance, it.fraction, it.change, it.sharpness, it.grey].map(f64::to_bits);
    assert_eq!(record, [0x3FF0000000000000, 0x3FE8000000000000, 0x3FC999999999999A, 0x3FF0000000000000, 0x3FF0000000000000]);
    assert_eq!((it.number, passes, done.stop), (1, 200, Stop::Limit));
    assert_eq!(done.density.iter().map(|d| d.to_bits()).collect::<Vec<_>>(), [0x3FF0000000000000, 0x3FE0000000000000]);
}
