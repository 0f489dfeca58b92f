//! The leaves: the original's functions, or Rust's own where that is what the original calls.
use tenon::stand_ins;
use tenon::topo::{self, oc};

use crate::inputs::{EDGES, Gen, Point, half_levels, hard_root, triangle};
use crate::sample::Sample;

fn vector(p: Point) -> tenon::Vec3 {
    tenon::Vec3::new(p[0], p[1], p[2])
}

pub fn all(s: &mut Sample) {
    s.section(1, "sqrt", EDGES, 300, hard_root, f64::sqrt);
    s.section(2, "tanh", EDGES, 100, |g| g.pick(&topo::STAGES) * (g.unit() - 0.5), stand_ins::tanh);
    s.section(3, "max", [], 200, Gen::floats::<2>, |[a, b]| a.max(b));
    s.section(4, "min", [], 200, Gen::floats::<2>, |[a, b]| a.min(b));
    s.section(5, "clamp", EDGES, 50, Gen::float, |x| x.clamp(0.0, 1.0));
    s.section(6, "floor_at", EDGES, 200, Gen::float, |x| (x.floor() as i64 as u64).wrapping_add(1 << 63));
    s.section(7, "round_half_away", EDGES, 200, Gen::float, |x| x.round() as u64);
    s.section(8, "level_of", half_levels().into_iter().step_by(41), 200, Gen::float, topo::level_of);
    let modulus = |g: &mut Gen| (g.below(1010) as u16, if g.below(2) == 0 { 1.0 } else { g.float() });
    s.section(9, "modulus", [], 300, modulus, |(level, e0)| topo::modulus(level, e0));
    let image = |[point, normal, p]: [Point; 3]| {
        let q = topo::Mirror { point: vector(point), normal: vector(normal) }.image(vector(p));
        [q.x, q.y, q.z]
    };
    s.section(10, "image", [], 200, |g| [g.point(), g.point(), g.point()], image);
    let dist2 = |v: [Point; 4]| {
        let [p, a, b, c] = v.map(vector);
        tenon::faces::dist2_to_triangle(p, a, b, c)
    };
    s.section(11, "dist2_to_triangle", [], 500, triangle, dist2);
    s.section(12, "project", [], 200, |g| [g.unit(), g.pick(&topo::STAGES)], |[v, beta]| oc::project(v, beta));
    let room = |g: &mut Gen| {
        let (solid, total) = (g.unit(), 1.0 + g.unit());
        let target = if g.below(2) == 0 { solid + 1e-3 * (total - solid) } else { g.unit() * total };
        [solid, total, g.nudged(target)]
    };
    s.section(13, "no_room", [], 200, room, |[solid, total, target]| oc::no_room(solid, total, target));
}
