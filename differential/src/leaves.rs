//! The leaves: each function of the library beside the original's, or beside Rust's own where that is what the original calls.
use crate::compare::Run;
use crate::inputs::{Gen, Point, beside, binades, edge_pairs, edges, half_levels, hard_root, small_triangles, triangle};
use sokdrib::{Refused, faces, geom, ieee, topo};
use tenon::stand_ins;

fn theirs(p: Point) -> tenon::Vec3 {
    tenon::Vec3::new(p[0], p[1], p[2])
}

fn ours(p: Point) -> geom::Vec3 {
    geom::Vec3 { x: p[0], y: p[1], z: p[2] }
}

/// Of either side.
macro_rules! parts {
    ($v:expr) => {{
        let v = $v;
        [v.x, v.y, v.z]
    }};
}

pub fn all(run: &mut Run) {
    numbers(run);
    vectors(run);
    solver(run);
    lists(run);
}

fn numbers(run: &mut Run) {
    let each = || edges().into_iter().chain(binades());
    run.leaf("abs", each(), Gen::float, f64::abs, ieee::abs);
    run.leaf("max", edge_pairs(), Gen::floats::<2>, |[a, b]| a.max(b), |[a, b]| ieee::max(a, b));
    run.leaf("min", edge_pairs(), Gen::floats::<2>, |[a, b]| a.min(b), |[a, b]| ieee::min(a, b));
    run.leaf("clamp", each(), Gen::float, |x| x.clamp(0.0, 1.0), ieee::clamp);
    run.leaf("is_finite", each(), Gen::float, f64::is_finite, ieee::is_finite);
    run.leaf("sqrt", each(), root_input, f64::sqrt, ieee::root::sqrt);
    run.leaf("tanh", each(), tanh_input, stand_ins::tanh, ieee::tanh);
    let whole = || each().chain((0..64).flat_map(|k| beside(2f64.powi(k))).flat_map(|x| [x, -x])).chain(halves());
    run.leaf("floor_at", whole(), whole_input, |x| (x.floor() as i64 as u64).wrapping_add(1 << 63), ieee::whole::floor_at);
    run.leaf("round_half_away", whole(), whole_input, |x| x.round() as u64, ieee::whole::round_half_away);
    run.leaf("to_bits", each(), Gen::float, |x| one_nan(x).to_bits(), ieee::bits::to_bits);
    run.leaf("from_bits", each().map(f64::to_bits), Gen::word, f64::from_bits, ieee::bits::from_bits);
    let ordered = |[a, b]: [f64; 2]| ieee::bits::total_key(a).cmp(&ieee::bits::total_key(b));
    run.leaf("total_key", edge_pairs(), Gen::floats::<2>, |[a, b]| one_nan(a).total_cmp(&one_nan(b)), ordered);
}

/// 01 takes all not-a-numbers as one: the library has one pattern for them.
fn one_nan(x: f64) -> f64 {
    if x.is_nan() { f64::NAN } else { x }
}

fn root_input(g: &mut Gen) -> f64 {
    match g.below(4) {
        0 => f64::from_bits(g.word() >> 1),
        1 => g.float(),
        _ => hard_root(g),
    }
}

/// What the projection asks for, and anything.
fn tanh_input(g: &mut Gen) -> f64 {
    match g.below(3) {
        0 => g.pick(&[1.0, 2.0, 4.0, 8.0, 16.0]) * (g.unit() - 0.5),
        1 => 40.0 * g.signed(),
        _ => g.float(),
    }
}

/// Whole numbers and halves, with what lies beside them.
fn halves() -> impl Iterator<Item = f64> {
    (-2002..=2002).map(|k| f64::from(k) / 2.0).flat_map(beside)
}

fn whole_input(g: &mut Gen) -> f64 {
    match g.below(3) {
        0 => g.float(),
        1 => {
            let x = (g.word() >> g.below(64)) as f64 / 2.0;
            let x = if g.below(2) == 0 { x } else { -x };
            g.nudged(x)
        }
        _ => g.scaled(),
    }
}

fn vectors(run: &mut Run) {
    let one = |g: &mut Gen| g.point();
    let two = |g: &mut Gen| [g.point(), g.point()];
    let ones = || edges().into_iter().flat_map(|x| [[x; 3], [x, 0.0, 0.0], [1.0, x, 2.0], [0.0, -1.0, x]]);
    let twos = || edge_pairs().into_iter().flat_map(|[x, y]| [[[x, 1.0, y], [y, x, 0.0]], [[x; 3], [y; 3]]]);
    run.leaf("Vec3::new", ones(), one, |p| parts!(theirs(p)), |p| parts!(geom::Vec3::new(p[0], p[1], p[2])));
    run.leaf("Vec3::add", twos(), two, |[a, b]| parts!(theirs(a) + theirs(b)), |[a, b]| parts!(ours(a) + ours(b)));
    run.leaf("Vec3::sub", twos(), two, |[a, b]| parts!(theirs(a) - theirs(b)), |[a, b]| parts!(ours(a) - ours(b)));
    run.leaf("Vec3::scale", twos(), two, |[a, b]| parts!(theirs(a) * b[0]), |[a, b]| parts!(ours(a) * b[0]));
    run.leaf("Vec3::min", twos(), two, |[a, b]| parts!(theirs(a).min(theirs(b))), |[a, b]| parts!(ours(a).min(ours(b))));
    run.leaf("Vec3::max", twos(), two, |[a, b]| parts!(theirs(a).max(theirs(b))), |[a, b]| parts!(ours(a).max(ours(b))));
    run.leaf("Vec3::dot", twos(), two, |[a, b]| theirs(a).dot(theirs(b)), |[a, b]| ours(a).dot(ours(b)));
    run.leaf("Vec3::cross", twos(), two, |[a, b]| parts!(theirs(a).cross(theirs(b))), |[a, b]| parts!(ours(a).cross(ours(b))));
    run.leaf("Vec3::len2", ones(), one, |p| theirs(p).len2(), |p| ours(p).len2());
    run.leaf("Vec3::len", ones(), one, |p| theirs(p).len(), |p| ours(p).len());
    run.leaf("Vec3::dist", twos(), two, |[a, b]| theirs(a).dist(theirs(b)), |[a, b]| ours(a).dist(ours(b)));
    run.leaf("Vec3::normalized", ones(), one, |p| parts!(theirs(p).normalized()), |p| parts!(ours(p).normalized()));
    run.leaf("Vec3::is_finite", ones(), one, |p| theirs(p).is_finite(), |p| ours(p).is_finite());
    let planes = || edge_pairs().into_iter().map(|[x, y]| [[x, 0.0, y], [1.0, y, 0.0], [y, x, 1.0]]);
    run.leaf("Mirror::image", planes(), plane, image_theirs, image_ours);
    run.leaf("dist2_to_triangle", small_triangles(), triangle, dist2_theirs, dist2_ours);
}

/// A plane's point and normal, and a point.
fn plane(g: &mut Gen) -> [Point; 3] {
    let normal = match g.below(4) {
        0 => g.pick(&[[1.0, 0.0, 0.0], [0.0, 1.0, 0.0], [0.0, 0.0, 1.0], [-1.0, 0.0, 0.0]]),
        1 => parts!(theirs(g.point()).normalized()),
        _ => g.point(),
    };
    [g.point(), normal, g.point()]
}

fn image_theirs([point, normal, p]: [Point; 3]) -> Point {
    parts!(tenon::topo::Mirror { point: theirs(point), normal: theirs(normal) }.image(theirs(p)))
}

fn image_ours([point, normal, p]: [Point; 3]) -> Point {
    parts!(geom::Mirror { point: ours(point), normal: ours(normal) }.image(ours(p)))
}

/// A point, and a triangle's three corners.
fn dist2_theirs(v: [Point; 4]) -> f64 {
    let [p, a, b, c] = v.map(theirs);
    tenon::faces::dist2_to_triangle(p, a, b, c)
}

fn dist2_ours(v: [Point; 4]) -> f64 {
    let [p, a, b, c] = v.map(ours);
    faces::dist2_to_triangle(p, a, b, c)
}

fn solver(run: &mut Run) {
    let levels = (0..=u16::MAX).flat_map(|level| [1.0, 210e3, 0.1, -0.0, f64::INFINITY, f64::NAN].map(|e0| (level, e0)));
    let random = |g: &mut Gen| (g.below(1002) as u16, g.float());
    run.leaf("modulus", levels, random, |(level, e0)| tenon::topo::modulus(level, e0), |(level, e0)| topo::modulus(level, e0));
    let densities = edges().into_iter().chain(binades()).chain(half_levels());
    let random = |g: &mut Gen| match g.below(4) {
        0 => g.float(),
        1 => {
            let half = g.below(2002) as f64 / 2000.0;
            g.nudged(half)
        }
        _ => g.unit(),
    };
    run.leaf("level_of", densities, random, tenon::topo::level_of, topo::level_of);

    // the way back, beside a scan of the Rust's own moduli
    let moduli: Vec<f64> = (0..=1000).map(|level| tenon::topo::modulus(level, 1.0)).collect();
    let stiffnesses = || edges().into_iter().chain(binades()).chain(moduli.iter().flat_map(|m| beside(*m)));
    let random = |g: &mut Gen| match g.below(4) {
        0 => g.float(),
        1 => {
            let modulus = moduli[g.below(1001)];
            g.nudged(modulus)
        }
        _ => g.unit().powi(3),
    };
    let with = |m: f64| moduli.iter().position(|entry| *entry == m).map_or(29, |level| 1000 + level);
    let below = |x: f64| {
        if moduli[0] <= x && x <= moduli[1000] { 999 + moduli.iter().filter(|entry| **entry <= x).count() } else { 29 }
    };
    let told = |answer: Result<u16, Refused>| answer.map_or_else(|Refused(number)| number as usize, |level| 1000 + usize::from(level));
    run.leaf("level_with", stiffnesses(), random, with, |m| told(topo::level_with(m)));
    run.leaf("level_below", stiffnesses(), random, below, |x| told(topo::level_below(x)));
}

/// What a list that is too short, too long or empty leaves: both lists are lent, and the whole of the written one is compared.
fn lists(run: &mut Run) {
    const MOST: usize = 9;
    let input = |one: fn(&mut Gen) -> f64| {
        move |g: &mut Gen| {
            let (n, m) = (g.below(MOST), g.below(MOST));
            ((0..n).map(|_| one(g)).collect::<Vec<_>>(), (0..m).map(|_| g.float()).collect::<Vec<_>>())
        }
    };
    let each = |f: fn(f64) -> f64| {
        move |(xs, mut out): (Vec<f64>, Vec<f64>)| {
            xs.iter().zip(&mut out).for_each(|(x, o)| *o = f(*x));
            out
        }
    };
    let written = |f: fn(&[f64], &mut [f64])| {
        move |(xs, mut out): (Vec<f64>, Vec<f64>)| {
            f(&xs, &mut out);
            out
        }
    };
    run.leaf("sqrt_each", [], input(root_input), each(f64::sqrt), written(ieee::root::sqrt_each));
    run.leaf("tanh_each", [], input(tanh_input), each(stand_ins::tanh), written(ieee::tanh_each));
    type Lent = ((Vec<Point>, Vec<[Point; 3]>), Vec<f64>);
    let triangles = |g: &mut Gen| -> Lent {
        let (n, m, k) = (g.below(MOST), g.below(MOST), g.below(MOST));
        let points: Vec<Point> = (0..n).map(|_| g.point()).collect();
        let corners: Vec<[Point; 3]> = (0..m).map(|_| triangle(g)).map(|[_, a, b, c]| [a, b, c]).collect();
        ((points, corners), (0..k).map(|_| g.float()).collect())
    };
    let one_by_one = |((points, corners), mut out): Lent| {
        for ((p, [a, b, c]), o) in points.iter().zip(&corners).zip(&mut out) {
            *o = dist2_theirs([*p, *a, *b, *c]);
        }
        out
    };
    run.leaf("dist2_each", [], triangles, one_by_one, |((points, corners), mut out)| {
        let corners: Vec<[f64; 9]> = corners.iter().map(|t| std::array::from_fn(|i| t[i / 3][i % 3])).collect();
        faces::dist2_each(&points, &corners, &mut out);
        out
    });
}
