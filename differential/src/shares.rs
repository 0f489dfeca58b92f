//! Document 02's bounds on row weights and on what one nudged element can do, held to tables that the library builds, in whole numbers.
use crate::compare::Run;
use crate::fields;
use crate::filter::{Build, vectors};
use crate::inputs::Gen;
use crate::lists::Lists;
use crate::plain::mirrors;
use crate::whole::{Whole, parts};
use sokdrib::ieee;
use tenon::topo::mirror_group;

pub fn all(run: &mut Run) {
    let crowds = || std::iter::once_with(crowds).flatten();
    run.bound("row_weights", 500, crowds(), spread, weights);
    let (mut g, mut h) = (Gen::of(run.seed, "few"), Gen::of(run.seed, "nudged"));
    let edges = crowds().chain((0..run.cases / 50).map(move |_| few(&mut g))).map(move |b| Nudged::random(&mut h, b));
    let random = |g: &mut Gen| {
        let b = spread(g);
        Nudged::random(g, b)
    };
    run.bound("nudges", 500, edges, random, moves);
}

/// Any build, of which one that is refused has no rows; the volumes of some differ by what is lost in a sum.
fn spread(g: &mut Gen) -> Build {
    let (b, unit) = (Build::random(g), g.unit());
    let volumes = match g.below(4) {
        0 => b.volumes,
        1 => b.centroids.iter().map(|_| 10f64.powi(g.below(300) as i32 - 290) * (1.0 + g.unit())).collect(),
        _ => b.centroids.iter().map(|_| g.pick(&[1.0, 1.0, 2f64.powi(-53), 2f64.powi(-54)]) * g.pick(&[1.0, 1.0 + unit, unit])).collect(),
    };
    Build::of(b.centroids, volumes, b.radius, b.planes)
}

/// Elements at one place, so that each product is a volume: a large one first, and then small ones of which a sum loses all, or to which it adds as much.
fn crowds() -> Vec<Build> {
    let tiny = 2f64.powi(-53);
    let mut all = Vec::new();
    for n in [1, 2, 3, 10, 100, 700] {
        for small in [tiny, tiny.next_up(), tiny * 0.75, tiny * 1.5, 1.0, 1.0f64.next_up(), 1.0 / 3.0, f64::MIN_POSITIVE] {
            for first in [1.0, 1e-3, 3.0] {
                let volumes = (0..n).map(|k| if k == 0 { first } else { small }).collect();
                all.push(Build::of(vec![[0.0; 3]; n], volumes, 1.0, Vec::new()));
            }
        }
        let plane = vec![[0.0, 0.0, 0.0, 1.0, 0.0, 0.0]];
        all.push(Build::of(vec![[0.0; 3]; n], vec![1.0; n], 1.0, plane));
        all.push(Build::of(vec![[0.0; 3]; n], vec![1e-305; n], 1.0, Vec::new()));
    }
    all
}

/// Two or three elements at one place: there each rounding is the largest part of the bound.
fn few(g: &mut Gen) -> Build {
    let n = 2 + g.below(2);
    let volumes = (0..n).map(|_| 0.1 + g.unit()).collect();
    Build::of(vec![[0.0; 3]; n], volumes, 1.0, Vec::new())
}

/// "finite and at least 2 to the power −1022"
fn ordinary(x: f64) -> bool {
    x.is_finite() && x >= f64::MIN_POSITIVE
}

/// A row that meets 02's condition: its place in the table, and k.
struct Row {
    e: usize,
    from: usize,
    to: usize,
    k: u128,
}

/// The rows of a table that meet the condition. The products are worked out by the Rust's images and distances. A row is left out where that does not give
/// its weights: there an element is nearer than the radius and the cubes keep it out.
fn ordinary_rows(b: &Build, t: &Lists) -> Vec<Row> {
    let middles = vectors(&b.centroids);
    let Ok(group) = mirror_group(&mirrors(&b.planes)) else { return Vec::new() };
    let row = |e: usize| -> Option<Row> {
        let (from, to) = (t.starts[e] as usize, t.starts[e + 1] as usize);
        let images: Vec<_> = group.iter().map(|g| g.iter().rev().fold(middles[e], |p, m| m.image(p))).collect();
        let (mut sum, mut k, mut products) = (0.0, 0, Vec::new());
        for &i in &t.near[from..to] {
            let mut weight = 0.0;
            for d in images.iter().map(|q| q.dist(middles[i as usize])).filter(|d| *d < b.radius) {
                weight += b.radius - d;
                k += 1;
            }
            let product: f64 = weight * b.volumes[i as usize];
            sum += product;
            products.push(product);
            if !ordinary(product) || !ordinary(sum) {
                return None;
            }
        }
        let same = products.iter().zip(&t.coef[from..to]).all(|(p, a)| p / sum == *a && ordinary(*a));
        (same && to > from).then_some(Row { e, from, to, k })
    };
    (0..b.centroids.len()).filter_map(row).collect()
}

/// "differs from 1 by at most k·2 to the power −52": the share of that, and whether it holds.
fn near_one(coef: &[f64], k: u128) -> (f64, bool) {
    let sum = coef.iter().fold(Whole::of(0, 0), |sum, a| sum.plus(Whole::amount(*a)));
    let (off, bound) = (sum.apart(Whole::of(1, 1074)), Whole::of(k, 1022));
    (off.over(bound), off <= bound)
}

fn weights(b: &Build) -> Vec<(f64, bool)> {
    let Some(t) = b.built() else { return Vec::new() };
    ordinary_rows(b, &t).iter().map(|r| near_one(&t.coef[r.from..r.to], r.k)).collect()
}

/// A design, the element that is nudged, and its new value.
struct Nudged {
    build: Build,
    design: Vec<f64>,
    i: usize,
    v: f64,
}
fields!(Nudged: build, design, i, v);

impl Nudged {
    fn random(g: &mut Gen, build: Build) -> Nudged {
        let value = |g: &mut Gen| match g.below(6) {
            0 => 0.001,
            1 => 1.0,
            2 => 1.0f64.next_down(),
            _ => 0.001 + 0.999 * g.unit(),
        };
        let even = g.below(4) == 0;
        let first = value(g);
        let design: Vec<f64> = build.centroids.iter().map(|_| if even { first } else { value(g) }).collect();
        let i = g.below(design.len());
        let v = match (g.below(4), design.get(i)) {
            (0, Some(old)) => old.next_up().min(1.0),
            _ => value(g),
        };
        Nudged { build, design, i, v }
    }
}

/// "moves by at most its weight for that element times the change, plus k·2 to the power −51": the share of that, of what is past the weight times the
/// change, and whether it holds. Numbers from 0.001 to 1 are whole numbers of 2 to the power −62.
fn moved([old, new]: [f64; 2], weight: f64, change: [f64; 2], k: u128) -> (f64, bool) {
    let [a, b] = change.map(|x| (x * 2f64.powi(62)) as u64);
    let (m, shift) = parts(weight);
    let exact = Whole::of(u128::from(m) * u128::from(a.abs_diff(b)), shift + 1074 - 62);
    let far = Whole::amount(old).apart(Whole::amount(new)).times_one();
    let bound = Whole::of(k, 2097);
    let past = if far > exact { far.apart(exact) } else { Whole::of(0, 0) };
    (past.over(bound), past <= bound)
}

fn moves(n: &Nudged) -> Vec<(f64, bool)> {
    let Some(t) = n.build.built() else { return Vec::new() };
    let mut changed = n.design.clone();
    changed[n.i] = n.v;
    let filtered = |x: &[f64]| {
        let mut out = vec![f64::NAN; x.len()];
        t.ours().apply(x, &mut out);
        out
    };
    let (old, new) = (filtered(&n.design), filtered(&changed));
    let row = |e: usize| t.starts[e] as usize..t.starts[e + 1] as usize;
    let weight = |e: usize| row(e).find(|p| t.near[*p] as usize == n.i).map(|p| t.coef[p]);
    // "A row without that element gives equal bits."
    let equal = (0..old.len()).filter(|e| weight(*e).is_none()).map(|e| (0.0, old[e].to_bits() == new[e].to_bits()));
    let met = ordinary_rows(&n.build, &t).into_iter().filter_map(|r| {
        let a = weight(r.e)?;
        Some(moved([old[r.e], new[r.e]].map(ieee::clamp), a, [n.design[n.i], n.v], r.k))
    });
    equal.chain(met).collect()
}

#[cfg(test)]
mod tests {
    use super::*;

    #[test]
    fn past_the_bound() {
        let third = 1.0 / 3.0;
        assert!(near_one(&[third; 3], 3).1 && !near_one(&[third; 2], 2).1);
        // 2 to the power −52 for each of two, and the next float.
        assert_eq!(near_one(&[0.5, 0.5 + 2f64.powi(-51)], 2), (1.0, true));
        assert!(!near_one(&[0.5, (0.5 + 2f64.powi(-51)).next_up()], 2).1);
        assert!(near_one(&[1.0], 0).1 && !near_one(&[1.0f64.next_down()], 0).1);
    }

    #[test]
    fn past_the_move() {
        // One element: the density is the design value itself.
        assert_eq!(moved([0.5, 0.75], 1.0, [0.5, 0.75], 1), (0.0, true));
        assert_eq!(moved([0.75, 0.5], 1.0, [0.75, 0.5], 1), (0.0, true));
        // 2 to the power −51 more than the change, and the next float.
        assert_eq!(moved([0.5, 0.75 + 2f64.powi(-51)], 1.0, [0.5, 0.75], 1), (1.0, true));
        assert!(!moved([0.5, (0.75 + 2f64.powi(-51)).next_up()], 1.0, [0.5, 0.75], 1).1);
        // A weight of a half.
        assert!(moved([0.5, 0.625], 0.5, [0.5, 0.75], 1).1 && !moved([0.5, 0.75], 0.5, [0.5, 0.75], 1000).1);
    }
}
