//! The filter: its table's build, and the two products with it.
use crate::compare::Run;
use crate::fields;
use crate::inputs::{Gen, cube_edge};
use crate::lists::{Lists, elements, number, table};
use crate::plain::{mirrors, shape_refused, volume_outside};
use sokdrib::filter::{self, BITS, Into, Work};
use tenon::topo::Filter;

pub fn all(run: &mut Run) {
    let long = if run.long { huge() } else { Vec::new() };
    run.jobs("filter_build", 250, long, Build::random, build_theirs, build_ours);
    products(run);
}

/// Elements, and how long the lists are that are lent for their table, all filled with something.
#[derive(Clone)]
pub struct Build {
    pub centroids: Vec<[f64; 3]>,
    pub volumes: Vec<f64>,
    pub radius: f64,
    pub planes: Vec<[f64; 6]>,
    /// starts, near, coef, then the working lists
    lent: [usize; 11],
}
fields!(Build: centroids, volumes, radius, planes, lent);

/// Where elements lie: how far apart they are about, and where the first of them is.
fn middles(g: &mut Gen, n: usize) -> (Vec<[f64; 3]>, f64) {
    let spacing = g.pick(&[1.0, 1.0, 1.0, 0.1, 3.7, 1000.0]);
    let across = (n as f64).cbrt().ceil();
    let flat = g.below(8) == 0;
    let point = |k: usize| -> [f64; 3] {
        let (i, j, l) = (k % across as usize, k / across as usize % across as usize, k / (across * across) as usize);
        let at = if flat { [i, j + l * across as usize, 0] } else { [i, j, l] };
        at.map(|v| v as f64 * spacing)
    };
    let side = spacing * across;
    let kind = g.below(8);
    let at: [f64; 3] = match kind {
        // Where rounding moves a middle from one cube to the next.
        0 => std::array::from_fn(|_| 2f64.powi(g.below(20) as i32) * g.pick(&[1.0, -1.0])),
        1 => std::array::from_fn(|_| g.pick(&[1e6, -1e6]) * (1.0 - 1e-3 * g.unit())),
        _ => std::array::from_fn(|_| g.signed() * 10.0),
    };
    let all = (0..n).map(|k| {
        let p = match kind {
            2 | 3 => point(k),
            4 => point(g.pick(&[k, k / 2, 0])),
            5 => point(k).map(|v| v + g.signed() * 1e-9),
            _ => std::array::from_fn(|_| side * g.unit()),
        };
        let p: [f64; 3] = std::array::from_fn(|i| (at[i] + p[i]).clamp(-1e6, 1e6));
        if kind == 0 { p.map(|v| g.nudged(v)) } else { p }
    });
    (all.collect(), spacing)
}

/// Planes at right angles to each other, along the axes or not, through the middles or past them.
fn planes(g: &mut Gen, middles: &[[f64; 3]]) -> Vec<[f64; 6]> {
    let count = g.pick(&[0, 0, 0, 1, 1, 2, 3]);
    let unit = |v: [f64; 3]| {
        let len = v.iter().map(|c| c * c).sum::<f64>().sqrt();
        v.map(|c| c / len)
    };
    let cross = |a: [f64; 3], b: [f64; 3]| [a[1] * b[2] - a[2] * b[1], a[2] * b[0] - a[0] * b[2], a[0] * b[1] - a[1] * b[0]];
    let (mut a, mut b) = ([1.0, 0.0, 0.0], [0.0, 1.0, 0.0]);
    if g.below(2) == 0 {
        a = unit(std::array::from_fn(|_| g.signed()));
        b = unit(cross(a, unit(std::array::from_fn(|_| g.signed()))));
    }
    let normals = [a, b, cross(a, b)];
    let off = g.pick(&[0.0, 0.0, 0.5, 3.0, 1e4]);
    (0..count)
        .map(|k| {
            let p = middles[g.below(middles.len())].map(|v| (v + off * g.signed()).clamp(-1e6, 1e6));
            let scale = g.pick(&[1.0, 1.0, -2.0, 1e-6]);
            let n = normals[k].map(|v| v * scale);
            [p[0], p[1], p[2], n[0], n[1], n[2]]
        })
        .collect()
}

pub fn vectors(points: &[[f64; 3]]) -> Vec<tenon::Vec3> {
    points.iter().map(|p| tenon::Vec3::new(p[0], p[1], p[2])).collect()
}

/// What each list needs, but for `near` and `coef`.
fn needs(n: usize) -> [usize; 11] {
    [n + 1, 0, 0, n, n, n + 1, n, n, n, n, BITS]
}

/// Middles, a radius and planes.
type Part = (Vec<[f64; 3]>, f64, Vec<[f64; 6]>);

/// Elements anywhere, most with some tens of neighbours at the most.
fn spread(g: &mut Gen) -> Part {
    let n = match g.below(64) {
        0 => 500 + g.below(2000),
        1..8 => 40 + g.below(200),
        _ => 1 + g.below(30),
    };
    let (centroids, spacing) = middles(g, n);
    let planes = planes(g, &centroids);
    let radius = match g.below(16) {
        0 => 0.001,
        1 if n < 100 => 1e6,
        2 => spacing,
        3 => spacing * 2f64.sqrt(),
        4 => spacing * 1e-2,
        _ => spacing * (0.3 + 2.2 * g.unit()),
    };
    (centroids, g.nudged(radius), planes)
}

/// Elements at an edge of the cubes.
fn at_an_edge(g: &mut Gen) -> Part {
    let n = 2 + g.below(16);
    let (middles, radius, plane) = cube_edge(g, n);
    let planes = if g.below(4) == 0 { vec![plane] } else { planes(g, &middles) };
    (middles, radius, planes)
}

impl Build {
    /// With lists just long enough.
    pub fn of(centroids: Vec<[f64; 3]>, volumes: Vec<f64>, radius: f64, planes: Vec<[f64; 6]>) -> Build {
        let mut b = Build { lent: [0; 11], centroids, volumes, radius, planes };
        b.lend();
        b
    }

    pub fn random(g: &mut Gen) -> Build {
        let (centroids, radius, planes) = if g.below(8) == 0 { at_an_edge(g) } else { spread(g) };
        let n = centroids.len();
        let even = g.below(4) > 0;
        let tiny = g.below(8) == 0;
        let volume = |g: &mut Gen| match g.below(8) {
            0 if tiny => g.pick(&[1e-320, 1e-300, f64::MIN_POSITIVE, 1e20, 1.0]),
            _ if tiny => 5e-324,
            0 if !even => 10f64.powi(g.below(60) as i32 - 40),
            _ if even => 1.0,
            _ => 0.1 + g.unit(),
        };
        let volumes: Vec<f64> = (0..n).map(|_| volume(g)).collect();
        let mut b = Build::of(centroids, volumes, radius, planes);
        match g.below(32) {
            // One place short of what it needs, or of one row's end.
            0 => b.lent[g.pick(&[0, 1, 2, 3, 4, 5, 6, 7, 8, 9, 10])] -= 1,
            1 => b.lent[1 + g.below(2)] = g.below(b.lent[1]),
            2 => b.lent.iter_mut().for_each(|l| *l += g.below(4)),
            3 => drop(b.volumes.pop()),
            4 => b.planes = vec![[0.0, 0.0, 0.0, 1.0, 0.0, 0.0]; 4],
            5 => drop(b.centroids.pop()),
            // At a limit of the domain or past it, mostly in one respect alone: of two the first in 01's order is told.
            6..12 => (0..1 + g.below(2)).for_each(|_| b.strain(g)),
            _ => {}
        }
        b
    }

    /// One number at a limit of the domain, at the next float on either side, or no number at all.
    fn strain(&mut self, g: &mut Gen) {
        let (least, most) = (g.pick(&[0.0, -1.0, f64::NAN]), g.pick(&[f64::INFINITY, f64::NEG_INFINITY, f64::NAN]));
        let coordinate = |g: &mut Gen| {
            let edge: f64 = g.pick(&[1e6, -1e6]);
            g.pick(&[edge, edge.next_up(), edge.next_down(), most])
        };
        let (n, planes) = (self.volumes.len(), self.planes.len());
        match g.below(5) {
            0 => self.volumes[g.below(n)] = g.pick(&[least, most, 1e20, 1e20f64.next_up(), 5e-324]),
            1 => self.radius = g.pick(&[least, most, 0.001, 0.001f64.next_down(), 1e6, 1e6f64.next_up()]),
            2 => self.centroids[g.below(n)][g.below(3)] = coordinate(g),
            3 if planes > 0 => self.planes[g.below(planes)][g.below(6)] = coordinate(g),
            // A normal just long enough or not, and two that are just square to each other or not.
            3 => self.planes = vec![[0.0, 0.0, 0.0, g.pick(&[1e-12, 1e-12f64.next_up(), 0.0]), 0.0, 0.0]],
            _ => {
                let lean = g.pick(&[1e-9, 1e-9f64.next_up(), 1e-9f64.next_down(), 1e-7, 1.0]);
                self.planes = vec![[0.0, 0.0, 0.0, 1.0, 0.0, 0.0], [0.0, 0.0, 0.0, lean, 1.0, 0.0]];
            }
        }
    }

    /// Lists just long enough.
    fn lend(&mut self) {
        let filter = Filter::new(&vectors(&self.centroids), &self.volumes, self.radius, &mirrors(&self.planes)).unwrap_or_default();
        self.lent = needs(self.centroids.len());
        (self.lent[1], self.lent[2]) = (filter.near.len(), filter.coef.len());
    }

    /// The table that the library builds, where it does.
    pub fn built(&self) -> Option<Lists> {
        let (mut t, mut w) = (self.table(), self.work());
        let into = Into { starts: &mut t.starts, near: &mut t.near, coef: &mut t.coef };
        filter::build(&self.centroids, &self.volumes, self.radius, &self.planes, into, &mut w).ok().map(|()| t)
    }

    fn table(&self) -> Lists {
        Lists { starts: vec![7; self.lent[0]], near: vec![7; self.lent[1]], coef: vec![7.5; self.lent[2]] }
    }

    fn work(&self) -> Work {
        let [_, _, _, cell, order, first, sorted, stamp, weight, found, bits] = self.lent;
        Work {
            cell: vec![[7; 3]; cell],
            order: vec![7; order],
            first: vec![7; first],
            sorted: vec![[7.5; 3]; sorted],
            stamp: vec![7; stamp],
            weight: vec![7.5; weight],
            found: vec![7; found],
            bits: vec![7; bits],
        }
    }
}

/// The most elements; none and too many; and tables at both sides of 512 MB, whose every row has every element.
fn huge() -> Vec<Build> {
    let mut g = Gen::of(1, "huge");
    let mut all = Vec::new();
    for (n, radius) in [(65_535, 1.4), (65_535, 0.5), (65_536, 1.0), (0, 1.0)] {
        let mut b = Build { lent: needs(n), centroids: middles(&mut g, n).0, volumes: vec![1.0; n], radius, planes: Vec::new() };
        if n == 65_535 {
            b.lend();
        }
        all.push(b);
    }
    for (n, places) in [(6_688, 6_688 * 6_688), (6_689, 44_739_242), (6_689, 44_000_000), (6_688, 6_688 * 6_688 - 1)] {
        let mut b = Build { lent: needs(n), centroids: middles(&mut g, n).0, volumes: vec![1.0; n], radius: 1e6, planes: Vec::new() };
        (b.lent[1], b.lent[2]) = (places, places);
        all.push(b);
    }
    all
}

/// Of a working list what is past its needs; where the build is refused, all.
pub fn left<T: Clone>(number: u32, needed: usize, list: &[T]) -> Vec<T> {
    if number == 0 { list[needed..].to_vec() } else { list.to_vec() }
}

/// The refusal, the table's lists, and what is compared of the working lists.
type Built = (u32, Lists, Worked);

#[derive(Clone)]
struct Worked {
    cell: Vec<[u64; 3]>,
    sorted: Vec<[f64; 3]>,
    weight: Vec<f64>,
    bits: Vec<u64>,
    numbers: [Vec<u32>; 4],
}
fields!(Worked: cell, sorted, weight, bits, numbers);

fn worked(k: u32, n: usize, w: &Work) -> Worked {
    Worked {
        cell: left(k, n, &w.cell),
        sorted: left(k, n, &w.sorted),
        weight: left(k, n, &w.weight),
        bits: left(k, BITS, &w.bits),
        numbers: [left(k, n, &w.order), left(k, n + 1, &w.first), left(k, n, &w.stamp), left(k, n, &w.found)],
    }
}

fn build_theirs(b: Build) -> Built {
    let n = b.centroids.len();
    let (mut t, mut w) = (b.table(), b.work());
    let shape = shape_refused(b.radius, &b.centroids, &b.planes);
    let early = if b.volumes.len() != n {
        1
    } else if n == 0 {
        2
    } else if n > 65_535 {
        3
    } else if b.volumes.iter().any(|v| volume_outside(*v)) {
        4
    } else if shape != 0 {
        shape
    } else if b.lent.iter().zip(needs(n)).any(|(has, needs)| *has < needs) {
        14
    } else {
        0
    };
    if early != 0 {
        return (early, t, worked(early, n, &w));
    }
    let places = t.near.len().min(t.coef.len());
    let late = match Filter::new(&vectors(&b.centroids), &b.volumes, b.radius, &mirrors(&b.planes)) {
        // 13 comes first only where every row before ends within the lists.
        Err(_) if places >= 44_739_242 => 13,
        Err(_) => 14,
        Ok(filter) if filter.near.len() > places => 14,
        Ok(filter) => {
            t.starts[..=n].copy_from_slice(&filter.start);
            t.near[..filter.near.len()].copy_from_slice(&filter.near);
            t.coef[..filter.coef.len()].copy_from_slice(&filter.coef);
            0
        }
    };
    if late != 0 {
        t = Lists { starts: vec![0; t.starts.len()], near: vec![0; t.near.len()], coef: vec![0.0; t.coef.len()] };
        w.cell.fill([0; 3]);
        w.sorted.fill([0.0; 3]);
        w.weight.fill(0.0);
        w.bits.fill(0);
        [&mut w.order, &mut w.first, &mut w.stamp, &mut w.found].into_iter().for_each(|l| l.fill(0));
    }
    (late, t, worked(late, n, &w))
}

fn build_ours(b: Build) -> Built {
    let (mut t, mut w) = (b.table(), b.work());
    let into = Into { starts: &mut t.starts, near: &mut t.near, coef: &mut t.coef };
    let k = number(&filter::build(&b.centroids, &b.volumes, b.radius, &b.planes, into, &mut w));
    (k, t, worked(k, b.centroids.len(), &w))
}

/// Any table, well formed or not, and a list of any length: what is past its end counts as 0.
fn products(run: &mut Run) {
    let apply = |g: &mut Gen| -> (Lists, Vec<f64>) {
        let n = elements(g);
        let x = match g.below(8) {
            0 => (0..g.below(n + 4)).map(|_| g.float()).collect(),
            1 => (0..n).map(|_| g.float()).collect(),
            _ => (0..n).map(|_| g.unit()).collect(),
        };
        (table(g, n), x)
    };
    run.jobs(
        "apply",
        20,
        [],
        apply,
        |(t, x)| t.theirs().apply(&x),
        |(t, x)| {
            let mut out = vec![f64::NAN; t.starts.len() - 1];
            t.ours().apply(&x, &mut out);
            out
        },
    );
    let back = |g: &mut Gen| -> (Lists, Vec<f64>) {
        let n = elements(g);
        let any = g.below(4) == 0;
        (table(g, n), (0..n).map(|_| if any { g.float() } else { g.signed() }).collect())
    };
    run.jobs(
        "back",
        20,
        [],
        back,
        |(t, x)| t.theirs().back(&x),
        |(t, x)| {
            let mut out = vec![f64::NAN; x.len()];
            t.ours().back(&x, &mut out);
            out
        },
    );
}

#[cfg(test)]
mod tests {
    use super::*;
    use std::collections::BTreeMap;

    /// That the random builds reach what they are meant for.
    #[test]
    fn builds_of_every_kind() {
        let mut g = Gen::of(1, "filter_build");
        let mut seen: BTreeMap<String, usize> = BTreeMap::new();
        for _ in 0..4000 {
            let b = Build::random(&mut g);
            let (number, t, _) = build_theirs(b.clone());
            let mut count = |what: String| *seen.entry(what).or_default() += 1;
            count(format!("refused {number}"));
            if number == 14 {
                count(format!("14 {}", if t.starts.first() == Some(&0) { "zeroed" } else { "kept" }));
            }
            if number == 0 {
                count(format!("{} planes", b.planes.len()));
                count(if t.coef.iter().any(|c| c.is_nan()) { "0/0".into() } else { "numbers".into() });
                count(if t.near.len() == b.centroids.len() { "rows of one".into() } else { "rows of more".into() });
            }
        }
        let wanted = [
            "refused 0",
            "refused 1",
            "refused 4",
            "refused 8",
            "refused 9",
            "refused 10",
            "refused 11",
            "refused 12",
            "14 zeroed",
            "14 kept",
            "0 planes",
            "1 planes",
            "2 planes",
            "3 planes",
            "0/0",
            "rows of one",
        ];
        for what in wanted {
            assert!(seen.get(what).is_some_and(|n| *n >= 10), "{what}: {seen:?}");
        }
    }
}
