//! Tetrahedra of ten nodes, points about a plane, and the filter's table of eight elements.
use tenon::Vec3;
use tenon::mesh::TetMesh;
use tenon::topo::{Filter, Mirror, region};

use crate::inputs::{Gen, Point, cube_edge};
use crate::sample::Sample;

const ELEMENTS: usize = 8;
const ENTRIES: usize = 64;

fn vector([x, y, z]: Point) -> Vec3 {
    Vec3::new(x, y, z)
}

pub fn all(s: &mut Sample) {
    s.section(17, "tetrahedron", [], 100, tetrahedron, measured);
    s.section(22, "off_centre", [], 60, |g| (std::array::from_fn::<_, 8, _>(|_| near(g)), [near(g), normal(g)]), off_centre);
    let mut g = Gen::of(1, "cubes");
    s.section(18, "filter", std::array::from_fn::<_, 30, _>(|_| at_an_edge(&mut g)), 30, elements, |job| table(job, []));
    s.section(19, "filter of two planes", [], 30, |g| (elements(g), planes(g)), |(job, planes)| table(job, planes));
}

/// Ten nodes, and ten of them; now and then one that is not there.
fn tetrahedron(g: &mut Gen) -> ([Point; 10], [u32; 10]) {
    let grid = g.below(4) == 0;
    let nodes = std::array::from_fn(|_| std::array::from_fn(|_| if grid { g.below(4) as f64 } else { g.signed() * 100.0 }));
    let past = g.below(8) == 0;
    (nodes, std::array::from_fn(|_| if past && g.below(4) == 0 { g.pick(&[10, u32::MAX]) } else { g.below(10) as u32 }))
}

/// Its volume, its corner volume, its middle, and the extent of the nodes.
fn measured((nodes, tet): ([Point; 10], [u32; 10])) -> [f64; 6] {
    let mesh = TetMesh { nodes: nodes.map(vector).to_vec(), ..TetMesh::default() };
    let middle = mesh.centroid(&tet);
    [mesh.volume(&tet), mesh.corner_volume(&tet), middle.x, middle.y, middle.z, mesh.extent()]
}

fn near(g: &mut Gen) -> Point {
    std::array::from_fn(|_| if g.below(2) == 0 { g.below(3) as f64 } else { g.signed() })
}

fn normal(g: &mut Gen) -> Point {
    g.pick(&[[1.0, 0.0, 0.0], [0.0, -2.0, 0.0], [0.6, 0.0, 0.8], [1.0, 1.0, 1.0]])
}

/// 0, or 1 and how far the points reach to each side of a plane.
fn off_centre((points, [point, normal]): ([Point; 8], [Point; 2])) -> (bool, [f64; 2]) {
    let mirror = Mirror { point: vector(point), normal: vector(normal) };
    match region::off_centre(points.into_iter().map(vector), &mirror) {
        Some((to, other)) => (true, [to, other]),
        None => (false, [0.0, 0.0]),
    }
}

/// Middles on a grid, so that distances equal to the radius come up, or anywhere; volumes; a radius.
fn elements(g: &mut Gen) -> (([Point; ELEMENTS], [f64; ELEMENTS]), f64) {
    let grid = g.below(2) == 0;
    let middles = std::array::from_fn(|_| std::array::from_fn(|_| if grid { g.below(3) as f64 } else { g.signed() * 2.0 }));
    let volumes = std::array::from_fn(|_| 0.5 + g.unit());
    ((middles, volumes), if grid { g.pick(&[1.0, 2.0, 1.5]) } else { 0.2 + 2.0 * g.unit() })
}

/// Middles whose cubes can lie two apart though they are nearer than the radius.
fn at_an_edge(g: &mut Gen) -> (([Point; ELEMENTS], [f64; ELEMENTS]), f64) {
    let (middles, radius, _) = cube_edge(g, ELEMENTS);
    ((middles.try_into().expect("eight middles"), std::array::from_fn(|_| 0.5 + g.unit())), radius)
}

/// Two planes at right angles, through points near the middles.
fn planes(g: &mut Gen) -> [[f64; 6]; 2] {
    let at: Point = std::array::from_fn(|_| g.pick(&[0.0, 1.0, 0.5]));
    let (a, b) = g.pick(&[(0, 1), (1, 2), (2, 0)]);
    let normal = |axis: usize, size: f64| -> Point { std::array::from_fn(|k| if k == axis { size } else { 0.0 }) };
    [normal(a, 1.0), normal(b, -2.0)].map(|n| [at[0], at[1], at[2], n[0], n[1], n[2]])
}

type Table = ([u32; ELEMENTS + 1], ([u32; ENTRIES], [f64; ENTRIES]));

/// The three lists, zero behind the last entry.
fn table<const N: usize>(((middles, volumes), radius): (([Point; ELEMENTS], [f64; ELEMENTS]), f64), planes: [[f64; 6]; N]) -> Table {
    let mirrors = planes.map(|p| Mirror { point: vector([p[0], p[1], p[2]]), normal: vector([p[3], p[4], p[5]]) });
    let filter = Filter::new(&middles.map(vector), &volumes, radius, &mirrors).expect("planes at right angles");
    let (mut near, mut coef) = ([0; ENTRIES], [0.0; ENTRIES]);
    near[..filter.near.len()].copy_from_slice(&filter.near);
    coef[..filter.coef.len()].copy_from_slice(&filter.coef);
    (filter.start.try_into().expect("a start for each row and the end"), (near, coef))
}
