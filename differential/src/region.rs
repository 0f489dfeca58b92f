//! Regions: `passive`, `asymmetry` and `off_centre`.
use std::collections::BTreeMap;

use crate::compare::Run;
use crate::fields;
use crate::filter::left;
use crate::inputs::{Gen, cell_edge, needles};
use crate::lists::number;
use crate::mesh::{outside, stored, tet, vector};
use sokdrib::geom;
use sokdrib::region::{self, AsymmetryWork, Kept, PassiveWork};
use tenon::Vec3;
use tenon::faces::dist2_to_triangle;
use tenon::mesh::{TetMesh, Tri6};
use tenon::problem::{Material, Problem};
use tenon::topo::Mirror;
use tenon::topo::region as original;

pub fn all(run: &mut Run) {
    run.jobs("passive", 50, large(run.long), Passive::random, passive_theirs, passive_ours);
    run.jobs("asymmetry", 40, many(run.long), Soup::random, asymmetry_theirs, asymmetry_ours);
    run.jobs("asymmetry_tree", 40, many(run.long), Soup::random, tree_theirs, tree_ours);
    run.jobs("off_centre", 20, points(), Points::random, off_centre_theirs, off_centre_ours);
}

/// A mesh's boundary triangles: the nodes of each, and its surface.
type Boundary = (Vec<[u32; 6]>, Vec<u32>);

fn boundary(mesh: &TetMesh) -> Boundary {
    mesh.tris.iter().map(|t| (t.nodes, t.surface)).unzip()
}

/// The first refusals of a call with a boundary.
fn refused(elements: usize, nodes: &[[f64; 3]], tris: &[[u32; 6]]) -> u32 {
    if elements > 65_535 || tris.len() > 65_535 || nodes.len() > 1_048_576 {
        3
    } else if tris.iter().flatten().any(|n| *n as usize >= nodes.len()) {
        21
    } else if nodes.iter().any(|p| outside(*p)) {
        9
    } else {
        0
    }
}

/// The first number that is not 0.
fn first(numbers: impl IntoIterator<Item = u32>) -> u32 {
    numbers.into_iter().find(|n| *n != 0).unwrap_or(0)
}

fn short<const N: usize>(lent: [usize; N], needs: [usize; N]) -> bool {
    lent.iter().zip(needs).any(|(has, needs)| *has < needs)
}

/// A lattice of so many nodes a side, a soup of points or points that are close to each other, somewhere in the domain.
fn scatter(g: &mut Gen, n: usize) -> Vec<[f64; 3]> {
    let kind = g.below(8);
    let size = g.pick(&[1.0, 1.0, 10.0, 1000.0, 1e-3]);
    let at: [f64; 3] = match g.below(6) {
        0 => std::array::from_fn(|_| g.pick(&[1e6, -1e6, 65_536.0]) * (1.0 - 0.01 * g.unit())),
        1 => std::array::from_fn(|_| g.signed() * 100.0),
        _ => [0.0; 3],
    };
    let point = |g: &mut Gen| match kind {
        0 => std::array::from_fn(|_| g.pick(&[-1.0, -0.0, 0.0, 1.0]) * size),
        1 | 2 => std::array::from_fn(|_| (g.below(5) as f64 - 2.0) * size),
        3 => std::array::from_fn(|i| if i == 2 { 0.0 } else { g.below(4) as f64 * size }),
        4 => std::array::from_fn(|_| g.pick(&[-0.0, 0.0, 5e-324, -5e-324, 1e-300, 1e-160])),
        _ => std::array::from_fn(|_| g.signed() * size),
    };
    (0..n)
        .map(|_| {
            let p: [f64; 3] = point(g);
            if at == [0.0; 3] { p } else { std::array::from_fn(|i| (at[i] + p[i]).clamp(-1e6, 1e6)) }
        })
        .collect()
}

/// Triangles of any nodes; some without area, their corners one or two nodes.
fn triangles(g: &mut Gen, n: usize, nodes: usize) -> Vec<[u32; 6]> {
    let flat = g.below(4) == 0;
    let mut one = || {
        let mut t: [u32; 6] = std::array::from_fn(|_| g.below(nodes) as u32);
        if flat && g.below(3) == 0 {
            t[1 + g.below(2)] = t[0];
        }
        t
    };
    (0..n).map(|_| one()).collect()
}

/// Puts a coordinate outside the domain, or at its edge, now and then.
fn spoil(g: &mut Gen, nodes: &mut [[f64; 3]], often: usize) {
    if !nodes.is_empty() && g.below(often) == 0 {
        let (p, k) = (g.below(nodes.len()), g.below(3));
        nodes[p][k] = g.pick(&[1e6, 1e6f64.next_up(), -1e6, -1e6f64.next_up(), f64::NAN, f64::INFINITY, f64::NEG_INFINITY]);
    }
}

/// Lets a triangle name a node that is not there, now and then.
fn misname(g: &mut Gen, tris: &mut [[u32; 6]], nodes: usize, often: usize) {
    if !tris.is_empty() && g.below(often) == 0 {
        let (t, k) = (g.below(tris.len()), g.below(6));
        tris[t][k] = g.pick(&[nodes as u32, u32::MAX, nodes as u32 + 1, 1 << 31]);
    }
}

/// A problem, and how long the lists are that are lent for the marks and to work in: marks, keep, centroids, cells, order, place, first.
#[derive(Clone)]
struct Passive {
    nodes: Vec<[f64; 3]>,
    tets: Vec<[u32; 10]>,
    tris: Vec<[u32; 6]>,
    surfaces: Vec<u32>,
    held: Vec<u32>,
    loaded: Vec<u32>,
    starts: Vec<u32>,
    kept: Vec<u32>,
    depths: Vec<f64>,
    lent: [usize; 7],
}
fields!(Passive: nodes, tets, tris, surfaces, held, loaded, starts, kept, depths, lent);

impl Passive {
    fn needs(&self) -> [usize; 7] {
        let n = self.tets.len();
        [n, self.nodes.len(), n, n, n, n, n + 1]
    }

    /// Whether a set that is not empty ends past the end of `kept`.
    fn cut(&self) -> bool {
        self.starts.windows(2).take(self.depths.len()).any(|w| w[0] < w[1] && w[1] as usize > self.kept.len())
    }

    /// The Rust's sets. A not-a-number with a sign is a depth that is given, without one a depth that is absent.
    fn sets(&self) -> Vec<(Vec<u32>, Option<f64>)> {
        let set = |s: usize| {
            let (from, to) = (self.starts[s] as usize, self.starts[s + 1] as usize);
            if from < to { self.kept[from..to].to_vec() } else { Vec::new() }
        };
        let depth = |d: f64| (!d.is_nan() || d.is_sign_negative()).then_some(d);
        self.depths.iter().enumerate().map(|(s, d)| (set(s), depth(*d))).collect()
    }

    fn mesh(&self) -> TetMesh {
        TetMesh {
            nodes: self.nodes.iter().map(|p| vector(*p)).collect(),
            tets: self.tets.clone(),
            tris: self.tris.iter().zip(&self.surfaces).map(|(nodes, surface)| Tri6 { surface: *surface, nodes: *nodes }).collect(),
            ..TetMesh::default()
        }
    }

    fn marks(&self) -> Vec<bool> {
        (0..self.lent[0]).map(|k| k % 3 == 1).collect()
    }

    fn work(&self) -> PassiveWork {
        let [_, keep, centroids, cells, order, place, first] = self.lent;
        PassiveWork {
            keep: vec![true; keep],
            centroids: vec![[7.5; 3]; centroids],
            cells: vec![[7; 3]; cells],
            order: vec![7; order],
            place: vec![7; place],
            first: vec![7; first],
        }
    }

    /// A box's mesh, maybe with its nodes moved, and nothing kept yet. Half of them have cells whose middles are at exact distances.
    fn block(g: &mut Gen, cells: [usize; 3]) -> Passive {
        let side = g.pick(&[1.0, 0.5, 4.0]);
        let (size, moved, by) = match g.below(2) {
            0 => (cells.map(|c| c as f64 * side), 0.0, g.pick(&[0.0, -3.25])),
            _ => (cells.map(|_| 20.0 * g.unit()), g.pick(&[0.0, 1e-3, 0.3, 1e-12]), g.pick(&[0.0, 1e5])),
        };
        let mesh = TetMesh::block(cells, vector(size));
        let (tris, surfaces) = boundary(&mesh);
        let nodes = mesh.nodes.iter().map(|p| stored(*p).map(|v| v + by + moved * g.signed())).collect();
        Passive { nodes, tets: mesh.tets, tris, surfaces, ..Passive::none() }
    }

    fn none() -> Passive {
        Passive {
            nodes: Vec::new(),
            tets: Vec::new(),
            tris: Vec::new(),
            surfaces: Vec::new(),
            held: Vec::new(),
            loaded: Vec::new(),
            starts: vec![0],
            kept: Vec::new(),
            depths: Vec::new(),
            lent: [0; 7],
        }
    }

    /// Any tetrahedra and triangles over a few nodes.
    fn soup(g: &mut Gen) -> Passive {
        let n = 1 + g.below(30);
        let (tets, tris) = (g.below(40), g.below(30));
        Passive {
            nodes: scatter(g, n),
            tets: (0..tets).map(|_| tet(g, n)).collect(),
            tris: triangles(g, tris, n),
            surfaces: (0..tris).map(|_| g.below(5) as u32).collect(),
            ..Passive::none()
        }
    }

    /// Triangles and middles at the edges of cells, and the set of all triangles.
    fn at_an_edge(g: &mut Gen) -> Passive {
        let (triangles, middles) = (1 + g.below(3), 1 + g.below(6));
        let (corners, middles, depth) = cell_edge(g, triangles, middles);
        let mut p = Passive::none();
        p.nodes = corners.iter().flatten().chain(&middles).copied().collect();
        p.tris = (0..triangles as u32).map(|t| [0, 1, 2, 0, 1, 2].map(|k| 3 * t + k)).collect();
        p.surfaces = vec![1; triangles];
        // All corners of a tetrahedron are one node, so that its middle is there.
        p.tets = (0..middles.len()).map(|e| [(3 * triangles + e) as u32; 10]).collect();
        p.keep(&[1], depth);
        p
    }

    /// A set of surfaces more, to a depth.
    fn keep(&mut self, surfaces: &[u32], depth: f64) {
        self.kept.extend(surfaces);
        self.starts.push(self.kept.len() as u32);
        self.depths.push(depth);
    }

    fn corners(&self, t: usize) -> [Vec3; 3] {
        [0, 1, 2].map(|i| vector(self.nodes[self.tris[t][i] as usize]))
    }

    /// A depth for a set: just reaching a middle, about a triangle's side, of any size in the domain, outside it, or none.
    fn depth(&self, g: &mut Gen, set: &[u32]) -> f64 {
        let tris: Vec<usize> = (0..self.tris.len()).filter(|t| set.contains(&self.surfaces[*t])).collect();
        let own = if self.tets.is_empty() || tris.is_empty() { g.below(4) } else { g.below(16) };
        let depth = match own {
            0 => return g.pick(&[f64::NAN, -f64::NAN, f64::INFINITY, f64::NEG_INFINITY, 0.0, -0.0, -1.0]),
            1 => g.pick(&[0.001, 1e6, 1.0, 0.5, 2.0]),
            2 => 10f64.powf(9.0 * g.unit() - 3.0),
            3 => 4.0 * g.unit(),
            4..8 => {
                let [a, b, c] = self.corners(g.pick(&tris));
                g.pick(&[a.dist(b), b.dist(c), c.dist(a)]) * g.pick(&[1.0, 1.0, 1.0, 0.5, 2.0])
            }
            _ => {
                // The least distance to the set, of a middle.
                let middle = self.mesh().centroid(&self.tets[g.below(self.tets.len())]);
                let dist2 = |t: &usize| {
                    let [a, b, c] = self.corners(*t);
                    dist2_to_triangle(middle, a, b, c)
                };
                tris.iter().map(dist2).fold(f64::INFINITY, f64::min).sqrt()
            }
        };
        let depth = g.nudged(depth);
        if depth.is_finite() && depth > 0.0 { depth.clamp(0.001, 1e6) } else { depth }
    }

    fn random(g: &mut Gen) -> Passive {
        let mut p = match g.below(64) {
            0 => Passive::block(g, [5, 8, 6]),
            1 => Passive::none(),
            2..24 => {
                let cells = std::array::from_fn(|_| 1 + g.below(3));
                Passive::block(g, cells)
            }
            24..32 => Passive::at_an_edge(g),
            _ => Passive::soup(g),
        };
        let n = p.nodes.len();
        for list in [&mut p.held, &mut p.loaded] {
            let most = g.pick(&[1, 1, 2, 4]);
            // The last of these numbers are no nodes.
            *list = (0..g.below(most)).map(|_| g.below(n + 3)).map(|k| if k == n + 2 { u32::MAX } else { k as u32 }).collect();
        }
        for _ in p.depths.len()..g.pick(&[0, 1, 1, 1, 2, 3]) {
            let surfaces: Vec<u32> = (0..g.pick(&[0, 1, 1, 1, 2, 5])).map(|_| g.below(7) as u32).collect();
            let depth = p.depth(g, &surfaces);
            p.keep(&surfaces, depth);
        }
        if g.below(16) == 0 {
            let s = g.below(p.starts.len());
            p.starts[s] = g.pick(&[0, 1, p.kept.len() as u32, p.kept.len() as u32 + 1, u32::MAX]);
        }
        p.lent = p.needs().map(|n| if g.below(8) == 0 { n + g.below(4) } else { n });
        p.faults(g);
        p
    }

    /// What the call is refused for, now and then, and several at once.
    fn faults(&mut self, g: &mut Gen) {
        let often = if g.below(16) == 0 { 2 } else { 40 };
        misname(g, &mut self.tris, self.nodes.len(), often);
        spoil(g, &mut self.nodes, often);
        if !self.depths.is_empty() && g.below(often) == 0 {
            let s = g.below(self.depths.len());
            self.depths[s] = g.pick(&[0.001f64.next_down(), 1e6f64.next_up(), 5e-324, f64::MAX, 0.001, 1e6]);
        }
        if g.below(often) == 0 {
            match g.below(10) {
                7 => drop(self.surfaces.pop()),
                8 => drop(self.starts.pop()),
                9 => drop(self.kept.pop()),
                k => self.lent[k] = self.lent[k].saturating_sub(1 + g.below(3)),
            }
        }
    }
}

/// Blocks of about 65,535 elements, and counts at both sides of the domain's.
fn large(long: bool) -> Vec<Passive> {
    let mut g = Gen::of(1, "large");
    let mut all = Vec::new();
    let cells = if long { vec![[22, 22, 22], [1, 1, 10_922], [100, 10, 10]] } else { vec![[22, 22, 22]] };
    for cells in cells {
        let mesh = TetMesh::block(cells, vector(cells.map(|c| c as f64)));
        let (tris, surfaces) = boundary(&mesh);
        let mut p = Passive { nodes: mesh.nodes.iter().map(|p| stored(*p)).collect(), tets: mesh.tets, tris, surfaces, ..Passive::none() };
        while p.tets.len() < 65_535 {
            p.tets.push(tet(&mut g, p.nodes.len()));
        }
        p.lent = p.needs();
        for sets in [vec![(vec![1], 1.0)], vec![(vec![3], 5.0), (vec![6, 2], f64::NAN)], vec![(vec![1, 2, 3, 4, 5, 6], 2.0)]] {
            let mut p = p.clone();
            sets.iter().for_each(|(surfaces, depth)| p.keep(surfaces, *depth));
            all.push(p);
        }
    }
    let counts = |nodes: usize, tets: usize, tris: usize, name: u32| {
        let mut p = Passive::none();
        p.nodes = vec![[1.0, 2.0, 3.0]; nodes];
        p.tets = vec![[0; 10]; tets];
        (p.tris, p.surfaces) = (vec![[name; 6]; tris], vec![1; tris]);
        p.keep(&[1], 1.0);
        p.lent = p.needs();
        p
    };
    all.extend([
        counts(3, 65_536, 2, 0),
        counts(3, 65_536, 2, 3),
        counts(3, 2, 65_535, 2),
        counts(3, 2, 65_536, 2),
        counts(3, 2, 65_535, 3),
        counts(1_048_576, 2, 2, 1_048_575),
        counts(1_048_577, 2, 2, 1_048_576),
    ]);
    all
}

/// The refusal, the marks, and what is compared of the working lists.
type Marked = (u32, Vec<bool>, Worked);

#[derive(Clone)]
struct Worked {
    keep: Vec<bool>,
    centroids: Vec<[f64; 3]>,
    cells: Vec<[u64; 3]>,
    numbers: [Vec<u32>; 3],
}
fields!(Worked: keep, centroids, cells, numbers);

fn worked(k: u32, p: &Passive, w: &PassiveWork) -> Worked {
    let n = p.tets.len();
    Worked {
        keep: left(k, p.nodes.len(), &w.keep),
        centroids: left(k, n, &w.centroids),
        cells: left(k, n, &w.cells),
        numbers: [left(k, n, &w.order), left(k, n, &w.place), left(k, n + 1, &w.first)],
    }
}

fn passive_theirs(p: Passive) -> Marked {
    let (mut marks, work) = (p.marks(), p.work());
    let bad = |d: &f64| d.is_finite() && *d > 0.0 && !(0.001..=1e6).contains(d);
    let few = p.surfaces.len() < p.tris.len() || p.starts.len() <= p.depths.len() || p.cut() || short(p.lent, p.needs());
    let k = first([refused(p.tets.len(), &p.nodes, &p.tris), if p.depths.iter().any(bad) { 8 } else { 0 }, if few { 14 } else { 0 }]);
    if k == 0 {
        let problem = Problem {
            mesh: p.mesh(),
            material: Material { youngs_modulus: 1.0, poisson: 0.3, density: 1.0 },
            held: p.held.iter().map(|n| (*n, Vec::new())).collect(),
            forces: p.loaded.iter().map(|n| (*n, Vec3::ZERO)).collect::<BTreeMap<_, _>>(),
            gravity: None,
            spin: None,
        };
        let solid = original::passive(&problem, &p.sets());
        marks[..solid.len()].copy_from_slice(&solid);
    }
    let work = worked(k, &p, &work);
    (k, marks, work)
}

fn passive_ours(p: Passive) -> Marked {
    let (mut marks, mut work) = (p.marks(), p.work());
    let mesh = region::Mesh { nodes: &p.nodes, tets: &p.tets, tris: &p.tris, surfaces: &p.surfaces };
    let kept = Kept { starts: &p.starts, surfaces: &p.kept, depths: &p.depths };
    let k = number(&region::passive(mesh, &p.held, &p.loaded, kept, &mut marks, &mut work));
    let work = worked(k, &p, &work);
    (k, marks, work)
}

/// A boundary and a plane, and how long the lists are that are lent to work in: faces, kx, ky, kz, order, scratch, boxes, seen.
#[derive(Clone)]
struct Soup {
    nodes: Vec<[f64; 3]>,
    tris: Vec<[u32; 6]>,
    plane: [f64; 6],
    lent: [usize; 8],
}
fields!(Soup: nodes, tris, plane, lent);

fn theirs([px, py, pz, nx, ny, nz]: [f64; 6]) -> Mirror {
    Mirror { point: Vec3::new(px, py, pz), normal: Vec3::new(nx, ny, nz) }
}

fn ours([px, py, pz, nx, ny, nz]: [f64; 6]) -> geom::Mirror {
    geom::Mirror { point: geom::Vec3 { x: px, y: py, z: pz }, normal: geom::Vec3 { x: nx, y: ny, z: nz } }
}

/// Whether 01's domain has no such plane.
fn plane_bad(plane: [f64; 6]) -> bool {
    let length = theirs(plane).normal.len();
    plane.iter().any(|v| !(v.is_finite() && v.abs() <= 1e6)) || length.is_nan() || length <= 1e-12
}

/// A plane along an axis or askew, of unit normal or not, through `at` or beside it.
fn plane(g: &mut Gen, at: [f64; 3]) -> [f64; 6] {
    let normal = match g.below(8) {
        0 => std::array::from_fn(|_| g.signed() * g.pick(&[1.0, 3.0, 1e-6, 1e6])),
        1 | 2 => {
            let v = Vec3::new(g.signed(), g.signed(), g.signed()).normalized();
            stored(if v.is_finite() { v } else { Vec3::new(0.0, 0.0, 1.0) })
        }
        3 => g.pick(&[[0.6, 0.8, 0.0], [0.0, -0.6, 0.8], [0.0, 0.0, 2.0]]),
        _ => {
            let mut axis = [0.0; 3];
            axis[g.below(3)] = g.pick(&[1.0, -1.0]);
            axis
        }
    };
    let off = g.pick(&[0.0, 0.0, 1e-9, 0.3, 10.0]);
    let p = at.map(|v| {
        let beside = v + off * g.signed();
        g.nudged(beside).clamp(-1e6, 1e6)
    });
    [p[0], p[1], p[2], normal[0], normal[1], normal[2]]
}

/// A plane that is outside the domain or at its edge, now and then.
fn spoil_plane(g: &mut Gen, plane: &mut [f64; 6], often: usize) {
    if g.below(often) == 0 {
        match g.below(3) {
            0 => plane[g.below(6)] = g.pick(&[1e6, 1e6f64.next_up(), -1e6f64.next_up(), f64::NAN, f64::INFINITY]),
            1 => plane[3..].copy_from_slice(&[g.pick(&[0.0, 1e-12, 1e-12f64.next_up(), -1e-13, 1e-300]), 0.0, 0.0]),
            _ => plane[3..].fill(g.pick(&[0.0, -0.0, f64::NAN, 1e-12])),
        }
    }
}

impl Soup {
    fn needs(&self) -> [usize; 8] {
        let n = self.tris.len();
        [n, n, n, n, n, n, n, self.nodes.len()]
    }

    fn work(&self) -> AsymmetryWork {
        let [faces, kx, ky, kz, order, scratch, boxes, seen] = self.lent;
        AsymmetryWork {
            faces: vec![[7.5; 9]; faces],
            kx: vec![7; kx],
            ky: vec![7; ky],
            kz: vec![7; kz],
            order: vec![7; order],
            scratch: vec![7; scratch],
            boxes: vec![[7.5; 6]; boxes],
            seen: vec![true; seen],
        }
    }

    /// Any triangles over any nodes.
    fn any(g: &mut Gen) -> Soup {
        let tris = match g.below(64) {
            0 => 0,
            1 => 200 + g.below(600),
            2..8 => 30 + g.below(100),
            _ => 1 + g.below(24),
        };
        let most = g.pick(&[3, 10, 3 * tris]);
        let n = 1 + g.below(most.max(1));
        Soup { nodes: scatter(g, n), tris: triangles(g, tris, n), plane: [0.0; 6], lent: [0; 8] }
    }

    /// A box's boundary: the same on both sides of the planes through its middle.
    fn block(g: &mut Gen) -> Soup {
        let cells = std::array::from_fn(|_| 1 + g.below(4));
        let size = std::array::from_fn(|_| g.pick(&[1.0, 4.0, 6.0, 0.1, 30.0]));
        let mesh = TetMesh::block(cells, vector(size));
        let tris = boundary(&mesh).0;
        let half = size.map(|s| s / 2.0);
        let nodes = mesh.nodes.iter().map(|p| stored(*p)).collect();
        Soup { nodes, tris, plane: plane(g, half), lent: [0; 8] }
    }

    /// A soup with its image in the plane, or nearly so.
    fn twin(g: &mut Gen) -> Soup {
        let mut s = Soup::any(g);
        s.plane = plane(g, [0.0; 3]);
        let mirror = theirs(s.plane);
        let n = s.nodes.len() as u32;
        let by = g.pick(&[0.0, 0.0, 1e-9, 0.01]);
        let images: Vec<[f64; 3]> = s.nodes.iter().map(|p| stored(mirror.image(vector(*p)))).collect();
        s.nodes.extend(images.iter().map(|p| p.map(|v| (v + by * g.signed()).clamp(-1e6, 1e6))));
        let twins: Vec<[u32; 6]> = s.tris.iter().map(|t| t.map(|k| k + n)).collect();
        s.tris.extend(twins);
        s
    }

    fn needles(g: &mut Gen) -> Soup {
        let count = 5 + g.below(4);
        let (nodes, corners, plane) = needles(g, count);
        Soup { nodes, tris: corners.iter().map(|[a, b, c]| [*a, *b, *c, *a, *b, *c]).collect(), plane, lent: [0; 8] }
    }

    fn random(g: &mut Gen) -> Soup {
        let mut s = match g.below(8) {
            0 => Soup::block(g),
            1 | 2 => Soup::twin(g),
            3 => Soup::needles(g),
            _ => {
                let mut s = Soup::any(g);
                let at = s.nodes[g.below(s.nodes.len())];
                s.plane = plane(g, at);
                s
            }
        };
        if g.below(8) == 0 {
            let near = g.pick(&[1e-12, 1e-6, 0.1]);
            s.nodes.iter_mut().flatten().for_each(|v| *v = (*v + near * g.signed()).clamp(-1e6, 1e6));
        }
        s.lent = s.needs().map(|n| if g.below(8) == 0 { n + g.below(4) } else { n });
        let often = if g.below(16) == 0 { 2 } else { 40 };
        misname(g, &mut s.tris, s.nodes.len(), often);
        spoil(g, &mut s.nodes, often);
        spoil_plane(g, &mut s.plane, often);
        if g.below(often) == 0 {
            let k = g.below(8);
            s.lent[k] = s.lent[k].saturating_sub(1 + g.below(3));
        }
        s
    }
}

/// As many triangles as the domain has, of a box, of a soup and along a row, and counts at both sides of the domain's.
fn many(long: bool) -> Vec<Soup> {
    let mut g = Gen::of(1, "many");
    let mesh = TetMesh::block([22, 22, 22], Vec3::new(22.0, 23.0, 24.0));
    let nodes: Vec<[f64; 3]> = mesh.nodes.iter().map(|p| stored(*p)).collect();
    let tris = boundary(&mesh).0;
    let planes = [[11.0, 0.0, 0.0, 1.0, 0.0, 0.0], [0.0, 11.5, 0.0, 0.0, 1.0, 0.0], [11.0, 11.5, 12.0, 0.6, 0.8, 0.0]];
    let mut all: Vec<Soup> = planes.map(|plane| Soup { nodes: nodes.clone(), tris: tris.clone(), plane, lent: [0; 8] }).into();
    for _ in 0..if long { 8 } else { 1 } {
        // Small triangles, each with nodes of its own.
        let size = g.pick(&[0.1, 1.0, 3.0]);
        let mut nodes = Vec::new();
        while nodes.len() < 3 * 65_535 {
            let p: [f64; 3] = std::array::from_fn(|_| 50.0 * g.signed());
            nodes.extend((0..3).map(|_| p.map(|v| v + size * g.signed())));
        }
        let tris = (0..65_535).map(|t| [0, 1, 2, 0, 1, 2].map(|k| 3 * t + k)).collect();
        all.push(Soup { nodes, tris, plane: plane(&mut g, [0.0; 3]), lent: [0; 8] });
    }
    for turns in [1, 2] {
        // Numbers that go along a row and back, so that the first, the middle and the last of them tell little of the rest.
        let along = |t: u32| f64::from((t * turns).abs_diff(65_535 * turns / 2) % 32_768);
        let nodes = (0..3 * 65_535).map(|k| [along(k / 3), f64::from(k % 3), 0.0]).collect();
        let tris = (0..65_535).map(|t| [0, 1, 2, 0, 1, 2].map(|k| 3 * t + k)).collect();
        all.push(Soup { nodes, tris, plane: [9_000.0, 0.0, 0.0, 1.0, 0.0, 0.0], lent: [0; 8] });
    }
    let counts = |nodes: usize, tris: usize, name: u32| Soup {
        nodes: vec![[1.0, 2.0, 3.0]; nodes],
        tris: vec![[name; 6]; tris],
        plane: [0.0, 0.0, 0.0, 0.0, 0.0, 1.0],
        lent: [0; 8],
    };
    all.extend([
        counts(3, 65_535, 2),
        counts(3, 65_536, 2),
        counts(3, 65_536, 3),
        counts(1_048_576, 9, 1_048_575),
        counts(1_048_576, 9, 1_048_576),
        counts(1_048_577, 9, 1_048_576),
    ]);
    all.iter_mut().for_each(|s| s.lent = s.needs());
    all
}

/// The refusal or the distance, and what is compared of the working lists.
type Measured = (u32, f64, Trees);

#[derive(Clone)]
struct Trees {
    faces: Vec<[f64; 9]>,
    keys: [Vec<u64>; 3],
    numbers: [Vec<u32>; 2],
    boxes: Vec<[f64; 6]>,
    seen: Vec<bool>,
}
fields!(Trees: faces, keys, numbers, boxes, seen);

fn trees(k: u32, s: &Soup, w: &AsymmetryWork) -> Trees {
    let n = s.tris.len();
    Trees {
        faces: left(k, n, &w.faces),
        keys: [left(k, n, &w.kx), left(k, n, &w.ky), left(k, n, &w.kz)],
        numbers: [left(k, n, &w.order), left(k, n, &w.scratch)],
        boxes: left(k, n, &w.boxes),
        seen: left(k, s.nodes.len(), &w.seen),
    }
}

impl Soup {
    fn refused(&self) -> u32 {
        first([
            refused(0, &self.nodes, &self.tris),
            if plane_bad(self.plane) { 11 } else { 0 },
            if short(self.lent, self.needs()) { 14 } else { 0 },
        ])
    }
}

fn asymmetry_theirs(s: Soup) -> Measured {
    let k = s.refused();
    let far = if k == 0 {
        let mesh = TetMesh {
            nodes: s.nodes.iter().map(|p| vector(*p)).collect(),
            tris: s.tris.iter().map(|nodes| Tri6 { surface: 1, nodes: *nodes }).collect(),
            ..TetMesh::default()
        };
        original::asymmetry(&mesh, &theirs(s.plane))
    } else {
        0.0
    };
    let trees = trees(k, &s, &s.work());
    (k, far, trees)
}

fn asymmetry_ours(s: Soup) -> Measured {
    let mut work = s.work();
    let told = region::asymmetry(&s.nodes, &s.tris, ours(s.plane), &mut work);
    let k = number(&told);
    (k, told.unwrap_or(0.0), trees(k, &s, &work))
}

/// A tree: its boxes, each before those that it is split into, and the triangles of each leaf box by number, which no distance hangs on the
/// order of.
type Branches = (Vec<[f64; 6]>, Vec<Vec<u32>>);

fn leaf(triangles: &[u32]) -> Vec<u32> {
    let mut all = triangles.to_vec();
    all.sort_unstable();
    all
}

fn tree_theirs(s: Soup) -> Branches {
    let tris: Vec<[Vec3; 3]> = match s.refused() {
        0 => s.tris.iter().map(|t| [0, 1, 2].map(|i| vector(s.nodes[t[i] as usize]))).collect(),
        _ => Vec::new(),
    };
    let Some(tree) = original::Tree::new(&tris) else { return Branches::default() };
    let boxes = tree.nodes.iter().map(|b| [b.lo.x, b.lo.y, b.lo.z, b.hi.x, b.hi.y, b.hi.z]).collect();
    let leaves = tree.nodes.iter().filter(|b| b.split.is_none()).map(|b| leaf(&tree.order[b.first as usize..][..b.count as usize]));
    (boxes, leaves.collect())
}

/// The tree that a part of the order and of the boxes has: the part's own box is at its middle place.
fn branches(order: &[u32], boxes: &[[f64; 6]], into: &mut Branches) {
    let half = order.len() / 2;
    into.0.push(boxes[half]);
    if order.len() <= 4 {
        into.1.push(leaf(order));
    } else {
        branches(&order[..half], &boxes[..half], into);
        branches(&order[half..], &boxes[half..], into);
    }
}

fn tree_ours(s: Soup) -> Branches {
    let (mut work, n) = (s.work(), s.tris.len());
    let mut into = Branches::default();
    if region::asymmetry(&s.nodes, &s.tris, ours(s.plane), &mut work).is_ok() && n > 0 {
        branches(&work.order[..n], &work.boxes[..n], &mut into);
    }
    into
}

/// Points and a plane.
#[derive(Clone)]
struct Points {
    points: Vec<[f64; 3]>,
    plane: [f64; 6],
}
fields!(Points: points, plane);

impl Points {
    fn random(g: &mut Gen) -> Points {
        let n = match g.below(16) {
            0 => 0,
            1 => 1,
            2 => g.below(300),
            _ => 2 + g.below(8),
        };
        let mut points = scatter(g, n);
        let at = points.first().copied().unwrap_or_default();
        let mut plane = match g.below(3) {
            // Through the middle of two points, and a little off.
            0 if n > 1 => {
                let end = points[1];
                plane(g, std::array::from_fn(|i| 0.5 * (at[i] + end[i])))
            }
            1 => plane(g, [0.0; 3]),
            _ => plane(g, at),
        };
        // Both sides of a tenth.
        if n > 1 && g.below(4) == 0 {
            let share = g.pick(&[0.4, 0.6, 0.3, 0.5]);
            let reach = g.nudged(share) * 10.0;
            points = vec![[reach, 0.0, 0.0], [reach - 10.0, 1.0, 2.0]];
            plane = [0.0, 0.0, 0.0, 1.0, 0.0, 0.0];
        }
        spoil(g, &mut points, 40);
        spoil_plane(g, &mut plane, 40);
        Points { points, plane }
    }
}

/// 01's proved case, no points, one, and counts at both sides of the domain's.
fn points() -> Vec<Points> {
    let along =
        |n: usize, at: f64| Points { points: (0..n).map(|k| [k as f64 / 1e3, 0.0, 0.0]).collect(), plane: [at, 0.0, 0.0, 1.0, 0.0, 0.0] };
    let two = |at: f64| Points { points: vec![[0.0; 3], [1.0, 0.0, 0.0]], plane: [at, 0.0, 0.0, 1.0, 0.0, 0.0] };
    vec![two(0.0), two(0.5), along(0, 0.5), along(1, 0.0), along(1, 0.5), along(1_048_576, 524.0), along(1_048_577, 524.0)]
}

/// The refusal, whether there are reaches, and these.
type Weighed = (u32, bool, [f64; 2]);

fn off_centre_theirs(p: Points) -> Weighed {
    let k = first([
        if p.points.len() > 1_048_576 { 3 } else { 0 },
        if p.points.iter().any(|p| outside(*p)) { 9 } else { 0 },
        if plane_bad(p.plane) { 11 } else { 0 },
    ]);
    let reaches = (k == 0).then(|| original::off_centre(p.points.iter().map(|p| vector(*p)), &theirs(p.plane))).flatten();
    (k, reaches.is_some(), reaches.map_or([0.0; 2], |(ahead, behind)| [ahead, behind]))
}

fn off_centre_ours(p: Points) -> Weighed {
    let told = region::off_centre(&p.points, ours(p.plane));
    let k = number(&told);
    let reaches = told.unwrap_or(None);
    (k, reaches.is_some(), reaches.map_or([0.0; 2], |(ahead, behind)| [ahead, behind]))
}

#[cfg(test)]
mod tests {
    use super::*;

    /// That the random cases reach what they are meant for: so many at least of each kind.
    fn counted<T>(name: &str, random: fn(&mut Gen) -> T, kinds: impl Fn(&T) -> Vec<String>, wanted: &[&str]) {
        let mut g = Gen::of(1, name);
        let mut seen: BTreeMap<String, usize> = BTreeMap::new();
        for _ in 0..4000 {
            kinds(&random(&mut g)).into_iter().for_each(|k| *seen.entry(k).or_default() += 1);
        }
        for what in wanted {
            assert!(seen.get(*what).is_some_and(|n| *n >= 10), "{what}: {seen:?}");
        }
    }

    fn marked(p: &Passive) -> usize {
        passive_theirs(p.clone()).1[..p.tets.len()].iter().filter(|m| **m).count()
    }

    #[test]
    fn passives_of_every_kind() {
        let kinds = |p: &Passive| {
            let mut kinds = vec![format!("refused {}", passive_theirs(p.clone()).0)];
            if kinds[0] == "refused 0" {
                let solid = marked(p);
                let mut turned = p.clone();
                let part = |n: usize| {
                    if n == 0 {
                        "none"
                    } else if n == p.tets.len() {
                        "all"
                    } else {
                        "some"
                    }
                };
                kinds.push(format!("{} solid", part(solid)));
                turned.depths.fill(f64::NAN);
                kinds.push(if marked(&turned) < solid { "by depth".into() } else { "by nodes".into() });
                for (to, name) in [(f64::next_down as fn(f64) -> f64, "just reached"), (f64::next_up, "just missed")] {
                    turned.depths = p.depths.iter().map(|d| to(*d)).collect();
                    if marked(&turned) != solid {
                        kinds.push(name.into());
                    }
                }
            }
            kinds
        };
        let wanted = [
            "refused 0",
            "refused 21",
            "refused 9",
            "refused 8",
            "refused 14",
            "none solid",
            "some solid",
            "all solid",
            "by depth",
            "by nodes",
            "just reached",
            "just missed",
        ];
        counted("passive", Passive::random, kinds, &wanted);
    }

    #[test]
    fn soups_of_every_kind() {
        let kinds = |s: &Soup| {
            let (k, far, _) = asymmetry_theirs(s.clone());
            let mut kinds = vec![format!("refused {k}")];
            if k == 0 {
                kinds.push(if far == 0.0 {
                    "the same".into()
                } else if far < 1e-5 {
                    "nearly".into()
                } else {
                    "apart".into()
                });
                let at = |k: u32| vector(s.nodes[k as usize]);
                let middles: Vec<[u64; 3]> =
                    s.tris.iter().map(|t| stored((at(t[0]) + at(t[1]) + at(t[2])) * (1.0 / 3.0)).map(f64::to_bits)).collect();
                let mut apart = middles.clone();
                apart.sort_unstable();
                apart.dedup();
                if middles.len() > 4 && apart.len() < middles.len() {
                    kinds.push("ties".into());
                }
                if middles.iter().flatten().any(|b| *b == 1 << 63) && middles.iter().flatten().any(|b| *b == 0) {
                    kinds.push("both zeros".into());
                }
            }
            kinds
        };
        let wanted =
            ["refused 0", "refused 21", "refused 9", "refused 11", "refused 14", "the same", "nearly", "apart", "ties", "both zeros"];
        counted("asymmetry", Soup::random, kinds, &wanted);
    }

    #[test]
    fn points_of_every_kind() {
        let kinds = |p: &Points| {
            let (k, off, _) = off_centre_theirs(p.clone());
            vec![format!("refused {k}"), format!("{off} {}", p.points.len().min(2))]
        };
        let wanted = ["refused 0", "refused 9", "refused 11", "false 0", "true 1", "false 1", "true 2", "false 2"];
        counted("off_centre", Points::random, kinds, &wanted);
    }
}
