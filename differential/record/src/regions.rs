//! Meshes and their boundaries: `passive`, `asymmetry`, `design` and `block`, for the program `replay_mesh`.
use std::collections::BTreeMap;

use tenon::Vec3;
use tenon::faces::dist2_to_triangle;
use tenon::mesh::{TetMesh, Tri6};
use tenon::problem::{Material, Problem};
use tenon::topo::{Mirror, region};

use crate::inputs::{Gen, Point, cell_edge, needles};
use crate::sample::{Sample, Words};

fn vector([x, y, z]: Point) -> Vec3 {
    Vec3::new(x, y, z)
}

fn stored(v: Vec3) -> Point {
    [v.x, v.y, v.z]
}

pub fn all(s: &mut Sample) {
    s.section(23, "passive", [], 60, Kept::random, Kept::marks);
    s.section(24, "asymmetry", [], 60, Boundary::random, Boundary::distance);
    s.section(25, "design", [], 20, design, designed);
    s.section(26, "block", blocks(), 0, |_| unreachable!(), block);
}

const NODES: usize = 45;
const TETS: usize = 12;
const TRIS: usize = 20;

/// A mesh of two cells' counts, supports and loads, and two kept sets of four surfaces in all.
#[derive(Clone)]
struct Kept {
    nodes: [Point; NODES],
    tets: [[u32; 10]; TETS],
    tris: [[u32; 6]; TRIS],
    surfaces: [u32; TRIS],
    held: [u32; 2],
    loaded: [u32; 2],
    starts: [u32; 3],
    kept: [u32; 4],
    depths: [f64; 2],
}

impl Words for Kept {
    fn put(&self, to: &mut Vec<u64>) {
        self.nodes.put(to);
        self.tets.put(to);
        self.tris.put(to);
        self.surfaces.put(to);
        (self.held, self.loaded).put(to);
        self.starts.put(to);
        self.kept.put(to);
        self.depths.put(to);
    }
}

impl Kept {
    /// A mesh of which nothing is kept yet: of two cells in a row, of scattered nodes, or with triangles and middles at the edges of cells.
    fn random(g: &mut Gen) -> Kept {
        let mut k = match g.below(3) {
            0 => Kept::row(g),
            1 => Kept::soup(g),
            _ => return Kept::at_an_edge(g),
        };
        k.starts = [0, g.below(5) as u32, 4];
        k.depths = [k.depth(g, 0), k.depth(g, 1)];
        k
    }

    /// Numbers of nodes that are held or loaded: mostly of none.
    fn named(g: &mut Gen) -> [u32; 2] {
        std::array::from_fn(|_| if g.below(8) == 0 { g.below(NODES) as u32 } else { g.pick(&[NODES as u32, u32::MAX]) })
    }

    fn of(g: &mut Gen, nodes: [Point; NODES], tets: [[u32; 10]; TETS], tris: [[u32; 6]; TRIS], surfaces: [u32; TRIS]) -> Kept {
        let (held, loaded) = (Kept::named(g), Kept::named(g));
        Kept { nodes, tets, tris, surfaces, held, loaded, starts: [0, 1, 4], kept: [0; 4], depths: [f64::NAN; 2] }
    }

    fn row(g: &mut Gen) -> Kept {
        let along = g.below(3);
        let cells = std::array::from_fn(|k| if k == along { 2 } else { 1 });
        let size = cells.map(|c| c as f64 * g.pick(&[1.0, 2.5]));
        let mesh = TetMesh::block(cells, vector(size));
        let moved = g.pick(&[0.0, 0.0, 0.05]);
        let nodes = mesh.nodes.iter().map(|p| stored(*p).map(|v| v + moved * g.signed())).collect::<Vec<_>>();
        let mut k = Kept::of(
            g,
            nodes.try_into().expect("nodes of two cells"),
            mesh.tets.try_into().expect("tetrahedra of two cells"),
            mesh.tris.iter().map(|t| t.nodes).collect::<Vec<_>>().try_into().expect("triangles of two cells"),
            mesh.tris.iter().map(|t| t.surface).collect::<Vec<_>>().try_into().expect("a surface a triangle"),
        );
        // The ends of the row alone, so that not all elements have a node of the sets.
        let ends = [2 * along as u32 + 1, 2 * along as u32 + 2];
        k.kept = std::array::from_fn(|_| g.pick(&[ends[0], ends[0], 7]));
        k
    }

    /// Tetrahedra of the first nodes, triangles of the last.
    fn soup(g: &mut Gen) -> Kept {
        let size = g.pick(&[1.0, 10.0]);
        let nodes = std::array::from_fn(|_| std::array::from_fn(|_| size * g.signed()));
        let tets = std::array::from_fn(|_| std::array::from_fn(|_| g.below(22) as u32));
        let tris = std::array::from_fn(|_| std::array::from_fn(|_| 20 + g.below(25) as u32));
        let surfaces = std::array::from_fn(|_| g.below(8) as u32);
        let mut k = Kept::of(g, nodes, tets, tris, surfaces);
        k.kept = std::array::from_fn(|_| g.below(9) as u32);
        k
    }

    /// One triangle of the kept set, and a middle that it does not mark though it is within the depth: it lies two cells away.
    fn at_an_edge(g: &mut Gen) -> Kept {
        loop {
            let (corners, middles, depth) = cell_edge(g, 11, TETS);
            if !middles.iter().any(|p| apart(corners[0], *p, depth)) {
                continue;
            }
            let nodes: Vec<Point> = corners.into_iter().flatten().chain(middles).collect();
            let tris = std::array::from_fn(|t| [0, 1, 2, 0, 1, 2].map(|k| 3 * (t as u32 % 11) + k));
            // One node is all corners of a tetrahedron, so that its middle is there.
            let tets = std::array::from_fn(|e| [33 + e as u32; 10]);
            let surfaces = std::array::from_fn(|t| u32::from(t == 0));
            let mut k = Kept::of(g, nodes.try_into().expect("33 corners and 12 middles"), tets, tris, surfaces);
            (k.held, k.loaded) = ([u32::MAX; 2], [u32::MAX; 2]);
            (k.kept, k.depths) = ([1, 2, 3, 4], [depth, f64::NAN]);
            return k;
        }
    }

    /// The surfaces of a set.
    fn set(&self, s: usize) -> &[u32] {
        &self.kept[self.starts[s] as usize..self.starts[s + 1] as usize]
    }

    /// A depth for a set: one that just reaches a middle or just does not, one of any size, or none.
    fn depth(&self, g: &mut Gen, s: usize) -> f64 {
        let middle = self.mesh().centroid(&self.tets[g.below(TETS)]);
        let of_set = (0..TRIS).filter(|t| self.set(s).contains(&self.surfaces[*t]));
        let dist2 = of_set.map(|t| {
            let [a, b, c] = [0, 1, 2].map(|i| vector(self.nodes[self.tris[t][i] as usize]));
            dist2_to_triangle(middle, a, b, c)
        });
        let reach = dist2.fold(f64::INFINITY, f64::min).sqrt();
        match g.below(8) {
            0 => g.pick(&[f64::NAN, f64::INFINITY, 0.0, -1.0]),
            1 => 0.5 + g.unit(),
            _ if reach.is_finite() => g.nudged(reach).clamp(0.001, 1e6),
            _ => 1.0,
        }
    }

    fn mesh(&self) -> TetMesh {
        TetMesh {
            nodes: self.nodes.map(vector).to_vec(),
            tets: self.tets.to_vec(),
            tris: self.tris.iter().zip(self.surfaces).map(|(nodes, surface)| Tri6 { surface, nodes: *nodes }).collect(),
            ..TetMesh::default()
        }
    }

    fn marks(self) -> [bool; TETS] {
        let problem = Problem {
            mesh: self.mesh(),
            material: Material { youngs_modulus: 1.0, poisson: 0.3, density: 1.0 },
            held: self.held.iter().map(|n| (*n, Vec::new())).collect(),
            forces: self.loaded.iter().map(|n| (*n, Vec3::ZERO)).collect::<BTreeMap<_, _>>(),
            gravity: None,
            spin: None,
        };
        let sets = [0, 1].map(|s| (self.set(s).to_vec(), Some(self.depths[s])));
        region::passive(&problem, &sets).try_into().expect("one an element")
    }
}

/// Whether a point is within the depth of a triangle, and their cells lie two apart along some axis.
fn apart(corners: [Point; 3], p: Point, depth: f64) -> bool {
    let [a, b, c] = corners.map(vector);
    let cell = [a.dist(b), b.dist(c), c.dist(a)].into_iter().fold(depth, f64::max);
    let key = |v: f64| (v / cell).floor();
    let far = |k: usize| {
        let along = corners.map(|c| key(c[k]));
        key(p[k]) - along.into_iter().fold(f64::MIN, f64::max) > 1.0 || along.into_iter().fold(f64::MAX, f64::min) - key(p[k]) > 1.0
    };
    dist2_to_triangle(vector(p), a, b, c) <= depth * depth && (0..3).any(far)
}

const POINTS: usize = 30;

/// A boundary and a plane.
#[derive(Clone)]
struct Boundary {
    nodes: [Point; POINTS],
    tris: [[u32; 6]; TRIS],
    plane: [f64; 6],
}

impl Words for Boundary {
    fn put(&self, to: &mut Vec<u64>) {
        self.nodes.put(to);
        self.tris.put(to);
        self.plane.put(to);
    }
}

impl Boundary {
    /// Triangles over scattered nodes, over nodes on a grid, whose boxes and middles have ties, over nodes with their images, or needles.
    fn random(g: &mut Gen) -> Boundary {
        let kind = g.below(4);
        if kind == 0 {
            let (mut nodes, mut corners, plane) = needles(g, 9);
            nodes.resize(POINTS, [0.0; 3]);
            corners.resize(TRIS, [1; 3]);
            let tris = corners.iter().map(|[a, b, c]| [*a, *b, *c, *a, *b, *c]).collect::<Vec<_>>();
            return Boundary { nodes: nodes.try_into().expect("30 nodes"), tris: tris.try_into().expect("20 triangles"), plane };
        }
        let point = |g: &mut Gen| -> Point { std::array::from_fn(|_| if kind == 1 { g.below(4) as f64 - 1.5 } else { 2.0 * g.signed() }) };
        let mut nodes: [Point; POINTS] = std::array::from_fn(|_| point(g));
        let mut tris: [[u32; 6]; TRIS] = std::array::from_fn(|_| std::array::from_fn(|_| g.below(POINTS) as u32));
        let normal = g.pick(&[[1.0, 0.0, 0.0], [0.0, -1.0, 0.0], [0.6, 0.0, 0.8], [0.0, 0.5, 0.5]]);
        let at: Point = std::array::from_fn(|_| g.pick(&[0.0, 0.5, 0.125]));
        let b = Boundary { nodes, tris, plane: [at[0], at[1], at[2], normal[0], normal[1], normal[2]] };
        if kind == 2 {
            // The second half are images of the first, or nearly.
            let off = g.pick(&[0.0, 1e-3]);
            for k in 0..POINTS / 2 {
                nodes[POINTS / 2 + k] = stored(b.mirror().image(vector(nodes[k]))).map(|v| v + off * g.signed());
            }
            for t in 0..TRIS / 2 {
                tris[t] = tris[t].map(|k| k % (POINTS / 2) as u32);
                tris[TRIS / 2 + t] = tris[t].map(|k| k + (POINTS / 2) as u32);
            }
        }
        Boundary { nodes, tris, ..b }
    }

    fn mirror(&self) -> Mirror {
        let [px, py, pz, nx, ny, nz] = self.plane;
        Mirror { point: Vec3::new(px, py, pz), normal: Vec3::new(nx, ny, nz) }
    }

    fn distance(self) -> f64 {
        let mesh = TetMesh {
            nodes: self.nodes.map(vector).to_vec(),
            tris: self.tris.iter().map(|nodes| Tri6 { surface: 1, nodes: *nodes }).collect(),
            ..TetMesh::default()
        };
        region::asymmetry(&mesh, &self.mirror())
    }
}

/// Twenty nodes, and ten tetrahedra of them; now and then one names a node that is not there.
fn design(g: &mut Gen) -> ([Point; 20], [[u32; 10]; 10]) {
    let nodes = std::array::from_fn(|_| std::array::from_fn(|_| g.signed() * 100.0));
    let tets = std::array::from_fn(|_| {
        let past = g.below(4) == 0;
        std::array::from_fn(|_| if past && g.below(4) == 0 { g.pick(&[20, u32::MAX]) } else { g.below(20) as u32 })
    });
    (nodes, tets)
}

fn designed((nodes, tets): ([Point; 20], [[u32; 10]; 10])) -> ([f64; 10], [Point; 10]) {
    let mesh = TetMesh { nodes: nodes.map(vector).to_vec(), tets: tets.to_vec(), ..TetMesh::default() };
    let made = region::design(&mesh, Vec::new());
    let middles = made.centroids.iter().map(|c| stored(*c)).collect::<Vec<_>>();
    (made.volumes.try_into().expect("one an element"), middles.try_into().expect("one an element"))
}

type Sized = ([u32; 3], Point);

/// Up to two cells a side, 0 counting as 1; turned over, with no triangles, and flat.
fn blocks() -> Vec<Sized> {
    let mut g = Gen::of(1, "blocks");
    let cells = [[1, 1, 1], [2, 1, 1], [1, 2, 1], [1, 1, 2], [2, 2, 1], [0, 2, 2], [2, 0, 2], [2, 2, 2], [2, 2, 2]];
    let mut all: Vec<Sized> = cells.map(|c| (c, std::array::from_fn(|_| 0.1 + 10.0 * g.unit()))).into();
    all.extend([([2, 2, 2], [1.0, 2.0, 3.0]), ([1, 2, 1], [-1.0, 4.0, 3.0]), ([2, 2, 1], [-7.0, 1.0, 3.0]), ([1, 1, 1], [1.0, 2.0, 0.0])]);
    all
}

/// How many nodes, tetrahedra and triangles, and their lists.
struct Made {
    counts: [u64; 3],
    nodes: [Point; 125],
    tets: [[u32; 10]; 48],
    surfaces: [u32; 48],
    tris: [[u32; 6]; 48],
}

impl Words for Made {
    fn put(&self, to: &mut Vec<u64>) {
        self.counts.put(to);
        self.nodes.put(to);
        self.tets.put(to);
        self.surfaces.put(to);
        self.tris.put(to);
    }
}

/// What is made, zero behind the last.
fn block((cells, size): Sized) -> Made {
    let mesh = TetMesh::block(cells.map(|c| c as usize), vector(size));
    let mut m = Made {
        counts: [mesh.nodes.len(), mesh.tets.len(), mesh.tris.len()].map(|n| n as u64),
        nodes: [[0.0; 3]; 125],
        tets: [[0; 10]; 48],
        surfaces: [0; 48],
        tris: [[0; 6]; 48],
    };
    mesh.nodes.iter().zip(&mut m.nodes).for_each(|(p, place)| *place = stored(*p));
    mesh.tets.iter().zip(&mut m.tets).for_each(|(t, place)| *place = *t);
    mesh.tris.iter().zip(m.surfaces.iter_mut().zip(&mut m.tris)).for_each(|(t, (s, place))| (*s, *place) = (t.surface, t.nodes));
    m
}
