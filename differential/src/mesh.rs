//! Meshes: tetrahedra one by one, `design` and `block`.
use crate::compare::Run;
use crate::fields;
use crate::inputs::Gen;
use crate::lists::number;
use sokdrib::mesh::{self, Lent};
use tenon::Vec3;
use tenon::mesh::TetMesh;

pub fn all(run: &mut Run) {
    tetrahedra(run);
    run.jobs("design", 50, too_many(), Design::random, design_theirs, design_ours);
    run.jobs("block", 1000, small(), Block::random, block_theirs, block_ours);
}

pub fn vector([x, y, z]: [f64; 3]) -> Vec3 {
    Vec3::new(x, y, z)
}

pub fn stored(v: Vec3) -> [f64; 3] {
    [v.x, v.y, v.z]
}

/// Whether 01's domain has no such node.
pub fn outside(p: [f64; 3]) -> bool {
    p.iter().any(|v| !(v.is_finite() && v.abs() <= 1e6))
}

fn of(nodes: &[[f64; 3]], tets: &[[u32; 10]]) -> TetMesh {
    TetMesh { nodes: nodes.iter().map(|p| vector(*p)).collect(), tets: tets.to_vec(), ..TetMesh::default() }
}

/// Nodes within the domain; now and then one that is not.
fn nodes(g: &mut Gen) -> Vec<[f64; 3]> {
    let n = match g.below(16) {
        0 => 0,
        1 => g.below(300),
        _ => 1 + g.below(14),
    };
    let kind = g.below(16);
    let mut nodes: Vec<[f64; 3]> = (0..n)
        .map(|_| match kind {
            0 => g.point(),
            1 => std::array::from_fn(|_| g.signed() * 1e6),
            2 | 3 => std::array::from_fn(|_| g.below(4) as f64),
            _ => std::array::from_fn(|_| g.signed() * 100.0),
        })
        .collect();
    if n > 0 && g.below(16) == 0 {
        let (p, k) = (g.below(n), g.below(3));
        nodes[p][k] = g.pick(&[1e6, 1e6f64.next_up(), -1e6, -1e6f64.next_up(), f64::NAN, f64::INFINITY, f64::NEG_INFINITY]);
    }
    nodes
}

/// Ten of the nodes; now and then one that is not there.
pub fn tet(g: &mut Gen, nodes: usize) -> [u32; 10] {
    let past = g.below(8) == 0;
    std::array::from_fn(|_| match g.below(8) {
        0 if past => g.pick(&[nodes as u32, u32::MAX, 1 << 31]),
        _ => g.below(nodes.max(1)) as u32,
    })
}

fn tetrahedra(run: &mut Run) {
    let one = |g: &mut Gen| {
        let nodes = nodes(g);
        let tet = tet(g, nodes.len());
        (nodes, tet)
    };
    run.jobs("volume", 5, [], one, |(n, t)| of(&n, &[]).volume(&t), |(n, t)| mesh::volume(&n, &t));
    run.jobs("corner_volume", 5, [], one, |(n, t)| of(&n, &[]).corner_volume(&t), |(n, t)| mesh::corner_volume(&n, &t));
    let ours = |(n, t): (Vec<[f64; 3]>, [u32; 10])| {
        let c = mesh::centroid(&n, &t);
        [c.x, c.y, c.z]
    };
    run.jobs("centroid", 5, [], one, |(n, t)| stored(of(&n, &[]).centroid(&t)), ours);
    run.jobs("extent", 5, [], one, |(n, _)| of(&n, &[]).extent(), |(n, _)| mesh::extent(&n));
}

/// A mesh, and the lists that are lent for its volumes and middles.
#[derive(Clone)]
struct Design {
    nodes: Vec<[f64; 3]>,
    tets: Vec<[u32; 10]>,
    volumes: Vec<f64>,
    middles: Vec<[f64; 3]>,
}
fields!(Design: nodes, tets, volumes, middles);

/// The length of a list that needs `n` places: now and then one less, or some more.
fn lent(g: &mut Gen, n: usize) -> usize {
    match g.below(32) {
        0 => n.saturating_sub(1),
        1..8 => n + g.below(4),
        _ => n,
    }
}

impl Design {
    fn random(g: &mut Gen) -> Design {
        let nodes = nodes(g);
        let n = if g.below(16) == 0 { g.below(200) } else { g.below(6) };
        Design {
            tets: (0..n).map(|_| tet(g, nodes.len())).collect(),
            volumes: (0..lent(g, n)).map(|_| g.float()).collect(),
            middles: (0..lent(g, n)).map(|_| g.floats()).collect(),
            nodes,
        }
    }
}

/// Counts at both sides of the domain's.
fn too_many() -> Vec<Design> {
    let of = |nodes: usize, tets: usize, lists: usize| Design {
        nodes: vec![[1.0, 2.0, 3.0]; nodes],
        tets: vec![[0; 10]; tets],
        volumes: vec![7.0; lists],
        middles: vec![[7.0; 3]; lists],
    };
    let mut outside = of(1_048_577, 1, 1);
    outside.nodes[5] = [f64::NAN; 3];
    vec![
        of(3, 65_535, 65_535),
        of(3, 65_536, 65_536),
        of(3, 65_536, 1),
        of(1_048_576, 2, 2),
        of(1_048_577, 2, 2),
        of(1_048_576, 2, 1),
        outside,
    ]
}

type Designed = (u32, Vec<f64>, Vec<[f64; 3]>);

fn design_theirs(mut d: Design) -> Designed {
    let refused = if d.tets.len() > 65_535 || d.nodes.len() > 1_048_576 {
        3
    } else if d.nodes.iter().any(|p| outside(*p)) {
        9
    } else if d.volumes.len() < d.tets.len() || d.middles.len() < d.tets.len() {
        14
    } else {
        let made = tenon::topo::region::design(&of(&d.nodes, &d.tets), vec![false; d.tets.len()]);
        d.volumes[..made.volumes.len()].copy_from_slice(&made.volumes);
        d.middles.iter_mut().zip(made.centroids).for_each(|(m, c)| *m = stored(c));
        0
    };
    (refused, d.volumes, d.middles)
}

fn design_ours(mut d: Design) -> Designed {
    let told = mesh::design(&d.nodes, &d.tets, &mut d.volumes, &mut d.middles);
    (number(&told), d.volumes, d.middles)
}

/// A box, and the lists that are lent for its mesh.
#[derive(Clone)]
struct Block {
    cells: [usize; 3],
    size: [f64; 3],
    nodes: Vec<[f64; 3]>,
    tets: Vec<[u32; 10]>,
    surfaces: Vec<u32>,
    tris: Vec<[u32; 6]>,
    edges: Vec<u32>,
}
fields!(Block: cells, size, nodes, tets, surfaces, tris, edges);

/// The box's tetrahedra, and none where they are more than the domain has.
fn tets_in(cells: [usize; 3]) -> Option<usize> {
    let [x, y, z] = cells.map(|c| c.max(1) as u128);
    x.checked_mul(y)?.checked_mul(z)?.checked_mul(6).filter(|n| *n <= 65_535).map(|n| n as usize)
}

fn corners_in(cells: [usize; 3]) -> usize {
    cells.iter().map(|c| c.max(&1) + 1).product()
}

impl Block {
    /// With lists just long enough, or of three places where the box has too many tetrahedra. No place is zero, so that what is not
    /// written shows.
    fn exact(cells: [usize; 3], size: [f64; 3]) -> Block {
        let [nodes, tets, tris, edges] = match tets_in(cells) {
            None => [3; 4],
            Some(_) => {
                let mesh = TetMesh::block(cells, vector(size));
                [mesh.nodes.len(), mesh.tets.len(), mesh.tris.len(), 8 * corners_in(cells)]
            }
        };
        Block {
            cells,
            size,
            nodes: vec![[7.5, -7.5, f64::NAN]; nodes],
            tets: vec![[77; 10]; tets],
            surfaces: vec![78; tris],
            tris: vec![[79; 6]; tris],
            edges: vec![80; edges],
        }
    }

    fn random(g: &mut Gen) -> Block {
        let cells = match g.below(64) {
            0 => [g.below(30), g.below(20), g.below(16)],
            1 => [1 + g.below(4), 1, 2000 + g.below(2000)],
            _ => std::array::from_fn(|_| g.below(5)),
        };
        let side = |g: &mut Gen| match g.below(12) {
            0 => 0.0,
            1 => -g.unit() * 10.0,
            2 => g.float(),
            3 => g.pick(&[1e6, -1e6, 1e6f64.next_up(), f64::NAN, f64::INFINITY, 1e-300, 5e-324, 1e-9]),
            4 => g.below(5) as f64,
            _ => g.unit() * 100.0,
        };
        let size = std::array::from_fn(|_| side(g));
        let mut block = Block::exact(cells, size);
        block.nodes.resize(lent(g, block.nodes.len()), [7.5, -7.5, 1.0]);
        block.tets.resize(lent(g, block.tets.len()), [77; 10]);
        block.surfaces.resize(lent(g, block.surfaces.len()), 78);
        block.tris.resize(lent(g, block.tris.len()), [79; 6]);
        block.edges.resize(lent(g, block.edges.len()), 80);
        block
    }
}

/// Every small shape, flat and negative ones among them; each list one place short; and counts at both sides of the domain's, whose
/// products must not overflow before they are refused.
fn small() -> Vec<Block> {
    let sizes =
        [[1.0, 2.0, 3.0], [0.0, 1.0, 1.0], [1.0, 0.0, 0.0], [0.0; 3], [-1.0, 2.0, 3.0], [-4.0, 1.0, 1.0], [0.1, -0.0, 0.3], [f64::NAN; 3]];
    let mut all = Vec::new();
    for k in 0..64 {
        let cells = [k % 4, k / 4 % 4, k / 16];
        all.extend(sizes.map(|size| Block::exact(cells, size)));
    }
    for cells in [[1, 1, 1], [2, 3, 1]] {
        let whole = Block::exact(cells, [1.0, 2.0, 3.0]);
        let mut short = vec![whole.clone(); 5];
        short[0].nodes.pop();
        short[1].tets.pop();
        short[2].surfaces.pop();
        short[3].tris.pop();
        short[4].edges.pop();
        all.extend(short);
    }
    let many = [
        [1, 1, 10_922],
        [10_922, 1, 1],
        [1, 10_923, 1],
        [1, 1, 5461],
        [1, 2, 5461],
        [22, 22, 22],
        [23, 22, 22],
        [65_535, 1, 1],
        [usize::MAX, 1, 1],
        [1, usize::MAX, usize::MAX],
        [1 << 32, 1 << 32, 1],
        [1 << 21, 1 << 21, 1 << 22],
        [1 << 63, 2, 0],
    ];
    all.extend(many.map(|cells| Block::exact(cells, [1.0, 2.0, 3.0])));
    all.extend([[1, 1, 10_922], [1, 1, 10_923]].map(|cells| Block::exact(cells, [f64::NAN, 2.0, 3.0])));
    all
}

type Built = ((u32, [usize; 3], Vec<u32>), Vec<[f64; 3]>, (Vec<[u32; 10]>, Vec<u32>, Vec<[u32; 6]>));

fn block_theirs(mut b: Block) -> Built {
    let mesh = tets_in(b.cells).map(|_| TetMesh::block(b.cells, vector(b.size)));
    let mesh = mesh.filter(|m| m.tets.len() <= 65_535 && m.tris.len() <= 65_535 && m.nodes.len() <= 1_048_576);
    let (mut refused, mut counts) = (0, [0; 3]);
    match mesh {
        None => refused = 3,
        Some(_) if outside(b.size) => refused = 9,
        Some(m) => {
            let triangles = m.tris.len();
            let short = b.nodes.len() < m.nodes.len() || b.tets.len() < m.tets.len() || b.edges.len() < 8 * corners_in(b.cells);
            if short || b.surfaces.len() < triangles || b.tris.len() < triangles {
                refused = 14;
            } else {
                counts = [m.nodes.len(), m.tets.len(), triangles];
                b.nodes.iter_mut().zip(&m.nodes).for_each(|(to, p)| *to = stored(*p));
                b.tets.iter_mut().zip(&m.tets).for_each(|(to, t)| *to = *t);
                b.surfaces.iter_mut().zip(&m.tris).for_each(|(to, t)| *to = t.surface);
                b.tris.iter_mut().zip(&m.tris).for_each(|(to, t)| *to = t.nodes);
                b.edges[..8 * corners_in(b.cells)].fill(0);
            }
        }
    }
    ((refused, counts, b.edges), b.nodes, (b.tets, b.surfaces, b.tris))
}

fn block_ours(mut b: Block) -> Built {
    let size = sokdrib::geom::Vec3 { x: b.size[0], y: b.size[1], z: b.size[2] };
    let lent = Lent { nodes: &mut b.nodes, tets: &mut b.tets, surfaces: &mut b.surfaces, tris: &mut b.tris, edges: &mut b.edges };
    let told = mesh::block(b.cells, size, lent);
    let counts = told.map_or([0; 3], |c| [c.nodes, c.tets, c.tris]);
    ((number(&told), counts, b.edges), b.nodes, (b.tets, b.surfaces, b.tris))
}
