//! Meshes: `block` and `design` on about 60,000 tetrahedra.
use std::hint::black_box;

use crate::rounds::{best, grouped, line};
use sokdrib::mesh::{self, Lent};
use tenon::Vec3;
use tenon::mesh::TetMesh;
use tenon::topo::region;

const CELLS: [usize; 3] = [22, 22, 22];
const SIZE: [f64; 3] = [22.0, 23.0, 24.0];

pub fn all(repetitions: usize) {
    let [x, y, z] = SIZE;
    let rust = TetMesh::block(CELLS, Vec3::new(x, y, z));
    let n = rust.tets.len();
    let name = |what| format!("{what}, {} tetrahedra", grouped(n));
    let (mut nodes, mut tets) = (vec![[0.0; 3]; rust.nodes.len()], vec![[0; 10]; n]);
    let (mut surfaces, mut tris) = (vec![0; rust.tris.len()], vec![[0; 6]; rust.tris.len()]);
    let mut edges = vec![0; 8 * CELLS.iter().map(|c| c + 1).product::<usize>()];
    let mut sure = true;
    let times = best(
        repetitions,
        || {
            let lent = Lent { nodes: &mut nodes, tets: &mut tets, surfaces: &mut surfaces, tris: &mut tris, edges: &mut edges };
            sure &= mesh::block(black_box(CELLS), sokdrib::geom::Vec3 { x, y, z }, lent).is_ok();
        },
        || drop(black_box(TetMesh::block(black_box(CELLS), Vec3::new(x, y, z)))),
    );
    assert!(sure && tets == rust.tets, "both sides give the same mesh");
    line(&name("block"), &format!("{} nodes", nodes.len()), times);

    let (mut volumes, mut middles) = (vec![0.0; n], vec![[0.0; 3]; n]);
    let times = best(
        repetitions,
        || sure &= mesh::design(black_box(&nodes), black_box(&tets), &mut volumes, &mut middles).is_ok(),
        || drop(black_box(region::design(black_box(&rust), Vec::new()))),
    );
    assert!(sure && volumes == region::design(&rust, Vec::new()).volumes, "both sides give the same volumes");
    line(&name("design"), "", times);
}
