//! Regions: `passive` and `asymmetry` on a block of about 64,000 tetrahedra.
use std::collections::BTreeMap;
use std::hint::black_box;

use crate::rounds::{BLOCKS, best, grouped, line};
use sokdrib::geom;
use sokdrib::region::{self as ours, AsymmetryWork, Kept, Mesh, PassiveWork};
use tenon::Vec3;
use tenon::mesh::TetMesh;
use tenon::problem::{Material, Problem};
use tenon::topo::Mirror;
use tenon::topo::region as rust;

pub fn all(repetitions: usize) {
    let cells = BLOCKS[2];
    let mesh = TetMesh::block(cells, Vec3::new(cells[0] as f64, cells[1] as f64, cells[2] as f64));
    let nodes: Vec<[f64; 3]> = mesh.nodes.iter().map(|p| [p.x, p.y, p.z]).collect();
    let (tris, surfaces): (Vec<[u32; 6]>, Vec<u32>) = mesh.tris.iter().map(|t| (t.nodes, t.surface)).unzip();
    let lent = Mesh { nodes: &nodes, tets: &mesh.tets, tris: &tris, surfaces: &surfaces };
    let problem = Problem {
        mesh: mesh.clone(),
        material: Material { youngs_modulus: 1.0, poisson: 0.3, density: 1.0 },
        held: BTreeMap::new(),
        forces: BTreeMap::new(),
        gravity: None,
        spin: None,
    };
    let n = mesh.tets.len();
    let (mut marks, mut work) = (vec![false; n], PassiveWork::of(n, nodes.len()));
    for (side, surface) in [("x = 0", 1), ("z = 22", 6)] {
        for depth in [1.0, 5.0] {
            let kept = Kept { starts: &[0, 1], surfaces: &[surface], depths: &[depth] };
            let sets = [(vec![surface], Some(depth))];
            let mut sure = true;
            let times = best(
                repetitions,
                || sure &= ours::passive(black_box(lent), &[], &[], black_box(kept), &mut marks, &mut work).is_ok(),
                || drop(black_box(rust::passive(black_box(&problem), black_box(&sets)))),
            );
            assert!(sure && marks == rust::passive(&problem, &sets), "both sides mark the same");
            line(
                &format!("passive, {side}, depth {depth}, {}", grouped(n)),
                &format!("{} solid", marks.iter().filter(|m| **m).count()),
                times,
            );
        }
    }

    let mut work = AsymmetryWork::of(tris.len(), nodes.len());
    for (name, normal) in [("across", [1.0, 0.0, 0.0]), ("askew", [0.6, 0.8, 0.0])] {
        let [x, y, z] = cells.map(|c| c as f64 / 2.0);
        let [nx, ny, nz] = normal;
        let plane = Mirror { point: Vec3::new(x, y, z), normal: Vec3::new(nx, ny, nz) };
        let same = geom::Mirror { point: geom::Vec3 { x, y, z }, normal: geom::Vec3 { x: nx, y: ny, z: nz } };
        let mut far = Ok(0.0);
        let times = best(
            repetitions,
            || far = ours::asymmetry(black_box(&nodes), black_box(&tris), black_box(same), &mut work),
            || {
                black_box(rust::asymmetry(black_box(&mesh), black_box(&plane)));
            },
        );
        let distance = rust::asymmetry(&mesh, &plane);
        assert_eq!(far, Ok(distance), "both sides give the same distance");
        line(&format!("asymmetry, {name}, {} triangles", grouped(tris.len())), &format!("{distance:.3} mm"), times);
    }
}
