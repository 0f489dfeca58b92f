//! A box of one cell through the bindings, and meshes that are refused.
use sokdrib::Refused;
use sokdrib::geom::Vec3;
use sokdrib::mesh::{self, Counts, Lent};

#[test]
fn one_cell() {
    let (mut nodes, mut tets) = ([[9.0; 3]; 28], [[9; 10]; 6]);
    let (mut surfaces, mut tris, mut edges) = ([9; 12], [[9; 6]; 12], [9; 65]);
    let mut block = |cells, size, n| {
        let lent = Lent { nodes: &mut nodes[..n], tets: &mut tets, surfaces: &mut surfaces, tris: &mut tris, edges: &mut edges };
        mesh::block(cells, size, lent)
    };
    let size = Vec3 { x: 1.0, y: 2.0, z: 3.0 };
    assert_eq!(block([usize::MAX, 2, 2], size, 28), Err(Refused(3)));
    assert_eq!(block([1, 1, 1], Vec3 { x: f64::NAN, ..size }, 28), Err(Refused(9)));
    assert_eq!(block([1, 1, 1], size, 26), Err(Refused(14)));
    assert_eq!(block([0, 1, 1], size, 28), Ok(Counts { nodes: 27, tets: 6, tris: 12 }));
    assert_eq!((nodes[27], edges[63], edges[64]), ([9.0; 3], 0, 9));
    assert_eq!(surfaces.iter().filter(|s| **s == 6).count(), 2);

    let (mut volumes, mut middles) = ([9.0; 7], [[9.0; 3]; 7]);
    assert_eq!(mesh::design(&nodes, &tets, &mut volumes[..5], &mut middles), Err(Refused(14)));
    assert_eq!(mesh::design(&nodes, &tets, &mut volumes, &mut middles), Ok(()));
    assert!((volumes[..6].iter().sum::<f64>() - 6.0).abs() < 1e-12 && volumes[6] == 9.0 && middles[6] == [9.0; 3]);
    assert_eq!(mesh::volume(&nodes, &tets[0]), volumes[0]);
    assert!((mesh::corner_volume(&nodes, &tets[0]) - 1.0).abs() < 1e-15);
    let c = mesh::centroid(&nodes, &tets[0]);
    assert_eq!([c.x, c.y, c.z], middles[0]);
    assert_eq!(mesh::extent(&[[0.0; 3], [2.0, 3.0, 6.0]]), 7.0);
}
