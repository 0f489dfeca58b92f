//! A box of one cell through the bindings: what stays solid on it, and how it lies to a plane.
use sokdrib::Refused;
use sokdrib::geom::{Mirror, Vec3};
use sokdrib::mesh::{self, Lent};
use sokdrib::region::{self, AsymmetryWork, Kept, Mesh, PassiveWork};

type Boxed = ([[f64; 3]; 27], [[u32; 10]; 6], [u32; 12], [[u32; 6]; 12]);

fn one_cell() -> Boxed {
    let (mut nodes, mut tets, mut surfaces, mut tris) = ([[0.0; 3]; 27], [[0; 10]; 6], [0; 12], [[0; 6]; 12]);
    let lent = Lent { nodes: &mut nodes, tets: &mut tets, surfaces: &mut surfaces, tris: &mut tris, edges: &mut [0; 64] };
    assert!(mesh::block([1; 3], Vec3 { x: 2.0, y: 2.0, z: 2.0 }, lent).is_ok());
    (nodes, tets, surfaces, tris)
}

fn across(x: f64) -> Mirror {
    Mirror { point: Vec3 { x, y: 0.0, z: 0.0 }, normal: Vec3 { x: 1.0, y: 0.0, z: 0.0 } }
}

#[test]
fn what_stays_solid() {
    let (nodes, tets, surfaces, tris) = one_cell();
    let mesh = Mesh { nodes: &nodes, tets: &tets, tris: &tris, surfaces: &surfaces };
    let none = Kept { starts: &[0], ..Kept::default() };
    let mut work = PassiveWork::of(6, 27);
    let mut marks = [true; 7];
    assert_eq!(region::passive(mesh, &[27], &[u32::MAX], none, &mut marks, &mut work), Ok(()));
    assert_eq!(marks, [false, false, false, false, false, false, true]);
    assert_eq!(region::passive(mesh, &[tets[2][9]], &[], none, &mut marks, &mut work), Ok(()));
    assert!(marks[2]);

    let all = Kept { starts: &[0, 1], surfaces: &[1], depths: &[2.0] };
    let too_deep = Kept { depths: &[1e6f64.next_up()], ..all };
    let kept = marks;
    assert_eq!(region::passive(mesh, &[], &[], too_deep, &mut marks, &mut work), Err(Refused(8)));
    assert_eq!(region::passive(mesh, &[], &[], all, &mut marks[..5], &mut work), Err(Refused(14)));
    let cut = Kept { starts: &[0, 2], ..all };
    assert_eq!(region::passive(mesh, &[], &[], cut, &mut marks, &mut work), Err(Refused(14)));
    let far = Mesh { tris: &[[27, 0, 0, 0, 0, 0]], ..mesh };
    assert_eq!(region::passive(far, &[], &[], all, &mut marks, &mut work), Err(Refused(21)));
    assert_eq!(marks, kept);
    assert_eq!(region::passive(mesh, &[], &[], all, &mut marks, &mut work), Ok(()));
    assert_eq!(marks, [true; 7]);
    // An empty set needs no place, wherever it stands.
    let empty = Kept { starts: &[9, 9], ..all };
    assert_eq!(region::passive(mesh, &[], &[], empty, &mut marks, &mut work), Ok(()));
    assert_eq!(marks, [false, false, false, false, false, false, true]);
}

/// Two cells side by side, and two sets: each keeps to its own surfaces and its own depth.
#[test]
fn each_set_by_itself() {
    let (mut nodes, mut tets, mut surfaces, mut tris) = ([[0.0; 3]; 45], [[0; 10]; 12], [0; 20], [[0; 6]; 20]);
    let lent = Lent { nodes: &mut nodes, tets: &mut tets, surfaces: &mut surfaces, tris: &mut tris, edges: &mut [0; 96] };
    assert!(mesh::block([2, 1, 1], Vec3 { x: 4.0, y: 2.0, z: 2.0 }, lent).is_ok());
    let mesh = Mesh { nodes: &nodes, tets: &tets, tris: &tris, surfaces: &surfaces };
    let mut work = PassiveWork::of(12, 45);
    let mut marked = |starts: &[u32], surfaces: &[u32], depths: &[f64]| {
        let mut marks = [true; 12];
        assert_eq!(region::passive(mesh, &[], &[], Kept { starts, surfaces, depths }, &mut marks, &mut work), Ok(()));
        marks
    };
    let with_a_node_at = |x: f64| tets.map(|tet| tet.iter().any(|&n| nodes[n as usize][0] == x));
    let (low, high) = (with_a_node_at(0.0), with_a_node_at(4.0));
    assert_eq!((low.iter().filter(|is| **is).count(), high.map(|is| !is)), (6, low));
    let none = f64::NAN;
    assert_eq!(marked(&[0, 0, 1], &[2], &[none, none]), high);
    assert_eq!(marked(&[0, 1, 1], &[1], &[none, none]), low);
    assert_eq!(marked(&[0, 1, 2], &[1, 2], &[none, none]), [true; 12]);
    // The depth of an empty set reaches nothing, that of the other everything.
    assert_eq!(marked(&[0, 0, 1], &[2], &[10.0, none]), high);
    assert_eq!(marked(&[0, 0, 1], &[2], &[none, 10.0]), [true; 12]);
}

#[test]
fn the_same_on_both_sides() {
    let (nodes, _, _, tris) = one_cell();
    let mut work = AsymmetryWork::of(12, 27);
    assert_eq!(region::asymmetry(&nodes, &tris, across(1.0), &mut work), Ok(0.0));
    assert_eq!(region::asymmetry(&nodes, &tris, across(1.5), &mut work), Ok(1.0));
    assert_eq!(region::asymmetry(&nodes, &[], across(1.5), &mut work), Ok(0.0));
    assert_eq!(region::asymmetry(&nodes[..26], &tris, across(1.0), &mut work), Err(Refused(21)));
    assert_eq!(region::asymmetry(&nodes, &tris, across(f64::NAN), &mut work), Err(Refused(11)));
    work.boxes.pop();
    assert_eq!(region::asymmetry(&nodes, &tris, across(1.0), &mut work), Err(Refused(14)));
}

#[test]
fn off_the_middle() {
    let points = [[0.0; 3], [1.0, 0.0, 0.0]];
    assert_eq!(region::off_centre(&points, across(0.0)), Ok(Some((1.0, 0.0))));
    assert_eq!(region::off_centre(&points, across(0.5)), Ok(None));
    assert_eq!(region::off_centre(&[], across(0.5)), Ok(None));
    assert_eq!(region::off_centre(&[[f64::INFINITY; 3]], across(0.5)), Err(Refused(9)));
}
