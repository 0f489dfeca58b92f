//! What must stay solid, and whether a part is the same on both sides of a plane.
use crate::geom::Mirror;
use crate::{Refused, ffi, refusal};

/// A mesh with its boundary. A triangle has the numbers of its three corners, then those of the middles of its sides; `surfaces` has the
/// surface that it lies on, at the same place.
#[derive(Clone, Copy, Debug, Default)]
pub struct Mesh<'a> {
    pub nodes: &'a [[f64; 3]],
    pub tets: &'a [[u32; 10]],
    pub tris: &'a [[u32; 6]],
    pub surfaces: &'a [u32],
}

/// Sets of surfaces that stay solid to a depth: set s has `surfaces[starts[s]]` up to `surfaces[starts[s + 1]]`, and marks to
/// `depths[s]`, or by its nodes only where that is not finite or not above 0. A set that is not empty and ends past `surfaces` is refused with 14.
#[derive(Clone, Copy, Debug, Default)]
pub struct Kept<'a> {
    pub starts: &'a [u32],
    pub surfaces: &'a [u32],
    pub depths: &'a [f64],
}

/// Lists for the own use of [`passive`]: `keep` needs a place a node, `first` one more than an element, each other one an element.
#[derive(Clone, Debug, Default, PartialEq)]
pub struct PassiveWork {
    pub keep: Vec<bool>,
    pub centroids: Vec<[f64; 3]>,
    pub cells: Vec<[u64; 3]>,
    pub order: Vec<u32>,
    pub place: Vec<u32>,
    pub first: Vec<u32>,
}

impl PassiveWork {
    /// Just long enough for so many elements and nodes.
    pub fn of(elements: usize, nodes: usize) -> PassiveWork {
        PassiveWork {
            keep: vec![false; nodes],
            centroids: vec![[0.0; 3]; elements],
            cells: vec![[0; 3]; elements],
            order: vec![0; elements],
            place: vec![0; elements],
            first: vec![0; elements + 1],
        }
    }
}

/// Which elements must stay solid: those with a node that is held, loaded or on a kept surface, and those whose middle is within a kept
/// set's depth. `held` and `loaded` are numbers of nodes; one that is no node is passed over.
///
/// Refused with 3, 21, 9, 8 or 14, and then all lists are as before; of longer ones the rest stays.
pub fn passive(
    mesh: Mesh<'_>,
    held: &[u32],
    loaded: &[u32],
    kept: Kept<'_>,
    marks: &mut [bool],
    work: &mut PassiveWork,
) -> Result<(), Refused> {
    let Mesh { nodes, tets, tris, surfaces } = mesh;
    let PassiveWork { keep, centroids, cells, order, place, first } = work;
    refusal(ffi::sokdrib_passive(
        nodes,
        tets,
        tris,
        surfaces,
        held,
        loaded,
        kept.starts,
        kept.surfaces,
        kept.depths,
        marks,
        keep,
        centroids,
        cells,
        order,
        place,
        first,
    ))
}

/// Lists for the own use of [`asymmetry`]: `seen` needs a place a node, each other one a triangle.
#[derive(Clone, Debug, Default, PartialEq)]
pub struct AsymmetryWork {
    pub faces: Vec<[f64; 9]>,
    pub kx: Vec<u64>,
    pub ky: Vec<u64>,
    pub kz: Vec<u64>,
    pub order: Vec<u32>,
    pub scratch: Vec<u32>,
    pub boxes: Vec<[f64; 6]>,
    pub seen: Vec<bool>,
}

impl AsymmetryWork {
    /// Just long enough for so many triangles and nodes.
    pub fn of(triangles: usize, nodes: usize) -> AsymmetryWork {
        AsymmetryWork {
            faces: vec![[0.0; 9]; triangles],
            kx: vec![0; triangles],
            ky: vec![0; triangles],
            kz: vec![0; triangles],
            order: vec![0; triangles],
            scratch: vec![0; triangles],
            boxes: vec![[0.0; 6]; triangles],
            seen: vec![false; nodes],
        }
    }
}

/// How far a boundary is from its image in a plane: the farthest that any corner of a triangle, seen in the plane, is from the boundary.
/// The plane's normal is used as it is given.
///
/// Refused with 3, 21, 9, 11 or 14, and then all lists are as before; of longer ones the rest stays.
pub fn asymmetry(nodes: &[[f64; 3]], tris: &[[u32; 6]], mirror: Mirror, work: &mut AsymmetryWork) -> Result<f64, Refused> {
    let AsymmetryWork { faces, kx, ky, kz, order, scratch, boxes, seen } = work;
    let told = ffi::sokdrib_asymmetry(nodes, tris, mirror, faces, kx, ky, kz, order, scratch, boxes, seen);
    refusal(told.refused).map(|()| told.distance)
}

/// How far the points reach to the side that the plane's normal looks to, and to the other, where they are off its middle by more than a
/// tenth of their width along the normal. Refused with 3, 9 or 11.
pub fn off_centre(points: &[[f64; 3]], mirror: Mirror) -> Result<Option<(f64, f64)>, Refused> {
    let told = ffi::sokdrib_off_centre(points, mirror);
    refusal(told.refused).map(|()| told.off.then_some((told.ahead, told.behind)))
}
