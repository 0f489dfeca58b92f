//! Meshes of ten-node tetrahedra: four corners, then the middles of the sides 0-1, 1-2, 2-0, 0-3, 2-3 and 1-3. A node that is not
//! there is the origin.
//!
//! [`volume`], [`corner_volume`], [`centroid`] and [`extent`] are leaves: they work on nodes of any count and any bits, and refuse nothing.
//! [`design`] and [`block`] refuse what is outside the domain.
use crate::geom::Vec3;
use crate::{Refused, ffi, refusal};

/// The volume of a tetrahedron, curved as its mid-side nodes make it.
pub fn volume(nodes: &[[f64; 3]], tet: &[u32; 10]) -> f64 {
    ffi::sokdrib_volume(nodes, tet)
}

/// The volume of the straight tetrahedron between the corners.
pub fn corner_volume(nodes: &[[f64; 3]], tet: &[u32; 10]) -> f64 {
    ffi::sokdrib_corner_volume(nodes, tet)
}

/// The middle of a tetrahedron: the mean of its corners.
pub fn centroid(nodes: &[[f64; 3]], tet: &[u32; 10]) -> Vec3 {
    ffi::sokdrib_centroid(nodes, tet)
}

/// The size of the box that the nodes fit in, corner to corner.
pub fn extent(nodes: &[[f64; 3]]) -> f64 {
    ffi::sokdrib_extent(nodes)
}

/// Each tetrahedron's volume and middle. Refused with 3, 9 or 14, and then both lists are as before; of longer ones the rest stays.
pub fn design(nodes: &[[f64; 3]], tets: &[[u32; 10]], volumes: &mut [f64], centroids: &mut [[f64; 3]]) -> Result<(), Refused> {
    refusal(ffi::sokdrib_design(nodes, tets, volumes, centroids))
}

/// The lists that [`block`] fills; `surfaces` and `tris` are the boundary's triangles, place by place. `edges` is for its own use, and
/// needs eight places for each corner of the cells.
pub struct Lent<'a> {
    pub nodes: &'a mut [[f64; 3]],
    pub tets: &'a mut [[u32; 10]],
    pub surfaces: &'a mut [u32],
    pub tris: &'a mut [[u32; 6]],
    pub edges: &'a mut [u32],
}

/// How many places of its lists [`block`] filled.
#[derive(Clone, Copy, Debug, PartialEq, Eq)]
pub struct Counts {
    pub nodes: usize,
    pub tets: usize,
    pub tris: usize,
}

/// A box `size` long on each side, from the origin, in `cells` cells along each axis, each six tetrahedra. Its boundary is on surfaces
/// 1 to 6: x = 0, x = size.x, and so on. Refused with 3, 9 or 14, and then all lists are as before; of longer ones the rest stays.
pub fn block(cells: [usize; 3], size: Vec3, lent: Lent<'_>) -> Result<Counts, Refused> {
    let [nx, ny, nz] = cells;
    let made = ffi::sokdrib_block(nx, ny, nz, size, lent.nodes, lent.tets, lent.surfaces, lent.tris, lent.edges);
    let counts = Counts { nodes: made.nodes as usize, tets: made.tets as usize, tris: made.tris as usize };
    refusal(made.refused).map(|()| counts)
}
