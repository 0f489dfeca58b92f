// Written by tools/gen_ffi.py from the sources of crate capi: change those, and run it.
//! What the library exports, over slices.
//!
//! In the library a slice is two parameters, a pointer and a count of elements. Each pair that is handed over here is of a slice that is
//! borrowed while the call lasts, and what may be written is borrowed as `&mut`, so it overlaps no other.

#[repr(C)]
#[derive(Clone, Copy, Debug, Default, PartialEq)]
pub struct Vec3 {
    pub x: f64,
    pub y: f64,
    pub z: f64,
}
const _: () = assert!(size_of::<Vec3>() == 24 && align_of::<Vec3>() == 8);

/// A plane: a point on it and its normal, which need not be of unit length here.
#[repr(C)]
#[derive(Clone, Copy, Debug, Default, PartialEq)]
pub struct Mirror {
    pub point: Vec3,
    pub normal: Vec3,
}
const _: () = assert!(size_of::<Mirror>() == 48 && align_of::<Mirror>() == 8);

#[repr(C)]
#[derive(Clone, Copy, Debug, Default, PartialEq)]
pub struct LevelNumbers {
    pub refused: u32,
    pub level: u16,
}
const _: () = assert!(size_of::<LevelNumbers>() == 8 && align_of::<LevelNumbers>() == 4);

/// What `block` returns, as it goes across C: the counts of a mesh; or the refusal, with no counts.
#[repr(C)]
#[derive(Clone, Copy, Debug, Default, PartialEq)]
pub struct Made {
    pub refused: u32,
    pub nodes: u32,
    pub tets: u32,
    pub tris: u32,
}
const _: () = assert!(size_of::<Made>() == 16 && align_of::<Made>() == 4);

/// How far a boundary is from its image, or the number of a refusal and 0.
#[repr(C)]
#[derive(Clone, Copy, Debug, Default, PartialEq)]
pub struct Asymmetry {
    pub refused: u32,
    pub distance: f64,
}
const _: () = assert!(size_of::<Asymmetry>() == 16 && align_of::<Asymmetry>() == 8);

/// How far points reach to each side of a plane, where they are off its middle. Where they are about even, where there are none, and at a refusal, off is
/// false and the reaches are 0.
#[repr(C)]
#[derive(Clone, Copy, Debug, Default, PartialEq)]
pub struct OffCentre {
    pub refused: u32,
    pub off: bool,
    pub ahead: f64,
    pub behind: f64,
}
const _: () = assert!(size_of::<OffCentre>() == 24 && align_of::<OffCentre>() == 8);

/// What a run starts with, or the number of a refusal and zeros.
#[repr(C)]
#[derive(Clone, Copy, Debug, Default, PartialEq)]
pub struct Start {
    pub refused: u32,
    pub total: f64,
    pub solid: f64,
    pub target: f64,
    pub tolerance: f64,
    pub density: f64,
}
const _: () = assert!(size_of::<Start>() == 48 && align_of::<Start>() == 8);

#[repr(C)]
#[derive(Clone, Copy, Debug, Default, PartialEq)]
pub struct Projected {
    pub density: f64,
    pub slope: f64,
}
const _: () = assert!(size_of::<Projected>() == 16 && align_of::<Projected>() == 8);

/// The volume that a design keeps, or the number of a refusal and 0.
#[repr(C)]
#[derive(Clone, Copy, Debug, Default, PartialEq)]
pub struct Kept {
    pub refused: u32,
    pub volume: f64,
}
const _: () = assert!(size_of::<Kept>() == 16 && align_of::<Kept>() == 8);

/// A run as it stands between two calls. Phase 0: no run is open. 1: the solid part is asked for. 2: a round is. Any other number is no run's. The sharpening is as
/// in its goal.
#[repr(C)]
#[derive(Clone, Copy, Debug, Default, PartialEq)]
pub struct RunState {
    pub phase: u32,
    pub elements: usize,
    pub entries: usize,
    pub fraction: f64,
    pub sharpen: u32,
    pub max_iterations: usize,
    pub rounds: usize,
    pub stage: usize,
    pub at_stage: usize,
    pub steady: usize,
    pub solid_compliance: f64,
    pub compliance: f64,
}
const _: () = assert!(size_of::<RunState>() == 96 && align_of::<RunState>() == 8);

/// What a run is to reach: the share of the volume, the filter's radius, the sharpening, and the rounds allowed. Sharpening 0: off. 1: early. 2: full. Any other number is
/// no goal's.
#[repr(C)]
#[derive(Clone, Copy, Debug, Default, PartialEq)]
pub struct RunGoal {
    pub fraction: f64,
    pub radius: f64,
    pub sharpen: u32,
    pub max_iterations: usize,
}
const _: () = assert!(size_of::<RunGoal>() == 32 && align_of::<RunGoal>() == 8);

/// What a call returns. Reply 0: a refusal and its number. 1: the solid part is asked for. 2: a round is, and its number. 3: a stop, and its number: 0
/// Settled, 1 LevelledOff, 2 Limit, 3 Budget, 4 Stopped.
#[repr(C)]
#[derive(Clone, Copy, Debug, Default, PartialEq)]
pub struct RunReturned {
    pub state: RunState,
    pub reply: u32,
    pub number: usize,
}
const _: () = assert!(size_of::<RunReturned>() == 112 && align_of::<RunReturned>() == 8);

/// What an answer says beside the energies. Said 0: the solver gave them. 1: it failed. Any other number: it stopped. Then whether the run is to stop, and the
/// milliseconds elapsed and allowed.
#[repr(C)]
#[derive(Clone, Copy, Debug, Default, PartialEq)]
pub struct RunHeard {
    pub said: u32,
    pub flag: bool,
    pub elapsed: u64,
    pub allowed: u64,
}
const _: () = assert!(size_of::<RunHeard>() == 24 && align_of::<RunHeard>() == 8);

/// A round's record.
#[repr(C)]
#[derive(Clone, Copy, Debug, Default, PartialEq)]
pub struct RunRecord {
    pub number: usize,
    pub compliance: f64,
    pub fraction: f64,
    pub change: f64,
    pub sharpness: f64,
    pub grey: f64,
    pub passes: usize,
}
const _: () = assert!(size_of::<RunRecord>() == 56 && align_of::<RunRecord>() == 8);

/// What an answer returns, with the record that is to be put at a place of the history: past its end where there is none.
#[repr(C)]
#[derive(Clone, Copy, Debug, Default, PartialEq)]
pub struct RunStep {
    pub returned: RunReturned,
    pub at: usize,
    pub entry: RunRecord,
}
const _: () = assert!(size_of::<RunStep>() == 176 && align_of::<RunStep>() == 8);

/// What goes from call to call: the jobs' numbers stand at their places, and zeros past them.
#[repr(C)]
#[derive(Clone, Copy, Debug, Default, PartialEq)]
pub struct Shift {
    pub jobs: u32,
    pub share: [u32; 16],
    pub limit: [u32; 16],
    pub granted: [u32; 16],
}
const _: () = assert!(size_of::<Shift>() == 196 && align_of::<Shift>() == 4);

/// What C is told of a beginning.
#[repr(C)]
#[derive(Clone, Copy, Debug, Default, PartialEq)]
pub struct ShiftBegun {
    pub refused: u32,
    pub shift: Shift,
}
const _: () = assert!(size_of::<ShiftBegun>() == 200 && align_of::<ShiftBegun>() == 4);

/// What C is told of a grant.
#[repr(C)]
#[derive(Clone, Copy, Debug, Default, PartialEq)]
pub struct ShiftGrant {
    pub refused: u32,
    pub job: u32,
    pub shift: Shift,
}
const _: () = assert!(size_of::<ShiftGrant>() == 204 && align_of::<ShiftGrant>() == 4);

/// How an update ended, or the number of a refusal and zeros. Ending 0: met, with the kept volume first. 1: cramped, with the lower and the
/// upper rate of its bracket. 2: spent, with the kept volume first.
#[repr(C)]
#[derive(Clone, Copy, Debug, Default, PartialEq)]
pub struct Update {
    pub refused: u32,
    pub ending: u32,
    pub first: f64,
    pub second: f64,
    pub passes: usize,
}
const _: () = assert!(size_of::<Update>() == 32 && align_of::<Update>() == 8);

mod library {
    use super::{Asymmetry, Kept, LevelNumbers, Made, Mirror, OffCentre, Projected, RunGoal, RunHeard, RunReturned, RunState, RunStep, Shift, ShiftBegun, ShiftGrant, Start, Update, Vec3};

    unsafe extern "C" {
        /// The size of x.
        pub safe fn sokdrib_abs(x: f64) -> f64;
        /// The larger; where one is not a number, the other.
        pub safe fn sokdrib_max(x: f64, y: f64) -> f64;
        /// The smaller; where one is not a number, the other.
        pub safe fn sokdrib_min(x: f64, y: f64) -> f64;
        /// x brought into 0 to 1; a not-a-number stays one.
        pub safe fn sokdrib_clamp(x: f64) -> f64;
        /// Whether x is neither an infinity nor a not-a-number.
        pub safe fn sokdrib_is_finite(x: f64) -> bool;
        /// The hyperbolic tangent by Lambert's continued fraction.
        pub safe fn sokdrib_tanh(z: f64) -> f64;
        /// IEEE 754's square root, the nearest value.
        pub safe fn sokdrib_sqrt(x: f64) -> f64;
        /// x.floor() as a 64-bit integer, counted from -2^63: what lies outside saturates, and a not-a-number counts as 0.
        pub safe fn sokdrib_floor_at(x: f64) -> u64;
        /// The nearest whole number, halves away from zero: what lies outside saturates, and a not-a-number gives 0.
        pub safe fn sokdrib_round_half_away(x: f64) -> u64;
        /// The bit pattern of x; every not-a-number has one.
        pub safe fn sokdrib_to_bits(x: f64) -> u64;
        /// The number of a bit pattern; every pattern of a not-a-number gives the same one.
        pub safe fn sokdrib_from_bits(n: u64) -> f64;
        /// A key whose order is IEEE 754's totalOrder.
        pub safe fn sokdrib_total_key(x: f64) -> u64;
        pub safe fn sokdrib_vec3_new(x: f64, y: f64, z: f64) -> Vec3;
        pub safe fn sokdrib_vec3_add(a: Vec3, b: Vec3) -> Vec3;
        pub safe fn sokdrib_vec3_sub(a: Vec3, b: Vec3) -> Vec3;
        pub safe fn sokdrib_vec3_scale(a: Vec3, k: f64) -> Vec3;
        /// The smaller by component.
        pub safe fn sokdrib_vec3_min(a: Vec3, b: Vec3) -> Vec3;
        /// The larger by component.
        pub safe fn sokdrib_vec3_max(a: Vec3, b: Vec3) -> Vec3;
        pub safe fn sokdrib_vec3_dot(a: Vec3, b: Vec3) -> f64;
        pub safe fn sokdrib_vec3_cross(a: Vec3, b: Vec3) -> Vec3;
        /// The square of the length.
        pub safe fn sokdrib_vec3_len2(a: Vec3) -> f64;
        pub safe fn sokdrib_vec3_len(a: Vec3) -> f64;
        /// The distance of two points.
        pub safe fn sokdrib_vec3_dist(a: Vec3, b: Vec3) -> f64;
        /// Each component divided by the length.
        pub safe fn sokdrib_vec3_normalized(a: Vec3) -> Vec3;
        /// Whether every component is finite.
        pub safe fn sokdrib_vec3_is_finite(a: Vec3) -> bool;
        /// Where p is seen in the plane.
        pub safe fn sokdrib_mirror_image(mirror: Mirror, p: Vec3) -> Vec3;
        /// The square of the distance from p to the triangle a, b, c.
        pub safe fn sokdrib_dist2_to_triangle(p: Vec3, a: Vec3, b: Vec3, c: Vec3) -> f64;
        /// The Young's modulus of a stiffness level for a material of modulus e0.
        pub safe fn sokdrib_modulus(level: u16, e0: f64) -> f64;
        /// The level that a density is solved at: the nearest thousandth.
        pub safe fn sokdrib_level_of(x: f64) -> u16;
        pub unsafe fn sokdrib_sqrt_each(xs: *const f64, xs_len: usize, out: *mut f64, out_len: usize);
        pub unsafe fn sokdrib_tanh_each(zs: *const f64, zs_len: usize, out: *mut f64, out_len: usize);
        pub unsafe fn sokdrib_dist2_each(
            points: *const [f64; 3],
            points_len: usize,
            triangles: *const [f64; 9],
            triangles_len: usize,
            out: *mut f64,
            out_len: usize,
        );
        pub unsafe fn sokdrib_filter_build(
            centroids: *const [f64; 3],
            centroids_len: usize,
            volumes: *const f64,
            volumes_len: usize,
            radius: f64,
            planes: *const [f64; 6],
            planes_len: usize,
            starts: *mut u32,
            starts_len: usize,
            near: *mut u32,
            near_len: usize,
            coef: *mut f64,
            coef_len: usize,
            cell: *mut [u64; 3],
            cell_len: usize,
            order: *mut u32,
            order_len: usize,
            first: *mut u32,
            first_len: usize,
            sorted: *mut [f64; 3],
            sorted_len: usize,
            stamp: *mut u32,
            stamp_len: usize,
            weight: *mut f64,
            weight_len: usize,
            found: *mut u32,
            found_len: usize,
            bits: *mut u64,
            bits_len: usize,
        ) -> u32;
        pub unsafe fn sokdrib_apply(
            starts: *const u32,
            starts_len: usize,
            near: *const u32,
            near_len: usize,
            coef: *const f64,
            coef_len: usize,
            x: *const f64,
            x_len: usize,
            out: *mut f64,
            out_len: usize,
        );
        pub unsafe fn sokdrib_back(
            starts: *const u32,
            starts_len: usize,
            near: *const u32,
            near_len: usize,
            coef: *const f64,
            coef_len: usize,
            g: *const f64,
            g_len: usize,
            out: *mut f64,
            out_len: usize,
        );
        /// The level whose modulus for material 1 is `modulus`; 29 where no level has it.
        pub safe fn sokdrib_level_with(modulus: f64) -> LevelNumbers;
        /// The greatest level whose modulus for material 1 is not above `stiffness`; 29 below the lowest modulus, above the highest, and for a not-a-number.
        pub safe fn sokdrib_level_below(stiffness: f64) -> LevelNumbers;
        pub unsafe fn sokdrib_volume(nodes: *const [f64; 3], nodes_len: usize, tet: &[u32; 10]) -> f64;
        pub unsafe fn sokdrib_corner_volume(nodes: *const [f64; 3], nodes_len: usize, tet: &[u32; 10]) -> f64;
        pub unsafe fn sokdrib_centroid(nodes: *const [f64; 3], nodes_len: usize, tet: &[u32; 10]) -> Vec3;
        pub unsafe fn sokdrib_extent(nodes: *const [f64; 3], nodes_len: usize) -> f64;
        pub unsafe fn sokdrib_design(
            nodes: *const [f64; 3],
            nodes_len: usize,
            tets: *const [u32; 10],
            tets_len: usize,
            volumes: *mut f64,
            volumes_len: usize,
            centroids: *mut [f64; 3],
            centroids_len: usize,
        ) -> u32;
        pub unsafe fn sokdrib_block(
            nx: usize,
            ny: usize,
            nz: usize,
            size: Vec3,
            nodes: *mut [f64; 3],
            nodes_len: usize,
            tets: *mut [u32; 10],
            tets_len: usize,
            surfaces: *mut u32,
            surfaces_len: usize,
            tris: *mut [u32; 6],
            tris_len: usize,
            edges: *mut u32,
            edges_len: usize,
        ) -> Made;
        pub unsafe fn sokdrib_passive(
            nodes: *const [f64; 3],
            nodes_len: usize,
            tets: *const [u32; 10],
            tets_len: usize,
            tris: *const [u32; 6],
            tris_len: usize,
            surfaces: *const u32,
            surfaces_len: usize,
            held: *const u32,
            held_len: usize,
            loaded: *const u32,
            loaded_len: usize,
            starts: *const u32,
            starts_len: usize,
            kept: *const u32,
            kept_len: usize,
            depths: *const f64,
            depths_len: usize,
            marks: *mut bool,
            marks_len: usize,
            keep: *mut bool,
            keep_len: usize,
            centroids: *mut [f64; 3],
            centroids_len: usize,
            cells: *mut [u64; 3],
            cells_len: usize,
            order: *mut u32,
            order_len: usize,
            place: *mut u32,
            place_len: usize,
            first: *mut u32,
            first_len: usize,
        ) -> u32;
        pub unsafe fn sokdrib_asymmetry(
            nodes: *const [f64; 3],
            nodes_len: usize,
            tris: *const [u32; 6],
            tris_len: usize,
            mirror: Mirror,
            faces: *mut [f64; 9],
            faces_len: usize,
            kx: *mut u64,
            kx_len: usize,
            ky: *mut u64,
            ky_len: usize,
            kz: *mut u64,
            kz_len: usize,
            order: *mut u32,
            order_len: usize,
            scratch: *mut u32,
            scratch_len: usize,
            boxes: *mut [f64; 6],
            boxes_len: usize,
            seen: *mut bool,
            seen_len: usize,
        ) -> Asymmetry;
        pub unsafe fn sokdrib_off_centre(points: *const [f64; 3], points_len: usize, mirror: Mirror) -> OffCentre;
        /// Whether solid of a part's total volume, held solid, leaves no room to come down to target.
        pub safe fn sokdrib_no_room(solid: f64, total: f64, target: f64) -> bool;
        pub unsafe fn sokdrib_start(
            volumes: *const f64,
            volumes_len: usize,
            passive: *const bool,
            passive_len: usize,
            fraction: f64,
            design: *mut f64,
            design_len: usize,
            free: *mut f64,
            free_len: usize,
        ) -> Start;
        /// A filtered density v sharpened at the steepness beta, and how fast it moves with v.
        pub safe fn sokdrib_project(v: f64, beta: f64) -> Projected;
        pub unsafe fn sokdrib_see(
            starts: *const u32,
            starts_len: usize,
            near: *const u32,
            near_len: usize,
            coef: *const f64,
            coef_len: usize,
            passive: *const bool,
            passive_len: usize,
            x: *const f64,
            x_len: usize,
            sharpen: bool,
            beta: f64,
            density: *mut f64,
            density_len: usize,
            slope: *mut f64,
            slope_len: usize,
        ) -> u32;
        pub unsafe fn sokdrib_work_slope(
            starts: *const u32,
            starts_len: usize,
            near: *const u32,
            near_len: usize,
            coef: *const f64,
            coef_len: usize,
            passive: *const bool,
            passive_len: usize,
            density: *const f64,
            density_len: usize,
            slope: *const f64,
            slope_len: usize,
            energies: *const f64,
            energies_len: usize,
            by_density: *mut f64,
            by_density_len: usize,
            out: *mut f64,
            out_len: usize,
        ) -> u32;
        pub unsafe fn sokdrib_volume_slope(
            starts: *const u32,
            starts_len: usize,
            near: *const u32,
            near_len: usize,
            coef: *const f64,
            coef_len: usize,
            slope: *const f64,
            slope_len: usize,
            free: *const f64,
            free_len: usize,
            by_density: *mut f64,
            by_density_len: usize,
            out: *mut f64,
            out_len: usize,
        ) -> u32;
        pub unsafe fn sokdrib_kept(
            rule: u32,
            value: f64,
            straight: *const f64,
            straight_len: usize,
            starts: *const u32,
            starts_len: usize,
            near: *const u32,
            near_len: usize,
            coef: *const f64,
            coef_len: usize,
            volumes: *const f64,
            volumes_len: usize,
            passive: *const bool,
            passive_len: usize,
            y: *const f64,
            y_len: usize,
            density: *mut f64,
            density_len: usize,
        ) -> Kept;
        pub unsafe fn sokdrib_compliance(energies: *const f64, energies_len: usize) -> f64;
        pub unsafe fn sokdrib_fraction(volumes: *const f64, volumes_len: usize, density: *const f64, density_len: usize, total: f64) -> f64;
        pub unsafe fn sokdrib_change(next: *const f64, next_len: usize, x: *const f64, x_len: usize) -> f64;
        pub unsafe fn sokdrib_grey(density: *const f64, density_len: usize, free: *const f64, free_len: usize, total: f64) -> f64;
        pub unsafe fn sokdrib_open(
            room: usize,
            state: RunState,
            goal: RunGoal,
            flag: bool,
            volumes: *const f64,
            volumes_len: usize,
            centroids: *const [f64; 3],
            centroids_len: usize,
            passive: *const bool,
            passive_len: usize,
            mirrors: *const [f64; 6],
            mirrors_len: usize,
            starts: *mut u32,
            starts_len: usize,
            near: *mut u32,
            near_len: usize,
            coef: *mut f64,
            coef_len: usize,
            design: *mut f64,
            design_len: usize,
            density: *mut f64,
            density_len: usize,
            last: *const f64,
            last_len: usize,
            cell: *mut [u64; 3],
            cell_len: usize,
            order: *mut u32,
            order_len: usize,
            first: *mut u32,
            first_len: usize,
            sorted: *mut [f64; 3],
            sorted_len: usize,
            stamp: *mut u32,
            stamp_len: usize,
            weight: *mut f64,
            weight_len: usize,
            found: *mut u32,
            found_len: usize,
            bits: *mut u64,
            bits_len: usize,
        ) -> RunReturned;
        pub unsafe fn sokdrib_answer(
            room: usize,
            state: RunState,
            heard: RunHeard,
            energies: *const f64,
            energies_len: usize,
            volumes: *const f64,
            volumes_len: usize,
            passive: *const bool,
            passive_len: usize,
            starts: *const u32,
            starts_len: usize,
            near: *const u32,
            near_len: usize,
            coef: *const f64,
            coef_len: usize,
            design: *mut f64,
            design_len: usize,
            density: *mut f64,
            density_len: usize,
            last: *mut f64,
            last_len: usize,
            free: *mut f64,
            free_len: usize,
            slope: *mut f64,
            slope_len: usize,
            spare: *mut f64,
            spare_len: usize,
            dc: *mut f64,
            dc_len: usize,
            dv: *mut f64,
            dv_len: usize,
        ) -> RunStep;
        pub unsafe fn sokdrib_shift_begin(jobs: *const [u32; 2], jobs_len: usize) -> ShiftBegun;
        pub unsafe fn sokdrib_shift_grant(shift: Shift, named: *const u32, named_len: usize) -> ShiftGrant;
        pub unsafe fn sokdrib_update(
            x: *const f64,
            x_len: usize,
            dc: *const f64,
            dc_len: usize,
            dv: *const f64,
            dv_len: usize,
            passive: *const bool,
            passive_len: usize,
            m: f64,
            target: f64,
            tolerance: f64,
            rule: u32,
            value: f64,
            starts: *const u32,
            starts_len: usize,
            near: *const u32,
            near_len: usize,
            coef: *const f64,
            coef_len: usize,
            volumes: *const f64,
            volumes_len: usize,
            design: *mut f64,
            design_len: usize,
            gain: *mut f64,
            gain_len: usize,
            work: *mut f64,
            work_len: usize,
        ) -> Update;
    }
}

pub use library::{
    sokdrib_abs, sokdrib_clamp, sokdrib_dist2_to_triangle, sokdrib_floor_at, sokdrib_from_bits, sokdrib_is_finite, sokdrib_level_below,
    sokdrib_level_of, sokdrib_level_with, sokdrib_max, sokdrib_min, sokdrib_mirror_image, sokdrib_modulus, sokdrib_no_room,
    sokdrib_project, sokdrib_round_half_away, sokdrib_sqrt, sokdrib_tanh, sokdrib_to_bits, sokdrib_total_key, sokdrib_vec3_add,
    sokdrib_vec3_cross, sokdrib_vec3_dist, sokdrib_vec3_dot, sokdrib_vec3_is_finite, sokdrib_vec3_len, sokdrib_vec3_len2, sokdrib_vec3_max,
    sokdrib_vec3_min, sokdrib_vec3_new, sokdrib_vec3_normalized, sokdrib_vec3_scale, sokdrib_vec3_sub
};

/// The root of each of xs, as far as both lists go; the rest of out stays as lent.
pub fn sokdrib_sqrt_each(xs: &[f64], out: &mut [f64]) {
    // SAFETY: see above.
    unsafe { library::sokdrib_sqrt_each(xs.as_ptr(), xs.len(), out.as_mut_ptr(), out.len()) }
}

/// The hyperbolic tangent of each of zs, as far as both lists go; the rest of out stays as lent.
pub fn sokdrib_tanh_each(zs: &[f64], out: &mut [f64]) {
    // SAFETY: see above.
    unsafe { library::sokdrib_tanh_each(zs.as_ptr(), zs.len(), out.as_mut_ptr(), out.len()) }
}

/// The square of the distance from each point to the triangle at the same place, its corners in a row, as far as all three lists go;
/// the rest of out stays as lent.
pub fn sokdrib_dist2_each(points: &[[f64; 3]], triangles: &[[f64; 9]], out: &mut [f64]) {
    // SAFETY: see above.
    unsafe { library::sokdrib_dist2_each(points.as_ptr(), points.len(), triangles.as_ptr(), triangles.len(), out.as_mut_ptr(), out.len()) }
}

/// The filter's table, over the radius and the same on both sides of each plane (its point, then its normal), and 0 or the refusal. 1 to 4 and 8 to 12
/// in order, and 14 before the first row, leave all lists as before; 13 and 14 at a row leave the table's lists and the working lists zero throughout. A
/// table has its rows' starts, one more than there are elements, and each row's neighbours and weights up to its end. The working lists are for the
/// call's own use: one place an element, first one more, and bits 1040.
#[allow(clippy::too_many_arguments)]
pub fn sokdrib_filter_build(
    centroids: &[[f64; 3]],
    volumes: &[f64],
    radius: f64,
    planes: &[[f64; 6]],
    starts: &mut [u32],
    near: &mut [u32],
    coef: &mut [f64],
    cell: &mut [[u64; 3]],
    order: &mut [u32],
    first: &mut [u32],
    sorted: &mut [[f64; 3]],
    stamp: &mut [u32],
    weight: &mut [f64],
    found: &mut [u32],
    bits: &mut [u64],
) -> u32 {
    // SAFETY: see above.
    unsafe { library::sokdrib_filter_build(
        centroids.as_ptr(), centroids.len(),
        volumes.as_ptr(), volumes.len(),
        radius,
        planes.as_ptr(), planes.len(),
        starts.as_mut_ptr(), starts.len(),
        near.as_mut_ptr(), near.len(),
        coef.as_mut_ptr(), coef.len(),
        cell.as_mut_ptr(), cell.len(),
        order.as_mut_ptr(), order.len(),
        first.as_mut_ptr(), first.len(),
        sorted.as_mut_ptr(), sorted.len(),
        stamp.as_mut_ptr(), stamp.len(),
        weight.as_mut_ptr(), weight.len(),
        found.as_mut_ptr(), found.len(),
        bits.as_mut_ptr(), bits.len()
    ) }
}

/// Element densities seen through the filter: the sum of each row, one row for each place of out. A row whose places are not in the
/// lists is empty, and what stands past the end of x counts as 0.
pub fn sokdrib_apply(starts: &[u32], near: &[u32], coef: &[f64], x: &[f64], out: &mut [f64]) {
    // SAFETY: see above.
    unsafe { library::sokdrib_apply(
        starts.as_ptr(), starts.len(),
        near.as_ptr(), near.len(),
        coef.as_ptr(), coef.len(),
        x.as_ptr(), x.len(),
        out.as_mut_ptr(), out.len()
    ) }
}

/// Slopes against filtered densities carried back to the densities: the transposed product, one row for each place of g.
pub fn sokdrib_back(starts: &[u32], near: &[u32], coef: &[f64], g: &[f64], out: &mut [f64]) {
    // SAFETY: see above.
    unsafe { library::sokdrib_back(
        starts.as_ptr(), starts.len(),
        near.as_ptr(), near.len(),
        coef.as_ptr(), coef.len(),
        g.as_ptr(), g.len(),
        out.as_mut_ptr(), out.len()
    ) }
}

/// The volume of a tetrahedron, curved as its mid-side nodes make it. A node that is not there is the origin. This call and the three after it are
/// leaves: they work on nodes of any count and any bits, and refuse nothing; sokdrib_design refuses what is outside the domain.
pub fn sokdrib_volume(nodes: &[[f64; 3]], tet: &[u32; 10]) -> f64 {
    // SAFETY: see above.
    unsafe { library::sokdrib_volume(nodes.as_ptr(), nodes.len(), tet) }
}

/// The volume of the straight tetrahedron between the corners.
pub fn sokdrib_corner_volume(nodes: &[[f64; 3]], tet: &[u32; 10]) -> f64 {
    // SAFETY: see above.
    unsafe { library::sokdrib_corner_volume(nodes.as_ptr(), nodes.len(), tet) }
}

/// The middle of a tetrahedron: the mean of its corners.
pub fn sokdrib_centroid(nodes: &[[f64; 3]], tet: &[u32; 10]) -> Vec3 {
    // SAFETY: see above.
    unsafe { library::sokdrib_centroid(nodes.as_ptr(), nodes.len(), tet) }
}

/// The size of the box that the nodes fit in, corner to corner.
pub fn sokdrib_extent(nodes: &[[f64; 3]]) -> f64 {
    // SAFETY: see above.
    unsafe { library::sokdrib_extent(nodes.as_ptr(), nodes.len()) }
}

/// Each tetrahedron's volume and middle, and 0 or the refusal: 3, 9 or 14, with both lists as before.
pub fn sokdrib_design(nodes: &[[f64; 3]], tets: &[[u32; 10]], volumes: &mut [f64], centroids: &mut [[f64; 3]]) -> u32 {
    // SAFETY: see above.
    unsafe { library::sokdrib_design(
        nodes.as_ptr(), nodes.len(),
        tets.as_ptr(), tets.len(),
        volumes.as_mut_ptr(), volumes.len(),
        centroids.as_mut_ptr(), centroids.len()
    ) }
}

/// A box size long on each side, from the origin, in nx, ny and nz cells along the axes, each cell six tetrahedra. Fills the lists, with edges to work
/// in, and gives the counts; or the refusal 3, 9 or 14, with every list as before. The triangles' surfaces are 1 to 6: x = 0, x = size.x, and so on.
#[allow(clippy::too_many_arguments)]
pub fn sokdrib_block(
    nx: usize,
    ny: usize,
    nz: usize,
    size: Vec3,
    nodes: &mut [[f64; 3]],
    tets: &mut [[u32; 10]],
    surfaces: &mut [u32],
    tris: &mut [[u32; 6]],
    edges: &mut [u32],
) -> Made {
    // SAFETY: see above.
    unsafe { library::sokdrib_block(
        nx,
        ny,
        nz,
        size,
        nodes.as_mut_ptr(), nodes.len(),
        tets.as_mut_ptr(), tets.len(),
        surfaces.as_mut_ptr(), surfaces.len(),
        tris.as_mut_ptr(), tris.len(),
        edges.as_mut_ptr(), edges.len()
    ) }
}

/// The elements that must stay solid, and 0 or the refusal: 3, 21, 9, 8 or 14, with all lists as before. A triangle has its three corners' numbers and
/// then those of the middles of its sides, and its surface is in surfaces. held and loaded are numbers of nodes. Set s of kept surfaces is kept from
/// starts[s] up to starts[s + 1], and kept needs the places up to there where the set is not empty; its depth is none where it is not finite or not above
/// 0. keep and the lists after it are for the call's own use: keep needs a place a node, first one more than an element, the others one an element.
#[allow(clippy::too_many_arguments)]
pub fn sokdrib_passive(
    nodes: &[[f64; 3]],
    tets: &[[u32; 10]],
    tris: &[[u32; 6]],
    surfaces: &[u32],
    held: &[u32],
    loaded: &[u32],
    starts: &[u32],
    kept: &[u32],
    depths: &[f64],
    marks: &mut [bool],
    keep: &mut [bool],
    centroids: &mut [[f64; 3]],
    cells: &mut [[u64; 3]],
    order: &mut [u32],
    place: &mut [u32],
    first: &mut [u32],
) -> u32 {
    // SAFETY: see above.
    unsafe { library::sokdrib_passive(
        nodes.as_ptr(), nodes.len(),
        tets.as_ptr(), tets.len(),
        tris.as_ptr(), tris.len(),
        surfaces.as_ptr(), surfaces.len(),
        held.as_ptr(), held.len(),
        loaded.as_ptr(), loaded.len(),
        starts.as_ptr(), starts.len(),
        kept.as_ptr(), kept.len(),
        depths.as_ptr(), depths.len(),
        marks.as_mut_ptr(), marks.len(),
        keep.as_mut_ptr(), keep.len(),
        centroids.as_mut_ptr(), centroids.len(),
        cells.as_mut_ptr(), cells.len(),
        order.as_mut_ptr(), order.len(),
        place.as_mut_ptr(), place.len(),
        first.as_mut_ptr(), first.len()
    ) }
}

/// The farthest that any corner of a boundary triangle, seen in the plane, is from the boundary, or the refusal: 3, 21, 9, 11 or 14, with all lists as
/// before. All lists from faces on are for the call's own use: seen needs a place a node, the others one a triangle.
#[allow(clippy::too_many_arguments)]
pub fn sokdrib_asymmetry(
    nodes: &[[f64; 3]],
    tris: &[[u32; 6]],
    mirror: Mirror,
    faces: &mut [[f64; 9]],
    kx: &mut [u64],
    ky: &mut [u64],
    kz: &mut [u64],
    order: &mut [u32],
    scratch: &mut [u32],
    boxes: &mut [[f64; 6]],
    seen: &mut [bool],
) -> Asymmetry {
    // SAFETY: see above.
    unsafe { library::sokdrib_asymmetry(
        nodes.as_ptr(), nodes.len(),
        tris.as_ptr(), tris.len(),
        mirror,
        faces.as_mut_ptr(), faces.len(),
        kx.as_mut_ptr(), kx.len(),
        ky.as_mut_ptr(), ky.len(),
        kz.as_mut_ptr(), kz.len(),
        order.as_mut_ptr(), order.len(),
        scratch.as_mut_ptr(), scratch.len(),
        boxes.as_mut_ptr(), boxes.len(),
        seen.as_mut_ptr(), seen.len()
    ) }
}

/// How far the points reach to the side that the plane's normal looks to, and to the other, where they are off its middle by more than a tenth of their
/// width; or the refusal: 3, 9 or 11.
pub fn sokdrib_off_centre(points: &[[f64; 3]], mirror: Mirror) -> OffCentre {
    // SAFETY: see above.
    unsafe { library::sokdrib_off_centre(points.as_ptr(), points.len(), mirror) }
}

/// Where a run starts: the first design, each element's volume where it is not held solid, and the numbers of the whole run.
pub fn sokdrib_start(volumes: &[f64], passive: &[bool], fraction: f64, design: &mut [f64], free: &mut [f64]) -> Start {
    // SAFETY: see above.
    unsafe { library::sokdrib_start(
        volumes.as_ptr(), volumes.len(),
        passive.as_ptr(), passive.len(),
        fraction,
        design.as_mut_ptr(), design.len(),
        free.as_mut_ptr(), free.len()
    ) }
}

/// What a solve is given from the design x: each element's density, filtered, and sharpened at the steepness beta where sharpen is set,
/// 1 where it is passive; and how fast each moves with its filtered density. Gives 0, 1 or 14.
#[allow(clippy::too_many_arguments)]
pub fn sokdrib_see(
    starts: &[u32],
    near: &[u32],
    coef: &[f64],
    passive: &[bool],
    x: &[f64],
    sharpen: bool,
    beta: f64,
    density: &mut [f64],
    slope: &mut [f64],
) -> u32 {
    // SAFETY: see above.
    unsafe { library::sokdrib_see(
        starts.as_ptr(), starts.len(),
        near.as_ptr(), near.len(),
        coef.as_ptr(), coef.len(),
        passive.as_ptr(), passive.len(),
        x.as_ptr(), x.len(),
        sharpen,
        beta,
        density.as_mut_ptr(), density.len(),
        slope.as_mut_ptr(), slope.len()
    ) }
}

/// How the work of the loads goes with each design value, from what the solve saw and the energies that it gave. by_density is for the
/// call's own use. Gives 0, 1 or 14.
#[allow(clippy::too_many_arguments)]
pub fn sokdrib_work_slope(
    starts: &[u32],
    near: &[u32],
    coef: &[f64],
    passive: &[bool],
    density: &[f64],
    slope: &[f64],
    energies: &[f64],
    by_density: &mut [f64],
    out: &mut [f64],
) -> u32 {
    // SAFETY: see above.
    unsafe { library::sokdrib_work_slope(
        starts.as_ptr(), starts.len(),
        near.as_ptr(), near.len(),
        coef.as_ptr(), coef.len(),
        passive.as_ptr(), passive.len(),
        density.as_ptr(), density.len(),
        slope.as_ptr(), slope.len(),
        energies.as_ptr(), energies.len(),
        by_density.as_mut_ptr(), by_density.len(),
        out.as_mut_ptr(), out.len()
    ) }
}

/// How the volume kept goes with each design value, free each element's volume where it is not held solid. by_density is for the call's
/// own use. Gives 0, 1 or 14.
pub fn sokdrib_volume_slope(
    starts: &[u32],
    near: &[u32],
    coef: &[f64],
    slope: &[f64],
    free: &[f64],
    by_density: &mut [f64],
    out: &mut [f64],
) -> u32 {
    // SAFETY: see above.
    unsafe { library::sokdrib_volume_slope(
        starts.as_ptr(), starts.len(),
        near.as_ptr(), near.len(),
        coef.as_ptr(), coef.len(),
        slope.as_ptr(), slope.len(),
        free.as_ptr(), free.len(),
        by_density.as_mut_ptr(), by_density.len(),
        out.as_mut_ptr(), out.len()
    ) }
}

/// The volume that a design y keeps. Rule 0: along the slope straight of the volume, from value, the volume held solid. Any other rule: of the
/// densities that a solve would see at the steepness value. density is for the call's own use.
#[allow(clippy::too_many_arguments)]
pub fn sokdrib_kept(
    rule: u32,
    value: f64,
    straight: &[f64],
    starts: &[u32],
    near: &[u32],
    coef: &[f64],
    volumes: &[f64],
    passive: &[bool],
    y: &[f64],
    density: &mut [f64],
) -> Kept {
    // SAFETY: see above.
    unsafe { library::sokdrib_kept(
        rule,
        value,
        straight.as_ptr(), straight.len(),
        starts.as_ptr(), starts.len(),
        near.as_ptr(), near.len(),
        coef.as_ptr(), coef.len(),
        volumes.as_ptr(), volumes.len(),
        passive.as_ptr(), passive.len(),
        y.as_ptr(), y.len(),
        density.as_mut_ptr(), density.len()
    ) }
}

/// The work of the loads, from the energy that each element holds.
pub fn sokdrib_compliance(energies: &[f64]) -> f64 {
    // SAFETY: see above.
    unsafe { library::sokdrib_compliance(energies.as_ptr(), energies.len()) }
}

/// The share of the total volume that the densities keep, as far as both lists go.
pub fn sokdrib_fraction(volumes: &[f64], density: &[f64], total: f64) -> f64 {
    // SAFETY: see above.
    unsafe { library::sokdrib_fraction(volumes.as_ptr(), volumes.len(), density.as_ptr(), density.len(), total) }
}

/// The most that any element changed, as far as both lists go.
pub fn sokdrib_change(next: &[f64], x: &[f64]) -> f64 {
    // SAFETY: see above.
    unsafe { library::sokdrib_change(next.as_ptr(), next.len(), x.as_ptr(), x.len()) }
}

/// How far from solid or empty the densities are, as far as both lists go: total is the volume that is not held solid.
pub fn sokdrib_grey(density: &[f64], free: &[f64], total: f64) -> f64 {
    // SAFETY: see above.
    unsafe { library::sokdrib_grey(density.as_ptr(), density.len(), free.as_ptr(), free.len(), total) }
}

/// Opens a run on a state with none open: the solid part is asked for, or the refusal's number is told. room is how many records the history has room
/// for; the opening writes none. 1 to 12, 20, and 14 before the first row, leave all lists as before; 13 and 14 at a row leave the filter's lists and the
/// working lists (cell and those after it) zero throughout, and 15, by the flag, the finished filter and the working lists zero. The fresh state is all zero; a
/// phase above 2, and a sharpening above 2 in the state or the goal, is refused with 20.
#[allow(clippy::too_many_arguments)]
pub fn sokdrib_open(
    room: usize,
    state: RunState,
    goal: RunGoal,
    flag: bool,
    volumes: &[f64],
    centroids: &[[f64; 3]],
    passive: &[bool],
    mirrors: &[[f64; 6]],
    starts: &mut [u32],
    near: &mut [u32],
    coef: &mut [f64],
    design: &mut [f64],
    density: &mut [f64],
    last: &[f64],
    cell: &mut [[u64; 3]],
    order: &mut [u32],
    first: &mut [u32],
    sorted: &mut [[f64; 3]],
    stamp: &mut [u32],
    weight: &mut [f64],
    found: &mut [u32],
    bits: &mut [u64],
) -> RunReturned {
    // SAFETY: see above.
    unsafe { library::sokdrib_open(
        room,
        state,
        goal,
        flag,
        volumes.as_ptr(), volumes.len(),
        centroids.as_ptr(), centroids.len(),
        passive.as_ptr(), passive.len(),
        mirrors.as_ptr(), mirrors.len(),
        starts.as_mut_ptr(), starts.len(),
        near.as_mut_ptr(), near.len(),
        coef.as_mut_ptr(), coef.len(),
        design.as_mut_ptr(), design.len(),
        density.as_mut_ptr(), density.len(),
        last.as_ptr(), last.len(),
        cell.as_mut_ptr(), cell.len(),
        order.as_mut_ptr(), order.len(),
        first.as_mut_ptr(), first.len(),
        sorted.as_mut_ptr(), sorted.len(),
        stamp.as_mut_ptr(), stamp.len(),
        weight.as_mut_ptr(), weight.len(),
        found.as_mut_ptr(), found.len(),
        bits.as_mut_ptr(), bits.len()
    ) }
}

/// The solver's answer to the last question: what is heard of it, and the energies. The filter's lists, the design and both densities are those that the last call left. The record that
/// is told is to be put at its place of the history, which has room for so many records; where the place is past that there is none. free and the
/// lists after it are for the call's own use. A phase or a sharpening above 2 is refused with 20.
#[allow(clippy::too_many_arguments)]
pub fn sokdrib_answer(
    room: usize,
    state: RunState,
    heard: RunHeard,
    energies: &[f64],
    volumes: &[f64],
    passive: &[bool],
    starts: &[u32],
    near: &[u32],
    coef: &[f64],
    design: &mut [f64],
    density: &mut [f64],
    last: &mut [f64],
    free: &mut [f64],
    slope: &mut [f64],
    spare: &mut [f64],
    dc: &mut [f64],
    dv: &mut [f64],
) -> RunStep {
    // SAFETY: see above.
    unsafe { library::sokdrib_answer(
        room,
        state,
        heard,
        energies.as_ptr(), energies.len(),
        volumes.as_ptr(), volumes.len(),
        passive.as_ptr(), passive.len(),
        starts.as_ptr(), starts.len(),
        near.as_ptr(), near.len(),
        coef.as_ptr(), coef.len(),
        design.as_mut_ptr(), design.len(),
        density.as_mut_ptr(), density.len(),
        last.as_mut_ptr(), last.len(),
        free.as_mut_ptr(), free.len(),
        slope.as_mut_ptr(), slope.len(),
        spare.as_mut_ptr(), spare.len(),
        dc.as_mut_ptr(), dc.len(),
        dv.as_mut_ptr(), dv.len()
    ) }
}

/// A shift of up to sixteen jobs, of each its share and its limit; 30 for more than sixteen or none, and for a share or a limit out of range.
pub fn sokdrib_shift_begin(jobs: &[[u32; 2]]) -> ShiftBegun {
    // SAFETY: see above.
    unsafe { library::sokdrib_shift_begin(jobs.as_ptr(), jobs.len()) }
}

/// The next question, to one of the jobs named: the job, and the shift for the next call. 20, 30 and 31 leave the shift as it was lent.
pub fn sokdrib_shift_grant(shift: Shift, named: &[u32]) -> ShiftGrant {
    // SAFETY: see above.
    unsafe { library::sokdrib_shift_grant(shift, named.as_ptr(), named.len()) }
}

/// One update of the design x, from the slopes dc of the work and dv of the volume: each value moved by at most m, the rate found at which the
/// volume kept is within tolerance of target. The rule and its value are those of sokdrib_kept, with dv for the slope of the volume. design is
/// left the updated design; gain and work are for the call's own use.
#[allow(clippy::too_many_arguments)]
pub fn sokdrib_update(
    x: &[f64],
    dc: &[f64],
    dv: &[f64],
    passive: &[bool],
    m: f64,
    target: f64,
    tolerance: f64,
    rule: u32,
    value: f64,
    starts: &[u32],
    near: &[u32],
    coef: &[f64],
    volumes: &[f64],
    design: &mut [f64],
    gain: &mut [f64],
    work: &mut [f64],
) -> Update {
    // SAFETY: see above.
    unsafe { library::sokdrib_update(
        x.as_ptr(), x.len(),
        dc.as_ptr(), dc.len(),
        dv.as_ptr(), dv.len(),
        passive.as_ptr(), passive.len(),
        m,
        target,
        tolerance,
        rule,
        value,
        starts.as_ptr(), starts.len(),
        near.as_ptr(), near.len(),
        coef.as_ptr(), coef.len(),
        volumes.as_ptr(), volumes.len(),
        design.as_mut_ptr(), design.len(),
        gain.as_mut_ptr(), gain.len(),
        work.as_mut_ptr(), work.len()
    ) }
}
