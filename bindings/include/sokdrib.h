/* Written by tools/gen_ffi.py from the sources of crate capi and from docs/API.md: change those, and run it.
 * A slice is two parameters, a pointer and a count of elements; an empty one may be null. A bool is one byte, 0 or 1.
 * A list that may be written overlaps no other list. */
/* Refusals.
 *
 * A call that refuses hands back a number and no words: document 01, "What a refusal hands back". In C it is the result,
 * its field refused, or with reply 0 its field number; in Rust it is Err(Refused(number)). What is left is
 *
 * - kept: the state and every list are as before. The same call may be made again with what was wrong put right; where it
 *   was an answer, its question still stands.
 * - zeroed: starts, near, coef and the eight working lists cell to bits are zero to their ends; the state, with no
 *   run open, and every other list are as before. It may be opened again with more places (14) or a smaller radius (13).
 * - over: every list is as before, and the state is ended: later answers get 20, and another run may be opened on it. The
 *   records made till then stand in the history. An opening's 15 leaves the finished filter in its lists and the working
 *   lists cell to bits zero, and every other list as before.
 *
 *    0  nothing is refused. Left: the call's results. By: filter_build, parts of a round, mesh calls; open and answer
 *       reply with what follows instead.
 *    1  volumes, middles and marks differ in count; in a part of a round: any lists that are read. Left: kept. By:
 *       open, filter_build, parts of a round.
 *    2  no elements. Left: kept. By: open, filter_build.
 *    3  more than 65,535 elements or triangles, or than 1,048,576 nodes. Left: kept. By: open, filter_build, mesh
 *       calls.
 *    4  a volume not above 0, or above 10^20. Left: kept. By: open, filter_build.
 *    5  share (fraction) not above 0 and below 1. Left: kept. By: open.
 *    6  no rounds allowed (max_iterations is 0). Left: kept. By: open.
 *    7  no room beside what is held: held + 0.001*(total - held) >= share*total. Left: kept. By: open.
 *    8  radius, or a depth that is finite and above 0, not from 0.001 to 1,000,000. Left: kept. By: open,
 *       filter_build; of a depth passive.
 *    9  a coordinate of a middle or node not finite, or above 1,000,000 in size. Left: kept. By: open, filter_build,
 *       mesh calls.
 *   10  more than three planes. Left: kept. By: open, filter_build.
 *   11  a coordinate of a plane's point or normal not finite, or above 1,000,000 in size, or a normal not longer than
 *       1e-12. Left: kept. By: open, filter_build, asymmetry, off_centre.
 *   12  planes not square: the dot of two normals, made of length 1, above 1e-9 in size. Left: kept. By: open,
 *       filter_build.
 *   13  a table above 512 MB: at row e (from 0) 4*(e+2) + 12*entries > 536,870,912, entries counted over rows 0 to e.
 *       Left: zeroed. By: open, filter_build.
 *   14  a list shorter than needed, or fewer records (room) than rounds allowed. Left: kept; zeroed where a row of the
 *       filter has no room in near or coef. By: open, filter_build, answer, parts of a round, mesh calls but
 *       off_centre; strip_read::read, program shape.
 *   15  stopped before any record, by the flag or by the solver. Left: over. By: open, answer.
 *   16  energies not one an element. Left: over. By: answer.
 *   17  an energy not finite. Left: over. By: answer.
 *   18  the solver failed. Left: over. By: answer.
 *   19  the solid part's work not above 0. Left: over. By: answer.
 *   20  call out of turn, a state that no run has ("A run", docs/API.md), or, across C, a sharpening above 2 in the
 *       goal or the state; a shift that fails the test of its numbers ("A shift"). Left: kept. By: open, answer; of a
 *       shift shift_grant.
 *   21  a boundary triangle names a node that is not there. Left: kept. By: passive, asymmetry.
 *   22  the job strip is malformed. Left: kept. By: the calls of strip_stream and strip_read, program shape: none of
 *       C's.
 *   29  level_with: no level's modulus is the one given; level_below: a number below the lowest modulus or above the
 *       highest, or not a number. Left: kept: nothing is lent. By: level_with, level_below.
 *   30  shift_begin: no jobs or more than sixteen, a share not from 1 to 1,000, or a limit above 1,000,000;
 *       shift_grant: a number that no job of the shift has. Left: kept; a beginning is lent no shift. By: shift_begin,
 *       shift_grant.
 *   31  none of the jobs named is below its limit, none named among it, or all 1,000,000 questions of the shift are
 *       granted. Left: kept. By: shift_grant.
 *
 * Where several apply, the first of these is given. open: 20, 1 to 12, 14; row by row 13, 14; last 15. filter_build: the
 * same without 20, 5, 6, 7 and 15. answer: 20, 14; 15 or 18 as the solver said; 16, 17, 19, last 15. Mesh calls (design,
 * block, passive, asymmetry, off_centre): those that they have of 3, 21, 9, 11, 8, 14. Parts of a round (start, see,
 * work_slope, volume_slope, kept, update): 1, 14. A strip: 22, 14. The way back from a stiffness: 29. A shift: 30 at its beginning; shift_grant: 20, 30, 31. Every other call is a leaf or works with whatever it
 * is given, and refuses nothing. */
#ifndef SOKDRIB_H
#define SOKDRIB_H

#include <stdbool.h>
#include <stddef.h>
#include <stdint.h>

#ifdef __cplusplus
extern "C" {
#endif

typedef struct {
    double x;
    double y;
    double z;
} SokdribVec3;

/* A plane: a point on it and its normal, which need not be of unit length here. */
typedef struct {
    SokdribVec3 point;
    SokdribVec3 normal;
} SokdribMirror;

typedef struct {
    uint32_t refused;
    uint16_t level;
} SokdribLevelNumbers;

/* What `block` returns, as it goes across C: the counts of a mesh; or the refusal, with no counts. */
typedef struct {
    uint32_t refused;
    uint32_t nodes;
    uint32_t tets;
    uint32_t tris;
} SokdribMade;

/* How far a boundary is from its image, or the number of a refusal and 0. */
typedef struct {
    uint32_t refused;
    double distance;
} SokdribAsymmetry;

/* How far points reach to each side of a plane, where they are off its middle. Where they are about even, where there are none, and at a refusal, off is
 * false and the reaches are 0. */
typedef struct {
    uint32_t refused;
    bool off;
    double ahead;
    double behind;
} SokdribOffCentre;

/* What a run starts with, or the number of a refusal and zeros. */
typedef struct {
    uint32_t refused;
    double total;
    double solid;
    double target;
    double tolerance;
    double density;
} SokdribStart;

typedef struct {
    double density;
    double slope;
} SokdribProjected;

/* The volume that a design keeps, or the number of a refusal and 0. */
typedef struct {
    uint32_t refused;
    double volume;
} SokdribKept;

/* A run as it stands between two calls. Phase 0: no run is open. 1: the solid part is asked for. 2: a round is. Any other number is no run's. The sharpening is as
 * in its goal. */
typedef struct {
    uint32_t phase;
    size_t elements;
    size_t entries;
    double fraction;
    uint32_t sharpen;
    size_t max_iterations;
    size_t rounds;
    size_t stage;
    size_t at_stage;
    size_t steady;
    double solid_compliance;
    double compliance;
} SokdribRunState;

/* What a run is to reach: the share of the volume, the filter's radius, the sharpening, and the rounds allowed. Sharpening 0: off. 1: early. 2: full. Any other number is
 * no goal's. */
typedef struct {
    double fraction;
    double radius;
    uint32_t sharpen;
    size_t max_iterations;
} SokdribRunGoal;

/* What a call returns. Reply 0: a refusal and its number. 1: the solid part is asked for. 2: a round is, and its number. 3: a stop, and its number: 0
 * Settled, 1 LevelledOff, 2 Limit, 3 Budget, 4 Stopped. */
typedef struct {
    SokdribRunState state;
    uint32_t reply;
    size_t number;
} SokdribRunReturned;

/* What an answer says beside the energies. Said 0: the solver gave them. 1: it failed. Any other number: it stopped. Then whether the run is to stop, and the
 * milliseconds elapsed and allowed. */
typedef struct {
    uint32_t said;
    bool flag;
    uint64_t elapsed;
    uint64_t allowed;
} SokdribRunHeard;

/* A round's record. */
typedef struct {
    size_t number;
    double compliance;
    double fraction;
    double change;
    double sharpness;
    double grey;
    size_t passes;
} SokdribRunRecord;

/* What an answer returns, with the record that is to be put at a place of the history: past its end where there is none. */
typedef struct {
    SokdribRunReturned returned;
    size_t at;
    SokdribRunRecord entry;
} SokdribRunStep;

/* What goes from call to call: the jobs' numbers stand at their places, and zeros past them. */
typedef struct {
    uint32_t jobs;
    uint32_t share[16];
    uint32_t limit[16];
    uint32_t granted[16];
} SokdribShift;

/* What C is told of a beginning. */
typedef struct {
    uint32_t refused;
    SokdribShift shift;
} SokdribShiftBegun;

/* What C is told of a grant. */
typedef struct {
    uint32_t refused;
    uint32_t job;
    SokdribShift shift;
} SokdribShiftGrant;

/* How an update ended, or the number of a refusal and zeros. Ending 0: met, with the kept volume first. 1: cramped, with the lower and the
 * upper rate of its bracket. 2: spent, with the kept volume first. */
typedef struct {
    uint32_t refused;
    uint32_t ending;
    double first;
    double second;
    size_t passes;
} SokdribUpdate;

#if !defined(__cplusplus) && __STDC_VERSION__ >= 201112L
_Static_assert(sizeof(SokdribVec3) == 24, "SokdribVec3");
_Static_assert(sizeof(SokdribMirror) == 48, "SokdribMirror");
_Static_assert(sizeof(SokdribLevelNumbers) == 8, "SokdribLevelNumbers");
_Static_assert(sizeof(SokdribMade) == 16, "SokdribMade");
_Static_assert(sizeof(SokdribAsymmetry) == 16, "SokdribAsymmetry");
_Static_assert(sizeof(SokdribOffCentre) == 24, "SokdribOffCentre");
_Static_assert(sizeof(SokdribStart) == 48, "SokdribStart");
_Static_assert(sizeof(SokdribProjected) == 16, "SokdribProjected");
_Static_assert(sizeof(SokdribKept) == 16, "SokdribKept");
_Static_assert(sizeof(SokdribRunState) == 96, "SokdribRunState");
_Static_assert(sizeof(SokdribRunGoal) == 32, "SokdribRunGoal");
_Static_assert(sizeof(SokdribRunReturned) == 112, "SokdribRunReturned");
_Static_assert(sizeof(SokdribRunHeard) == 24, "SokdribRunHeard");
_Static_assert(sizeof(SokdribRunRecord) == 56, "SokdribRunRecord");
_Static_assert(sizeof(SokdribRunStep) == 176, "SokdribRunStep");
_Static_assert(sizeof(SokdribShift) == 196, "SokdribShift");
_Static_assert(sizeof(SokdribShiftBegun) == 200, "SokdribShiftBegun");
_Static_assert(sizeof(SokdribShiftGrant) == 204, "SokdribShiftGrant");
_Static_assert(sizeof(SokdribUpdate) == 32, "SokdribUpdate");
#endif

/* The size of x. */
double sokdrib_abs(double x);

/* The larger; where one is not a number, the other. */
double sokdrib_max(double x, double y);

/* The smaller; where one is not a number, the other. */
double sokdrib_min(double x, double y);

/* x brought into 0 to 1; a not-a-number stays one. */
double sokdrib_clamp(double x);

/* Whether x is neither an infinity nor a not-a-number. */
bool sokdrib_is_finite(double x);

/* The hyperbolic tangent by Lambert's continued fraction. */
double sokdrib_tanh(double z);

/* IEEE 754's square root, the nearest value. */
double sokdrib_sqrt(double x);

/* x.floor() as a 64-bit integer, counted from -2^63: what lies outside saturates, and a not-a-number counts as 0. */
uint64_t sokdrib_floor_at(double x);

/* The nearest whole number, halves away from zero: what lies outside saturates, and a not-a-number gives 0. */
uint64_t sokdrib_round_half_away(double x);

/* The bit pattern of x; every not-a-number has one. */
uint64_t sokdrib_to_bits(double x);

/* The number of a bit pattern; every pattern of a not-a-number gives the same one. */
double sokdrib_from_bits(uint64_t n);

/* A key whose order is IEEE 754's totalOrder. */
uint64_t sokdrib_total_key(double x);

SokdribVec3 sokdrib_vec3_new(double x, double y, double z);

SokdribVec3 sokdrib_vec3_add(SokdribVec3 a, SokdribVec3 b);

SokdribVec3 sokdrib_vec3_sub(SokdribVec3 a, SokdribVec3 b);

SokdribVec3 sokdrib_vec3_scale(SokdribVec3 a, double k);

/* The smaller by component. */
SokdribVec3 sokdrib_vec3_min(SokdribVec3 a, SokdribVec3 b);

/* The larger by component. */
SokdribVec3 sokdrib_vec3_max(SokdribVec3 a, SokdribVec3 b);

double sokdrib_vec3_dot(SokdribVec3 a, SokdribVec3 b);

SokdribVec3 sokdrib_vec3_cross(SokdribVec3 a, SokdribVec3 b);

/* The square of the length. */
double sokdrib_vec3_len2(SokdribVec3 a);

double sokdrib_vec3_len(SokdribVec3 a);

/* The distance of two points. */
double sokdrib_vec3_dist(SokdribVec3 a, SokdribVec3 b);

/* Each component divided by the length. */
SokdribVec3 sokdrib_vec3_normalized(SokdribVec3 a);

/* Whether every component is finite. */
bool sokdrib_vec3_is_finite(SokdribVec3 a);

/* Where p is seen in the plane. */
SokdribVec3 sokdrib_mirror_image(SokdribMirror mirror, SokdribVec3 p);

/* The square of the distance from p to the triangle a, b, c. */
double sokdrib_dist2_to_triangle(SokdribVec3 p, SokdribVec3 a, SokdribVec3 b, SokdribVec3 c);

/* The Young's modulus of a stiffness level for a material of modulus e0. */
double sokdrib_modulus(uint16_t level, double e0);

/* The level that a density is solved at: the nearest thousandth. */
uint16_t sokdrib_level_of(double x);

/* The root of each of xs, as far as both lists go; the rest of out stays as lent. */
void sokdrib_sqrt_each(const double *xs, size_t xs_len, double *out, size_t out_len);

/* The hyperbolic tangent of each of zs, as far as both lists go; the rest of out stays as lent. */
void sokdrib_tanh_each(const double *zs, size_t zs_len, double *out, size_t out_len);

/* The square of the distance from each point to the triangle at the same place, its corners in a row, as far as all three lists go;
 * the rest of out stays as lent. */
void sokdrib_dist2_each(
    const double (*points)[3],
    size_t points_len,
    const double (*triangles)[9],
    size_t triangles_len,
    double *out,
    size_t out_len
);

/* The filter's table, over the radius and the same on both sides of each plane (its point, then its normal), and 0 or the refusal. 1 to 4 and 8 to 12
 * in order, and 14 before the first row, leave all lists as before; 13 and 14 at a row leave the table's lists and the working lists zero throughout. A
 * table has its rows' starts, one more than there are elements, and each row's neighbours and weights up to its end. The working lists are for the
 * call's own use: one place an element, first one more, and bits 1040. */
uint32_t sokdrib_filter_build(
    const double (*centroids)[3],
    size_t centroids_len,
    const double *volumes,
    size_t volumes_len,
    double radius,
    const double (*planes)[6],
    size_t planes_len,
    uint32_t *starts,
    size_t starts_len,
    uint32_t *near_,
    size_t near_len,
    double *coef,
    size_t coef_len,
    uint64_t (*cell)[3],
    size_t cell_len,
    uint32_t *order,
    size_t order_len,
    uint32_t *first,
    size_t first_len,
    double (*sorted)[3],
    size_t sorted_len,
    uint32_t *stamp,
    size_t stamp_len,
    double *weight,
    size_t weight_len,
    uint32_t *found,
    size_t found_len,
    uint64_t *bits,
    size_t bits_len
);

/* Element densities seen through the filter: the sum of each row, one row for each place of out. A row whose places are not in the
 * lists is empty, and what stands past the end of x counts as 0. */
void sokdrib_apply(
    const uint32_t *starts,
    size_t starts_len,
    const uint32_t *near_,
    size_t near_len,
    const double *coef,
    size_t coef_len,
    const double *x,
    size_t x_len,
    double *out,
    size_t out_len
);

/* Slopes against filtered densities carried back to the densities: the transposed product, one row for each place of g. */
void sokdrib_back(
    const uint32_t *starts,
    size_t starts_len,
    const uint32_t *near_,
    size_t near_len,
    const double *coef,
    size_t coef_len,
    const double *g,
    size_t g_len,
    double *out,
    size_t out_len
);

/* The level whose modulus for material 1 is `modulus`; 29 where no level has it. */
SokdribLevelNumbers sokdrib_level_with(double modulus);

/* The greatest level whose modulus for material 1 is not above `stiffness`; 29 below the lowest modulus, above the highest, and for a not-a-number. */
SokdribLevelNumbers sokdrib_level_below(double stiffness);

/* The volume of a tetrahedron, curved as its mid-side nodes make it. A node that is not there is the origin. This call and the three after it are
 * leaves: they work on nodes of any count and any bits, and refuse nothing; sokdrib_design refuses what is outside the domain. */
double sokdrib_volume(const double (*nodes)[3], size_t nodes_len, const uint32_t tet[10]);

/* The volume of the straight tetrahedron between the corners. */
double sokdrib_corner_volume(const double (*nodes)[3], size_t nodes_len, const uint32_t tet[10]);

/* The middle of a tetrahedron: the mean of its corners. */
SokdribVec3 sokdrib_centroid(const double (*nodes)[3], size_t nodes_len, const uint32_t tet[10]);

/* The size of the box that the nodes fit in, corner to corner. */
double sokdrib_extent(const double (*nodes)[3], size_t nodes_len);

/* Each tetrahedron's volume and middle, and 0 or the refusal: 3, 9 or 14, with both lists as before. */
uint32_t sokdrib_design(
    const double (*nodes)[3],
    size_t nodes_len,
    const uint32_t (*tets)[10],
    size_t tets_len,
    double *volumes,
    size_t volumes_len,
    double (*centroids)[3],
    size_t centroids_len
);

/* A box size long on each side, from the origin, in nx, ny and nz cells along the axes, each cell six tetrahedra. Fills the lists, with edges to work
 * in, and gives the counts; or the refusal 3, 9 or 14, with every list as before. The triangles' surfaces are 1 to 6: x = 0, x = size.x, and so on. */
SokdribMade sokdrib_block(
    size_t nx,
    size_t ny,
    size_t nz,
    SokdribVec3 size,
    double (*nodes)[3],
    size_t nodes_len,
    uint32_t (*tets)[10],
    size_t tets_len,
    uint32_t *surfaces,
    size_t surfaces_len,
    uint32_t (*tris)[6],
    size_t tris_len,
    uint32_t *edges,
    size_t edges_len
);

/* The elements that must stay solid, and 0 or the refusal: 3, 21, 9, 8 or 14, with all lists as before. A triangle has its three corners' numbers and
 * then those of the middles of its sides, and its surface is in surfaces. held and loaded are numbers of nodes. Set s of kept surfaces is kept from
 * starts[s] up to starts[s + 1], and kept needs the places up to there where the set is not empty; its depth is none where it is not finite or not above
 * 0. keep and the lists after it are for the call's own use: keep needs a place a node, first one more than an element, the others one an element. */
uint32_t sokdrib_passive(
    const double (*nodes)[3],
    size_t nodes_len,
    const uint32_t (*tets)[10],
    size_t tets_len,
    const uint32_t (*tris)[6],
    size_t tris_len,
    const uint32_t *surfaces,
    size_t surfaces_len,
    const uint32_t *held,
    size_t held_len,
    const uint32_t *loaded,
    size_t loaded_len,
    const uint32_t *starts,
    size_t starts_len,
    const uint32_t *kept,
    size_t kept_len,
    const double *depths,
    size_t depths_len,
    bool *marks,
    size_t marks_len,
    bool *keep,
    size_t keep_len,
    double (*centroids)[3],
    size_t centroids_len,
    uint64_t (*cells)[3],
    size_t cells_len,
    uint32_t *order,
    size_t order_len,
    uint32_t *place,
    size_t place_len,
    uint32_t *first,
    size_t first_len
);

/* The farthest that any corner of a boundary triangle, seen in the plane, is from the boundary, or the refusal: 3, 21, 9, 11 or 14, with all lists as
 * before. All lists from faces on are for the call's own use: seen needs a place a node, the others one a triangle. */
SokdribAsymmetry sokdrib_asymmetry(
    const double (*nodes)[3],
    size_t nodes_len,
    const uint32_t (*tris)[6],
    size_t tris_len,
    SokdribMirror mirror,
    double (*faces)[9],
    size_t faces_len,
    uint64_t *kx,
    size_t kx_len,
    uint64_t *ky,
    size_t ky_len,
    uint64_t *kz,
    size_t kz_len,
    uint32_t *order,
    size_t order_len,
    uint32_t *scratch,
    size_t scratch_len,
    double (*boxes)[6],
    size_t boxes_len,
    bool *seen,
    size_t seen_len
);

/* How far the points reach to the side that the plane's normal looks to, and to the other, where they are off its middle by more than a tenth of their
 * width; or the refusal: 3, 9 or 11. */
SokdribOffCentre sokdrib_off_centre(const double (*points)[3], size_t points_len, SokdribMirror mirror);

/* Whether solid of a part's total volume, held solid, leaves no room to come down to target. */
bool sokdrib_no_room(double solid, double total, double target);

/* Where a run starts: the first design, each element's volume where it is not held solid, and the numbers of the whole run. */
SokdribStart sokdrib_start(
    const double *volumes,
    size_t volumes_len,
    const bool *passive,
    size_t passive_len,
    double fraction,
    double *design,
    size_t design_len,
    double *free,
    size_t free_len
);

/* A filtered density v sharpened at the steepness beta, and how fast it moves with v. */
SokdribProjected sokdrib_project(double v, double beta);

/* What a solve is given from the design x: each element's density, filtered, and sharpened at the steepness beta where sharpen is set,
 * 1 where it is passive; and how fast each moves with its filtered density. Gives 0, 1 or 14. */
uint32_t sokdrib_see(
    const uint32_t *starts,
    size_t starts_len,
    const uint32_t *near_,
    size_t near_len,
    const double *coef,
    size_t coef_len,
    const bool *passive,
    size_t passive_len,
    const double *x,
    size_t x_len,
    bool sharpen,
    double beta,
    double *density,
    size_t density_len,
    double *slope,
    size_t slope_len
);

/* How the work of the loads goes with each design value, from what the solve saw and the energies that it gave. by_density is for the
 * call's own use. Gives 0, 1 or 14. */
uint32_t sokdrib_work_slope(
    const uint32_t *starts,
    size_t starts_len,
    const uint32_t *near_,
    size_t near_len,
    const double *coef,
    size_t coef_len,
    const bool *passive,
    size_t passive_len,
    const double *density,
    size_t density_len,
    const double *slope,
    size_t slope_len,
    const double *energies,
    size_t energies_len,
    double *by_density,
    size_t by_density_len,
    double *out,
    size_t out_len
);

/* How the volume kept goes with each design value, free each element's volume where it is not held solid. by_density is for the call's
 * own use. Gives 0, 1 or 14. */
uint32_t sokdrib_volume_slope(
    const uint32_t *starts,
    size_t starts_len,
    const uint32_t *near_,
    size_t near_len,
    const double *coef,
    size_t coef_len,
    const double *slope,
    size_t slope_len,
    const double *free,
    size_t free_len,
    double *by_density,
    size_t by_density_len,
    double *out,
    size_t out_len
);

/* The volume that a design y keeps. Rule 0: along the slope straight of the volume, from value, the volume held solid. Any other rule: of the
 * densities that a solve would see at the steepness value. density is for the call's own use. */
SokdribKept sokdrib_kept(
    uint32_t rule,
    double value,
    const double *straight,
    size_t straight_len,
    const uint32_t *starts,
    size_t starts_len,
    const uint32_t *near_,
    size_t near_len,
    const double *coef,
    size_t coef_len,
    const double *volumes,
    size_t volumes_len,
    const bool *passive,
    size_t passive_len,
    const double *y,
    size_t y_len,
    double *density,
    size_t density_len
);

/* The work of the loads, from the energy that each element holds. */
double sokdrib_compliance(const double *energies, size_t energies_len);

/* The share of the total volume that the densities keep, as far as both lists go. */
double sokdrib_fraction(const double *volumes, size_t volumes_len, const double *density, size_t density_len, double total);

/* The most that any element changed, as far as both lists go. */
double sokdrib_change(const double *next, size_t next_len, const double *x, size_t x_len);

/* How far from solid or empty the densities are, as far as both lists go: total is the volume that is not held solid. */
double sokdrib_grey(const double *density, size_t density_len, const double *free, size_t free_len, double total);

/* Opens a run on a state with none open: the solid part is asked for, or the refusal's number is told. room is how many records the history has room
 * for; the opening writes none. 1 to 12, 20, and 14 before the first row, leave all lists as before; 13 and 14 at a row leave the filter's lists and the
 * working lists (cell and those after it) zero throughout, and 15, by the flag, the finished filter and the working lists zero. The fresh state is all zero; a
 * phase above 2, and a sharpening above 2 in the state or the goal, is refused with 20. */
SokdribRunReturned sokdrib_open(
    size_t room,
    SokdribRunState state,
    SokdribRunGoal goal,
    bool flag,
    const double *volumes,
    size_t volumes_len,
    const double (*centroids)[3],
    size_t centroids_len,
    const bool *passive,
    size_t passive_len,
    const double (*mirrors)[6],
    size_t mirrors_len,
    uint32_t *starts,
    size_t starts_len,
    uint32_t *near_,
    size_t near_len,
    double *coef,
    size_t coef_len,
    double *design,
    size_t design_len,
    double *density,
    size_t density_len,
    const double *last,
    size_t last_len,
    uint64_t (*cell)[3],
    size_t cell_len,
    uint32_t *order,
    size_t order_len,
    uint32_t *first,
    size_t first_len,
    double (*sorted)[3],
    size_t sorted_len,
    uint32_t *stamp,
    size_t stamp_len,
    double *weight,
    size_t weight_len,
    uint32_t *found,
    size_t found_len,
    uint64_t *bits,
    size_t bits_len
);

/* The solver's answer to the last question: what is heard of it, and the energies. The filter's lists, the design and both densities are those that the last call left. The record that
 * is told is to be put at its place of the history, which has room for so many records; where the place is past that there is none. free and the
 * lists after it are for the call's own use. A phase or a sharpening above 2 is refused with 20. */
SokdribRunStep sokdrib_answer(
    size_t room,
    SokdribRunState state,
    SokdribRunHeard heard,
    const double *energies,
    size_t energies_len,
    const double *volumes,
    size_t volumes_len,
    const bool *passive,
    size_t passive_len,
    const uint32_t *starts,
    size_t starts_len,
    const uint32_t *near_,
    size_t near_len,
    const double *coef,
    size_t coef_len,
    double *design,
    size_t design_len,
    double *density,
    size_t density_len,
    double *last,
    size_t last_len,
    double *free,
    size_t free_len,
    double *slope,
    size_t slope_len,
    double *spare,
    size_t spare_len,
    double *dc,
    size_t dc_len,
    double *dv,
    size_t dv_len
);

/* A shift of up to sixteen jobs, of each its share and its limit; 30 for more than sixteen or none, and for a share or a limit out of range. */
SokdribShiftBegun sokdrib_shift_begin(const uint32_t (*jobs)[2], size_t jobs_len);

/* The next question, to one of the jobs named: the job, and the shift for the next call. 20, 30 and 31 leave the shift as it was lent. */
SokdribShiftGrant sokdrib_shift_grant(SokdribShift shift, const uint32_t *named, size_t named_len);

/* One update of the design x, from the slopes dc of the work and dv of the volume: each value moved by at most m, the rate found at which the
 * volume kept is within tolerance of target. The rule and its value are those of sokdrib_kept, with dv for the slope of the volume. design is
 * left the updated design; gain and work are for the call's own use. */
SokdribUpdate sokdrib_update(
    const double *x,
    size_t x_len,
    const double *dc,
    size_t dc_len,
    const double *dv,
    size_t dv_len,
    const bool *passive,
    size_t passive_len,
    double m,
    double target,
    double tolerance,
    uint32_t rule,
    double value,
    const uint32_t *starts,
    size_t starts_len,
    const uint32_t *near_,
    size_t near_len,
    const double *coef,
    size_t coef_len,
    const double *volumes,
    size_t volumes_len,
    double *design,
    size_t design_len,
    double *gain,
    size_t gain_len,
    double *work,
    size_t work_len
);

#ifdef __cplusplus
}
#endif

#endif
