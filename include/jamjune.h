/* The C face of Jamjune: what libexport.a defines.
 *
 * Arrays and lists. An array points to as many elements as its brackets say. A list is a pointer and a length in
 * elements; the pointer must not be null and must be aligned, even where the length is 0. What is written must overlap
 * no other argument: arrays named out and out_*, a generator's state, a pass, a job or an accumulator that is not const,
 * lists without const. Nothing is kept between calls.
 *
 * A matrix is 18 doubles: nine complex numbers row by row, each real part first. A 2x2 block is 8 doubles likewise. A
 * complex number is 2 doubles. A quaternion a0 + i(a1 s1 + a2 s2 + a3 s3), with Pauli's matrices s, is the doubles a0 to
 * a3. All NaNs count as one: which NaN is answered is open.
 *
 * A field: its extents are t, x, y, z, its sites their product, and the site at (t, x, y, z) has number
 * t + nt (x + nx (y + ny z)). A direction is 0 for t, 1 for x, 2 for y, 3 for z; neighbours wrap. Its links are one list
 * of 72 doubles per site: the link of direction mu at a site is the matrix that begins at 18 (mu * sites + site).
 *
 * Refusals. A call that returns uint32_t and can refuse returns the number of the first row below that holds among those
 * named at the call, and 0 where none does. Rows are tried in the order of their numbers, but 9 and then 10 last. Each
 * array named out or out_* is written in every case: refused, its numbers are 0 or +0. A refused call leaves every list,
 * pass, job and accumulator as it was, but that row 10 in jj_add leaves the scratch at +0.
 *
 *    1   an extent is odd, below 2 or above 16
 *    2   the coupling is not finite, below 0 or above 100 (-0 passes)
 *    3   a list of links, read or written, has not 72 numbers per site, or a density's list not one per site; for
 *        accumulators, see there
 *    4   a site is not below the number of sites, or a coordinate not below its extent
 *    5   a direction is above 3, a plane's two directions are equal, or a subgroup or an axis of space is above 2
 *    6   a parity is above 1
 *    7   the pass is the last one, 2^64 - 1
 *    8   a job has visited above half the sites, stuck above visited, a direction above 3 or a parity above 1
 *    9   the link is stuck
 *   10   a number to be answered or stored is not finite
 *   11   a step's axis is above 3, there are more than 96 steps, an offset is below -32 or above 32, or a time length is
 *        above 64
 *   12   the list for unsound links has fewer than 4 places per site, or that for steps fewer than are needed
 *   13   a count of densities is 0, above 4 or unlike the accumulator's, a density's number is not below it, the grid is
 *        not the field's, or samples cannot grow
 *   14   a mean of no samples; a correlation where the mean loop times the mean density is 0
 *
 * Calls that name no row refuse nothing: every input has a defined answer, infinities and NaN included. */
#ifndef JAMJUNE_H
#define JAMJUNE_H
#include <stddef.h>
#include <stdint.h>

/* ---- words */

/* a * b modulo 2^64. */
uint64_t jj_wrapping_mul(uint64_t a, uint64_t b);

/* x rotated left by k modulo 64 places. */
uint64_t jj_rotate_left(uint64_t x, uint32_t k);

/* ---- root */

/* The square root of x, correctly rounded as IEEE 754 asks: the double nearest to the exact root, subnormals included.
 * +0, -0 and +infinity give themselves; below zero and NaN give NaN. */
double jj_sqrt(double x);

/* ---- generator: xoshiro256++ seeded through splitmix64; a state is any four words */

/* Sets out_state to the start of the stream of this seed, pass, direction and site, whatever it held. */
void jj_stream(uint64_t seed, uint64_t pass, uint64_t mu, uint64_t site, uint64_t out_state[4]);

/* Draws 64 bits, and moves the state on by that draw. */
uint64_t jj_next_u64(uint64_t state[4]);

/* Draws a number from 0 up to but not including 1, and moves the state on by one draw: jj_uniform_of of what
 * jj_next_u64 would have drawn. */
double jj_uniform(uint64_t state[4]);

/* The top 53 bits of raw over 2^53, exactly. */
double jj_uniform_of(uint64_t raw);

/* ---- matrices: any complex 3x3 matrices, not only those of SU(3); every operation rounds once, none is fused */

/* out = a b */
void jj_su3_mul(const double a[18], const double b[18], double out[18]);

/* out = a b^, where b^ is the conjugate transpose of b */
void jj_su3_mul_dag(const double a[18], const double b[18], double out[18]);

/* out = a^ b */
void jj_su3_dag_mul(const double a[18], const double b[18], double out[18]);

/* out = a + b */
void jj_su3_add(const double a[18], const double b[18], double out[18]);

/* out = a - b */
void jj_su3_sub(const double a[18], const double b[18], double out[18]);

/* out = a^, the conjugate transpose */
void jj_su3_dagger(const double a[18], double out[18]);

/* out = s a, for a real s */
void jj_su3_scale(const double a[18], double s, double out[18]);

/* out = the trace of a */
void jj_su3_trace(const double a[18], double out[2]);

/* The trace's real part. */
double jj_su3_re_tr(const double a[18]);

/* The squared distance of a and b: the sum of |a_ij - b_ij|^2, row by row from +0. */
double jj_su3_dist_sqr(const double a[18], const double b[18]);

/* out = the determinant of a, by the first row's minors */
void jj_su3_det(const double a[18], double out[2]);

/* out = a projected onto SU(3): the first row made a unit row, the second made a unit row orthogonal to it, the third set
 * to the conjugate of their cross product. The third row of a is not read. A first or second row of zeros gives NaNs. */
void jj_su3_reunitarize(const double a[18], double out[18]);

/* out = the anti-Hermitian traceless part of a: (a - a^) / 2 less a third of its trace on the diagonal */
void jj_su3_traceless_antihermitian(const double a[18], double out[18]);

/* out = the exponential of an anti-Hermitian traceless a: its series up to a^12 / 12!, then as by jj_su3_reunitarize.
 * Any a is taken, and the same is done to it. */
void jj_su3_exp_antihermitian(const double a[18], double out[18]);

/* ---- blocks and quaternions: subgroup 0 acts on rows and columns 0 and 1, subgroup 1 on 0 and 2, subgroup 2 on 1 and 2 */

/* out = the entries of a at the subgroup's rows and columns. Row 5. */
uint32_t jj_sub_block(const double a[18], size_t subgroup, double out[8]);

/* out = a with the subgroup's two rows left-multiplied by the block x. Row 5. */
uint32_t jj_left_mul_sub(const double a[18], size_t subgroup, const double x[8], double out[18]);

/* out = the block x projected orthogonally onto the real span of SU(2) */
void jj_quat_project(const double x[8], double out[4]);

/* The root of a0^2 + a1^2 + a2^2 + a3^2. */
double jj_quat_norm(const double a[4]);

/* out = a0, -a1, -a2, -a3 */
void jj_quat_conj(const double a[4], double out[4]);

/* out = the product a b */
void jj_quat_mul(const double a[4], const double b[4], double out[4]);

/* out = the block that a is: a0 + i a3, a2 + i a1; -a2 + i a1, a0 - i a3 */
void jj_quat_to_mat(const double a[4], double out[8]);

/* ---- sites */

/* out = the number of sites. Row 1. */
uint32_t jj_n_sites(const size_t ext[4], size_t out[1]);

/* out = the coordinates t, x, y, z of a site. Rows 1, 4. */
uint32_t jj_coords(const size_t ext[4], size_t site, size_t out[4]);

/* out = the site at the coordinates c. Rows 1, 4. */
uint32_t jj_index(const size_t ext[4], const size_t c[4], size_t out[1]);

/* out = 0 or 1: the coordinates' sum modulo 2. Rows 1, 4. */
uint32_t jj_parity(const size_t ext[4], size_t site, size_t out[1]);

/* out = the next site along direction mu. Rows 1, 4, 5. */
uint32_t jj_fwd(const size_t ext[4], size_t site, size_t mu, size_t out[1]);

/* out = the site before along direction mu. Rows 1, 4, 5. */
uint32_t jj_bwd(const size_t ext[4], size_t site, size_t mu, size_t out[1]);

/* ---- field: n is the length of links */

/* Cold start: every link becomes the identity. The coupling is judged and not otherwise read; the seed may be anything,
 * and leaves nothing in the list. A host keeps both, and a pass that begins at 0, for the calls below. Rows 1, 2, 3. */
uint32_t jj_cold(const size_t ext[4], double coupling, uint64_t seed, double *links, size_t n);

/* out = the plaquette of directions mu, then nu, at a site. Rows 1, 3, 4, 5, 10. */
uint32_t jj_plaquette(const size_t ext[4], size_t site, size_t mu, size_t nu, const double *links, size_t n, double out[18]);

/* out = the sum of the six staples around the link of direction mu at a site. The coupling is judged and not otherwise
 * read. Rows 1, 2, 3, 4, 5, 10. */
uint32_t jj_staple(const size_t ext[4], double coupling, size_t site, size_t mu, const double *links, size_t n, double out[18]);

/* out = a third of the real trace of a plaquette, averaged over all sites and the six planes. Rows 1, 3, 10. */
uint32_t jj_average_plaquette(const size_t ext[4], const double *links, size_t n, double out[1]);

/* out = the Wilson action: the coupling times the sum over all plaquettes of 1 less a third of the real trace.
 * Rows 1, 2, 3, 10. */
uint32_t jj_action(const size_t ext[4], double coupling, const double *links, size_t n, double out[1]);

/* out = the Polyakov loop: a third of the trace of the product of links along t, averaged over space. Rows 1, 3, 10. */
uint32_t jj_polyakov_loop(const size_t ext[4], const double *links, size_t n, double out[2]);

/* Looks for unsound links: those with one of their 18 numbers not finite, below -1 or above 1. Each one's number,
 * direction times sites + site, goes once to the front of found, in an order that is left open; later places keep what
 * they held. out_count = how many there are. room is the length of found. Rows 1, 3, 12. */
uint32_t jj_link_check(const size_t ext[4], const double *links, size_t n, uint32_t *found, size_t room, uint32_t out_count[1]);

/* ---- overrelaxation: n is the length of links
 *
 * The update of a link u whose staples' sum is a: w = u a; then, for the subgroups 0, 1, 2 in turn, v is the projection
 * of w's block, h the conjugate of v / |v|, and the subgroup's rows of u and of w are left-multiplied by h h; at last u
 * is projected as by jj_su3_reunitarize. The link is stuck where a |v| is below 1e-12, or where one of the 18 numbers that
 * it ends with is not finite.
 *
 * A half-sweep updates the links of one direction at the sites of one parity. A job is a half-sweep under way, as nine
 * numbers: extents t, x, y, z, direction, parity, visited, stuck, pass. Of the parity's sites in ascending order the
 * first visited are done, and stuck of their links were stuck. A frame visits so many more of them, or all that are
 * left. Hand each frame the job that the last call handed back, and the same links, with nothing else written to them
 * between opening and the last frame: no call can tell otherwise. Then it does not matter how a half-sweep is cut into
 * frames: each of its links becomes its update from the field at opening, or keeps its bits if it is stuck there; all
 * other links keep theirs. */

/* The places of a job's numbers; the extents stand from 0 on. */
enum { JJ_JOB_DIRECTION = 4, JJ_JOB_PARITY = 5, JJ_JOB_VISITED = 6, JJ_JOB_STUCK = 7, JJ_JOB_PASS = 8, JJ_JOB_LEN = 9 };

/* out = the update of the link u, where staple is its staples' sum. Row 9. */
uint32_t jj_update_link(const double u[18], const double staple[18], double out[18]);

/* out = the update of the link of direction mu at a site; links stays as it is. The coupling is judged and not otherwise
 * read. Rows 1, 2, 3, 4, 5, 9. */
uint32_t jj_overrelax_link(const size_t ext[4], double coupling, size_t site, size_t mu, const double *links, size_t n, double out[18]);

/* Opens a half-sweep: out_job = these extents, direction and parity, visited 0, stuck 0, and what pass held; then pass
 * holds 1 more. Refused, out_job is nine times 0 and pass as it was. The coupling is judged and not otherwise read; the
 * seed may be anything, and leaves nothing in the job. Rows 1, 2, 5, 6, 7. */
uint32_t jj_open_overrelax(const size_t ext[4], double coupling, uint64_t seed, uint64_t pass[1], size_t direction, size_t parity, uint64_t out_job[9]);

/* A frame: visits size more sites of the job's parity in ascending order, or all that are left; any size will do. The
 * link of the job's direction at each is updated where it stands; a stuck link is kept and counted. job = the same with
 * visited and stuck moved on. Refused, job and links are as they were. Rows 1, 3, 8. */
uint32_t jj_frame_overrelax(uint64_t job[9], size_t size, double *links, size_t n);

/* out = 1 where the job has visited all sites of its parity, half of all; else 0. Rows 1, 8. */
uint32_t jj_finished(const uint64_t job[9], uint32_t out[1]);

/* ---- smearing, field strength and densities: n is the length of links, m that of the list to be filled
 *
 * links is only read. The list to be filled may hold anything before; accepted, every place of it is written; refused, row
 * 10 included, none is: no number is stored before all are known to be finite. */

/* out = the stout-smeared link of direction mu at a site: exp(x) u, where u is the link, a the sum of its six staples, x
 * the anti-Hermitian traceless part of u a, times -rho, and exp as by jj_su3_exp_antihermitian. rho may be anything.
 * Rows 1, 3, 4, 5, 10. */
uint32_t jj_stout_link(const size_t ext[4], size_t site, size_t mu, double rho, const double *links, size_t n, double out[18]);

/* One step of stout smearing: each link of smeared becomes what jj_stout_link gives for it from links, all of them from
 * the unsmeared field. To smear again, lend the two lists the other way round. Rows 1, 3, 10. */
uint32_t jj_stout_step(const size_t ext[4], double rho, const double *links, size_t n, double *smeared, size_t m);

/* out = the sum of the four plaquettes that touch a site in a plane, each run through from the site and turning from
 * direction mu towards nu. Rows 1, 3, 4, 5, 10. */
uint32_t jj_clover_leaves(const size_t ext[4], size_t site, size_t mu, size_t nu, const double *links, size_t n, double out[18]);

/* out = the field strength F at a site: six matrices, one after the other, for the planes of directions 01, 02, 03, 12,
 * 13, 23. Each is a quarter of the anti-Hermitian traceless part of the plane's clover leaves. Rows 1, 3, 4, 10. */
uint32_t jj_field_strength_at(const size_t ext[4], size_t site, const double *links, size_t n, double out[108]);

/* density = for each site in ascending order, the sum of minus the real trace of F F over the six planes, in the order
 * above from +0. Rows 1, 3, 10. */
uint32_t jj_action_density(const size_t ext[4], const double *links, size_t n, double *density, size_t m);

/* density = for each site in ascending order, 8 / ((32 pi) pi), in f64, times the real trace of F01 F23 - F02 F13 +
 * F03 F12: summed over a smooth field, about an integer. Rows 1, 3, 10. */
uint32_t jj_topological_charge_density(const size_t ext[4], const double *links, size_t n, double *density, size_t m);

/* density = for each site in ascending order, minus the real trace of F F in the plane of t and an axis of space: 0 for
 * x, 1 for y, 2 for z. Rows 1, 3, 5, 10. */
uint32_t jj_electric_sq(const size_t ext[4], size_t axis, const double *links, size_t n, double *density, size_t m);

/* ---- staircases, paths and loops
 *
 * A step is one byte: twice its axis, a direction, and 1 more where it goes forward. A quark's offset is three numbers
 * along x, y, z from the junction; three quarks' are nine, quark by quark. The staircase to an offset goes one step at a
 * time along an axis of space where something is left: the one whose step ends nearest to the straight line, in f64, and
 * of equally near ones the first. It has |dx| + |dy| + |dz| steps.
 *
 * n is the length of links, room that of the list for steps, count the number of steps handed in. */

/* The staircase to d: its steps go to the front of steps, later places stay; out_count = how many. Rows 11, 12. */
uint32_t jj_staircase(const int32_t d[3], uint8_t *steps, size_t room, uint32_t out_count[1]);

/* out = the product of the links along the steps from a site, beginning with the identity; out_end = the site where they
 * end. A step forward multiplies by the link and moves; one backward moves and multiplies by the dagger of the link
 * there. Rows 1, 3, 4, 11, 10. */
uint32_t jj_path(const size_t ext[4], size_t site, const double *links, size_t n, const uint8_t *steps, size_t count, double out[18], size_t out_end[1]);

/* The same along t_len steps forward in time; the identity for none. Rows 1, 3, 4, 11, 10. */
uint32_t jj_time_line(const size_t ext[4], size_t site, size_t t_len, const double *links, size_t n, double out[18], size_t out_end[1]);

/* out = the loop of three quarks: a quark's line goes along its staircase from the site, t_len links along time, and back
 * along the staircase from the site t_len later; the lines' three matrices contracted with two antisymmetric tensors; the
 * real part over 6. Rows 1, 3, 4, 11, 10. */
uint32_t jj_baryon_loop(const size_t ext[4], size_t site, const int32_t offsets[9], size_t t_len, const double *links, size_t n, double out[1]);

/* ---- the flux accumulator
 *
 * An accumulator is three arrays: counts (nx, ny, nz, time length, density count, samples), the three quarks' offsets,
 * and sums (w, s0, s1, s2, s3); and a list, its grid, of density count times nx ny nz numbers: density first, then the
 * offset r, x fastest. Rows 1, 11 and 13 judge its own numbers in every call; a density count that does not fit 32 bits
 * is refused as one too large. Row 3 here: density has densities times the field's sites, grid densities times nx ny nz,
 * scratch twice as many, and a correlation's list nx ny nz; in jj_correlation the count is the accumulator's.
 *
 * samples counts sites and stops at 2^64 - 1, at which nothing can be added any more.
 *
 * n is the length of links, g that of grid, s that of scratch, m that of density or of a correlation's list. */

/* A new accumulator: out_counts and out_sums with no samples and +0; every number of grid +0. Rows 1, 3, 11, 13. */
uint32_t jj_new(const size_t grid_ext[3], const int32_t offsets[9], size_t t_len, uint32_t densities, double *grid, size_t g, uint64_t out_counts[6], double out_sums[5]);

/* Adds a field with its densities, each one number per site, one density after the other. W being the loop at each site
 * as by jj_baryon_loop, and r an offset: grid's number for density k and r grows by the sum over all sites of W times the
 * density at r from there, at the time half the time length later, rounded down; w by the sum of W. These two are summed
 * slice by slice of equal time, each slice from +0 with x fastest, and the slices' sums added in the order of time. sk
 * grows by one sum of the density over all sites in the order of their numbers, from +0. The field's x, y, z must be the
 * grid's; its t may differ from call to call. scratch may hold anything before, and is +0 after: accepted, or refused by
 * row 10, where nothing else changes. Refused by another row, nothing changes. Rows 1, 3, 11, 13, 10. */
uint32_t jj_add(uint64_t counts[6], const int32_t offsets[9], double sums[5], const size_t ext[4], uint32_t densities, const double *links, size_t n,
                const double *density, size_t m, double *grid, size_t g, double *scratch, size_t s);

/* out = w / samples. Rows 1, 11, 13, 14, 10. */
uint32_t jj_mean_loop(const uint64_t counts[6], const int32_t offsets[9], const double sums[5], double out[1]);

/* list = for each offset r, the grid's number of density k over samples, over (w / samples) (sk / samples). Row 14 where
 * that product is 0: there is no correlation to be shown then. Refused, the list is as it was. Rows 1, 3, 11, 13, 14,
 * 10. */
uint32_t jj_correlation(const uint64_t counts[6], const int32_t offsets[9], const double sums[5], uint32_t k, const double *grid, size_t g, double *list, size_t m);

#endif
