/* Sedgepick: quads from the triangles of a plane mesh, by an advancing front; a verdict on finished meshes; and an order in which an archive can keep meshes.
 *
 * The functions are proved. They end on every input. A finished mesh is the one that a short definition fixes, bit for bit, and each of its quads is, in
 * exact arithmetic, convex and counterclockwise. With the standard quality set no quad has a corner under 24.99 degrees; with any other set, the exact
 * cosine of each corner is at most the set's largest cosine plus 1e-9. The order is total on the meshes that it accepts. The functions allocate
 * nothing, keep nothing between calls, and may be called from several threads at once on memory of their own.
 *
 * Link libsedgepick, which tools/install makes, or the bare target/staticlib/liblibrary.a (x86-64, written by `tools/archive library`); sedgepick_mesh.h has a
 * call that lends the memory itself.
 *
 * Floating point: the definition is IEEE 754 to nearest, with subnormal numbers. In libsedgepick every function sets MXCSR to its default and puts back what the caller had,
 * whatever rounding mode, FTZ, DAZ or trap that is. A program that links the bare archive must keep the default itself: MXCSR is 0x1F80 apart from its flags, as at program start.
 * Under another mode the bare functions promise nothing of what is said here.
 *
 * Stack: a call takes at most 20 KB of stack, whatever it is given: no function calls itself, and the frames along the deepest path are 14 KB (read off the machine code by the
 * tests, which also measure 15 KB with the layer around it).
 *
 * SPDX-License-Identifier: MIT
 */
#ifndef SEDGEPICK_H
#define SEDGEPICK_H

#include <stddef.h>
#include <stdint.h>

#ifdef __cplusplus
extern "C" {
#endif

/* The version of this header. */
#define SEDGEPICK_VERSION_MAJOR 0
#define SEDGEPICK_VERSION_MINOR 3
#define SEDGEPICK_VERSION_PATCH 0
#define SEDGEPICK_VERSION "0.3.0"

/* The number of the interface, which is the shared library's too (libsedgepick.so.2). It grows where a function's parameters, a constant or a struct of these headers change;
 * a function more leaves it. sedgepick_abi() of sedgepick_mesh.h is that of the library that is linked. */
#define SEDGEPICK_ABI 2

/* Limits on the numbers of a call. */
#define SEDGEPICK_MOST_GIVEN 4096     /* given points, and given triangles */
#define SEDGEPICK_MOST_CAPACITY 8192  /* points that the points slice has room for */
#define SEDGEPICK_MOST_SLOTS 16384    /* slots */
#define SEDGEPICK_MOST_JOINTS 256     /* joints, repeats counted */
#define SEDGEPICK_MOST_MESHES 16      /* meshes of a job */
#define SEDGEPICK_MOST_ALLOWANCE 1000000 /* attempts that a job may allow */

/* Places in a quad's record. The leftover triangles are as many as the given ones and two for each added point, less what the quads replaced. */
enum sedgepick_quad {
    SEDGEPICK_N0,        /* the nodes, counterclockwise */
    SEDGEPICK_N1,
    SEDGEPICK_N2,
    SEDGEPICK_N3,
    SEDGEPICK_EDGE_U,    /* the front edge that the quad grew from, which is that between its first two nodes: the smaller node, */
    SEDGEPICK_EDGE_V,    /* and the larger */
    SEDGEPICK_ROUND,     /* the round that placed it, counted from 1 */
    SEDGEPICK_REPLACED,  /* how many triangles it replaced */
    SEDGEPICK_QUAD_WORDS /* how many they are */
};

/* Lengths of the slices, for so many slots and points of capacity. Lend what the mesh needs: both work slices are cleared whole when a call ends, so that with all
 * that the limits allow the smallest mesh takes about a tenth of a millisecond. A run uses one slot for each given triangle, two for each added point and one for each
 * quad, and its other steps take time in proportion to the slots used. */
#define SEDGEPICK_POINTS(capacity) (3 * (size_t)(capacity))
#define SEDGEPICK_JOINTS(joint_count) (2 * (size_t)(joint_count))
#define SEDGEPICK_QUADS(slots) (SEDGEPICK_QUAD_WORDS * (size_t)(slots))
#define SEDGEPICK_TRIANGLES_OUT(slots) (3 * (size_t)(slots))
#define SEDGEPICK_COMPONENTS(slots) ((size_t)(slots))
#define SEDGEPICK_WORK(slots, capacity) (64 * (size_t)(slots) + 8 * (size_t)(capacity))
#define SEDGEPICK_FLOAT_WORK(slots) (4 * (size_t)(slots))

/* Stop rules. */
#define SEDGEPICK_EXHAUST 0          /* go on while an edge of the front is open */
#define SEDGEPICK_EVEN_COMPONENTS 1  /* and refuse a quad that would leave a component with an odd number of triangles */

/* The grid profile, and how many lines of its grid there are to a unit. */
#define SEDGEPICK_GRID 1
#define SEDGEPICK_GRID_LINES 1024

/* The quality set: what a quad is held to and what is tried for it. Bounds are included, a zero of either sign is 0, and the decimals stand for the doubles
 * nearest them. */
typedef struct sedgepick_quality {
    double least_jacobian; /* least scaled Jacobian of a quad: 0 to 1 */
    double largest_cosine; /* largest cosine of a quad's corner: 0.5 (60 degrees) to 0.99 (8.1 degrees) */
    double side_low;       /* a side node is looked for at so many times the target length at least: 0.1 to 4 */
    double side_high;      /* and at so many times at most: 0.1 to 4, not below side_low */
    size_t pairs;          /* pairs of side nodes tried for an edge: 1 to 64 */
} sedgepick_quality;

#define SEDGEPICK_JACOBIAN_LOW 0.0
#define SEDGEPICK_JACOBIAN_HIGH 1.0
#define SEDGEPICK_COSINE_LOW 0.5
#define SEDGEPICK_COSINE_HIGH 0.99
#define SEDGEPICK_SIDE_LOW 0.1
#define SEDGEPICK_SIDE_HIGH 4.0
#define SEDGEPICK_PAIRS_LOW 1
#define SEDGEPICK_PAIRS_HIGH 64

/* The standard set, which sedgepick_run_front goes by: the cosine is that of 25 degrees. As an initializer, and as a value. */
#define SEDGEPICK_STANDARD_QUALITY {0.3, 0.90630778703665, 0.5, 2.2, 8}

static inline sedgepick_quality sedgepick_standard_quality(void) {
    sedgepick_quality standard = SEDGEPICK_STANDARD_QUALITY;
    return standard;
}

/* What is returned. The refusals are tested in this order, 8 before 9 and 9 before 11 of the same step, and in a replay 12 before 8 and 9 of the same entry; each is
 * returned under its condition and under no other. */
enum sedgepick_refusal {
    SEDGEPICK_FINISHED = 0,
    /* the job's state, in sedgepick_job alone */
    SEDGEPICK_BAD_JOB = 16,     /* no mesh, over 16 or none left of them; an allowance of 0 or over 1,000,000; more left than the meshes before could leave */
    /* the caller's numbers */
    SEDGEPICK_OVER_LIMIT = 1,   /* over 4,096 triangles or given points, or over a capacity limit */
    SEDGEPICK_BAD_SIZE = 2,     /* size neither zero (of either sign) nor from 1/64 to 8; a NaN is refused here */
    SEDGEPICK_BAD_STOP = 3,     /* stop rule neither 0 nor 1 */
    SEDGEPICK_BAD_QUALITY = 14, /* a number of the quality set outside its range, or a NaN; side_low above side_high */
    /* the lender */
    SEDGEPICK_TOO_SHORT = 4,    /* a slice shorter than stated, the answer's too; capacity below the given points, or slots below the triangles */
    /* the mesh's maker */
    SEDGEPICK_UNKNOWN_NODE = 5, /* a node number not below the given points */
    SEDGEPICK_REPEATED_NODE = 6,/* a triangle with a node twice */
    SEDGEPICK_FAR_POINT = 7,    /* x or y not finite or beyond 8 in magnitude (8 passes); z may be anything */
    SEDGEPICK_OFF_GRID = 15,    /* in the grid profile: x or y of a given point no multiple of 1/1024, or a size that is not zero */
    SEDGEPICK_BAD_JOINT = 13,   /* a joint whose nodes are one, or one of them not below the given points; or over 256 joints */
    /* the run itself */
    SEDGEPICK_NO_POINT = 8,     /* an insertion, with the point capacity used up */
    SEDGEPICK_NO_SLOTS = 9,     /* a split with fewer than two slots free, or a quad with none */
    SEDGEPICK_NO_TRACE = 11,    /* an insertion, a flip or a quad whose entry does not fit the lent trace */
    /* the words of a replay, in sedgepick_replay alone */
    SEDGEPICK_BAD_TRACE = 12    /* an entry cut short or of another kind, or one that names a slot without a triangle, a slot twice, a node that is not there, a point not
                                   strictly inside its triangle, or an edge that is not in its node order or does not flip */
};

/* Places in the answer of a finished run. */
enum sedgepick_answer {
    SEDGEPICK_FRONT_EMPTY,         /* 1 when no front edge was left */
    SEDGEPICK_ATTEMPTS,            /* the quads, the five counts that follow, and `limit` add up to it */
    SEDGEPICK_PLACEMENT,           /* attempts refused: no side nodes; an edge without length; an edge that flips took off the front */
    SEDGEPICK_INVALID_QUAD,        /* no pair of side nodes with a good quad */
    SEDGEPICK_RECOVERY,            /* a side that flips could not bring into the mesh */
    SEDGEPICK_REGION,              /* the triangles inside the quad do not fill it, or a joint is inside it */
    SEDGEPICK_ODD_REGION,          /* they do, and without them some component would be odd */
    SEDGEPICK_MISMATCH_INSERTIONS, /* points added */
    SEDGEPICK_LIMIT,               /* 1 when a limit on attempts or triangles ended the run; that on attempts is 200 for each given triangle and 10,000, in a job not more than the
                                      mesh is entitled to, and one more is counted */
    SEDGEPICK_QUAD_COUNT,          /* lengths of the four lists */
    SEDGEPICK_TRIANGLE_COUNT,
    SEDGEPICK_POINT_COUNT,
    SEDGEPICK_COMPONENT_COUNT,
    SEDGEPICK_TRIALS,              /* pairs of side nodes tried, over all attempts: in one that was refused all the pairs it had, up to the set's number; in one
                                      that placed a quad those up to the quad's. So at most the set's number for each attempt */
    SEDGEPICK_TRACE_WORDS,         /* words of the trace; 0 where none is lent */
    SEDGEPICK_ANSWER               /* how many they are */
};

/* Meshes the given triangles over the given points.
 *
 * Each slice is a pointer, aligned for its numbers and not null (also where the length is 0), and how many numbers may be read and written there. No two
 * slices share memory, and nothing else uses them during the call. These are the only preconditions: every other number is safe and, where it does not fit,
 * refused. Slices may be longer than the call needs, and what they hold beforehand does not matter, but for the given points and triangles.
 *
 * points         3 numbers a point of capacity: x, y, z of the given points first. Given points stay as they are; added ones come behind them, with z 0.
 * triangles      3 node numbers a triangle; only read. Clockwise, overlapping and repeated triangles are accepted.
 * quads          8 numbers a slot (SEDGEPICK_QUAD_WORDS): the records of the quads (enum sedgepick_quad), in the order in which they were placed.
 * triangles_out  3 numbers a slot: the nodes of the triangles that are left.
 * components     1 number a slot: the sizes of the components of the triangles left, descending.
 * work           64 numbers a slot and 8 a point of capacity; zeros afterwards, the whole slice.
 * float_work     4 numbers a slot; zeros afterwards, the whole slice.
 * given          given points, at most 4,096.
 * capacity       points that there is room for, from the given ones to 8,192.
 * count          given triangles, at most 4,096.
 * slots          slots for cells, from the triangles to 16,384. Each given triangle takes one, each quad one more, each added point two more.
 * size           target length of an edge: 0 for none, otherwise from 1/64 to 8.
 * stop           stop rule: 0 or 1.
 * answer         15 numbers (SEDGEPICK_ANSWER), written only where 0 is returned; after a refusal all counts and lengths are zero, and the slice is as it was.
 *
 * Entries past a list's length are as they were. 1 to 7 and 13 to 15 touch no slice but a job's numbers, 16 none at all. 8, 9 and 11 leave the points added, the quads written and the entries of the
 * trace made before them, clear both work slices and touch nothing else; with more capacity, more slots or a longer trace the same call goes further.
 */
size_t sedgepick_run_front(
    double *points, size_t points_len,
    const uint32_t *triangles, size_t triangles_len,
    uint32_t *quads, size_t quads_len,
    uint32_t *triangles_out, size_t triangles_out_len,
    uint32_t *components, size_t components_len,
    uint32_t *work, size_t work_len,
    double *float_work, size_t float_work_len,
    size_t given, size_t capacity, size_t count, size_t slots, double size, uint32_t stop,
    size_t *answer, size_t answer_len);

/* Kinds of a trace's entries: the first word of each. The others follow:
 *
 * an insertion  6 words: 1, the slot of the triangle that was split, the low and the high half of x's bits, those of y's. The point comes behind the others with z 0; the
 *               first third keeps the slot, the other two take the next ones.
 * a flip        3 words: 2, the edge's nodes, the smaller first.
 * a quad        9 words and one for each triangle that it replaced: 4, its nodes, the front edge that it grew from, the smaller node first, the round, the number of its
 *               slots, the slots. The quad itself takes the next slot.
 *
 * Given triangles have the slots 0, 1 and so on; no slot is used twice. So the given mesh and the entries say what the mesh was at every step.
 */
enum sedgepick_entry {
    SEDGEPICK_ENTRY_INSERTION = 1,
    SEDGEPICK_ENTRY_FLIP = 2,
    SEDGEPICK_ENTRY_QUAD = 4
};

/* Words of an entry, a quad's before its slots. */
#define SEDGEPICK_INSERTION_WORDS 6
#define SEDGEPICK_FLIP_WORDS 3
#define SEDGEPICK_PLACED_WORDS 9

/* Meshes like sedgepick_run_front, with joints, a quality set, the grid profile and a trace. Without joints, profile and trace, and with the standard set, it is sedgepick_run_front.
 *
 * trace        any number of words; the length 0 is none, and then nothing is written. An entry for each insertion, flip and quad comes to its front (enum sedgepick_entry), in
 *              the order in which they were made, those of attempts that were refused too; the answer has the words used. Where one entry more does not fit, the
 *              run is refused with 11, nothing of that entry is written, and what it says is not done. A trace changes nothing else.
 * joints       2 node numbers a joint, in either order; only read. A joint is locked: it is never flipped, and no quad covers it, so a joint that is an edge
 *              of the given triangles is an edge of a quad or of a triangle left over in the finished mesh. A joint need not be an edge of the mesh; one that
 *              a flip makes an edge is locked from then on. The order of the list and repeats in it change nothing.
 * joint_count  joints, at most 256, repeats counted; 0 for none, and then the slice is not read.
 * least_jacobian to pairs  the fields of struct sedgepick_quality in their order.
 * grid         0, or any other number for the grid profile (SEDGEPICK_GRID): x and y of every given point, used or not, are multiples of 1/1024 and size is
 *              0; nothing is inserted, and the summed area of the quads and of the triangles left over equals that of the given triangles, exactly, each
 *              area taken without sign. docs/GRID.md says what this means and what not.
 *
 * Whatever the set, each quad of a finished mesh is, in exact arithmetic, convex and counterclockwise, and the cosine of each of its corners is at most
 * largest_cosine + 1e-9; its scaled Jacobian and its largest cosine, worked out in floats, pass the set.
 */
size_t sedgepick_run_front_with(
    double *points, size_t points_len,
    const uint32_t *triangles, size_t triangles_len,
    const uint32_t *joints, size_t joints_len,
    uint32_t *quads, size_t quads_len,
    uint32_t *triangles_out, size_t triangles_out_len,
    uint32_t *components, size_t components_len,
    uint32_t *work, size_t work_len,
    double *float_work, size_t float_work_len,
    uint32_t *trace, size_t trace_len,
    size_t given, size_t capacity, size_t count, size_t slots, size_t joint_count, double size, uint32_t stop,
    double least_jacobian, double largest_cosine, double side_low, double side_high, size_t pairs,
    uint32_t grid,
    size_t *answer, size_t answer_len);

/* Places in the answer of a replay: the lengths of the four lists. */
enum sedgepick_replay_place {
    SEDGEPICK_REPLAY_QUADS,
    SEDGEPICK_REPLAY_TRIANGLES,
    SEDGEPICK_REPLAY_POINTS,
    SEDGEPICK_REPLAY_COMPONENTS,
    SEDGEPICK_REPLAY /* how many they are */
};

/* Replays the words of a trace on the mesh that its run was given: the points, quads, triangles and components are those of the finished run. With the first
 * entries alone they are those of the mesh as it was then, so a mesh can be stepped through as it grew; with no words they are the given ones.
 *
 * The parameters are those of sedgepick_run_front, but for these:
 *
 * trace   the words; only read.
 * words   how many of them are replayed: these are read and no others, so one word more or less than whole entries is 12.
 * answer  4 numbers (SEDGEPICK_REPLAY), written only where 0 is returned; entries past them are as they were.
 *
 * Words that no run wrote are safe. 0 is returned, or a refusal: 1, then 4 (a trace of fewer words than stated and an answer of fewer than 4 numbers too), 5, 6 and 7, which
 * touch nothing; or 12, 8 and 9, tested entry by entry in this order, which leave the points added and the quads written before the entry, clear both work
 * slices and touch nothing else. A trace says nothing of size, stop rule, joints, quality and profile, and none is tested: an edge, a round and nodes of a quad that have
 * nothing to do with its slots are taken as they are, a node twice in a quad too. `replaced` is the number of the quad's slots.
 */
size_t sedgepick_replay(
    double *points, size_t points_len,
    const uint32_t *triangles, size_t triangles_len,
    const uint32_t *trace, size_t trace_len,
    uint32_t *quads, size_t quads_len,
    uint32_t *triangles_out, size_t triangles_out_len,
    uint32_t *components, size_t components_len,
    uint32_t *work, size_t work_len,
    double *float_work, size_t float_work_len,
    size_t given, size_t capacity, size_t count, size_t slots, size_t words,
    size_t *answer, size_t answer_len);

/* Places in a job's numbers: the state that is handed from mesh to mesh, and what the last one was charged. */
enum sedgepick_job_place {
    SEDGEPICK_JOB_MESHES,    /* meshes of the job, 1 to 16 */
    SEDGEPICK_JOB_ALLOWANCE, /* attempts that they may make together, 1 to 1,000,000 */
    SEDGEPICK_JOB_DONE,      /* meshes before this one; 0 at the start */
    SEDGEPICK_JOB_LEFT,      /* what the one before left; 0 at the start */
    SEDGEPICK_JOB_CHARGED,   /* written: the attempts that this mesh was charged */
    SEDGEPICK_JOB            /* how many they are */
};

/* A job's numbers before its first mesh, as an initializer: size_t job[SEDGEPICK_JOB] = SEDGEPICK_JOB_START(3, 60000); */
#define SEDGEPICK_JOB_START(meshes, allowance) {(meshes), (allowance), 0, 0, 0}

/* The next mesh of a job: up to 16 meshes under one attempt allowance, run in turn, each with slices of its own.
 *
 * A mesh is entitled to the whole part of allowance / meshes, and to what the one before it left. Its limit on attempts is that or the usual one
 * (SEDGEPICK_LIMIT), whichever is smaller; otherwise the call is sedgepick_run_front_with. It leaves what it was entitled to less what it is charged: the
 * attempts made, of which a counted one that a limit stopped is none; where 8, 9 or 11 ended the run, the attempts begun; and nothing where it is refused before
 * its run. So a refused mesh gets its number, and the job goes on.
 *
 * A service that meshes what strangers send bounds a call by a job of one mesh: SEDGEPICK_JOB_START(1, 20000) makes at most 20,000 attempts, where a run by itself may make
 * 829,200. What one attempt costs depends on the shape; docs/MEASURED.md has it for the worst that are known.
 *
 * From a job's start, with each state handed on once, the attempts made never pass the allowance. Where a mesh run by itself is finished, its quads in the job
 * are the first ones of that run. What a later mesh contains changes no earlier one.
 *
 * job  5 numbers (SEDGEPICK_JOB). The first four are the state, and are written as the state for the next mesh, the fifth as the attempts charged: also where the
 *      mesh is refused. Three refusals write nothing at all, and the job does not go on. Fewer than 5 numbers are 4, before all else. A bad state is 16,
 *      before every other number; the fifth number stays as it was too. An answer of fewer than 15 numbers is 4 then, whatever the mesh is.
 *      SEDGEPICK_JOB_DONE tells whether the state moved.
 */
size_t sedgepick_job(
    double *points, size_t points_len,
    const uint32_t *triangles, size_t triangles_len,
    const uint32_t *joints, size_t joints_len,
    uint32_t *quads, size_t quads_len,
    uint32_t *triangles_out, size_t triangles_out_len,
    uint32_t *components, size_t components_len,
    uint32_t *work, size_t work_len,
    double *float_work, size_t float_work_len,
    uint32_t *trace, size_t trace_len,
    size_t given, size_t capacity, size_t count, size_t slots, size_t joint_count, double size, uint32_t stop,
    double least_jacobian, double largest_cosine, double side_low, double side_high, size_t pairs,
    uint32_t grid,
    size_t *job, size_t job_len,
    size_t *answer, size_t answer_len);

/* What an edge shows. */
enum sedgepick_shown {
    SEDGEPICK_OFF_FRONT,     /* it is not on the front, which in the starting mesh are the edges of one triangle alone; nothing is attempted */
    SEDGEPICK_SHOWN_QUAD,    /* the quad that the attempt on it places */
    SEDGEPICK_SHOWN_REFUSED  /* the attempt is refused */
};

/* What an attempt is refused under, by the names of the counts of a run. */
enum sedgepick_kind {
    SEDGEPICK_NOT_REFUSED,
    SEDGEPICK_KIND_PLACEMENT,
    SEDGEPICK_KIND_INVALID_QUAD,
    SEDGEPICK_KIND_RECOVERY,
    SEDGEPICK_KIND_REGION,
    SEDGEPICK_KIND_ODD_REGION
};

/* Places in the answer of a preview. */
enum sedgepick_preview_place {
    SEDGEPICK_PREVIEW_SHOWN,                    /* enum sedgepick_shown */
    SEDGEPICK_PREVIEW_KIND,                     /* enum sedgepick_kind */
    SEDGEPICK_PREVIEW_INSERTIONS,               /* what the attempt costs: points added, at most 2, */
    SEDGEPICK_PREVIEW_FLIPS,                    /* and edges flipped */
    SEDGEPICK_PREVIEW_QUAD,                     /* the quad's record (enum sedgepick_quad), its round 1; zeros where there is none */
    SEDGEPICK_PREVIEW = SEDGEPICK_PREVIEW_QUAD + SEDGEPICK_QUAD_WORDS /* how many they are */
};

/* Shows what an edge would give: one attempt on the mesh that the run of the same numbers starts from, of which nothing stays. So of the edge that the run tries
 * first it shows how that attempt ends.
 *
 * The parameters are those of sedgepick_run_front_with, but for the trace, which it has not, and these:
 *
 * quads, triangles_out, components  as long as for a run; neither read nor written.
 * u, v    the edge's nodes, in either order. Any numbers are safe: a pair that is no edge is not on the front.
 * answer  12 numbers (SEDGEPICK_PREVIEW), written only where 0 is returned; entries past them are as they were. All are 0 where the edge is not on the front. A
 *         node of the quad that is not below `given` is a point that the attempt would add.
 *
 * 0 is returned where something is shown, otherwise a refusal, 1 to 9 or 13 to 15, under the conditions of a run and in their order; an answer of fewer than 12
 * numbers is 4, behind 1, 2, 3 and 14. 8 and 9 are those of this one attempt: with room for two points and five slots beyond the given ones neither comes. 1 to 7 and
 * 13 to 15 touch nothing. Otherwise, also after 8 and 9, both work slices are zeros, the whole slices, and the points are as they were.
 */
size_t sedgepick_preview(
    double *points, size_t points_len,
    const uint32_t *triangles, size_t triangles_len,
    const uint32_t *joints, size_t joints_len,
    const uint32_t *quads, size_t quads_len,
    const uint32_t *triangles_out, size_t triangles_out_len,
    const uint32_t *components, size_t components_len,
    uint32_t *work, size_t work_len,
    double *float_work, size_t float_work_len,
    size_t given, size_t capacity, size_t count, size_t slots, size_t joint_count, double size, uint32_t stop,
    double least_jacobian, double largest_cosine, double side_low, double side_high, size_t pairs,
    uint32_t grid,
    size_t u, size_t v,
    size_t *answer, size_t answer_len);

/* Numbers of work for a mesh of so many triangles that is filed. */
#define SEDGEPICK_FILING_WORK(count) (4 * (size_t)(count))

/* What the filing order answers: how the first mesh stands to the second. No refusal has one of these numbers. */
enum sedgepick_order {
    SEDGEPICK_BEFORE = 100,
    SEDGEPICK_SAME = 101,
    SEDGEPICK_AFTER = 102
};

/* Compares two meshes: by point count, then by each point's x and y in turn as numbers (zeros of either sign are equal, z is not read), then by triangle
 * count, then by the triangles, each from its smallest node on and the list in ascending order. The first difference decides. The answer is
 * SEDGEPICK_SAME exactly when the points agree and the triangles agree up to rotation and list order, repeats counted; a triangle turned over is another.
 * It is a total order: comparing the other way round gives the other answer, and meshes that are the same stand alike to every third.
 *
 * For each mesh, the first's parameters before the second's:
 * points         3 numbers a point: x, y, z; only read.
 * triangles      3 node numbers a triangle; only read.
 * work           4 numbers a triangle; zeros after an answer, the whole slice, also where the points decided.
 * given          points, at most 4,096.
 * count          triangles, at most 4,096.
 *
 * Slices are as above, but that points and triangles of the two meshes may share memory. Returned is the answer, or a refusal: SEDGEPICK_OVER_LIMIT (1),
 * SEDGEPICK_TOO_SHORT (4: points, triangles or work), SEDGEPICK_UNKNOWN_NODE (5), SEDGEPICK_REPEATED_NODE (6) or SEDGEPICK_FAR_POINT (7), the first
 * that holds of the first mesh, and where none does of the second. A refusal touches nothing.
 */
size_t sedgepick_filing_order(
    const double *first_points, size_t first_points_len,
    const uint32_t *first_triangles, size_t first_triangles_len,
    uint32_t *first_work, size_t first_work_len,
    size_t first_given, size_t first_count,
    const double *second_points, size_t second_points_len,
    const uint32_t *second_triangles, size_t second_triangles_len,
    uint32_t *second_work, size_t second_work_len,
    size_t second_given, size_t second_count);

/* Numbers of the longest list of a small mesh: how many triangles it has, and three nodes each. */
#define SEDGEPICK_SMALL_MESH 10

/* Every small mesh: the lists of one to three different triangles on 3, 4 or 5 points, each triangle with its nodes ascending, each list ascending,
 * shorter lists first and then by node numbers. On 3 points there is 1 list, on 4 there are 14, on 5 there are 175.
 *
 * points  3, 4 or 5; any other number is refused as 1.
 * place   place in the order, from 0.
 * list    10 numbers (SEDGEPICK_SMALL_MESH); fewer are refused as 4, where 1 does not refuse. How many triangles the list has comes first, then their
 *         nodes; entries past them are as they were. From the end of the order on, that first number is 0. What is asked of a slice above holds here too.
 *
 * 0 is returned, or the refusal's number; a refusal leaves the slice as it was. That the order has each list exactly once is proved.
 */
size_t sedgepick_small_mesh(uint32_t points, size_t place, uint32_t *list, size_t list_len);

/* Numbers of a quality sheet: ten counts by steps of the scaled Jacobian, the count of quads without metrics, and the quads that have the worst of each kind. */
#define SEDGEPICK_SHEET_NUMBERS 13

/* The quality sheet of a list of quads, ours or not: for each quad its scaled Jacobian and the largest cosine of its corners, as a run measures them.
 *
 * points  3 numbers a point: x, y, z; only read, z not at all.
 * quads   8 numbers a quad, as a run writes them: its four corners, then its birth, which is not read; only read.
 * out     2 numbers a quad: scaled Jacobian and cosine, quad after quad; two zeros where a quad has no metrics: a corner is not convex, its nodes do not run
 *         counterclockwise, or it has no area. Entries past them are as they were.
 * given   points, at most 8,192.
 * count   quads, at most 16,384.
 * answer  13 numbers (SEDGEPICK_SHEET_NUMBERS); entries past them are as they were:
 *         0 to 9   quads by steps of the scaled Jacobian, bounded by the doubles nearest 0.1, 0.2 and so on to 0.9; one on a bound is in the step above it
 *         10       quads without metrics; the eleven add up to the quads
 *         11       the quad with the least scaled Jacobian, from 0 and of equal ones the first; `count` where no quad has metrics
 *         12       the same for the largest cosine. Both values stand in `out`.
 *
 * Slices are as above, but that points and quads may share memory. 0 is returned, or a refusal, which touches nothing: SEDGEPICK_OVER_LIMIT (1),
 * SEDGEPICK_TOO_SHORT (4: points, quads, out or answer), SEDGEPICK_UNKNOWN_NODE (5: a corner) or SEDGEPICK_FAR_POINT (7: any of the given points), the first
 * that holds. Of a run that returned 0, handed on as it came back (its points and quads, `given` and `count` from its answer) with room in `out` and in
 * `answer`, the sheet is not refused, no quad is without metrics, and neither worst is beyond the run's quality set: `sheet_passes` of crates/run_sheets,
 * proved from what the run promises.
 */
size_t sedgepick_sheet(
    const double *points, size_t points_len,
    const uint32_t *quads, size_t quads_len,
    double *out, size_t out_len,
    size_t given, size_t count,
    size_t *answer, size_t answer_len);

/* Most entries of each list of an acceptance. */
#define SEDGEPICK_MOST_JUDGED 1048576

/* Lengths of the slices that an acceptance is lent: 4 words for each side of a given triangle and of a cell, 2 words and 1 word for a leftover triangle. */
#define SEDGEPICK_ACCEPT_WORK(count, quad_count, left_count) (4 * (3 * (size_t)(count) + 4 * (size_t)(quad_count) + 3 * (size_t)(left_count)))
#define SEDGEPICK_ACCEPT_PARENTS(left_count) (2 * (size_t)(left_count))
#define SEDGEPICK_ACCEPT_COMPONENTS(left_count) ((size_t)(left_count))

/* A limit for leftover triangles that asks nothing of them. */
#define SEDGEPICK_ANY_TRIANGLE 1.0

/* Places in the answer of an acceptance. The clauses have their first offender, as its place in the list that was handed in. */
enum sedgepick_accept {
    SEDGEPICK_ACCEPTED,      /* 1 where no clause has an offender, otherwise 0 */
    SEDGEPICK_MOVED,         /* the first given point that is not the judged point of its number, all three doubles bit for bit (every NaN in z is one value); `given` where there
                                is none */
    SEDGEPICK_ADDED,         /* judged points less given ones; 0 where they are fewer */
    SEDGEPICK_FOLDED,        /* the first quad that does not turn left at its four nodes; `quad_count` where there is none */
    SEDGEPICK_SHARP,         /* the first quad with a corner whose cosine is above `cosine` + 1e-9; `quad_count` where there is none */
    SEDGEPICK_GIVEN_FLAT,    /* the first given triangle without area; `count` where there is none */
    SEDGEPICK_LEFT_FLAT,     /* the first leftover triangle without area; `left_count` where there is none */
    SEDGEPICK_THIN,          /* the first leftover triangle with a corner whose cosine is above `thin` + 1e-9; `left_count` where there is none, and where `thin` is 1 */
    SEDGEPICK_UNEVEN_U,      /* the least edge whose sides do not balance: the smaller node, */
    SEDGEPICK_UNEVEN_V,      /* and the larger; 0 and 0 where there is none */
    SEDGEPICK_LOST,          /* the first joint that an edge of a given triangle is and no edge of a judged cell; `joint_count` where there is none */
    SEDGEPICK_GROUPS,        /* components of the leftover triangles; their sizes, descending, stand first in `components` */
    SEDGEPICK_ODD_GROUPS,    /* how many of them are odd */
    SEDGEPICK_ACCEPT_NUMBERS /* how many they are: 13 */
};

/* Decides whether a finished mesh can be signed against the mesh that was given, whoever made it, in exact arithmetic.
 *
 * A yes means that the given points are the first of the judged ones, bit for bit, that every quad is convex and counterclockwise with no corner sharper than the
 * limit, that no leftover triangle is thinner than its limit, and that every joint of the given triangles is an edge of a judged cell. And it means that quads and
 * leftover triangles cover each place of the plane off their sides as often as the given triangles do, so that there is no gap and no overlap that was not given,
 * and that their areas add up to the same, exactly.
 *
 * Limits: the nodes on the boundary are fixed, so a mesh with one more node there is refused at that side; a given triangle without area is refused. Nothing is said
 * of points that no cell has, of z of added points, and of two points at one place. Where given triangles overlap, the judged cells may as often.
 *
 * given_points, triangles  the given mesh: 3 numbers a point, 3 node numbers a triangle; only read.
 * points, quads, left      the judged mesh: 3 numbers a point, 4 node numbers a quad, 3 a leftover triangle; only read.
 * joints        2 node numbers a joint, in either order; only read.
 * components    1 number a leftover triangle (SEDGEPICK_ACCEPT_COMPONENTS): the sizes of their components come first, what stands behind is as it was.
 * work          SEDGEPICK_ACCEPT_WORK numbers; zeros after an answer, the whole slice.
 * parents       SEDGEPICK_ACCEPT_PARENTS numbers; zeros after an answer, the whole slice.
 * given, count, point_count, quad_count, left_count, joint_count  how many of each, at most 1,048,576.
 * cosine        the largest cosine of a quad's corner: 0.5 to 0.99. The limit is exact: this double and 1e-9.
 * thin          the largest cosine of a leftover triangle's corner: 0.5 to 1, and 1 (SEDGEPICK_ANY_TRIANGLE) asks nothing. Exact in the same way.
 * answer        13 numbers (SEDGEPICK_ACCEPT_NUMBERS), written only where 0 is returned; entries past them are as they were.
 *
 * Triangles may run either way: a given or leftover triangle that does not run counterclockwise is turned over before its sides are counted. Sides balance where for each two
 * nodes u and v the sides from u to v of given triangles and those from v to u of judged cells are as many as the sides from v to u of given triangles and those from
 * u to v of judged cells.
 *
 * Slices are as above, but that those only read may share memory. 0 is returned, or a refusal, which touches nothing, the first that holds: SEDGEPICK_OVER_LIMIT (1),
 * SEDGEPICK_BAD_QUALITY (14: a limit outside its range, or a NaN), SEDGEPICK_TOO_SHORT (4: any slice, the answer's too), SEDGEPICK_UNKNOWN_NODE (5: a node of a given
 * triangle not below `given`, of a judged cell not below `point_count`), SEDGEPICK_REPEATED_NODE (6: in a triangle or quad), SEDGEPICK_FAR_POINT (7: a given or judged
 * point), SEDGEPICK_BAD_JOINT (13: one node twice, or a node not below `given`). Fewer judged points than given ones is no refusal: the first that is missing is the
 * one that moved.
 *
 * It is proved that the answer is that of a short definition for every input, that each test means its clause, both ways, and what a yes means as said above.
 */
size_t sedgepick_accept(
    const double *given_points, size_t given_points_len,
    const uint32_t *triangles, size_t triangles_len,
    const double *points, size_t points_len,
    const uint32_t *quads, size_t quads_len,
    const uint32_t *left, size_t left_len,
    const uint32_t *joints, size_t joints_len,
    uint32_t *components, size_t components_len,
    uint32_t *work, size_t work_len,
    uint32_t *parents, size_t parents_len,
    size_t given, size_t count, size_t point_count, size_t quad_count, size_t left_count, size_t joint_count,
    double cosine, double thin,
    size_t *answer, size_t answer_len);

#ifdef __cplusplus
}
#endif

#endif
