/* The exports under the floating point that their definition speaks of: IEEE 754, to nearest, subnormal numbers kept, no trap.
 *
 * A caller may have set another rounding mode, FTZ, DAZ or traps. Each entry here sets MXCSR to its default, calls the proved function, which tools/shared
 * renames to bare_NAME in the archive, and puts back what the caller had, flags too. An export is a list of its parameters and a line GUARD; the compiler holds
 * both to the header, and tools/shared refuses an archive with an export that has no line here. */
#include <sedgepick.h>
#include <xmmintrin.h>

/* To nearest, subnormal numbers kept, every exception masked, no flag set. */
#define DEFAULT_MXCSR 0x1F80u

#define DECLARED_SLICE(type, name) type *name, size_t name##_len
#define DECLARED_NUMBER(type, name) type name
#define HANDED_SLICE(type, name) name, name##_len
#define HANDED_NUMBER(type, name) name

#define GUARD(name, LIST) \
    size_t bare_##name(LIST(DECLARED_SLICE, DECLARED_NUMBER)); \
    size_t name(LIST(DECLARED_SLICE, DECLARED_NUMBER)) { \
        const unsigned callers = _mm_getcsr(); \
        _mm_setcsr(DEFAULT_MXCSR); \
        const size_t returned = bare_##name(LIST(HANDED_SLICE, HANDED_NUMBER)); \
        _mm_setcsr(callers); \
        return returned; \
    }

/* What several exports share. */
#define WRITTEN(S) S(uint32_t, quads), S(uint32_t, triangles_out), S(uint32_t, components), S(uint32_t, work), S(double, float_work)
#define ROOM(N) N(size_t, given), N(size_t, capacity), N(size_t, count), N(size_t, slots)
#define QUALITY(N) N(double, least_jacobian), N(double, largest_cosine), N(double, side_low), N(double, side_high), N(size_t, pairs)
#define STATED(N) ROOM(N), N(size_t, joint_count), N(double, size), N(uint32_t, stop), QUALITY(N), N(uint32_t, grid)
#define TRACED(S, N) \
    S(double, points), S(const uint32_t, triangles), S(const uint32_t, joints), WRITTEN(S), S(uint32_t, trace), STATED(N)
#define FILED(S, N, which) \
    S(const double, which##_points), S(const uint32_t, which##_triangles), S(uint32_t, which##_work), N(size_t, which##_given), N(size_t, which##_count)

#define RUN_FRONT(S, N) \
    S(double, points), S(const uint32_t, triangles), WRITTEN(S), ROOM(N), N(double, size), N(uint32_t, stop), S(size_t, answer)
#define RUN_FRONT_WITH(S, N) TRACED(S, N), S(size_t, answer)
#define JOB(S, N) TRACED(S, N), S(size_t, job), S(size_t, answer)
#define REPLAY(S, N) \
    S(double, points), S(const uint32_t, triangles), S(const uint32_t, trace), WRITTEN(S), ROOM(N), N(size_t, words), S(size_t, answer)
#define PREVIEW(S, N) \
    S(double, points), S(const uint32_t, triangles), S(const uint32_t, joints), S(const uint32_t, quads), S(const uint32_t, triangles_out), \
    S(const uint32_t, components), S(uint32_t, work), S(double, float_work), STATED(N), N(size_t, u), N(size_t, v), S(size_t, answer)
#define FILING_ORDER(S, N) FILED(S, N, first), FILED(S, N, second)
#define SMALL_MESH(S, N) N(uint32_t, points), N(size_t, place), S(uint32_t, list)
#define SHEET(S, N) S(const double, points), S(const uint32_t, quads), S(double, out), N(size_t, given), N(size_t, count), S(size_t, answer)
#define ACCEPT(S, N) \
    S(const double, given_points), S(const uint32_t, triangles), S(const double, points), S(const uint32_t, quads), S(const uint32_t, left), \
    S(const uint32_t, joints), S(uint32_t, components), S(uint32_t, work), S(uint32_t, parents), N(size_t, given), N(size_t, count), \
    N(size_t, point_count), N(size_t, quad_count), N(size_t, left_count), N(size_t, joint_count), N(double, cosine), N(double, thin), S(size_t, answer)

GUARD(sedgepick_run_front, RUN_FRONT)
GUARD(sedgepick_run_front_with, RUN_FRONT_WITH)
GUARD(sedgepick_job, JOB)
GUARD(sedgepick_replay, REPLAY)
GUARD(sedgepick_preview, PREVIEW)
GUARD(sedgepick_filing_order, FILING_ORDER)
GUARD(sedgepick_small_mesh, SMALL_MESH)
GUARD(sedgepick_sheet, SHEET)
GUARD(sedgepick_accept, ACCEPT)
