/* Sedgepick with memory of its own: a call that lends what the proved `sedgepick_run_front_with` needs and lends more where it runs out, one for the
 * meshes of a job, one for a replay, the refusals in words, and the version. These functions are not proved; what they hand back is what the proved one wrote. They keep nothing between calls and may be
 * called from several threads at once.
 *
 * Link libsedgepick.a or libsedgepick.so, which tools/install writes: cc mesh.c $(pkg-config --cflags --libs sedgepick)
 *
 * SPDX-License-Identifier: MIT
 */
#ifndef SEDGEPICK_MESH_H
#define SEDGEPICK_MESH_H

#include <sedgepick.h>

#ifdef __cplusplus
extern "C" {
#endif

/* No memory could be had. Not a refusal of the library, whose numbers are below it. */
#define SEDGEPICK_NO_MEMORY 1000

/* A finished mesh. Its counts and lengths are in `answer` (enum sedgepick_answer); the lists are as sedgepick_run_front leaves them. */
typedef struct sedgepick_mesh {
    double *points;        /* x, y, z: the given points, then the added ones */
    uint32_t *quads;       /* a record each (enum sedgepick_quad): quad i begins at quads[SEDGEPICK_QUADS(i)] */
    uint32_t *triangles;   /* three nodes each: those left over */
    uint32_t *components;  /* the sizes of their components, descending */
    uint32_t *trace;       /* the words of the trace (enum sedgepick_entry), answer[SEDGEPICK_TRACE_WORDS] of them */
    size_t answer[SEDGEPICK_ANSWER];
} sedgepick_mesh;

/* The parameters of a run beside its mesh. Take sedgepick_standard_options and change what should differ. */
typedef struct sedgepick_options {
    double size;
    uint32_t stop;
    sedgepick_quality quality;
    size_t capacity, slots; /* lent at first; 0: as much as the mesh lets expect, in a job as the limits allow */
    const uint32_t *joints; /* two nodes each; may be null where there are none */
    size_t joint_count;
    uint32_t grid;          /* 0, or SEDGEPICK_GRID for the grid profile */
    size_t trace;           /* words of trace lent at first, such as SEDGEPICK_TRACE; 0: none is made */
} sedgepick_options;

/* Words of trace to begin with: enough for most meshes. */
#define SEDGEPICK_TRACE 65536

static inline sedgepick_options sedgepick_standard_options(double size, uint32_t stop) {
    sedgepick_options options = {size, stop, SEDGEPICK_STANDARD_QUALITY, 0, 0, 0, 0, 0, 0};
    return options;
}

/* Meshes `count` triangles (three node numbers each) over `given` points (x, y, z each); both are only read, and may be null where there are none. Where
 * points or slots run out (8, 9) the run is made again with twice as many, up to the limits, so that 8 and 9 come back only from a run that needs more
 * than those; where a trace that is asked for is too short (11), with one of twice as many words, as long as there is memory. The result does not depend on how much was lent.
 *
 * Returns 0 and fills *mesh, which sedgepick_mesh_free gives back; or a refusal, or SEDGEPICK_NO_MEMORY, and *mesh is all zeros.
 */
size_t sedgepick_mesh_run_with(
    const double *points, size_t given, const uint32_t *triangles, size_t count, const sedgepick_options *options, sedgepick_mesh *mesh);

/* Meshes like sedgepick_mesh_run_with, with the standard set, no joints and no profile. */
size_t sedgepick_mesh_run(
    const double *points, size_t given, const uint32_t *triangles, size_t count, double size, uint32_t stop, sedgepick_mesh *mesh);

/* Meshes like sedgepick_mesh_run, lending so many points of capacity and slots at first; what is below the mesh's own numbers, or above the limits, is brought to them. */
size_t sedgepick_mesh_run_from(
    const double *points, size_t given, const uint32_t *triangles, size_t count, double size, uint32_t stop,
    size_t capacity, size_t slots, sedgepick_mesh *mesh);

/* The next mesh of a job (sedgepick_job), whose numbers are in `job`. It is run once: to make the run again with more memory would take its attempts from
 * the allowance twice. So where options->capacity or options->slots is 0 as much is lent as the limits allow, and with less than a run needs 8 and 9 come back
 * and the mesh is charged what it began; so it is with 11 and a trace of fewer words than the run needs. A refused mesh leaves *mesh all zeros, and the job goes on; SEDGEPICK_NO_MEMORY leaves the job as it was.
 */
size_t sedgepick_mesh_run_job(
    const double *points, size_t given, const uint32_t *triangles, size_t count, const sedgepick_options *options,
    size_t job[SEDGEPICK_JOB], sedgepick_mesh *mesh);

/* Replays `words` words of a trace on the mesh that its run was given (sedgepick_replay), with as much memory as its entries need. The lists in *mesh are the run's, or those of the mesh
 * as it was after so many entries; of the answer only the four lengths are set. Returns 0, or a refusal, 12 among them, or SEDGEPICK_NO_MEMORY, and *mesh is all zeros.
 */
size_t sedgepick_mesh_replay(
    const double *points, size_t given, const uint32_t *triangles, size_t count, const uint32_t *trace, size_t words, sedgepick_mesh *mesh);

/* Words of the entry that begins with these, of which there are so many; 0 where it is cut short or of another kind. */
size_t sedgepick_entry_words(const uint32_t *entry, size_t words);

/* Gives the lists back and sets *mesh to zeros. */
void sedgepick_mesh_free(sedgepick_mesh *mesh);

/* What a returned number means, 0 and SEDGEPICK_NO_MEMORY too; never null. */
const char *sedgepick_refusal_words(size_t refusal);

/* Of the library that is linked: its version and the number of its interface (SEDGEPICK_VERSION and SEDGEPICK_ABI are those of the header), the commit that it was
 * built at, and its build: the SHA-256 of the proved archive and the compiler of the functions in c/. The library takes calls of this header where sedgepick_abi()
 * is SEDGEPICK_ABI. */
const char *sedgepick_version(void);
size_t sedgepick_abi(void);
const char *sedgepick_commit(void);
const char *sedgepick_build(void);

#ifdef __cplusplus
}
#endif

#endif
