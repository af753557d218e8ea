/* Three slabs under one attempt allowance: a square, a triangle that is refused, a row of four squares.
 *
 *   tools/archive library
 *   cc -Iinclude examples/c/job.c target/staticlib/liblibrary.a -o job && ./job
 */
#include <sedgepick.h>
#include <stdio.h>

enum { CAPACITY = 16, SLOTS = 32, SLABS = 3, MOST_TRIANGLES = 8 };

typedef struct slab {
    size_t given, count;
    double points[SEDGEPICK_POINTS(CAPACITY)];
    uint32_t triangles[3 * MOST_TRIANGLES];
    uint32_t quads[SEDGEPICK_QUADS(SLOTS)], triangles_out[SEDGEPICK_TRIANGLES_OUT(SLOTS)], components[SEDGEPICK_COMPONENTS(SLOTS)];
    uint32_t work[SEDGEPICK_WORK(SLOTS, CAPACITY)];
    double float_work[SEDGEPICK_FLOAT_WORK(SLOTS)];
    size_t answer[SEDGEPICK_ANSWER];
} slab;

static slab slabs[SLABS] = {
    {.given = 4, .count = 2, .points = {0, 0, 0, 1, 0, 0, 1, 1, 0, 0, 1, 0}, .triangles = {0, 1, 2, 0, 2, 3}},
    {.given = 3, .count = 1, .points = {0, 0, 0, 1, 0, 0, 1, 1, 0}, .triangles = {0, 1, 1}},
    {.given = 10, .count = 8, .points = {0, 0, 0, 1, 0, 0, 2, 0, 0, 3, 0, 0, 4, 0, 0, 0, 1, 0, 1, 1, 0, 2, 1, 0, 3, 1, 0, 4, 1, 0},
     .triangles = {0, 1, 6, 0, 6, 5, 1, 2, 7, 1, 7, 6, 2, 3, 8, 2, 8, 7, 3, 4, 9, 3, 9, 8}},
};

static size_t run(slab *s, size_t *job) {
    static const uint32_t no_joints[1];
    static uint32_t no_trace[1];
    const sedgepick_quality q = SEDGEPICK_STANDARD_QUALITY;
    return sedgepick_job(
        s->points, SEDGEPICK_POINTS(CAPACITY),
        s->triangles, 3 * s->count,
        no_joints, 0,
        s->quads, SEDGEPICK_QUADS(SLOTS),
        s->triangles_out, SEDGEPICK_TRIANGLES_OUT(SLOTS),
        s->components, SEDGEPICK_COMPONENTS(SLOTS),
        s->work, SEDGEPICK_WORK(SLOTS, CAPACITY),
        s->float_work, SEDGEPICK_FLOAT_WORK(SLOTS),
        no_trace, 0,
        s->given, CAPACITY, s->count, SLOTS, 0, 1.0, SEDGEPICK_EXHAUST,
        q.least_jacobian, q.largest_cosine, q.side_low, q.side_high, q.pairs, 0,
        job, SEDGEPICK_JOB,
        s->answer, SEDGEPICK_ANSWER);
}

int main(void) {
    size_t job[SEDGEPICK_JOB] = SEDGEPICK_JOB_START(SLABS, 4);
    for (int i = 0; i < SLABS; i++) {
        size_t refusal = run(&slabs[i], job);
        if (refusal)
            printf("slab %d: refused with %zu", i + 1, refusal);
        else
            printf("slab %d: %zu quads, %zu triangles%s", i + 1, slabs[i].answer[SEDGEPICK_QUAD_COUNT], slabs[i].answer[SEDGEPICK_TRIANGLE_COUNT],
                slabs[i].answer[SEDGEPICK_LIMIT] ? ", stopped by its limit" : "");
        printf("; charged %zu, leaves %zu\n", job[SEDGEPICK_JOB_CHARGED], job[SEDGEPICK_JOB_LEFT]);
    }
    return 0;
}
