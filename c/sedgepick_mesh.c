/* The call that lends memory: see include/sedgepick_mesh.h. */
#include <sedgepick_mesh.h>
#include <stdlib.h>
#include <string.h>

#ifndef SEDGEPICK_COMMIT
#define SEDGEPICK_COMMIT "unknown"
#endif
#ifndef SEDGEPICK_BUILD
#define SEDGEPICK_BUILD "unknown"
#endif

static size_t within(size_t value, size_t least, size_t most) {
    value = value < most ? value : most;
    return value > least ? value : least;
}

/* calloc of at least one number, so that no pointer is null but where there is no memory. */
static void *zeros(size_t count, size_t width) {
    return calloc(count ? count : 1, width);
}

/* The mesh's lists and the work, with the given points; so many words of trace. Null without memory for all of them, and then sedgepick_mesh_free gives back what there is. */
static uint32_t *lend(const double *points, size_t given, size_t capacity, size_t slots, size_t words, double **float_work, sedgepick_mesh *mesh) {
    uint32_t *work = zeros(SEDGEPICK_WORK(slots, capacity), sizeof *work);
    *float_work = zeros(SEDGEPICK_FLOAT_WORK(slots), sizeof **float_work);
    mesh->points = zeros(SEDGEPICK_POINTS(capacity), sizeof *mesh->points);
    mesh->quads = zeros(SEDGEPICK_QUADS(slots), sizeof *mesh->quads);
    mesh->triangles = zeros(SEDGEPICK_TRIANGLES_OUT(slots), sizeof *mesh->triangles);
    mesh->components = zeros(SEDGEPICK_COMPONENTS(slots), sizeof *mesh->components);
    mesh->trace = zeros(words, sizeof *mesh->trace);
    if (!work || !*float_work || !mesh->points || !mesh->quads || !mesh->triangles || !mesh->components || !mesh->trace) {
        free(work);
        free(*float_work);
        *float_work = NULL;
        return NULL;
    }
    if (given)
        memcpy(mesh->points, points, SEDGEPICK_POINTS(given) * sizeof *points);
    return work;
}

static const uint32_t none[1];

/* One run, with as much memory as is stated and so many words of trace; of a job where there is one. */
static size_t attempt(
    const double *points, size_t given, const uint32_t *triangles, size_t count, const sedgepick_options *options,
    size_t capacity, size_t slots, size_t words, size_t *job, sedgepick_mesh *mesh) {
    const sedgepick_quality *quality = &options->quality;
    double *float_work;
    uint32_t *work = lend(points, given, capacity, slots, words, &float_work, mesh);
    size_t refusal = SEDGEPICK_NO_MEMORY;
    if (work) {
#define CALL \
            mesh->points, SEDGEPICK_POINTS(capacity), \
            count ? triangles : none, 3 * count, \
            options->joint_count ? options->joints : none, SEDGEPICK_JOINTS(options->joint_count), \
            mesh->quads, SEDGEPICK_QUADS(slots), \
            mesh->triangles, SEDGEPICK_TRIANGLES_OUT(slots), \
            mesh->components, SEDGEPICK_COMPONENTS(slots), \
            work, SEDGEPICK_WORK(slots, capacity), \
            float_work, SEDGEPICK_FLOAT_WORK(slots), \
            mesh->trace, words, \
            given, capacity, count, slots, options->joint_count, options->size, options->stop, \
            quality->least_jacobian, quality->largest_cosine, quality->side_low, quality->side_high, quality->pairs, \
            options->grid
        if (job)
            refusal = sedgepick_job(CALL, job, SEDGEPICK_JOB, mesh->answer, SEDGEPICK_ANSWER);
        else
            refusal = sedgepick_run_front_with(CALL, mesh->answer, SEDGEPICK_ANSWER);
#undef CALL
    }
    free(work);
    free(float_work);
    if (refusal)
        sedgepick_mesh_free(mesh);
    return refusal;
}

size_t sedgepick_mesh_run_with(
    const double *points, size_t given, const uint32_t *triangles, size_t count, const sedgepick_options *options, sedgepick_mesh *mesh) {
    size_t capacity = options->capacity ? options->capacity : given + given / 4 + 32;
    size_t slots = options->slots ? options->slots : 2 * count + 64;
    memset(mesh, 0, sizeof *mesh);
    if (given > SEDGEPICK_MOST_GIVEN || count > SEDGEPICK_MOST_GIVEN)
        return SEDGEPICK_OVER_LIMIT;
    if (options->joint_count > (size_t)-1 / 2)
        return SEDGEPICK_BAD_JOINT; /* no list is as long */
    capacity = within(capacity, given ? given : 1, SEDGEPICK_MOST_CAPACITY);
    slots = within(slots, count ? count : 1, SEDGEPICK_MOST_SLOTS);
    for (size_t words = options->trace;;) {
        size_t refusal = attempt(points, given, triangles, count, options, capacity, slots, words, NULL, mesh);
        if (refusal == SEDGEPICK_NO_TRACE && words > (size_t)-1 / 8)
            return SEDGEPICK_NO_MEMORY;
        if (refusal == SEDGEPICK_NO_TRACE)
            words *= 2;
        else if (refusal == SEDGEPICK_NO_POINT && capacity < SEDGEPICK_MOST_CAPACITY)
            capacity = within(2 * capacity, 0, SEDGEPICK_MOST_CAPACITY);
        else if (refusal == SEDGEPICK_NO_SLOTS && slots < SEDGEPICK_MOST_SLOTS)
            slots = within(2 * slots, 0, SEDGEPICK_MOST_SLOTS);
        else
            return refusal;
    }
}

size_t sedgepick_mesh_run(
    const double *points, size_t given, const uint32_t *triangles, size_t count, double size, uint32_t stop, sedgepick_mesh *mesh) {
    sedgepick_options options = sedgepick_standard_options(size, stop);
    return sedgepick_mesh_run_with(points, given, triangles, count, &options, mesh);
}

size_t sedgepick_mesh_run_from(
    const double *points, size_t given, const uint32_t *triangles, size_t count, double size, uint32_t stop,
    size_t capacity, size_t slots, sedgepick_mesh *mesh) {
    sedgepick_options options = sedgepick_standard_options(size, stop);
    options.capacity = capacity ? capacity : 1;
    options.slots = slots ? slots : 1;
    return sedgepick_mesh_run_with(points, given, triangles, count, &options, mesh);
}

/* A mesh of a job that no memory is lent to: its numbers refuse it. */
static size_t refused_job(size_t given, size_t count, const sedgepick_options *options, size_t *job) {
    const sedgepick_quality *quality = &options->quality;
    const uint32_t triangles = 0, joints = 0;
    double points = 0, float_work = 0;
    uint32_t quads = 0, left = 0, components = 0, work = 0, trace = 0;
    size_t answer[SEDGEPICK_ANSWER];
    return sedgepick_job(
        &points, 0, &triangles, 0, &joints, 0, &quads, 0, &left, 0, &components, 0, &work, 0, &float_work, 0, &trace, 0,
        given, 0, count, 0, options->joint_count, options->size, options->stop,
        quality->least_jacobian, quality->largest_cosine, quality->side_low, quality->side_high, quality->pairs, options->grid,
        job, SEDGEPICK_JOB, answer, SEDGEPICK_ANSWER);
}

size_t sedgepick_mesh_run_job(
    const double *points, size_t given, const uint32_t *triangles, size_t count, const sedgepick_options *options,
    size_t job[SEDGEPICK_JOB], sedgepick_mesh *mesh) {
    size_t capacity = options->capacity ? options->capacity : SEDGEPICK_MOST_CAPACITY;
    size_t slots = options->slots ? options->slots : SEDGEPICK_MOST_SLOTS;
    memset(mesh, 0, sizeof *mesh);
    if (given > SEDGEPICK_MOST_GIVEN || count > SEDGEPICK_MOST_GIVEN || options->joint_count > (size_t)-1 / 2)
        return refused_job(given, count, options, job);
    capacity = within(capacity, given ? given : 1, SEDGEPICK_MOST_CAPACITY);
    slots = within(slots, count ? count : 1, SEDGEPICK_MOST_SLOTS);
    return attempt(points, given, triangles, count, options, capacity, slots, options->trace, job, mesh);
}

size_t sedgepick_entry_words(const uint32_t *entry, size_t words) {
    size_t need = 0;
    if (words && entry[0] == SEDGEPICK_ENTRY_INSERTION)
        need = SEDGEPICK_INSERTION_WORDS;
    else if (words && entry[0] == SEDGEPICK_ENTRY_FLIP)
        need = SEDGEPICK_FLIP_WORDS;
    else if (words >= SEDGEPICK_PLACED_WORDS && entry[0] == SEDGEPICK_ENTRY_QUAD)
        need = SEDGEPICK_PLACED_WORDS + (size_t)entry[SEDGEPICK_PLACED_WORDS - 1];
    return need <= words ? need : 0;
}

size_t sedgepick_mesh_replay(
    const double *points, size_t given, const uint32_t *triangles, size_t count, const uint32_t *trace, size_t words, sedgepick_mesh *mesh) {
    size_t capacity = given, slots = count, answer[SEDGEPICK_REPLAY], refusal = SEDGEPICK_NO_MEMORY;
    double *float_work;
    uint32_t *work;
    memset(mesh, 0, sizeof *mesh);
    if (given > SEDGEPICK_MOST_GIVEN || count > SEDGEPICK_MOST_GIVEN)
        return SEDGEPICK_OVER_LIMIT;
    for (size_t at = 0, entry; at < words && (entry = sedgepick_entry_words(trace + at, words - at)); at += entry) {
        capacity += trace[at] == SEDGEPICK_ENTRY_INSERTION;
        slots += trace[at] == SEDGEPICK_ENTRY_INSERTION ? 2 : trace[at] == SEDGEPICK_ENTRY_QUAD;
    }
    capacity = within(capacity, given, SEDGEPICK_MOST_CAPACITY);
    slots = within(slots, count, SEDGEPICK_MOST_SLOTS);
    work = lend(points, given, capacity, slots, 0, &float_work, mesh);
    if (work)
        refusal = sedgepick_replay(
            mesh->points, SEDGEPICK_POINTS(capacity), count ? triangles : none, 3 * count, words ? trace : none, words,
            mesh->quads, SEDGEPICK_QUADS(slots), mesh->triangles, SEDGEPICK_TRIANGLES_OUT(slots), mesh->components, SEDGEPICK_COMPONENTS(slots),
            work, SEDGEPICK_WORK(slots, capacity), float_work, SEDGEPICK_FLOAT_WORK(slots), given, capacity, count, slots, words, answer, SEDGEPICK_REPLAY);
    free(work);
    free(float_work);
    if (refusal) {
        sedgepick_mesh_free(mesh);
        return refusal;
    }
    mesh->answer[SEDGEPICK_QUAD_COUNT] = answer[SEDGEPICK_REPLAY_QUADS];
    mesh->answer[SEDGEPICK_TRIANGLE_COUNT] = answer[SEDGEPICK_REPLAY_TRIANGLES];
    mesh->answer[SEDGEPICK_POINT_COUNT] = answer[SEDGEPICK_REPLAY_POINTS];
    mesh->answer[SEDGEPICK_COMPONENT_COUNT] = answer[SEDGEPICK_REPLAY_COMPONENTS];
    return SEDGEPICK_FINISHED;
}

void sedgepick_mesh_free(sedgepick_mesh *mesh) {
    free(mesh->points);
    free(mesh->quads);
    free(mesh->triangles);
    free(mesh->components);
    free(mesh->trace);
    memset(mesh, 0, sizeof *mesh);
}

const char *sedgepick_refusal_words(size_t refusal) {
    switch (refusal) {
    case SEDGEPICK_FINISHED: return "finished";
    case SEDGEPICK_BAD_JOB: return "the job has no mesh, over 16 or none left, its allowance is 0 or over 1,000,000, or more is left than could be";
    case SEDGEPICK_OVER_LIMIT: return "over 4,096 triangles or points, or over a capacity limit";
    case SEDGEPICK_BAD_SIZE: return "the size is neither zero nor from 1/64 to 8";
    case SEDGEPICK_BAD_STOP: return "the stop rule is neither 0 nor 1";
    case SEDGEPICK_BAD_QUALITY: return "a quality number is out of its range or is a NaN, or the low side factor is above the high one";
    case SEDGEPICK_TOO_SHORT: return "a lent slice is too short, or a capacity is below what is given";
    case SEDGEPICK_UNKNOWN_NODE: return "a triangle names a node that is not there";
    case SEDGEPICK_REPEATED_NODE: return "a triangle has a node twice";
    case SEDGEPICK_FAR_POINT: return "x or y is not finite or is beyond 8 in magnitude";
    case SEDGEPICK_OFF_GRID: return "in the grid profile: an x or y is no multiple of 1/1024, or the size is not zero";
    case SEDGEPICK_BAD_JOINT: return "a joint is one node twice or names a node that is not there, or there are over 256 joints";
    case SEDGEPICK_NO_POINT: return "the run inserts a point, and the point capacity is used up";
    case SEDGEPICK_NO_SLOTS: return "the run needs a slot, and none is free";
    case SEDGEPICK_NO_TRACE: return "the run's next entry does not fit the lent trace";
    case SEDGEPICK_BAD_TRACE: return "an entry of the trace is cut short or of another kind, or could not be made";
    case SEDGEPICK_NO_MEMORY: return "no memory could be had";
    default: return "a number that is not known";
    }
}

const char *sedgepick_version(void) {
    return SEDGEPICK_VERSION;
}

size_t sedgepick_abi(void) {
    return SEDGEPICK_ABI;
}

const char *sedgepick_commit(void) {
    return SEDGEPICK_COMMIT;
}

const char *sedgepick_build(void) {
    return SEDGEPICK_BUILD;
}
