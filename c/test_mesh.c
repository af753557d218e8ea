/* Tests of sedgepick_mesh.h: results, growth of what is lent, refusals, jobs, previews, traces and replays, two threads. Prints what failed; exit status 1 then. */
#include <sedgepick_mesh.h>
#include <math.h>
#include <pthread.h>
#include <stdio.h>
#include <string.h>

enum { SIDE = 24, POINTS = (SIDE + 1) * (SIDE + 1), TRIANGLES = 2 * SIDE * SIDE, RUNS = 8 };

static int failures;

#define CHECK(condition) do { if (!(condition)) { printf("%s:%d: %s\n", __FILE__, __LINE__, #condition); failures++; } } while (0)

/* A grid whose inner points are moved, by a number that depends on the seed. */
static void grid(unsigned seed, double *points, uint32_t *triangles) {
    for (uint32_t j = 0; j <= SIDE; j++)
        for (uint32_t i = 0; i <= SIDE; i++) {
            double *p = points + 3 * (j * (SIDE + 1) + i);
            int inner = 0 < i && i < SIDE && 0 < j && j < SIDE;
            p[0] = 0.25 * i + (inner ? 0.08 * sin(seed + 7.0 * i + 3.0 * j) : 0);
            p[1] = 0.25 * j + (inner ? 0.08 * cos(seed + 5.0 * i + 11.0 * j) : 0);
            p[2] = 0;
        }
    for (uint32_t j = 0; j < SIDE; j++)
        for (uint32_t i = 0; i < SIDE; i++, triangles += 6) {
            uint32_t a = j * (SIDE + 1) + i, b = a + SIDE + 1;
            const uint32_t both[] = {a, a + 1, b + 1, a, b + 1, b};
            memcpy(triangles, both, sizeof both);
        }
}

static int same_lists(const sedgepick_mesh *a, const sedgepick_mesh *b) {
    return !memcmp(a->answer + SEDGEPICK_QUAD_COUNT, b->answer + SEDGEPICK_QUAD_COUNT, SEDGEPICK_REPLAY * sizeof *a->answer)
        && !memcmp(a->points, b->points, 3 * a->answer[SEDGEPICK_POINT_COUNT] * sizeof *a->points)
        && !memcmp(a->quads, b->quads, SEDGEPICK_QUADS(a->answer[SEDGEPICK_QUAD_COUNT]) * sizeof *a->quads)
        && !memcmp(a->triangles, b->triangles, 3 * a->answer[SEDGEPICK_TRIANGLE_COUNT] * sizeof *a->triangles)
        && !memcmp(a->components, b->components, a->answer[SEDGEPICK_COMPONENT_COUNT] * sizeof *a->components);
}

/* The lists, and every number of the answer but the words of the trace. */
static int same(const sedgepick_mesh *a, const sedgepick_mesh *b) {
    return !memcmp(a->answer, b->answer, SEDGEPICK_TRACE_WORDS * sizeof *a->answer) && same_lists(a, b);
}

static double points[2][3 * POINTS];
static uint32_t triangles[2][3 * TRIANGLES];
static sedgepick_mesh alone[2];
static int parted[2];

static void *work(void *which) {
    int i = *(int *)which;
    for (int run = 0; run < RUNS; run++) {
        sedgepick_mesh mesh;
        if (sedgepick_mesh_run(points[i], POINTS, triangles[i], TRIANGLES, 0.25, 0, &mesh) || !same(&mesh, &alone[i]))
            parted[i]++;
        sedgepick_mesh_free(&mesh);
    }
    return NULL;
}

static void test_threads(void) {
    pthread_t threads[2];
    int which[2] = {0, 1};
    for (int i = 0; i < 2; i++) {
        grid(i, points[i], triangles[i]);
        CHECK(sedgepick_mesh_run(points[i], POINTS, triangles[i], TRIANGLES, 0.25, 0, &alone[i]) == SEDGEPICK_FINISHED);
        CHECK(alone[i].answer[SEDGEPICK_QUAD_COUNT] > 0);
    }
    for (int i = 0; i < 2; i++)
        CHECK(pthread_create(&threads[i], NULL, work, &which[i]) == 0);
    for (int i = 0; i < 2; i++)
        CHECK(pthread_join(threads[i], NULL) == 0 && parted[i] == 0);
}

static void test_growth(void) {
    sedgepick_mesh mesh;
    CHECK(sedgepick_mesh_run_from(points[0], POINTS, triangles[0], TRIANGLES, 0.25, 0, 0, 0, &mesh) == SEDGEPICK_FINISHED);
    CHECK(same(&mesh, &alone[0]));
    sedgepick_mesh_free(&mesh);
    CHECK(sedgepick_mesh_run_from(points[0], POINTS, triangles[0], TRIANGLES, 0.25, 0, (size_t)-1, (size_t)-1, &mesh) == SEDGEPICK_FINISHED);
    CHECK(same(&mesh, &alone[0]));
    sedgepick_mesh_free(&mesh);
}

/* Edge, round and triangles replaced of every quad; and those of the unit square. */
static void test_births(void) {
    const double corners[] = {0, 0, 0, 1, 0, 0, 1, 1, 0, 0, 1, 0};
    const uint32_t halves[] = {0, 1, 2, 0, 2, 3}, record[SEDGEPICK_QUAD_WORDS] = {0, 1, 2, 3, 0, 1, 1, 2};
    sedgepick_mesh mesh;
    CHECK(sedgepick_mesh_run(corners, 4, halves, 2, 1, 0, &mesh) == SEDGEPICK_FINISHED);
    CHECK(mesh.answer[SEDGEPICK_QUAD_COUNT] == 1 && !memcmp(mesh.quads, record, sizeof record));
    CHECK(mesh.answer[SEDGEPICK_TRIALS] == 1);
    sedgepick_mesh_free(&mesh);
    for (int i = 0; i < 2; i++) {
        const size_t *answer = alone[i].answer;
        size_t replaced = 0;
        for (size_t k = 0; k < answer[SEDGEPICK_QUAD_COUNT]; k++) {
            const uint32_t *quad = alone[i].quads + SEDGEPICK_QUADS(k);
            uint32_t a = quad[SEDGEPICK_N0], b = quad[SEDGEPICK_N1];
            CHECK(quad[SEDGEPICK_EDGE_U] == (a < b ? a : b) && quad[SEDGEPICK_EDGE_V] == (a < b ? b : a) && quad[SEDGEPICK_ROUND] == k + 1);
            replaced += quad[SEDGEPICK_REPLACED];
        }
        CHECK(answer[SEDGEPICK_TRIANGLE_COUNT] + replaced == TRIANGLES + 2 * answer[SEDGEPICK_MISMATCH_INSERTIONS]);
    }
}

/* An attempt with pairs tries one of them at least and the set's number at most; without pairs it tries none. */
static void test_trials(void) {
    for (size_t pairs = 1; pairs <= 8; pairs += 7) {
        sedgepick_options options = sedgepick_standard_options(0.25, 0);
        sedgepick_mesh mesh;
        options.quality.pairs = pairs;
        CHECK(sedgepick_mesh_run_with(points[0], POINTS, triangles[0], TRIANGLES, &options, &mesh) == SEDGEPICK_FINISHED);
        const size_t *answer = mesh.answer;
        size_t with_pairs = answer[SEDGEPICK_QUAD_COUNT] + answer[SEDGEPICK_RECOVERY] + answer[SEDGEPICK_REGION] + answer[SEDGEPICK_ODD_REGION];
        CHECK(with_pairs > 0 && with_pairs <= answer[SEDGEPICK_TRIALS] && answer[SEDGEPICK_TRIALS] <= pairs * with_pairs);
        sedgepick_mesh_free(&mesh);
    }
}

static const double square[] = {0, 0, 0, 1, 0, 0, 1, 1, 0, 9, 1, 0};

static size_t refusal_of(size_t given, size_t count, double size, uint32_t stop, const uint32_t *cell) {
    sedgepick_mesh mesh;
    size_t refusal = sedgepick_mesh_run(square, given, cell, count, size, stop, &mesh);
    CHECK(refusal == 0 || (!mesh.points && !mesh.quads && !mesh.triangles && !mesh.components));
    sedgepick_mesh_free(&mesh);
    return refusal;
}

static void test_refusals(void) {
    const uint32_t good[] = {0, 1, 2}, unknown[] = {0, 1, 7}, twice[] = {0, 1, 1};
    CHECK(refusal_of(0, 0, 0, 0, NULL) == SEDGEPICK_FINISHED);
    CHECK(refusal_of(3, 1, 1, 0, good) == SEDGEPICK_FINISHED);
    CHECK(refusal_of(4097, 1, 1, 0, good) == SEDGEPICK_OVER_LIMIT);
    CHECK(refusal_of(3, (size_t)-1, 1, 0, good) == SEDGEPICK_OVER_LIMIT);
    CHECK(refusal_of(3, 1, NAN, 0, good) == SEDGEPICK_BAD_SIZE);
    CHECK(refusal_of(3, 1, 1, 2, good) == SEDGEPICK_BAD_STOP);
    CHECK(refusal_of(3, 1, 1, 0, unknown) == SEDGEPICK_UNKNOWN_NODE);
    CHECK(refusal_of(3, 1, 1, 0, twice) == SEDGEPICK_REPEATED_NODE);
    CHECK(refusal_of(4, 1, 1, 0, good) == SEDGEPICK_FAR_POINT);
    CHECK(strcmp(sedgepick_refusal_words(SEDGEPICK_NO_TRACE), sedgepick_refusal_words(77)) != 0);
    CHECK(strcmp(sedgepick_refusal_words(SEDGEPICK_BAD_TRACE), sedgepick_refusal_words(77)) != 0);
    for (size_t i = 0; i <= SEDGEPICK_NO_SLOTS; i++)
        CHECK(strcmp(sedgepick_refusal_words(i), sedgepick_refusal_words(77)) != 0);
    CHECK(strcmp(sedgepick_refusal_words(SEDGEPICK_BAD_QUALITY), sedgepick_refusal_words(77)) != 0);
    CHECK(strcmp(sedgepick_refusal_words(SEDGEPICK_BAD_JOINT), sedgepick_refusal_words(77)) != 0);
    CHECK(strcmp(sedgepick_refusal_words(SEDGEPICK_OFF_GRID), sedgepick_refusal_words(77)) != 0);
    CHECK(strcmp(sedgepick_refusal_words(SEDGEPICK_BAD_JOB), sedgepick_refusal_words(77)) != 0);
}

/* The refusal of a triangle with a set; 3 comes before 14, and 4 to 7 behind it. */
static size_t refusal_with(sedgepick_quality quality, uint32_t stop, uint32_t node) {
    const uint32_t cell[] = {0, 1, node};
    sedgepick_options options = sedgepick_standard_options(1, stop);
    sedgepick_mesh mesh;
    options.quality = quality;
    size_t refusal = sedgepick_mesh_run_with(square, 3, cell, 1, &options, &mesh);
    sedgepick_mesh_free(&mesh);
    return refusal;
}

static void test_ranges(void) {
    sedgepick_quality q = {SEDGEPICK_JACOBIAN_LOW, SEDGEPICK_COSINE_LOW, SEDGEPICK_SIDE_LOW, SEDGEPICK_SIDE_LOW, SEDGEPICK_PAIRS_LOW};
    CHECK(refusal_with(q, 0, 2) == SEDGEPICK_FINISHED);
    q.least_jacobian = -0.0;
    CHECK(refusal_with(q, 0, 2) == SEDGEPICK_FINISHED);
    q = (sedgepick_quality){SEDGEPICK_JACOBIAN_HIGH, SEDGEPICK_COSINE_HIGH, SEDGEPICK_SIDE_HIGH, SEDGEPICK_SIDE_HIGH, SEDGEPICK_PAIRS_HIGH};
    CHECK(refusal_with(q, 0, 2) == SEDGEPICK_FINISHED);
    const double ends[][2] = {{SEDGEPICK_JACOBIAN_LOW, SEDGEPICK_JACOBIAN_HIGH}, {SEDGEPICK_COSINE_LOW, SEDGEPICK_COSINE_HIGH},
                              {SEDGEPICK_SIDE_LOW, SEDGEPICK_SIDE_HIGH}, {SEDGEPICK_SIDE_LOW, SEDGEPICK_SIDE_HIGH}};
    for (int i = 0; i < 4; i++) {
        const double bad[] = {nextafter(ends[i][0], -1), nextafter(ends[i][1], 9), NAN, -INFINITY, INFINITY};
        for (int j = 0; j < 5; j++) {
            sedgepick_quality one = sedgepick_standard_quality();
            double *place = i == 0 ? &one.least_jacobian : i == 1 ? &one.largest_cosine : i == 2 ? &one.side_low : &one.side_high;
            *place = bad[j];
            CHECK(refusal_with(one, 0, 2) == SEDGEPICK_BAD_QUALITY);
        }
    }
    q = sedgepick_standard_quality();
    q.side_low = nextafter(q.side_high, 9);
    CHECK(refusal_with(q, 0, 2) == SEDGEPICK_BAD_QUALITY);
    CHECK(refusal_with(q, 2, 2) == SEDGEPICK_BAD_STOP);
    CHECK(refusal_with(q, 0, 7) == SEDGEPICK_BAD_QUALITY);
    q.side_low = q.side_high;
    CHECK(refusal_with(q, 0, 2) == SEDGEPICK_FINISHED);
    CHECK(refusal_with(q, 0, 7) == SEDGEPICK_UNKNOWN_NODE);
    const size_t pairs[] = {0, 65, (size_t)-1};
    for (int i = 0; i < 3; i++) {
        q.pairs = pairs[i];
        CHECK(refusal_with(q, 0, 2) == SEDGEPICK_BAD_QUALITY);
    }
}

/* The largest cosine of a corner of the mesh's quads. */
static double worst_cosine(const sedgepick_mesh *mesh) {
    double worst = -1;
    for (size_t i = 0; i < 4 * mesh->answer[SEDGEPICK_QUAD_COUNT]; i++) {
        const uint32_t *quad = mesh->quads + SEDGEPICK_QUADS(i / 4);
        const double *here = mesh->points + 3 * quad[i % 4], *next = mesh->points + 3 * quad[(i + 1) % 4], *last = mesh->points + 3 * quad[(i + 3) % 4];
        double u[] = {next[0] - here[0], next[1] - here[1]}, v[] = {last[0] - here[0], last[1] - here[1]};
        worst = fmax(worst, (u[0] * v[0] + u[1] * v[1]) / (hypot(u[0], u[1]) * hypot(v[0], v[1])));
    }
    return worst;
}

static void test_sets(void) {
    sedgepick_options options = sedgepick_standard_options(0.25, 0);
    sedgepick_mesh mesh;
    CHECK(sedgepick_mesh_run_with(points[0], POINTS, triangles[0], TRIANGLES, &options, &mesh) == SEDGEPICK_FINISHED);
    CHECK(same(&mesh, &alone[0]));
    sedgepick_mesh_free(&mesh);
    CHECK(worst_cosine(&alone[0]) > 0.7);
    options.quality.largest_cosine = 0.7;
    CHECK(sedgepick_mesh_run_with(points[0], POINTS, triangles[0], TRIANGLES, &options, &mesh) == SEDGEPICK_FINISHED);
    CHECK(mesh.answer[SEDGEPICK_QUAD_COUNT] > 0 && worst_cosine(&mesh) <= 0.7 + 1e-9);
    sedgepick_mesh_free(&mesh);
}

/* Whether a cell has the edge; the cells have `width` nodes, at the front of `stride` numbers. */
static int has_edge(const uint32_t *cells, size_t count, size_t width, size_t stride, uint32_t u, uint32_t v) {
    for (size_t i = 0; i < count * width; i++) {
        const uint32_t *cell = cells + i / width * stride;
        uint32_t a = cell[i % width], b = cell[(i + 1) % width];
        if ((a == u && b == v) || (a == v && b == u))
            return 1;
    }
    return 0;
}

static int stands(const sedgepick_mesh *mesh, const uint32_t *joint) {
    return has_edge(mesh->quads, mesh->answer[SEDGEPICK_QUAD_COUNT], 4, SEDGEPICK_QUAD_WORDS, joint[0], joint[1])
        || has_edge(mesh->triangles, mesh->answer[SEDGEPICK_TRIANGLE_COUNT], 3, 3, joint[0], joint[1]);
}

/* A line across the grid, from corner to corner along the diagonals, which most runs take away. */
static void test_joints(void) {
    uint32_t joints[2 * SIDE], turned[4 * SIDE], lost = 0;
    sedgepick_options options = sedgepick_standard_options(0.25, 0);
    sedgepick_mesh mesh, again;
    for (uint32_t i = 0; i < SIDE; i++) {
        joints[2 * i] = i * (SIDE + 2);
        joints[2 * i + 1] = (i + 1) * (SIDE + 2);
        lost += !stands(&alone[0], joints + 2 * i);
    }
    CHECK(lost > 0);
    options.joints = joints;
    options.joint_count = SIDE;
    CHECK(sedgepick_mesh_run_with(points[0], POINTS, triangles[0], TRIANGLES, &options, &mesh) == SEDGEPICK_FINISHED);
    for (uint32_t i = 0; i < SIDE; i++)
        CHECK(stands(&mesh, joints + 2 * i));
    CHECK(mesh.answer[SEDGEPICK_QUAD_COUNT] > 0);
    for (uint32_t i = 0; i < 2 * SIDE; i++) {
        turned[2 * i] = joints[2 * (SIDE - 1 - i % SIDE) + 1];
        turned[2 * i + 1] = joints[2 * (SIDE - 1 - i % SIDE)];
    }
    options.joints = turned;
    options.joint_count = 2 * SIDE;
    CHECK(sedgepick_mesh_run_with(points[0], POINTS, triangles[0], TRIANGLES, &options, &again) == SEDGEPICK_FINISHED);
    CHECK(same(&mesh, &again));
    sedgepick_mesh_free(&mesh);
    sedgepick_mesh_free(&again);
}

static size_t refusal_joined(const uint32_t *joints, size_t joint_count, size_t given) {
    const uint32_t cell[] = {0, 1, 2};
    sedgepick_options options = sedgepick_standard_options(1, 0);
    sedgepick_mesh mesh;
    options.joints = joints;
    options.joint_count = joint_count;
    size_t refusal = sedgepick_mesh_run_with(square, given, cell, 1, &options, &mesh);
    sedgepick_mesh_free(&mesh);
    return refusal;
}

static void test_bad_joints(void) {
    static const uint32_t zeros[2 * SEDGEPICK_MOST_JOINTS + 2];
    static uint32_t many[2 * SEDGEPICK_MOST_JOINTS + 2];
    const uint32_t good[] = {0, 1, 2, 1}, far[] = {0, 1, 3, 0};
    for (size_t i = 0; i <= SEDGEPICK_MOST_JOINTS; i++)
        many[2 * i] = 1;
    CHECK(refusal_joined(NULL, 0, 3) == SEDGEPICK_FINISHED);
    CHECK(refusal_joined(good, 2, 3) == SEDGEPICK_FINISHED);
    CHECK(refusal_joined(far, 1, 3) == SEDGEPICK_FINISHED);
    CHECK(refusal_joined(far, 2, 3) == SEDGEPICK_BAD_JOINT);
    CHECK(refusal_joined(zeros, 1, 3) == SEDGEPICK_BAD_JOINT);
    CHECK(refusal_joined(many, SEDGEPICK_MOST_JOINTS, 3) == SEDGEPICK_FINISHED);
    CHECK(refusal_joined(many, SEDGEPICK_MOST_JOINTS + 1, 3) == SEDGEPICK_BAD_JOINT);
    CHECK(refusal_joined(zeros, 1, 4) == SEDGEPICK_FAR_POINT);
}

/* Twice the summed areas of cells without sign, in squares of the grid. */
static long long areas(const double *points, const uint32_t *cells, size_t count, size_t width, size_t stride) {
    long long sum = 0;
    for (size_t i = 0; i < count; i++) {
        long long twice = 0;
        for (size_t k = 0; k < width; k++) {
            const double *a = points + 3 * cells[i * stride + k], *b = points + 3 * cells[i * stride + (k + 1) % width];
            twice += (long long)(a[0] * SEDGEPICK_GRID_LINES) * (long long)(b[1] * SEDGEPICK_GRID_LINES)
                - (long long)(b[0] * SEDGEPICK_GRID_LINES) * (long long)(a[1] * SEDGEPICK_GRID_LINES);
        }
        sum += twice < 0 ? -twice : twice;
    }
    return sum;
}

static void test_grid(void) {
    static double on[3 * POINTS];
    sedgepick_options options = sedgepick_standard_options(0, 0);
    sedgepick_mesh mesh, free;
    for (int i = 0; i < 3 * POINTS; i++)
        on[i] = floor(points[0][i] * SEDGEPICK_GRID_LINES) / SEDGEPICK_GRID_LINES;
    CHECK(sedgepick_mesh_run_with(on, POINTS, triangles[0], TRIANGLES, &options, &free) == SEDGEPICK_FINISHED);
    options.grid = SEDGEPICK_GRID;
    CHECK(sedgepick_mesh_run_with(on, POINTS, triangles[0], TRIANGLES, &options, &mesh) == SEDGEPICK_FINISHED);
    CHECK(same(&mesh, &free) && mesh.answer[SEDGEPICK_QUAD_COUNT] > 0 && mesh.answer[SEDGEPICK_POINT_COUNT] == POINTS);
    CHECK(areas(on, triangles[0], TRIANGLES, 3, 3) == areas(on, mesh.quads, mesh.answer[SEDGEPICK_QUAD_COUNT], 4, SEDGEPICK_QUAD_WORDS)
        + areas(on, mesh.triangles, mesh.answer[SEDGEPICK_TRIANGLE_COUNT], 3, 3));
    sedgepick_mesh_free(&mesh);
    sedgepick_mesh_free(&free);
    options.size = 0.25;
    CHECK(sedgepick_mesh_run_with(on, POINTS, triangles[0], TRIANGLES, &options, &mesh) == SEDGEPICK_OFF_GRID);
    options.size = -0.0;
    on[0] = nextafter(on[0], 1);
    CHECK(sedgepick_mesh_run_with(on, POINTS, triangles[0], TRIANGLES, &options, &mesh) == SEDGEPICK_OFF_GRID);
    options.grid = 0;
    CHECK(sedgepick_mesh_run_with(on, POINTS, triangles[0], TRIANGLES, &options, &mesh) == SEDGEPICK_FINISHED);
    sedgepick_mesh_free(&mesh);
}

static int state_is(const size_t *job, size_t meshes, size_t allowance, size_t done, size_t left, size_t charged) {
    const size_t state[SEDGEPICK_JOB] = {meshes, allowance, done, left, charged};
    return !memcmp(job, state, sizeof state);
}

/* Four meshes: one that its share stops, one refused before its run, one refused during it, one that has what they left. */
static void test_job(void) {
    const size_t need = alone[0].answer[SEDGEPICK_ATTEMPTS], allowance = 4 * (need - 1) + 3;
    size_t job[SEDGEPICK_JOB] = SEDGEPICK_JOB_START(4, allowance);
    const uint32_t unknown[] = {0, 1, POINTS};
    sedgepick_options options = sedgepick_standard_options(0.25, 0);
    sedgepick_mesh mesh;
    CHECK(need > 1 && alone[0].answer[SEDGEPICK_LIMIT] == 0);
    CHECK(sedgepick_mesh_run_job(points[0], POINTS, triangles[0], TRIANGLES, &options, job, &mesh) == SEDGEPICK_FINISHED);
    CHECK(mesh.answer[SEDGEPICK_LIMIT] == 1 && mesh.answer[SEDGEPICK_ATTEMPTS] == need);
    CHECK(mesh.answer[SEDGEPICK_QUAD_COUNT] > 0 && mesh.answer[SEDGEPICK_QUAD_COUNT] <= alone[0].answer[SEDGEPICK_QUAD_COUNT]);
    CHECK(!memcmp(mesh.quads, alone[0].quads, SEDGEPICK_QUADS(mesh.answer[SEDGEPICK_QUAD_COUNT]) * sizeof *mesh.quads));
    CHECK(state_is(job, 4, allowance, 1, 0, need - 1));
    sedgepick_mesh_free(&mesh);
    CHECK(sedgepick_mesh_run_job(points[0], POINTS, unknown, 1, &options, job, &mesh) == SEDGEPICK_UNKNOWN_NODE);
    CHECK(!mesh.points && !mesh.quads && state_is(job, 4, allowance, 2, need - 1, 0));
    options.slots = TRIANGLES + 1;
    CHECK(sedgepick_mesh_run_job(points[0], POINTS, triangles[0], TRIANGLES, &options, job, &mesh) == SEDGEPICK_NO_SLOTS);
    CHECK(job[SEDGEPICK_JOB_CHARGED] > 1 && !mesh.points);
    CHECK(state_is(job, 4, allowance, 3, 2 * (need - 1) - job[SEDGEPICK_JOB_CHARGED], job[SEDGEPICK_JOB_CHARGED]));
    options.slots = 0;
    CHECK(sedgepick_mesh_run_job(points[0], POINTS, triangles[0], TRIANGLES, &options, job, &mesh) == SEDGEPICK_FINISHED);
    CHECK(same(&mesh, &alone[0]) && job[SEDGEPICK_JOB_CHARGED] == need && job[SEDGEPICK_JOB_DONE] == 4);
    sedgepick_mesh_free(&mesh);
    CHECK(sedgepick_mesh_run_job(points[0], POINTS, triangles[0], TRIANGLES, &options, job, &mesh) == SEDGEPICK_BAD_JOB);
    CHECK(job[SEDGEPICK_JOB_CHARGED] == need && job[SEDGEPICK_JOB_DONE] == 4 && !mesh.points);
}

/* 16 comes before 1 and writes nothing; without it the number goes to the mesh. */
static void test_bad_jobs(void) {
    const uint32_t good[] = {0, 1, 2};
    const size_t most = SEDGEPICK_MOST_ALLOWANCE;
    const size_t bad[][4] = {{0, 9, 0, 0}, {17, 9, 0, 0}, {2, 0, 0, 0}, {2, most + 1, 0, 0}, {2, 9, 2, 0}, {2, 9, 0, 1}, {2, 9, 1, 5}, {2, 9, 1, (size_t)-1}};
    const size_t fine[][4] = {{1, 1, 0, 0}, {16, most, 15, 15 * (most / 16)}, {2, 9, 1, 4}};
    sedgepick_options options = sedgepick_standard_options(1, 0);
    sedgepick_mesh mesh;
    for (int i = 0; i < 8; i++)
        for (size_t given = 3; given < 5000; given += 4094) {
            size_t job[SEDGEPICK_JOB] = {bad[i][0], bad[i][1], bad[i][2], bad[i][3], 77};
            CHECK(sedgepick_mesh_run_job(square, given, good, 1, &options, job, &mesh) == SEDGEPICK_BAD_JOB);
            CHECK(!memcmp(job, bad[i], sizeof bad[i]) && job[SEDGEPICK_JOB_CHARGED] == 77);
        }
    for (int i = 0; i < 3; i++) {
        size_t job[SEDGEPICK_JOB] = {fine[i][0], fine[i][1], fine[i][2], fine[i][3], 77};
        size_t entitled = fine[i][1] / fine[i][0] + fine[i][3];
        CHECK(sedgepick_mesh_run_job(square, 4097, good, 1, &options, job, &mesh) == SEDGEPICK_OVER_LIMIT);
        CHECK(state_is(job, fine[i][0], fine[i][1], fine[i][2] + 1, entitled, 0));
    }
}

enum { LENT_POINTS = 6, LENT_SLOTS = 7, LENT_WORK = 64 * LENT_SLOTS + 8 * LENT_POINTS };

/* What is lent for a preview of two triangles, full of other numbers; one more of each than is stated. */
typedef struct lent {
    double points[3 * LENT_POINTS + 1], float_work[4 * LENT_SLOTS + 1];
    uint32_t quads[8 * LENT_SLOTS + 1], left[3 * LENT_SLOTS + 1], components[LENT_SLOTS + 1], work[LENT_WORK + 1];
} lent;

/* A preview of the mesh that is wider at the top, with so many points, slots and joints stated. Nothing but the work may change. */
static size_t preview(size_t u, size_t v, size_t capacity, size_t slots, double size, size_t joints, size_t *answer, size_t answer_len) {
    const double flared[] = {0, 0, 7, 1, 0, 7, 2, 2, 7, -1, 2, 7};
    const uint32_t halves[] = {0, 1, 2, 0, 2, 3}, joint[] = {2, 0};
    const sedgepick_quality q = sedgepick_standard_quality();
    lent now, before;
    memset(&now, 7, sizeof now);
    memcpy(now.points, flared, sizeof flared);
    memcpy(&before, &now, sizeof now);
    size_t refusal = sedgepick_preview(
        now.points, 3 * LENT_POINTS + 1, halves, 6, joint, 2, now.quads, 8 * LENT_SLOTS + 1, now.left, 3 * LENT_SLOTS + 1, now.components, LENT_SLOTS + 1,
        now.work, LENT_WORK + 1, now.float_work, 4 * LENT_SLOTS + 1, 4, capacity, 2, slots, joints, size, 0,
        q.least_jacobian, q.largest_cosine, q.side_low, q.side_high, q.pairs, 0, u, v, answer, answer_len);
    if (refusal == SEDGEPICK_FINISHED || refusal == SEDGEPICK_NO_POINT || refusal == SEDGEPICK_NO_SLOTS) {
        memset(before.work, 0, sizeof before.work);
        memset(before.float_work, 0, sizeof before.float_work);
    }
    CHECK(!memcmp(&now, &before, sizeof now));
    return refusal;
}

/* What the edge shows: the twelve numbers, and what was behind them. */
static int shows(size_t u, size_t v, double size, size_t joints, const size_t *numbers) {
    size_t answer[SEDGEPICK_PREVIEW + 1];
    memset(answer, 7, sizeof answer);
    size_t behind = answer[SEDGEPICK_PREVIEW];
    return preview(u, v, LENT_POINTS, LENT_SLOTS, size, joints, answer, SEDGEPICK_PREVIEW + 1) == SEDGEPICK_FINISHED
        && !memcmp(answer, numbers, SEDGEPICK_PREVIEW * sizeof *answer) && answer[SEDGEPICK_PREVIEW] == behind;
}

static void test_preview(void) {
    const size_t none[SEDGEPICK_PREVIEW] = {SEDGEPICK_OFF_FRONT};
    const size_t whole[SEDGEPICK_PREVIEW] = {SEDGEPICK_SHOWN_QUAD, SEDGEPICK_NOT_REFUSED, 0, 0, 0, 1, 2, 3, 0, 1, 1, 2};
    const size_t added[SEDGEPICK_PREVIEW] = {SEDGEPICK_SHOWN_QUAD, SEDGEPICK_NOT_REFUSED, 2, 1, 0, 1, 5, 4, 0, 1, 1, 2};
    const size_t placement[SEDGEPICK_PREVIEW] = {SEDGEPICK_SHOWN_REFUSED, SEDGEPICK_KIND_PLACEMENT, 1, 0};
    const size_t invalid[SEDGEPICK_PREVIEW] = {SEDGEPICK_SHOWN_REFUSED, SEDGEPICK_KIND_INVALID_QUAD, 1, 0};
    const size_t region[SEDGEPICK_PREVIEW] = {SEDGEPICK_SHOWN_REFUSED, SEDGEPICK_KIND_REGION, 0, 0};
    const size_t off[][2] = {{0, 2}, {2, 0}, {1, 3}, {1, 1}, {0, 4}, {9, 8}, {(size_t)-1, 0}, {(size_t)1 << 32, 1}};
    CHECK(SEDGEPICK_PREVIEW == 12);
    CHECK(shows(0, 1, 1.5, 0, whole) && shows(1, 0, 1.5, 0, whole));
    CHECK(shows(0, 1, 0.25, 0, added) && shows(1, 0, 0.25, 0, added));
    CHECK(shows(1, 2, 0.25, 0, placement) && shows(0, 1, 0.6, 0, invalid) && shows(0, 1, 1.5, 1, region));
    for (int i = 0; i < 8; i++)
        CHECK(shows(off[i][0], off[i][1], 1.5, 0, none));
}

/* A refusal leaves the answer as it was; 4 for a short one comes behind 2 and before 8. */
static void test_preview_refused(void) {
    const size_t sevens[SEDGEPICK_PREVIEW] = {7, 7, 7, 7, 7, 7, 7, 7, 7, 7, 7, 7};
    size_t answer[SEDGEPICK_PREVIEW];
    memcpy(answer, sevens, sizeof answer);
    CHECK(preview(0, 1, 5, LENT_SLOTS, 0.25, 0, answer, SEDGEPICK_PREVIEW) == SEDGEPICK_NO_POINT);
    CHECK(preview(0, 1, LENT_POINTS, LENT_SLOTS - 1, 0.25, 0, answer, SEDGEPICK_PREVIEW) == SEDGEPICK_NO_SLOTS);
    CHECK(preview(0, 1, 5, LENT_SLOTS, 0.25, 0, answer, SEDGEPICK_PREVIEW - 1) == SEDGEPICK_TOO_SHORT);
    CHECK(preview(0, 1, LENT_POINTS, LENT_SLOTS, 0.25, 0, answer, 0) == SEDGEPICK_TOO_SHORT);
    CHECK(preview(0, 1, LENT_POINTS, 1, 0.25, 0, answer, SEDGEPICK_PREVIEW) == SEDGEPICK_TOO_SHORT);
    CHECK(preview(0, 1, LENT_POINTS, LENT_SLOTS, 9, 0, answer, SEDGEPICK_PREVIEW - 1) == SEDGEPICK_BAD_SIZE);
    CHECK(preview(0, 1, SEDGEPICK_MOST_CAPACITY + 1, LENT_SLOTS, 9, 0, answer, 0) == SEDGEPICK_OVER_LIMIT);
    CHECK(!memcmp(answer, sevens, sizeof answer));
}

/* A trace changes nothing else, however few words are lent at first; its replay has the run's lists, after every entry those of a mesh with one quad or point more, or a flip. */
static void test_trace(void) {
    for (size_t first = 1; first < 70000; first += 65535) {
        sedgepick_options options = sedgepick_standard_options(0.15, 0);
        sedgepick_mesh mesh, plain, step;
        size_t entry, at = 0, inserted = 0, placed = 0, flipped = 0;
        CHECK(sedgepick_mesh_run_with(points[0], POINTS, triangles[0], TRIANGLES, &options, &plain) == SEDGEPICK_FINISHED);
        CHECK(plain.answer[SEDGEPICK_TRACE_WORDS] == 0);
        options.trace = first;
        CHECK(sedgepick_mesh_run_with(points[0], POINTS, triangles[0], TRIANGLES, &options, &mesh) == SEDGEPICK_FINISHED);
        const size_t words = mesh.answer[SEDGEPICK_TRACE_WORDS];
        CHECK(same(&mesh, &plain) && words > 0);
        for (; at < words && (entry = sedgepick_entry_words(mesh.trace + at, words - at)); at += entry) {
            inserted += mesh.trace[at] == SEDGEPICK_ENTRY_INSERTION;
            flipped += mesh.trace[at] == SEDGEPICK_ENTRY_FLIP;
            placed += mesh.trace[at] == SEDGEPICK_ENTRY_QUAD;
            if (at % 64 && at + entry < words)
                continue;
            CHECK(sedgepick_mesh_replay(points[0], POINTS, triangles[0], TRIANGLES, mesh.trace, at + entry, &step) == SEDGEPICK_FINISHED);
            CHECK(step.answer[SEDGEPICK_QUAD_COUNT] == placed && step.answer[SEDGEPICK_POINT_COUNT] == POINTS + inserted);
            CHECK(!memcmp(step.quads, mesh.quads, SEDGEPICK_QUADS(placed) * sizeof *mesh.quads));
            if (at + entry == words)
                CHECK(same_lists(&step, &mesh));
            sedgepick_mesh_free(&step);
            CHECK(sedgepick_mesh_replay(points[0], POINTS, triangles[0], TRIANGLES, mesh.trace, at + entry - 1, &step) == SEDGEPICK_BAD_TRACE && !step.points);
        }
        CHECK(at == words && placed == mesh.answer[SEDGEPICK_QUAD_COUNT] && inserted == mesh.answer[SEDGEPICK_MISMATCH_INSERTIONS] && inserted && flipped);
        sedgepick_mesh_free(&mesh);
        sedgepick_mesh_free(&plain);
    }
}

static const double unit[] = {0, 0, 0, 1, 0, 0, 1, 1, 0, 0, 1, 0};
static const uint32_t halves[] = {0, 1, 2, 0, 2, 3}, placed[] = {4, 0, 1, 2, 3, 0, 1, 1, 2, 0, 1};

/* The unit square in memory full of sevens, with so many words of trace; behind them stays what was there, and an entry that does not fit leaves the trace as it was. */
static void test_trace_lent(void) {
    for (size_t room = 0; room <= 13; room++) {
        double p[12 + 3], float_work[4 * 3];
        uint32_t quads[8 * 3], left[3 * 3], components[3], work[64 * 3 + 8 * 4], trace[13], sevens[13];
        size_t answer[SEDGEPICK_ANSWER];
        const sedgepick_quality q = sedgepick_standard_quality();
        memcpy(p, unit, sizeof unit);
        memset(trace, 7, sizeof trace);
        memset(sevens, 7, sizeof sevens);
        size_t refusal = sedgepick_run_front_with(
            p, 15, halves, 6, halves, 6, quads, 24, left, 9, components, 3, work, 64 * 3 + 8 * 4, float_work, 12, trace, room,
            4, 4, 2, 3, 0, 1, 0, q.least_jacobian, q.largest_cosine, q.side_low, q.side_high, q.pairs, 0, answer, SEDGEPICK_ANSWER);
        size_t used = room < 11 ? 0 : 11;
        CHECK(refusal == (room && room < 11 ? SEDGEPICK_NO_TRACE : SEDGEPICK_FINISHED));
        CHECK(refusal || answer[SEDGEPICK_TRACE_WORDS] == used);
        CHECK(!memcmp(trace, placed, used * sizeof *trace) && !memcmp(trace + used, sevens, (13 - used) * sizeof *trace));
    }
}

/* A replay over slices of its own: what is returned and written, and that a refusal leaves the answer. */
static size_t replayed(const uint32_t *trace, size_t trace_len, size_t words, size_t capacity, size_t slots, size_t *answer, size_t answer_len, uint32_t *left) {
    double p[3 * LENT_POINTS], float_work[4 * LENT_SLOTS];
    uint32_t quads[8 * LENT_SLOTS], components[LENT_SLOTS], work[LENT_WORK];
    memcpy(p, unit, sizeof unit);
    memset(answer, 7, answer_len * sizeof *answer);
    return sedgepick_replay(
        p, 3 * LENT_POINTS, halves, 6, trace, trace_len, quads, 8 * LENT_SLOTS, left, 3 * LENT_SLOTS, components, LENT_SLOTS,
        work, LENT_WORK, float_work, 4 * LENT_SLOTS, 4, capacity, 2, slots, words, answer, answer_len);
}

static void test_replay_lent(void) {
    const uint32_t flip[] = {2, 0, 2}, turned[] = {2, 2, 0}, other[] = {3, 0, 2}, twice[] = {4, 0, 2, 0, 2, 9, 8, 6, 0}, flipped[] = {1, 3, 0, 3, 1, 2};
    const uint32_t inside[] = {1, 0, 0, 1072168960, 0, 1071644672}, on_edge[] = {1, 0, 0, 1071644672, 0, 1071644672}, past[] = {4, 0, 1, 2, 3, 0, 1, 1, 0xffffffff, 0, 1};
    size_t a[SEDGEPICK_REPLAY + 1], seven;
    uint32_t left[3 * LENT_SLOTS];
    memset(&seven, 7, sizeof seven);
    CHECK(replayed(placed, 11, 11, 4, 3, a, 5, left) == SEDGEPICK_FINISHED && a[0] == 1 && a[1] == 0 && a[2] == 4 && a[3] == 0 && a[4] == seven);
    CHECK(replayed(placed, 11, 0, 4, 3, a, 4, left) == SEDGEPICK_FINISHED && a[0] == 0 && a[1] == 2 && a[2] == 4 && a[3] == 1);
    CHECK(!memcmp(left, halves, sizeof halves));
    CHECK(replayed(flip, 3, 3, 4, 3, a, 4, left) == SEDGEPICK_FINISHED && !memcmp(left, flipped, sizeof flipped));
    CHECK(replayed(twice, 9, 9, 4, 3, a, 4, left) == SEDGEPICK_FINISHED && a[0] == 1 && a[1] == 2);
    CHECK(replayed(inside, 6, 6, 5, 4, a, 4, left) == SEDGEPICK_FINISHED && a[1] == 4 && a[2] == 5);
    CHECK(replayed(inside, 6, 6, 4, 2, a, 4, left) == SEDGEPICK_NO_POINT && a[0] == seven && a[3] == seven);
    CHECK(replayed(inside, 6, 6, 5, 3, a, 4, left) == SEDGEPICK_NO_SLOTS);
    CHECK(replayed(placed, 11, 11, 4, 2, a, 4, left) == SEDGEPICK_NO_SLOTS);
    CHECK(replayed(on_edge, 6, 6, 4, 2, a, 4, left) == SEDGEPICK_BAD_TRACE && a[0] == seven);
    CHECK(replayed(turned, 3, 3, 4, 3, a, 4, left) == SEDGEPICK_BAD_TRACE && replayed(other, 3, 3, 4, 3, a, 4, left) == SEDGEPICK_BAD_TRACE);
    CHECK(replayed(past, 11, 11, 4, 3, a, 4, left) == SEDGEPICK_BAD_TRACE && replayed(placed, 11, 10, 4, 3, a, 4, left) == SEDGEPICK_BAD_TRACE);
    CHECK(replayed(placed, 11, 12, 4, 3, a, 4, left) == SEDGEPICK_TOO_SHORT && replayed(placed, 11, (size_t)-1, 4, 3, a, 4, left) == SEDGEPICK_TOO_SHORT);
    CHECK(replayed(placed, 11, 11, 4, 3, a, 3, left) == SEDGEPICK_TOO_SHORT && a[0] == seven);
    CHECK(replayed(placed, 11, 11, SEDGEPICK_MOST_CAPACITY + 1, 3, a, 3, left) == SEDGEPICK_OVER_LIMIT);
}

/* With memory of its own. */
static void test_replay(void) {
    const uint32_t flip[] = {2, 0, 2}, flipped[] = {1, 3, 0, 3, 1, 2}, edge[] = {2, 0, 1}, unknown[] = {0, 1, 4};
    sedgepick_mesh mesh;
    CHECK(sedgepick_mesh_replay(unit, 4, halves, 2, flip, 3, &mesh) == SEDGEPICK_FINISHED);
    CHECK(mesh.answer[SEDGEPICK_TRIANGLE_COUNT] == 2 && !memcmp(mesh.triangles, flipped, sizeof flipped) && mesh.answer[SEDGEPICK_ATTEMPTS] == 0);
    sedgepick_mesh_free(&mesh);
    CHECK(sedgepick_mesh_replay(NULL, 0, NULL, 0, NULL, 0, &mesh) == SEDGEPICK_FINISHED);
    sedgepick_mesh_free(&mesh);
    CHECK(sedgepick_mesh_replay(unit, 4, halves, 2, edge, 3, &mesh) == SEDGEPICK_BAD_TRACE && !mesh.points && !mesh.trace);
    CHECK(sedgepick_mesh_replay(unit, 4, unknown, 1, flip, 3, &mesh) == SEDGEPICK_UNKNOWN_NODE);
    CHECK(sedgepick_mesh_replay(unit, 4097, halves, 2, flip, 3, &mesh) == SEDGEPICK_OVER_LIMIT);
    CHECK(sedgepick_entry_words(placed, 11) == 11 && sedgepick_entry_words(placed, 10) == 0 && sedgepick_entry_words(placed, 8) == 0);
    CHECK(sedgepick_entry_words(flip, 3) == 3 && sedgepick_entry_words(flip, 2) == 0 && sedgepick_entry_words(flip, 0) == 0 && sedgepick_entry_words(flipped, 6) == 6);
}

/* A mesh of a job is run once: with too few words it is refused with 11 and charged what it began. */
static void test_job_trace(void) {
    size_t job[SEDGEPICK_JOB] = SEDGEPICK_JOB_START(2, 100000);
    sedgepick_options options = sedgepick_standard_options(0.25, 0);
    sedgepick_mesh mesh;
    options.trace = 40;
    CHECK(sedgepick_mesh_run_job(points[0], POINTS, triangles[0], TRIANGLES, &options, job, &mesh) == SEDGEPICK_NO_TRACE);
    CHECK(!mesh.points && job[SEDGEPICK_JOB_CHARGED] > 0 && job[SEDGEPICK_JOB_LEFT] == 50000 - job[SEDGEPICK_JOB_CHARGED]);
    options.trace = SEDGEPICK_TRACE;
    CHECK(sedgepick_mesh_run_job(points[0], POINTS, triangles[0], TRIANGLES, &options, job, &mesh) == SEDGEPICK_FINISHED);
    CHECK(same(&mesh, &alone[0]) && mesh.answer[SEDGEPICK_TRACE_WORDS] > 40);
    sedgepick_mesh_free(&mesh);
}

int main(void) {
    test_threads();
    test_growth();
    test_births();
    test_trials();
    test_refusals();
    test_ranges();
    test_sets();
    test_joints();
    test_bad_joints();
    test_grid();
    test_job();
    test_bad_jobs();
    test_preview();
    test_preview_refused();
    test_trace();
    test_trace_lent();
    test_replay_lent();
    test_replay();
    test_job_trace();
    CHECK(!strcmp(sedgepick_version(), SEDGEPICK_VERSION));
    CHECK(strlen(sedgepick_commit()) > 0);
    printf("%s\n", failures ? "failed" : "ok");
    return failures != 0;
}
