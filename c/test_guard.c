/* Tests of what surrounds a call: meshes are the same bit for bit under every rounding mode, with FTZ, DAZ and traps on, and the caller has his MXCSR back; the stack that
 * a call takes. Prints what failed, exit status 1 then; otherwise the most stack that a call took. Linked with the bare archive it fails. */
#define _GNU_SOURCE
#include <sedgepick_mesh.h>
#include <pthread.h>
#include <stdio.h>
#include <stdlib.h>
#include <string.h>
#include <xmmintrin.h>

enum { SIDE = 9, POINTS = (SIDE + 1) * (SIDE + 1), TRIANGLES = 2 * SIDE * SIDE, MESHES = 60 };
enum { FTZ = 0x8000, DAZ = 0x0040, MASKS = 0x1F80, FLAGS = 0x003F, STACK = 1 << 20, MOST_STACK = 20 * 1024 };

static int failures;

#define CHECK(condition) do { static int told; if (!(condition)) { failures++; if (!told++) printf("%s:%d: %s\n", __FILE__, __LINE__, #condition); } } while (0)

static double points[MESHES][3 * POINTS];
static uint32_t triangles[3 * TRIANGLES];
static sedgepick_mesh usual[MESHES];

static double random_number(void) {
    static uint64_t state = 88172645463325252u;
    state ^= state << 13, state ^= state >> 7, state ^= state << 17;
    return (double)(state >> 11) / 9007199254740992.0;
}

static void fill(size_t side, double step, double moved, double *p, uint32_t *t) {
    for (size_t j = 0; j <= side; j++)
        for (size_t i = 0; i <= side; i++, p += 3) {
            int inner = 0 < i && i < side && 0 < j && j < side;
            p[0] = step * (double)i + (inner ? moved * (random_number() - 0.5) : 0);
            p[1] = step * (double)j + (inner ? moved * (random_number() - 0.5) : 0);
            p[2] = 0;
        }
    for (size_t j = 0; j < side; j++)
        for (size_t i = 0; i < side; i++, t += 6) {
            uint32_t a = (uint32_t)(j * (side + 1) + i), b = a + (uint32_t)side + 1;
            const uint32_t both[] = {a, a + 1, b + 1, a, b + 1, b};
            memcpy(t, both, sizeof both);
        }
}

static int same(const sedgepick_mesh *a, const sedgepick_mesh *b) {
    return !memcmp(a->answer, b->answer, sizeof a->answer)
        && !memcmp(a->points, b->points, 3 * a->answer[SEDGEPICK_POINT_COUNT] * sizeof *a->points)
        && !memcmp(a->quads, b->quads, SEDGEPICK_QUADS(a->answer[SEDGEPICK_QUAD_COUNT]) * sizeof *a->quads)
        && !memcmp(a->triangles, b->triangles, 3 * a->answer[SEDGEPICK_TRIANGLE_COUNT] * sizeof *a->triangles);
}

/* The numbers of a sheet of a mesh's quads. */
static size_t sheet(const sedgepick_mesh *mesh, double *out, size_t *answer) {
    return sedgepick_sheet(
        mesh->points, 3 * mesh->answer[SEDGEPICK_POINT_COUNT], mesh->quads, SEDGEPICK_QUADS(mesh->answer[SEDGEPICK_QUAD_COUNT]), out, 4 * TRIANGLES,
        mesh->answer[SEDGEPICK_POINT_COUNT], mesh->answer[SEDGEPICK_QUAD_COUNT], answer, SEDGEPICK_SHEET_NUMBERS);
}

static void test_mode(unsigned mode) {
    for (size_t i = 0; i < MESHES; i++) {
        sedgepick_mesh mesh;
        static double out[2][4 * TRIANGLES];
        size_t answers[2][SEDGEPICK_SHEET_NUMBERS];
        sheet(&usual[i], out[0], answers[0]);
        _mm_setcsr(mode);
        size_t refusal = sedgepick_mesh_run(points[i], POINTS, triangles, TRIANGLES, 0.125, 0, &mesh);
        unsigned after = _mm_getcsr();
        _mm_setcsr(MASKS);
        CHECK(refusal == 0);
        CHECK(after == mode);
        CHECK(refusal || same(&mesh, &usual[i]));
        _mm_setcsr(mode);
        refusal = sheet(&usual[i], out[1], answers[1]);
        _mm_setcsr(MASKS);
        CHECK(refusal == 0 && !memcmp(answers[0], answers[1], sizeof answers[0]));
        CHECK(!memcmp(out[0], out[1], 2 * usual[i].answer[SEDGEPICK_QUAD_COUNT] * sizeof **out));
        sedgepick_mesh_free(&mesh);
    }
}

static const double square[] = {0, 0, 0, 1, 0, 0, 1, 1, 0, 0, 1, 0};
static const uint32_t halves[] = {0, 1, 2, 0, 2, 3};

/* A size and a grid coordinate that DAZ would take for 0. */
static void test_subnormal(unsigned mode) {
    sedgepick_mesh mesh;
    double moved[12];
    sedgepick_options options = sedgepick_standard_options(0, 0);
    memcpy(moved, square, sizeof moved);
    moved[0] = 4.9406564584124654e-324;
    options.grid = SEDGEPICK_GRID;
    _mm_setcsr(mode);
    size_t sized = sedgepick_mesh_run(square, 4, halves, 2, 4.9406564584124654e-324, 0, &mesh);
    size_t off = sedgepick_mesh_run_with(moved, 4, halves, 2, &options, &mesh);
    _mm_setcsr(MASKS);
    CHECK(sized == SEDGEPICK_BAD_SIZE);
    CHECK(off == SEDGEPICK_OFF_GRID);
}

/* Each function once, on as large a mesh as it takes. */
static double large[3 * 46 * 46];
static uint32_t large_triangles[6 * 45 * 45];
static sedgepick_mesh traced;

static void call_run(void) {
    sedgepick_options options = sedgepick_standard_options(0.125, SEDGEPICK_EVEN_COMPONENTS);
    options.trace = 1 << 20;
    CHECK(sedgepick_mesh_run_with(large, 46 * 46, large_triangles, 2 * 45 * 45, &options, &traced) == 0);
}

static void call_job(void) {
    size_t job[SEDGEPICK_JOB] = SEDGEPICK_JOB_START(1, 3000);
    sedgepick_options options = sedgepick_standard_options(0.125, 0);
    sedgepick_mesh mesh;
    CHECK(sedgepick_mesh_run_job(large, 46 * 46, large_triangles, 2 * 45 * 45, &options, job, &mesh) == 0);
    sedgepick_mesh_free(&mesh);
}

static void call_replay(void) {
    sedgepick_mesh mesh;
    CHECK(sedgepick_mesh_replay(large, 46 * 46, large_triangles, 2 * 45 * 45, traced.trace, traced.answer[SEDGEPICK_TRACE_WORDS], &mesh) == 0);
    sedgepick_mesh_free(&mesh);
}

static void call_preview(void) {
    enum { CAPACITY = 46 * 46 + 2, SLOTS = 2 * 45 * 45 + 5 };
    static double lent[3 * CAPACITY], floats[4 * SLOTS];
    static uint32_t quads[8 * SLOTS], left[3 * SLOTS], components[SLOTS], work[64 * SLOTS + 8 * CAPACITY], joints[1];
    size_t answer[SEDGEPICK_PREVIEW];
    memcpy(lent, large, sizeof large);
    CHECK(sedgepick_preview(
        lent, 3 * CAPACITY, large_triangles, 6 * 45 * 45, joints, 0, quads, 8 * SLOTS, left, 3 * SLOTS, components, SLOTS, work, 64 * SLOTS + 8 * CAPACITY,
        floats, 4 * SLOTS, 46 * 46, CAPACITY, 2 * 45 * 45, SLOTS, 0, 0.125, 0, 0.3, 0.90630778703665, 0.5, 2.2, 8, 0, 0, 1, answer, SEDGEPICK_PREVIEW) == 0);
}

static void call_filing(void) {
    static uint32_t work[2][4 * 2 * 45 * 45];
    CHECK(sedgepick_filing_order(
        large, 3 * 46 * 46, large_triangles, 6 * 45 * 45, work[0], 8 * 45 * 45, 46 * 46, 2 * 45 * 45,
        large, 3 * 46 * 46, large_triangles, 6 * 45 * 45, work[1], 8 * 45 * 45, 46 * 46, 2 * 45 * 45) == SEDGEPICK_SAME);
}

static void call_sheet(void) {
    static double out[2 * 16384];
    size_t answer[SEDGEPICK_SHEET_NUMBERS];
    CHECK(sedgepick_sheet(
        traced.points, 3 * traced.answer[SEDGEPICK_POINT_COUNT], traced.quads, SEDGEPICK_QUADS(traced.answer[SEDGEPICK_QUAD_COUNT]), out, 2 * 16384,
        traced.answer[SEDGEPICK_POINT_COUNT], traced.answer[SEDGEPICK_QUAD_COUNT], answer, SEDGEPICK_SHEET_NUMBERS) == 0);
}

static void call_small(void) {
    uint32_t list[SEDGEPICK_SMALL_MESH];
    CHECK(sedgepick_small_mesh(5, 174, list, SEDGEPICK_SMALL_MESH) == 0);
}

static void *called(void *call) {
    (*(void (**)(void))call)();
    return NULL;
}

static void nothing(void) {
}

/* Bytes of stack that a thread takes which makes the call. */
static size_t stack_of(void (*call)(void)) {
    unsigned char *stack = aligned_alloc(4096, STACK);
    pthread_attr_t attributes;
    pthread_t thread;
    size_t free_bytes = 0;
    memset(stack, 0xA5, STACK);
    pthread_attr_init(&attributes);
    pthread_attr_setstack(&attributes, stack, STACK);
    if (pthread_create(&thread, &attributes, called, &call) || pthread_join(thread, NULL)) {
        printf("no thread\n");
        exit(1);
    }
    while (free_bytes < STACK && stack[free_bytes] == 0xA5)
        free_bytes++;
    free(stack);
    return STACK - free_bytes;
}

static size_t test_stack(void) {
    void (*const calls[])(void) = {call_run, call_job, call_replay, call_preview, call_filing, call_sheet, call_small};
    size_t most = 0, thread = stack_of(nothing);
    fill(45, 0.125, 0.05, large, large_triangles);
    for (size_t i = 0; i < sizeof calls / sizeof *calls; i++) {
        size_t taken = stack_of(calls[i]) - thread;
        most = taken > most ? taken : most;
    }
    CHECK(most <= MOST_STACK);
    return most;
}

int main(void) {
    const unsigned rounding[] = {0x0000, 0x2000, 0x4000, 0x6000}, flushing[] = {0, FTZ, DAZ, FTZ | DAZ};
    setvbuf(stdout, NULL, _IONBF, 0); /* a trap loses no words */
    for (size_t i = 0; i < MESHES; i++) {
        fill(SIDE, 0.125, 0.09, points[i], triangles);
        CHECK(sedgepick_mesh_run(points[i], POINTS, triangles, TRIANGLES, 0.125, 0, &usual[i]) == 0);
    }
    for (size_t r = 0; r < 4; r++)
        for (size_t f = 0; f < 4; f++) {
            test_mode(rounding[r] | flushing[f] | MASKS);
            test_subnormal(rounding[r] | flushing[f] | MASKS);
        }
    test_mode(MASKS | FLAGS); /* flags that the caller has set stay */
    test_mode(0);             /* every trap on */
    size_t most = test_stack();
    if (failures)
        printf("%d checks failed\n", failures);
    else
        printf("ok, %zu bytes of stack\n", most);
    return failures != 0;
}
