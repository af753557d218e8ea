/* The unit square, two triangles, becomes one quad.
 *
 *   tools/archive library
 *   cc -Iinclude examples/c/square.c target/staticlib/liblibrary.a -o square && ./square
 */
#include <sedgepick.h>
#include <stdio.h>

enum { GIVEN = 4, CAPACITY = 16, COUNT = 2, SLOTS = 16 };

static void print_quad(const uint32_t *quad) {
    printf("%u %u %u %u, grown from %u %u in round %u in place of %u triangles\n", quad[SEDGEPICK_N0], quad[SEDGEPICK_N1], quad[SEDGEPICK_N2],
        quad[SEDGEPICK_N3], quad[SEDGEPICK_EDGE_U], quad[SEDGEPICK_EDGE_V], quad[SEDGEPICK_ROUND], quad[SEDGEPICK_REPLACED]);
}

int main(void) {
    static double points[SEDGEPICK_POINTS(CAPACITY)] = {0, 0, 0, 1, 0, 0, 1, 1, 0, 0, 1, 0};
    static const uint32_t triangles[3 * COUNT] = {0, 1, 2, 0, 2, 3};
    static uint32_t quads[SEDGEPICK_QUADS(SLOTS)];
    static uint32_t triangles_out[SEDGEPICK_TRIANGLES_OUT(SLOTS)];
    static uint32_t components[SEDGEPICK_COMPONENTS(SLOTS)];
    static uint32_t work[SEDGEPICK_WORK(SLOTS, CAPACITY)];
    static double float_work[SEDGEPICK_FLOAT_WORK(SLOTS)];
    size_t answer[SEDGEPICK_ANSWER];

    size_t refusal = sedgepick_run_front(
        points, SEDGEPICK_POINTS(CAPACITY),
        triangles, 3 * COUNT,
        quads, SEDGEPICK_QUADS(SLOTS),
        triangles_out, SEDGEPICK_TRIANGLES_OUT(SLOTS),
        components, SEDGEPICK_COMPONENTS(SLOTS),
        work, SEDGEPICK_WORK(SLOTS, CAPACITY),
        float_work, SEDGEPICK_FLOAT_WORK(SLOTS),
        GIVEN, CAPACITY, COUNT, SLOTS, 1.0, SEDGEPICK_EXHAUST,
        answer, SEDGEPICK_ANSWER);
    if (refusal != SEDGEPICK_FINISHED) {
        fprintf(stderr, "refused with %zu\n", refusal);
        return 1;
    }
    printf("%zu quads, %zu triangles, %zu points\n", answer[SEDGEPICK_QUAD_COUNT], answer[SEDGEPICK_TRIANGLE_COUNT], answer[SEDGEPICK_POINT_COUNT]);
    for (size_t i = 0; i < answer[SEDGEPICK_QUAD_COUNT]; i++)
        print_quad(quads + SEDGEPICK_QUADS(i));
    return 0;
}
