/* A mesh as it grew: two triangles, wider at the top, are run with a trace and replayed entry by entry.
 *
 *   tools/install PREFIX
 *   cc examples/c/trace.c $(PKG_CONFIG_PATH=PREFIX/lib/pkgconfig pkg-config --cflags --libs sedgepick) -o trace && ./trace
 */
#include <sedgepick_mesh.h>
#include <stdio.h>
#include <string.h>

static double half_words(const uint32_t *words) {
    uint64_t bits = words[0] | (uint64_t)words[1] << 32;
    double value;
    memcpy(&value, &bits, sizeof value);
    return value;
}

static void print_entry(const uint32_t *e) {
    if (e[0] == SEDGEPICK_ENTRY_INSERTION)
        printf("insertion at %g, %g in the triangle of slot %u", half_words(e + 2), half_words(e + 4), e[1]);
    else if (e[0] == SEDGEPICK_ENTRY_FLIP)
        printf("edge %u-%u flipped", e[1], e[2]);
    else
        printf("quad %u %u %u %u from edge %u-%u in round %u in place of %u triangles", e[1], e[2], e[3], e[4], e[5], e[6], e[7], e[8]);
}

int main(void) {
    static const double points[] = {0, 0, 0, 1, 0, 0, 2, 2, 0, -1, 2, 0};
    static const uint32_t triangles[] = {0, 1, 2, 0, 2, 3};
    sedgepick_options options = sedgepick_standard_options(0.5, SEDGEPICK_EXHAUST);
    sedgepick_mesh mesh, step;
    options.trace = SEDGEPICK_TRACE;
    size_t refusal = sedgepick_mesh_run_with(points, 4, triangles, 2, &options, &mesh);
    if (refusal != SEDGEPICK_FINISHED) {
        fprintf(stderr, "refused with %zu: %s\n", refusal, sedgepick_refusal_words(refusal));
        return 1;
    }
    size_t words = mesh.answer[SEDGEPICK_TRACE_WORDS], entry;
    for (size_t at = 0; at < words && (entry = sedgepick_entry_words(mesh.trace + at, words - at)); at += entry) {
        print_entry(mesh.trace + at);
        if (sedgepick_mesh_replay(points, 4, triangles, 2, mesh.trace, at + entry, &step) != SEDGEPICK_FINISHED)
            return 1;
        printf(": %zu quads, %zu triangles\n", step.answer[SEDGEPICK_QUAD_COUNT], step.answer[SEDGEPICK_TRIANGLE_COUNT]);
        sedgepick_mesh_free(&step);
    }
    sedgepick_mesh_free(&mesh);
    return 0;
}
