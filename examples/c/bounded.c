/* A call whose work is bounded, as a service makes it for a mesh from anywhere: a job of one mesh, whose allowance is the most attempts that the run makes.
 *
 *   tools/install PREFIX
 *   cc examples/c/bounded.c $(PKG_CONFIG_PATH=PREFIX/lib/pkgconfig pkg-config --cflags --libs sedgepick) -o bounded && ./bounded
 */
#include <sedgepick_mesh.h>
#include <stdio.h>

int main(void) {
    static const double points[] = {0, 0, 0, 1, 0, 0, 2, 0, 0, 3, 0, 0, 4, 0, 0, 0, 1, 0, 1, 1, 0, 2, 1, 0, 3, 1, 0, 4, 1, 0};
    static const uint32_t triangles[] = {0, 1, 6, 0, 6, 5, 1, 2, 7, 1, 7, 6, 2, 3, 8, 2, 8, 7, 3, 4, 9, 3, 9, 8};
    const size_t allowances[] = {1, 2, 20000};
    for (size_t i = 0; i < 3; i++) {
        size_t job[SEDGEPICK_JOB] = SEDGEPICK_JOB_START(1, allowances[i]);
        sedgepick_options options = sedgepick_standard_options(1.0, SEDGEPICK_EXHAUST);
        sedgepick_mesh mesh;
        size_t refusal = sedgepick_mesh_run_job(points, 10, triangles, 8, &options, job, &mesh);
        if (refusal) {
            printf("refused with %zu: %s\n", refusal, sedgepick_refusal_words(refusal));
            return 1;
        }
        printf("at most %zu attempts: %zu made, %zu quads, %zu triangles%s\n", allowances[i], job[SEDGEPICK_JOB_CHARGED], mesh.answer[SEDGEPICK_QUAD_COUNT],
            mesh.answer[SEDGEPICK_TRIANGLE_COUNT], mesh.answer[SEDGEPICK_LIMIT] ? ", ended by its limit" : "");
        sedgepick_mesh_free(&mesh);
    }
    return 0;
}
