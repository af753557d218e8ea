/* The unit square, two triangles, becomes one quad; memory is lent by the call.
 *
 *   tools/install PREFIX
 *   cc examples/c/mesh.c $(PKG_CONFIG_PATH=PREFIX/lib/pkgconfig pkg-config --cflags --libs sedgepick) -o mesh && ./mesh
 */
#include <sedgepick_mesh.h>
#include <stdio.h>

int main(void) {
    static const double points[] = {0, 0, 0, 1, 0, 0, 1, 1, 0, 0, 1, 0};
    static const uint32_t triangles[] = {0, 1, 2, 0, 2, 3};
    sedgepick_mesh mesh;
    size_t refusal = sedgepick_mesh_run(points, 4, triangles, 2, 1.0, SEDGEPICK_EXHAUST, &mesh);
    if (refusal != SEDGEPICK_FINISHED) {
        fprintf(stderr, "refused with %zu: %s\n", refusal, sedgepick_refusal_words(refusal));
        return 1;
    }
    printf("sedgepick %s\n", sedgepick_version());
    for (size_t i = 0; i < mesh.answer[SEDGEPICK_QUAD_COUNT]; i++) {
        const uint32_t *quad = mesh.quads + SEDGEPICK_QUADS(i);
        printf("%u %u %u %u\n", quad[SEDGEPICK_N0], quad[SEDGEPICK_N1], quad[SEDGEPICK_N2], quad[SEDGEPICK_N3]);
    }
    sedgepick_mesh_free(&mesh);
    return 0;
}
