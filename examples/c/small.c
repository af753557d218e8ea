/* Every list of one to three different triangles on four points, a line each.
 *
 *   tools/archive library
 *   cc -Iinclude examples/c/small.c target/staticlib/liblibrary.a -o small && ./small
 */
#include <sedgepick.h>
#include <stdio.h>

int main(void) {
    uint32_t list[SEDGEPICK_SMALL_MESH];
    for (size_t place = 0; sedgepick_small_mesh(4, place, list, SEDGEPICK_SMALL_MESH) == 0 && list[0] > 0; place++) {
        printf("%zu:", place);
        for (uint32_t i = 0; i < list[0]; i++)
            printf("  %u %u %u", list[3 * i + 1], list[3 * i + 2], list[3 * i + 3]);
        printf("\n");
    }
    return 0;
}
