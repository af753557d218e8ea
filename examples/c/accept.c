/* Judges two meshes against a square of two triangles: one quad, and the same quad with one corner moved.
 *
 *   tools/archive library
 *   cc -Iinclude examples/c/accept.c target/staticlib/liblibrary.a -o accept && ./accept
 */
#include <sedgepick.h>
#include <stdio.h>

enum { GIVEN = 4, COUNT = 2, QUADS = 1 };

static const double given[3 * GIVEN] = {0, 0, 0, 1, 0, 0, 1, 1, 0, 0, 1, 0};
static const uint32_t triangles[3 * COUNT] = {0, 1, 2, 0, 2, 3};
static const uint32_t quads[4 * QUADS] = {0, 1, 2, 3};

static size_t judge(const char *name, const double *points) {
    const uint32_t none[1] = {0};
    uint32_t components[1], parents[1], work[SEDGEPICK_ACCEPT_WORK(COUNT, QUADS, 0)];
    size_t a[SEDGEPICK_ACCEPT_NUMBERS];
    size_t refusal = sedgepick_accept(given, 3 * GIVEN, triangles, 3 * COUNT, points, 3 * GIVEN, quads, 4 * QUADS, none, 0, none, 0, components, 0, work,
                                      sizeof work / sizeof *work, parents, 0, GIVEN, COUNT, GIVEN, QUADS, 0, 0, 0.90630778703665, SEDGEPICK_ANY_TRIANGLE, a,
                                      SEDGEPICK_ACCEPT_NUMBERS);
    if (refusal) {
        printf("%s: refused with %zu\n", name, refusal);
        return 0;
    }
    printf("%s: %s", name, a[SEDGEPICK_ACCEPTED] ? "accepted" : "not accepted");
    if (a[SEDGEPICK_MOVED] < GIVEN)
        printf(", point %zu moved", a[SEDGEPICK_MOVED]);
    if (a[SEDGEPICK_FOLDED] < QUADS)
        printf(", quad %zu is not convex", a[SEDGEPICK_FOLDED]);
    if (a[SEDGEPICK_UNEVEN_V])
        printf(", sides between %zu and %zu do not balance", a[SEDGEPICK_UNEVEN_U], a[SEDGEPICK_UNEVEN_V]);
    printf("\n");
    return a[SEDGEPICK_ACCEPTED];
}

int main(void) {
    const double moved[3 * GIVEN] = {0, 0, 0, 1, 0, 0, 1, 1, 0, 0.75, 0.5, 0};
    return judge("the square", given) && !judge("one corner moved", moved) ? 0 : 1;
}
