/* A mesh, the same mesh listed otherwise, and one that stands behind both.
 *
 *   tools/archive library
 *   cc -Iinclude examples/c/filing.c target/staticlib/liblibrary.a -o filing && ./filing
 */
#include <sedgepick.h>
#include <stdio.h>

enum { GIVEN = 4, COUNT = 2 };

static const double points[3 * GIVEN] = {0, 0, 0, 1, 0, 0, 1, 1, 0, 0, 1, 0};

static const char *order(const uint32_t *first, const uint32_t *second) {
    static uint32_t first_work[SEDGEPICK_FILING_WORK(COUNT)];
    static uint32_t second_work[SEDGEPICK_FILING_WORK(COUNT)];
    size_t answer = sedgepick_filing_order(
        points, 3 * GIVEN, first, 3 * COUNT, first_work, SEDGEPICK_FILING_WORK(COUNT), GIVEN, COUNT,
        points, 3 * GIVEN, second, 3 * COUNT, second_work, SEDGEPICK_FILING_WORK(COUNT), GIVEN, COUNT);
    switch (answer) {
    case SEDGEPICK_BEFORE: return "before";
    case SEDGEPICK_SAME: return "same";
    case SEDGEPICK_AFTER: return "after";
    default: return "refused";
    }
}

int main(void) {
    static const uint32_t halves[3 * COUNT] = {0, 1, 2, 0, 2, 3};
    static const uint32_t listed_otherwise[3 * COUNT] = {2, 3, 0, 1, 2, 0};
    static const uint32_t other_halves[3 * COUNT] = {0, 1, 3, 1, 2, 3};
    static const uint32_t unknown[3 * COUNT] = {0, 1, 2, 0, 2, 4};
    printf("%s %s %s %s\n", order(halves, listed_otherwise), order(halves, other_halves), order(other_halves, halves), order(halves, unknown));
    return 0;
}
