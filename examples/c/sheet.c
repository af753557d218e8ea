/* The quality sheet of a square and of the same quad turned over, which has no metrics.
 *
 *   tools/archive library
 *   cc -Iinclude examples/c/sheet.c target/staticlib/liblibrary.a -o sheet && ./sheet
 */
#include <sedgepick.h>
#include <stdio.h>

int main(void) {
    const double points[] = {0, 0, 0, 1, 0, 0, 1, 1, 0, 0, 1, 0};
    /* four corners, then what a run says of the quad's birth */
    const uint32_t quads[] = {0, 1, 2, 3, 0, 1, 1, 2, 3, 2, 1, 0, 0, 0, 0, 0};
    double out[4];
    size_t answer[SEDGEPICK_SHEET_NUMBERS];
    size_t refusal = sedgepick_sheet(points, 12, quads, 16, out, 4, 4, 2, answer, SEDGEPICK_SHEET_NUMBERS);
    if (refusal) {
        printf("refused with %zu\n", refusal);
        return 1;
    }
    for (size_t i = 0; i < 2; i++)
        printf("quad %zu: scaled Jacobian %g, cosine %g\n", i, out[2 * i], out[2 * i + 1]);
    printf("0.9 and above: %zu, without metrics: %zu\n", answer[9], answer[10]);
    if (answer[11] < 2)
        printf("worst scaled Jacobian: %g, of quad %zu\n", out[2 * answer[11]], answer[11]);
    return 0;
}
