/* SPDX-License-Identifier: MIT
 * Places in a grid of squares, so that the nearest one is found by looking at a few of them. */
#ifndef SEDGEPICK_FINISHING_NEAREST_H
#define SEDGEPICK_FINISHING_NEAREST_H
#include <stddef.h>
#include <stdint.h>

typedef struct {
    const double *places;     /* x and y of each */
    size_t count, columns, rows;
    double low[2], size;
    uint32_t *first, *order;  /* the places of square i are order[first[i]] .. order[first[i + 1] - 1] */
} squares;

int finishing_squares(squares *s, const double *places, size_t count);
void finishing_squares_free(squares *s);
uint32_t finishing_nearest(const squares *s, uint32_t which, const unsigned char *gone);
#endif
