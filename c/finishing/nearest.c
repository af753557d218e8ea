/* SPDX-License-Identifier: MIT
 * Places in a grid of squares: see nearest.h. */
#include "nearest.h"
#include <math.h>
#include <stdlib.h>

static size_t square_along(const squares *s, double value, int axis, size_t most) {
    double place = s->size > 0 ? floor((value - s->low[axis]) / s->size) : 0;
    return place < 0 ? 0 : place >= (double)most ? most - 1 : (size_t)place;
}

static size_t square_of(const squares *s, uint32_t which) {
    return square_along(s, s->places[2 * which + 1], 1, s->rows) * s->columns + square_along(s, s->places[2 * which], 0, s->columns);
}

/* Sorts the places into about as many squares; whether there was memory. */
int finishing_squares(squares *s, const double *places, size_t count) {
    double high[2];
    s->places = places;
    s->count = count;
    for (int axis = 0; axis < 2; axis++)
        s->low[axis] = high[axis] = count ? places[axis] : 0;
    for (size_t i = 0; i < 2 * count; i++) {
        s->low[i % 2] = places[i] < s->low[i % 2] ? places[i] : s->low[i % 2];
        high[i % 2] = places[i] > high[i % 2] ? places[i] : high[i % 2];
    }
    double wide = high[0] - s->low[0], tall = high[1] - s->low[1], longer = wide > tall ? wide : tall;
    s->size = sqrt(wide * tall / (double)(count + 1));
    s->size = s->size > longer / (double)(count + 1) ? s->size : longer / (double)(count + 1);
    s->columns = s->size > 0 ? (size_t)(wide / s->size) + 1 : 1;
    s->rows = s->size > 0 ? (size_t)(tall / s->size) + 1 : 1;
    s->first = calloc(s->columns * s->rows + 2, sizeof *s->first);
    s->order = malloc((count + 1) * sizeof *s->order);
    if (!s->first || !s->order) {
        finishing_squares_free(s);
        return 0;
    }
    for (uint32_t i = 0; i < count; i++)
        s->first[square_of(s, i) + 2]++;
    for (size_t i = 2; i < s->columns * s->rows + 2; i++)
        s->first[i] += s->first[i - 1];
    for (uint32_t i = 0; i < count; i++)
        s->order[s->first[square_of(s, i) + 1]++] = i;
    return 1;
}

void finishing_squares_free(squares *s) {
    free(s->first);
    free(s->order);
}

/* The nearest of a square's places, where it is nearer than the one that is there. */
static void look(const squares *s, size_t square, uint32_t which, const unsigned char *gone, uint32_t *found, double *best) {
    for (uint32_t i = s->first[square]; i < s->first[square + 1]; i++) {
        uint32_t other = s->order[i];
        double x = s->places[2 * other] - s->places[2 * which], y = s->places[2 * other + 1] - s->places[2 * which + 1], far = sqrt(x * x + y * y);
        if (other != which && !gone[other] && (*found == UINT32_MAX || far < *best || (far == *best && other < *found))) {
            *found = other;
            *best = far;
        }
    }
}

/* The nearest place to one of them that is not gone; UINT32_MAX where there is none. Squares are looked at ring by ring. */
uint32_t finishing_nearest(const squares *s, uint32_t which, const unsigned char *gone) {
    long column = (long)square_along(s, s->places[2 * which], 0, s->columns), row = (long)square_along(s, s->places[2 * which + 1], 1, s->rows);
    long columns = (long)s->columns, rows = (long)s->rows, most = columns > rows ? columns : rows;
    uint32_t found = UINT32_MAX;
    double best = 0;
    for (long ring = 0; ring <= most && (found == UINT32_MAX || best > (double)(ring - 1) * s->size); ring++)
        for (long y = row - ring; y <= row + ring; y++)
            for (long x = column - ring; x <= column + ring; x += y == row - ring || y == row + ring || !ring ? 1 : 2 * ring)
                if (x >= 0 && y >= 0 && x < columns && y < rows)
                    look(s, (size_t)(y * columns + x), which, gone, &found, &best);
    return found;
}
