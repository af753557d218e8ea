/* SPDX-License-Identifier: MIT
 * Walks from every leftover triangle. */
#include "finishing.h"
#include "nearest.h"
#include <stdlib.h>
#include <string.h>

/* The leftover triangles as they stand before the walks. */
typedef struct { uint32_t *nodes; double *middles; unsigned char *gone; size_t count; } leftovers;

static int collected(const cover *c, leftovers *l) {
    size_t room = c->lent->capacity + 1;
    l->nodes = malloc(3 * room * sizeof *l->nodes);
    l->middles = malloc(2 * room * sizeof *l->middles);
    l->gone = calloc(room, 1);
    if (!l->nodes || !l->middles || !l->gone)
        return 0;
    for (uint32_t cell = 0; cell < c->lent->capacity; cell++)
        if (is_triangle(c, cell)) {
            memcpy(l->nodes + 3 * l->count, c->cells + 4 * (size_t)cell, 3 * sizeof *l->nodes);
            for (int axis = 0; axis < 2; axis++) {
                double sum = 0;
                for (int i = 0; i < 3; i++)
                    sum += c->points[2 * (size_t)l->nodes[3 * l->count + i] + axis];
                l->middles[2 * l->count + axis] = sum / 3;
            }
            l->count++;
        }
    return 1;
}

/* The triangle's slot; NONE where it is gone. */
static uint32_t slot_of(const cover *c, leftovers *l, uint32_t which) {
    const uint32_t *t = l->nodes + 3 * (size_t)which;
    if (!l->gone[which] && finishing_apex(c, t[0], t[1]) != t[2])
        l->gone[which] = 1;
    return l->gone[which] ? NONE : finishing_find(c, t[0], t[1]) / 4;
}

/* The middle of the nearest other triangle that is still there; NULL where there is none. */
static const double *nearest(const cover *c, leftovers *l, const squares *s, uint32_t which) {
    uint32_t found = finishing_nearest(s, which, l->gone);
    while (found != NONE && slot_of(c, l, found) == NONE)
        found = finishing_nearest(s, which, l->gone);
    return found == NONE ? NULL : l->middles + 2 * (size_t)found;
}

/* Walks from each leftover triangle in turn, `nearest`: toward the nearest other; how many came to an end, at most `most`. */
size_t sedgepick_finish_walk(sedgepick_cover *lent, size_t reach, int to_nearest, double poor_under, int most_poor, size_t most, size_t *done) {
    cover c;
    leftovers l = {0};
    squares s = {0};
    size_t fault = finishing_open(&c, lent);
    if (fault)
        return fault;
    search *way = finishing_search(reach, poor_under, most_poor);
    int enough = way && collected(&c, &l) && finishing_squares(&s, l.middles, l.count);
    *done = 0;
    for (uint32_t i = 0; enough && i < l.count && *done < most; i++) {
        uint32_t start = slot_of(&c, &l, i);
        const double *toward = start != NONE && to_nearest ? nearest(&c, &l, &s, i) : NULL;
        if (start != NONE && (toward || !to_nearest))
            *done += finishing_walk(&c, way, start, reach, NONE, toward);
    }
    if (enough)
        finishing_squares_free(&s);
    free(l.nodes);
    free(l.middles);
    free(l.gone);
    finishing_search_free(way);
    finishing_close(&c);
    return enough ? FINISHING_DONE : FINISHING_NO_MEMORY;
}

/* Leads each leftover triangle to a place where fewer quads are poor; how often it did. */
size_t sedgepick_finish_wander(sedgepick_cover *lent, size_t reach, double poor_under, size_t *done) {
    cover c;
    leftovers l = {0};
    size_t fault = finishing_open(&c, lent);
    if (fault)
        return fault;
    search *way = finishing_search(reach, poor_under, 0);
    int enough = way && collected(&c, &l);
    *done = 0;
    for (uint32_t i = 0; enough && i < l.count; i++) {
        uint32_t start = slot_of(&c, &l, i);
        if (start != NONE)
            *done += finishing_walk(&c, way, start, reach, FEWER_POOR, NULL);
    }
    free(l.nodes);
    free(l.middles);
    free(l.gone);
    finishing_search_free(way);
    finishing_close(&c);
    return enough ? FINISHING_DONE : FINISHING_NO_MEMORY;
}
