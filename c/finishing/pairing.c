/* SPDX-License-Identifier: MIT
 * Pairs: two triangles become a quad. The triangle with the fewest partners goes first, with its best one (Karp and Sipser 1981). */
#include "finishing.h"
#include <stdlib.h>
#include <string.h>

/* Of each triangle its partners, by the place of the side between them. */
typedef struct {
    uint32_t *near;           /* 3 a slot: the slot of the partner, or NONE */
    double *worth;            /* 3 a slot: of the quad */
    heap waiting;             /* triangles by the number of their partners, then by the best quad */
} partners;

static int count_of(const partners *p, uint32_t cell) {
    return (p->near[3 * cell] != NONE) + (p->near[3 * cell + 1] != NONE) + (p->near[3 * cell + 2] != NONE);
}

static int wait_for(partners *p, uint32_t cell) {
    double best = -1;
    for (int i = 0; i < 3; i++)
        if (p->near[3 * cell + i] != NONE && p->worth[3 * cell + i] > best)
            best = p->worth[3 * cell + i];
    return best < 0 || finishing_push(&p->waiting, count_of(p, cell), -best, cell);
}

/* Finds the partners of a triangle; whether there was memory to note it. */
static int find_partners(const cover *c, partners *p, uint32_t cell) {
    const uint32_t *triangle = c->cells + 4 * (size_t)cell;
    for (int i = 0; is_triangle(c, cell) && i < 3; i++) {
        uint32_t a = triangle[i], b = triangle[(i + 1) % 3], half = finishing_find(c, b, a), quad[5];
        if (half == NONE || !is_triangle(c, half / 4) || finishing_locked(c, a, b) || !finishing_around(c, triangle, i, half / 4, quad) || !finishing_good(c, quad))
            continue;
        p->near[3 * cell + i] = half / 4;
        p->worth[3 * cell + i] = finishing_quad_worth(c, quad);
    }
    return wait_for(p, cell);
}

/* The place of the best partner. */
static int best_of(const partners *p, uint32_t cell) {
    int best = -1;
    for (int i = 0; i < 3; i++)
        if (p->near[3 * cell + i] != NONE && (best < 0 || p->worth[3 * cell + i] > p->worth[3 * cell + best]))
            best = i;
    return best;
}

/* Takes a triangle out of the lists of its partners; whether there was memory. */
static int leave(partners *p, uint32_t cell) {
    int enough = 1;
    for (int i = 0; i < 3; i++) {
        uint32_t other = p->near[3 * cell + i];
        p->near[3 * cell + i] = NONE;
        for (int j = 0; other != NONE && j < 3; j++)
            if (p->near[3 * other + j] == cell) {
                p->near[3 * other + j] = NONE;
                enough &= wait_for(p, other);
            }
    }
    return enough;
}

/* Puts the quad of a triangle and its partner in their place; whether there was memory. */
static int pair(cover *c, partners *p, uint32_t cell) {
    int place = best_of(p, cell);
    uint32_t other = p->near[3 * cell + place], group = c->lent->groups[cell], quad[5];
    finishing_around(c, c->cells + 4 * (size_t)cell, place, other, quad);
    int enough = leave(p, cell);
    enough &= leave(p, other);
    finishing_drop(c, cell);
    finishing_drop(c, other);
    finishing_put(c, quad, 4, group);
    return enough;
}

size_t sedgepick_finish_pair(sedgepick_cover *lent, size_t *done) {
    cover c;
    partners p = {0};
    size_t fault = finishing_open(&c, lent);
    if (fault)
        return fault;
    p.near = malloc((3 * lent->capacity + 1) * sizeof *p.near);
    p.worth = malloc((3 * lent->capacity + 1) * sizeof *p.worth);
    int enough = p.near && p.worth;
    if (enough)
        memset(p.near, 0xff, 3 * lent->capacity * sizeof *p.near);
    *done = 0;
    for (uint32_t cell = 0; enough && cell < lent->capacity; cell++)
        enough = find_partners(&c, &p, cell);
    while (enough && p.waiting.count) {
        entry next = finishing_pop(&p.waiting);
        if (count_of(&p, next.what) == (int)next.key) {
            enough = pair(&c, &p, next.what);
            ++*done;
        }
    }
    free(p.near);
    free(p.worth);
    free(p.waiting.entries);
    finishing_close(&c);
    return enough ? FINISHING_DONE : FINISHING_NO_MEMORY;
}
