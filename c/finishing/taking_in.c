/* SPDX-License-Identifier: MIT
 * Quads taken in: where two triangles make a quad that is asked for, it takes their place; where its sides are missing they are brought in by flips (Sloan 1993). */
#include "finishing.h"

#define MOST_CROSSED 32       /* edges that a missing side may cross */
#define MOST_FLIPS 512        /* tried for a side */

/* The flips made for one quad, so that they can be undone. */
typedef struct { uint32_t made[4 * MOST_FLIPS][2]; size_t count; } trail;

/* The sides that the segment uv crosses, from u on; how many, 0 where it meets a node, a quad, a locked side or the border first. */
static size_t crossed(const cover *c, uint32_t u, uint32_t v, uint32_t found[][2]) {
    uint32_t a = NONE, b = NONE;
    size_t count = 0;
    for (uint32_t half = c->first[u]; half != NONE && a == NONE; half = c->next[half]) {
        uint32_t cell = half / 4, place = half % 4;
        if (width_of(c, cell) == 3) {
            uint32_t one = c->cells[4 * cell + (place + 1) % 3], other = c->cells[4 * cell + (place + 2) % 3];
            if (finishing_turn(c, u, one, v) > 0 && finishing_turn(c, u, other, v) < 0) {
                a = one;
                b = other;
            }
        }
    }
    while (a != NONE && count < MOST_CROSSED) {
        uint32_t apex = finishing_apex(c, b, a);
        if (apex == NONE || finishing_locked(c, a, b))
            return 0;
        found[count][0] = b;
        found[count++][1] = a;
        if (apex == v)
            return count;
        int turn = finishing_turn(c, u, v, apex);
        if (!turn)
            return 0;
        if (turn < 0)
            a = apex;
        else
            b = apex;
    }
    return 0;
}

static int crosses(const cover *c, uint32_t u, uint32_t v, const uint32_t *edge) {
    if (edge[0] == u || edge[0] == v || edge[1] == u || edge[1] == v)
        return 0;
    return finishing_turn(c, u, v, edge[0]) * finishing_turn(c, u, v, edge[1]) < 0;
}

static int is_side(const cover *c, uint32_t u, uint32_t v) {
    return finishing_find(c, u, v) != NONE || finishing_find(c, v, u) != NONE;
}

/* Brings in the side uv by flips; whether it is there. */
static int recover(cover *c, uint32_t u, uint32_t v, trail *t) {
    uint32_t queue[MOST_CROSSED][2];
    size_t count = is_side(c, u, v) ? 0 : crossed(c, u, v, queue), begin = 0;
    for (size_t tries = 0; count && tries < MOST_FLIPS; tries++) {
        uint32_t *edge = queue[begin], made[2] = {edge[0], edge[1]};
        int flipped = finishing_flip(c, edge[0], edge[1], made);
        begin = (begin + 1) % MOST_CROSSED;
        count--;
        if (flipped) {
            t->made[t->count][0] = made[0];
            t->made[t->count++][1] = made[1];
        }
        if (!flipped || crosses(c, u, v, made)) {
            uint32_t *last = queue[(begin + count++) % MOST_CROSSED];
            last[0] = made[0];
            last[1] = made[1];
        }
    }
    return is_side(c, u, v);
}

/* Puts the quad in the place of the two triangles that make it; whether they did. */
static int joined(cover *c, const uint32_t *quad) {
    uint32_t one = finishing_find(c, quad[0], quad[1]), across = finishing_find(c, quad[2], quad[3]), group, other;
    if (one == NONE || across == NONE || one / 4 == across / 4 || width_of(c, one / 4) != 3 || width_of(c, across / 4) != 3)
        return 0;
    one /= 4;
    other = across / 4;
    int first = finishing_apex(c, quad[0], quad[1]) == quad[2] && finishing_apex(c, quad[2], quad[3]) == quad[0];
    int second = finishing_apex(c, quad[0], quad[1]) == quad[3] && finishing_apex(c, quad[2], quad[3]) == quad[1];
    if (!(first && !finishing_locked(c, quad[0], quad[2])) && !(second && !finishing_locked(c, quad[1], quad[3])))
        return 0;
    group = c->lent->groups[one];
    finishing_drop(c, one);
    finishing_drop(c, other);
    finishing_put(c, quad, 4, group);
    return 1;
}

/* Takes one quad in; whether it could be. Where not, nothing has changed. */
static int take_in(cover *c, const uint32_t *quad, trail *t) {
    int there = finishing_good(c, quad);
    t->count = 0;
    for (int i = 0; there && i < 4; i++)
        there = recover(c, quad[i], quad[(i + 1) % 4], t);
    if (there && joined(c, quad))
        return 1;
    while (t->count--)
        finishing_flip_back(c, t->made[t->count][0], t->made[t->count][1]);
    return 0;
}

size_t sedgepick_finish_take_in(sedgepick_cover *lent, const uint32_t *quads, size_t quad_count, size_t *done) {
    cover c;
    trail t;
    for (size_t i = 0; i < 4 * quad_count; i++)
        if (quads[i] >= lent->point_count)
            return FINISHING_BAD_NODE;
    size_t fault = finishing_open(&c, lent);
    if (fault)
        return fault;
    *done = 0;
    for (size_t i = 0; i < quad_count; i++)
        *done += take_in(&c, quads + 4 * i, &t);
    finishing_close(&c);
    return FINISHING_DONE;
}
