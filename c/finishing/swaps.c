/* SPDX-License-Identifier: MIT
 * Swaps of the diagonal of two triangles: single ones, and Lawson's to the constrained Delaunay triangulation. */
#include "finishing.h"
#include <stdlib.h>

static void turn_diagonal(cover *c, uint32_t a, uint32_t b, uint32_t p, uint32_t q) {
    uint32_t one = finishing_find(c, a, b) / 4, other = finishing_find(c, b, a) / 4, group = c->lent->groups[one];
    uint32_t made[2][3] = {{a, q, p}, {q, b, p}};
    finishing_drop(c, one);
    finishing_drop(c, other);
    finishing_put(c, made[0], 3, group);
    finishing_put(c, made[1], 3, group);
}

/* Swaps the diagonal ab where it may be: not locked, and the quad strictly convex for certain. Whether it did; `made` are the ends of the new one. */
int finishing_flip(cover *c, uint32_t a, uint32_t b, uint32_t *made) {
    uint32_t p = finishing_apex(c, a, b), q = finishing_apex(c, b, a);
    if (p == NONE || q == NONE || p == q || finishing_locked(c, a, b) || finishing_turn(c, q, p, a) <= 0 || finishing_turn(c, q, p, b) >= 0)
        return 0;
    turn_diagonal(c, a, b, p, q);
    made[0] = p;
    made[1] = q;
    return 1;
}

/* Undoes a flip that made ab. */
void finishing_flip_back(cover *c, uint32_t a, uint32_t b) {
    turn_diagonal(c, a, b, finishing_apex(c, a, b), finishing_apex(c, b, a));
}

/* Swaps from these sides on until each is locally Delaunay, or locked, or beside a quad; how many swaps. `sides` has room for `room` pairs of nodes: where it is
 * full, sides are passed over, and so are those beyond a bound on the swaps that no mesh in floats should meet. */
int finishing_swap_from(cover *c, uint32_t *sides, size_t count, size_t room) {
    int swaps = 0;
    size_t most = 100 * (count + 100);
    while (count && most--) {
        uint32_t a = sides[2 * --count], b = sides[2 * count + 1], made[2];
        uint32_t p = finishing_apex(c, a, b), q = finishing_apex(c, b, a);
        if (p == NONE || q == NONE || finishing_in_circle(c, a, b, p, q) <= 0 || !finishing_flip(c, a, b, made))
            continue;
        uint32_t around[4][2] = {{a, p}, {p, b}, {b, q}, {q, a}};
        swaps++;
        for (int i = 0; i < 4 && count < room; i++, count++) {
            sides[2 * count] = around[i][0];
            sides[2 * count + 1] = around[i][1];
        }
    }
    return swaps;
}

/* Swaps everywhere. */
size_t sedgepick_finish_swap(sedgepick_cover *lent, size_t *done) {
    cover c;
    size_t fault = finishing_open(&c, lent), count = 0, room = 8 * lent->capacity + 64;
    uint32_t *sides;
    if (fault)
        return fault;
    sides = malloc(2 * room * sizeof *sides);
    if (!sides) {
        finishing_close(&c);
        return FINISHING_NO_MEMORY;
    }
    for (uint32_t cell = 0; cell < lent->capacity; cell++)
        for (int i = 0; is_triangle(&c, cell) && i < 3; i++) {
            uint32_t a = c.cells[4 * cell + i], b = c.cells[4 * cell + (i + 1) % 3];
            if (a < b) {
                sides[2 * count] = a;
                sides[2 * count++ + 1] = b;
            }
        }
    *done = finishing_swap_from(&c, sides, count, room);
    free(sides);
    finishing_close(&c);
    return FINISHING_DONE;
}
