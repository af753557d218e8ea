/* SPDX-License-Identifier: MIT
 * Quads taken back: those around a thin triangle become triangles again, whose diagonals are then swapped. */
#include "finishing.h"
#include <stdlib.h>
#include <string.h>

#define ROOM 4096             /* sides that wait for a swap */

/* A quad into two triangles, and swaps from its sides on. */
static void take_back(cover *c, uint32_t cell, uint32_t *sides) {
    uint32_t q[4], group = c->lent->groups[cell];
    memcpy(q, c->cells + 4 * (size_t)cell, sizeof q);
    uint32_t halves[2][3] = {{q[0], q[1], q[2]}, {q[0], q[2], q[3]}}, around[5][2] = {{q[0], q[1]}, {q[1], q[2]}, {q[2], q[3]}, {q[3], q[0]}, {q[0], q[2]}};
    finishing_drop(c, cell);
    for (int i = 0; i < 2; i++)
        finishing_put(c, halves[i], 3, group);
    memcpy(sides, around, sizeof around);
    finishing_swap_from(c, sides, 5, ROOM);
}

/* The quads around a triangle: beside it, or at its nodes too. Each is taken back as it is met; how many. */
static size_t take_around(cover *c, const uint32_t *triangle, int at_nodes, uint32_t *sides) {
    size_t done = 0;
    for (int i = 0; i < 3; i++) {
        uint32_t half = finishing_find(c, triangle[(i + 1) % 3], triangle[i]);
        if (half != NONE && is_quad(c, half / 4)) {
            take_back(c, half / 4, sides);
            done++;
        }
        half = at_nodes ? c->first[triangle[i]] : NONE;
        while (half != NONE)
            if (is_quad(c, half / 4)) {
                take_back(c, half / 4, sides);
                done++;
                half = c->first[triangle[i]];
            } else
                half = c->next[half];
    }
    return done;
}

/* Round by round around the triangles whose least angle has a smaller sine than `thin_sine`: in the first, third .. the quads beside them, in the others those at
 * their nodes too. A round that finds no quad there is the last. */
size_t sedgepick_finish_take_back(sedgepick_cover *lent, double thin_sine, size_t rounds, size_t *done) {
    cover c;
    size_t fault = finishing_open(&c, lent), taken = 1;
    if (fault)
        return fault;
    uint32_t *sides = malloc(2 * ROOM * sizeof *sides), *thin = malloc(3 * (lent->capacity + 1) * sizeof *thin);
    if (!sides || !thin)
        fault = FINISHING_NO_MEMORY;
    *done = 0;
    for (size_t round = 0; !fault && round < rounds && (taken || round == 1); round++) {
        size_t count = 0;
        for (uint32_t cell = 0; cell < lent->capacity; cell++)
            if (is_triangle(&c, cell) && finishing_triangle_sine(&c, c.cells + 4 * (size_t)cell) < thin_sine)
                memcpy(thin + 3 * count++, c.cells + 4 * (size_t)cell, 3 * sizeof *thin);
        taken = 0;
        for (size_t i = 0; i < count; i++)
            taken += take_around(&c, thin + 3 * i, round % 2, sides);
        *done += taken;
    }
    free(sides);
    free(thin);
    finishing_close(&c);
    return fault;
}
