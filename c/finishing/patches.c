/* SPDX-License-Identifier: MIT
 * A patch grown from a cell: the cell beside it that is nearest and brings the fewest nodes comes next, and no locked edge is crossed. */
#include "patches.h"
#include <string.h>

static int place_of(const patch *p, uint32_t node) {
    for (int i = 0; i < p->node_count; i++)
        if (p->nodes[i] == node)
            return i;
    return -1;
}

static int has_cell(const patch *p, uint32_t cell) {
    for (int i = 0; i < p->cell_count; i++)
        if (p->cells[i] == cell)
            return 1;
    return 0;
}

static void middle_of(const cover *c, uint32_t cell, double *middle) {
    int wide = width_of(c, cell);
    for (int axis = 0; axis < 2; axis++) {
        middle[axis] = 0;
        for (int i = 0; i < wide; i++)
            middle[axis] += c->points[2 * (size_t)c->cells[4 * (size_t)cell + i] + axis] / wide;
    }
}

static void add_cell(patch *p, const cover *c, uint32_t cell) {
    const uint32_t *nodes = c->cells + 4 * (size_t)cell;
    p->cells[p->cell_count++] = cell;
    p->cost += finishing_cost(c, nodes, width_of(c, cell), p->limit, p->price);
    if (width_of(c, cell) == 3) {
        double sine = finishing_triangle_sine(c, nodes);
        p->thinnest = sine < p->thinnest ? sine : p->thinnest;
        p->triangles++;
    } else {
        p->poor += finishing_quad_worth(c, nodes) < p->limit;
    }
    for (int i = 0; i < width_of(c, cell); i++)
        if (place_of(p, nodes[i]) < 0)
            p->nodes[p->node_count++] = nodes[i];
}

/* How far a cell lies from the middle, as a square, times the nodes that it would bring and one. */
static double far(const patch *p, const cover *c, uint32_t cell, const double *middle, int *brings) {
    double at[2];
    middle_of(c, cell, at);
    *brings = 0;
    for (int i = 0; i < width_of(c, cell); i++)
        *brings += place_of(p, c->cells[4 * (size_t)cell + i]) < 0;
    return ((at[0] - middle[0]) * (at[0] - middle[0]) + (at[1] - middle[1]) * (at[1] - middle[1])) * (1 + *brings);
}

/* The next cell; NONE where every one would bring too many nodes. */
static uint32_t next_cell(const patch *p, const cover *c, const double *middle, int most_nodes) {
    uint32_t best = NONE;
    double least = 0;
    for (int k = 0; k < p->cell_count && p->cell_count < PATCH_CELLS; k++) {
        const uint32_t *nodes = c->cells + 4 * (size_t)p->cells[k];
        int wide = width_of(c, p->cells[k]), brings;
        for (int i = 0; i < wide; i++) {
            uint32_t a = nodes[i], b = nodes[(i + 1) % wide], half = finishing_find(c, b, a);
            if (half == NONE || half / 4 == best || has_cell(p, half / 4) || finishing_locked(c, a, b))
                continue;
            double value = far(p, c, half / 4, middle, &brings);
            if (p->node_count + brings <= most_nodes && (best == NONE || value < least)) {
                best = half / 4;
                least = value;
            }
        }
    }
    return best;
}

static void find_border(patch *p, const cover *c) {
    p->border_count = 0;
    memset(p->walls, 0, sizeof p->walls);
    for (int k = 0; k < p->cell_count; k++) {
        const uint32_t *nodes = c->cells + 4 * (size_t)p->cells[k];
        int wide = width_of(c, p->cells[k]);
        for (int i = 0; i < wide; i++) {
            uint32_t a = nodes[i], b = nodes[(i + 1) % wide], half = finishing_find(c, b, a);
            if (half != NONE && has_cell(p, half / 4) && !finishing_locked(c, a, b))
                continue;
            uint8_t *side = p->border[p->border_count++];
            side[0] = (uint8_t)place_of(p, a);
            side[1] = (uint8_t)place_of(p, b);
            add_pair(p->walls, pair_of(side[0], side[1]));
        }
    }
}

/* Grows a patch from a cell to so many nodes; how many cells it has. */
int finishing_patch(patch *p, const cover *c, uint32_t seed, int most_nodes, double limit, double price) {
    double middle[2];
    p->node_count = p->cell_count = p->triangles = p->poor = 0;
    p->cost = 0;
    p->limit = limit;
    p->price = price;
    p->thinnest = THIN_SINE;
    middle_of(c, seed, middle);
    for (uint32_t cell = seed; cell != NONE; cell = next_cell(p, c, middle, most_nodes))
        add_cell(p, c, cell);
    find_border(p, c);
    return p->cell_count;
}
