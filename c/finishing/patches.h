/* SPDX-License-Identifier: MIT
 * A patch: a few cells of the cover that lie together, and every cell that could stand in their place. */
#ifndef SEDGEPICK_FINISHING_PATCHES_H
#define SEDGEPICK_FINISHING_PATCHES_H
#include "finishing.h"

#define PATCH_NODES 28        /* at most */
#define PATCH_CELLS 40        /* more than so many nodes can have */
#define PATCH_SIDES 160       /* directed ones of so many cells */
#define PATCH_CHOICES 3000    /* cells that could stand there */
#define PAIR_WORDS 6          /* of 64 pairs of nodes each: 28 * 27 / 2 pairs in all */

/* A cell that could be one of the patch's; its nodes are numbers in the patch. */
typedef struct {
    uint8_t nodes[4];
    int width;
    double cost;
    uint64_t closed[PAIR_WORDS];  /* pairs of nodes that no side of the cover can be beside it: what its sides cross, and its diagonals */
} choice;

typedef struct {
    uint32_t nodes[PATCH_NODES], cells[PATCH_CELLS];
    int node_count, cell_count;
    double limit;             /* quads with a smaller scaled Jacobian are poor */
    double price;             /* what a triangle costs; a poor quad costs 1 */
    double cost;              /* of the cells that are there */
    int triangles, poor;      /* of the cells that are there */
    double thinnest;          /* sine of the least angle that a triangle may have: that of 15 degrees, or of the thinnest that is there */
    uint8_t border[PATCH_SIDES][2];  /* directed sides that a cell of the patch has and none on the other side, and both of a locked edge */
    int border_count;
    signed char turn[PATCH_NODES][PATCH_NODES][PATCH_NODES];
    uint64_t crossed[PATCH_NODES * (PATCH_NODES - 1) / 2][PAIR_WORDS];
    uint64_t walls[PAIR_WORDS];
    choice choices[PATCH_CHOICES];
    int choice_count;
    uint16_t order[PATCH_CHOICES];   /* the choices, the cheapest first */
    uint16_t *at[PATCH_NODES][PATCH_NODES];     /* the choices with a directed side, the cheapest first */
    int at_count[PATCH_NODES][PATCH_NODES];
    double share[PATCH_NODES][PATCH_NODES];     /* the least cost of a side: of the choices there that of the cell, divided by its sides */
    uint16_t lists[4 * PATCH_CHOICES];
} patch;

static inline int pair_of(int a, int b) { return a < b ? b * (b - 1) / 2 + a : a * (a - 1) / 2 + b; }
static inline void add_pair(uint64_t *pairs, int pair) { pairs[pair / 64] |= UINT64_C(1) << pair % 64; }
static inline int has_pair(const uint64_t *pairs, int pair) { return pairs[pair / 64] >> pair % 64 & 1; }

/* patches.c */
int finishing_patch(patch *p, const cover *c, uint32_t seed, int most_nodes, double limit, double price);
/* choices.c */
int finishing_choices(patch *p, const cover *c);
#define THIN_SINE 0.2589      /* of 15 degrees, rounded up */
double finishing_cost(const cover *c, const uint32_t *nodes, int width, double limit, double price);
/* mending.c */
int finishing_mend(cover *c, patch *p, int tries);
#endif
