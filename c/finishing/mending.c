/* SPDX-License-Identifier: MIT
 * Mending: a patch around a poor quad or a leftover triangle is covered anew, the cheapest way that branch and bound finds. Each step of the search closes the open
 * side that the fewest cells fit; what is open counts at least what the cheapest cells at its sides cost. Where nothing cheaper is found, the patch stays. */
#include "patches.h"
#include <stdlib.h>
#include <string.h>

#define ENOUGH 1e-7           /* a cover is cheaper where it is so by more */
#define ROUNDS 4
#define LEAST_NODES 12        /* of the first patch around a cell */

/* A cover that is begun: the sides that wait for a cell. */
typedef struct {
    uint8_t open[PATCH_SIDES][2];
    int count;
    uint32_t is_open[PATCH_NODES];          /* of each node the ends of its open sides, as bits */
    uint64_t pairs[PAIR_WORDS], used[PAIR_WORDS];  /* of open sides; of those and the closed ones */
    double cost, rest;                      /* of the cells that are there; what the open sides cost at least */
} begun;

typedef struct {
    const patch *p;
    int tries;                /* cells that may still be put */
    double best;
    uint16_t found[PATCH_CELLS], now[PATCH_CELLS];
    int found_count;
} trial;

static void open_side(const patch *p, begun *s, int a, int b) {
    s->open[s->count][0] = (uint8_t)a;
    s->open[s->count++][1] = (uint8_t)b;
    s->is_open[a] |= UINT32_C(1) << b;
    add_pair(s->pairs, pair_of(a, b));
    add_pair(s->used, pair_of(a, b));
    s->rest += p->share[a][b];
}

static void close_side(const patch *p, begun *s, int a, int b) {
    int k = 0;
    while (s->open[k][0] != a || s->open[k][1] != b)
        k++;
    memmove(s->open[k], s->open[--s->count], 2);
    s->is_open[a] &= ~(UINT32_C(1) << b);
    if (!(s->is_open[b] >> a & 1))
        s->pairs[pair_of(a, b) / 64] &= ~(UINT64_C(1) << pair_of(a, b) % 64);
    s->rest -= p->share[a][b];
}

/* Whether a cell fits: it lies over no open side, and each of its sides is open or new. */
static int fits(const begun *s, const choice *own) {
    for (int w = 0; w < PAIR_WORDS; w++)
        if (own->closed[w] & s->pairs[w])
            return 0;
    for (int i = 0; i < own->width; i++) {
        int a = own->nodes[i], b = own->nodes[(i + 1) % own->width];
        if (!(s->is_open[a] >> b & 1) && has_pair(s->used, pair_of(a, b)))
            return 0;
    }
    return 1;
}

static void put_cell(const patch *p, begun *s, const choice *own) {
    s->cost += own->cost;
    for (int i = 0; i < own->width; i++) {
        int a = own->nodes[i], b = own->nodes[(i + 1) % own->width];
        if (s->is_open[a] >> b & 1)
            close_side(p, s, a, b);
        else
            open_side(p, s, b, a);
    }
}

/* The open side that the fewest cells fit. */
static int narrowest(const patch *p, const begun *s) {
    int best = 0, fewest = PATCH_CHOICES + 1;
    for (int k = 0; k < s->count && fewest > 1; k++) {
        int a = s->open[k][0], b = s->open[k][1], fitting = 0;
        for (int i = 0; i < p->at_count[a][b] && fitting < fewest; i++)
            fitting += fits(s, &p->choices[p->at[a][b][i]]);
        if (fitting < fewest) {
            fewest = fitting;
            best = k;
        }
    }
    return fewest ? best : -1;
}

static void look(trial *t, const begun *s, int depth) {
    if (!s->count) {
        t->best = s->cost;
        t->found_count = depth;
        memcpy(t->found, t->now, (size_t)depth * sizeof *t->now);
        return;
    }
    int side = depth < PATCH_CELLS ? narrowest(t->p, s) : -1;
    if (side < 0)
        return;
    int a = s->open[side][0], b = s->open[side][1];
    for (int i = 0; i < t->p->at_count[a][b] && t->tries > 0; i++) {
        const choice *own = &t->p->choices[t->p->at[a][b][i]];
        if (s->cost + own->cost + ENOUGH >= t->best)
            return;
        if (!fits(s, own))
            continue;
        begun next = *s;
        put_cell(t->p, &next, own);
        t->tries--;
        t->now[depth] = t->p->at[a][b][i];
        if (next.cost + next.rest + ENOUGH < t->best)
            look(t, &next, depth + 1);
    }
}

/* Covers the patch anew where that is cheaper; whether it did. */
int finishing_mend(cover *c, patch *p, int tries) {
    trial t = {.p = p, .tries = tries, .best = p->cost};
    begun first = {0};
    uint32_t group = c->lent->groups[p->cells[0]];
    if (!finishing_choices(p, c))
        return 0;
    for (int i = 0; i < p->border_count; i++)
        open_side(p, &first, p->border[i][0], p->border[i][1]);
    look(&t, &first, 0);
    if (!t.found_count)
        return 0;
    for (int i = 0; i < p->cell_count; i++)
        finishing_drop(c, p->cells[i]);
    for (int i = 0; i < t.found_count; i++) {
        const choice *own = &p->choices[t.found[i]];
        uint32_t nodes[4];
        for (int k = 0; k < own->width; k++)
            nodes[k] = p->nodes[own->nodes[k]];
        finishing_put(c, nodes, own->width, group);
    }
    return 1;
}

/* The cells that cost more than a good quad, as they stand, the costliest first: the nodes of each. NULL without memory. */
static uint32_t *costly(const cover *c, double limit, double price, size_t *count) {
    heap found = {0};
    uint32_t *cells = malloc((4 * c->lent->capacity + 1) * sizeof *cells);
    int enough = cells != NULL;
    for (uint32_t cell = 0; enough && cell < c->lent->capacity; cell++)
        if (!is_free(c, cell) && (is_triangle(c, cell) || finishing_quad_worth(c, c->cells + 4 * (size_t)cell) < limit))
            enough = finishing_push(&found, -finishing_cost(c, c->cells + 4 * (size_t)cell, width_of(c, cell), limit, price), 0, cell);
    for (*count = 0; enough && found.count; ++*count)
        memcpy(cells + 4 * *count, c->cells + 4 * (size_t)finishing_pop(&found).what, 4 * sizeof *cells);
    free(found.entries);
    if (!enough) {
        free(cells);
        return NULL;
    }
    return cells;
}

/* The slot of a cell; NONE where it is not there any more. */
static uint32_t slot_of(const cover *c, const uint32_t *nodes) {
    uint32_t half = finishing_find(c, nodes[0], nodes[1]), slot = half / 4;
    if (half == NONE)
        return NONE;
    int wide = nodes[3] == NONE ? 3 : 4, at = (int)(half % 4);
    if (width_of(c, slot) != wide)
        return NONE;
    for (int i = 0; i < wide; i++)
        if (c->cells[4 * (size_t)slot + (at + i) % wide] != nodes[i])
            return NONE;
    return slot;
}

/* Whether a node of the patch was in one that the round before, or this one, has covered anew. */
static int is_touched(const patch *p, const unsigned char *touched, int round) {
    for (int i = 0; i < p->node_count; i++)
        if (touched[p->nodes[i]] >= round)
            return 1;
    return 0;
}

/* Patches around a cell, one larger than the other, until one is mended; whether one was. After the first round only where something has changed. */
static int mended(cover *c, patch *p, const uint32_t *nodes, double limit, double price, int most_nodes, int tries, unsigned char *touched, int round) {
    uint32_t cell = slot_of(c, nodes);
    if (cell == NONE || (round && finishing_patch(p, c, cell, most_nodes, limit, price) && !is_touched(p, touched, round)))
        return 0;
    for (int size = LEAST_NODES; size <= most_nodes; size += 4)
        if (finishing_patch(p, c, cell, size, limit, price) > 1 && finishing_mend(c, p, tries)) {
            for (int i = 0; i < p->node_count; i++)
                touched[p->nodes[i]] = (unsigned char)(round + 1);
            return 1;
        }
    return 0;
}

size_t sedgepick_finish_mend(sedgepick_cover *lent, double limit, double price, size_t most_nodes, size_t tries, size_t *done) {
    cover c;
    size_t fault = finishing_open(&c, lent), before = 1;
    if (fault)
        return fault;
    patch *p = malloc(sizeof *p);
    unsigned char *touched = calloc(lent->point_count + 1, 1);
    int most = most_nodes < PATCH_NODES ? (int)most_nodes : PATCH_NODES;
    *done = 0;
    if (!p || !touched)
        fault = FINISHING_NO_MEMORY;
    for (int round = 0; round < ROUNDS && !fault && before; round++) {
        size_t count = 0;
        uint32_t *cells = costly(&c, limit, price, &count);
        before = 0;
        for (size_t i = 0; cells && i < count; i++)
            before += (size_t)mended(&c, p, cells + 4 * i, limit, price, most, (int)tries, touched, round);
        *done += before;
        if (!cells)
            fault = FINISHING_NO_MEMORY;
        free(cells);
    }
    free(touched);
    free(p);
    finishing_close(&c);
    return fault;
}
