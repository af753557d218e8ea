/* SPDX-License-Identifier: MIT
 * Improvement: a quad under the limit is cut in two, and one half walks around to the other over quads that pass it. Where it cannot, the quad stays. */
#include "finishing.h"
#include <stdlib.h>
#include <string.h>

/* Cuts the quad by the diagonal from its node `corner`, and walks; whether that came to an end. */
static int walked_around(cover *c, search *way, uint32_t cell, int corner, size_t reach) {
    uint32_t quad[4], halves[2][3], group = c->lent->groups[cell], made[2];
    memcpy(quad, c->cells + 4 * (size_t)cell, sizeof quad);
    for (int i = 0; i < 3; i++) {
        halves[0][i] = quad[(corner + i) % 4];
        halves[1][i] = quad[(corner + 2 + i) % 4];
    }
    finishing_drop(c, cell);
    for (int i = 0; i < 2; i++)
        made[i] = finishing_put(c, halves[i], 3, group);
    if (finishing_walk(c, way, made[0], reach, made[1], NULL) || finishing_walk(c, way, made[1], reach, made[0], NULL))
        return 1;
    finishing_drop(c, made[1]);
    finishing_drop(c, made[0]);
    finishing_put(c, quad, 4, group);
    return 0;
}

/* The quads under the limit as they stand, the worst first; NULL without memory. */
static uint32_t *worst(const cover *c, size_t *count) {
    heap found = {0};
    uint32_t *quads = malloc((4 * c->lent->capacity + 1) * sizeof *quads);
    int enough = quads != NULL;
    for (uint32_t cell = 0; enough && cell < c->lent->capacity; cell++)
        if (is_quad(c, cell)) {
            double worth = finishing_quad_worth(c, c->cells + 4 * (size_t)cell);
            if (worth < c->lent->least_jacobian)
                enough = finishing_push(&found, worth, 0, cell);
        }
    for (*count = 0; enough && found.count; ++*count)
        memcpy(quads + 4 * *count, c->cells + 4 * (size_t)finishing_pop(&found).what, 4 * sizeof *quads);
    free(found.entries);
    if (!enough) {
        free(quads);
        return NULL;
    }
    return quads;
}

/* The slot of a quad; NONE where a walk took it away. */
static uint32_t slot_of(const cover *c, const uint32_t *quad) {
    uint32_t half = finishing_find(c, quad[0], quad[1]), other = finishing_find(c, quad[2], quad[3]);
    return half != NONE && other != NONE && half / 4 == other / 4 ? half / 4 : NONE;
}

size_t sedgepick_finish_improve(sedgepick_cover *lent, size_t reach, size_t *done) {
    cover c;
    size_t count = 0, fault = finishing_open(&c, lent);
    if (fault)
        return fault;
    search *way = finishing_search(reach, 0, 0);
    uint32_t *quads = worst(&c, &count);
    *done = 0;
    for (size_t i = 0; way && quads && i < count; i++) {
        uint32_t cell = slot_of(&c, quads + 4 * i);
        int better = cell != NONE && walked_around(&c, way, cell, 0, reach);
        if (cell != NONE && !better) {
            cell = slot_of(&c, quads + 4 * i);
            better = walked_around(&c, way, cell, 1, reach);
        }
        *done += better;
    }
    fault = way && quads ? FINISHING_DONE : FINISHING_NO_MEMORY;
    free(quads);
    finishing_search_free(way);
    finishing_close(&c);
    return fault;
}
