/* SPDX-License-Identifier: MIT
 * The cover: cells by their slots, and half edges by the node that they leave. */
#include "finishing.h"
#include <stdlib.h>
#include <string.h>
#include <xmmintrin.h>

#define DEFAULT_MXCSR 0x1F80u /* to nearest, subnormal numbers kept, every exception masked, no flag set: as in sedgepick_guard.c */

static uint64_t key_of(uint32_t a, uint32_t b) {
    return a < b ? (uint64_t)a << 32 | b : (uint64_t)b << 32 | a;
}

static int by_key(const void *one, const void *other) {
    uint64_t a = *(const uint64_t *)one, b = *(const uint64_t *)other;
    return a < b ? -1 : a > b;
}

static uint32_t end_of(const cover *c, uint32_t half) {
    uint32_t cell = half / 4, place = half % 4 + 1;
    return c->cells[place < (uint32_t)width_of(c, cell) ? half + 1 : 4 * cell];
}

/* The half edge from one node to another; NONE where there is none. */
uint32_t finishing_find(const cover *c, uint32_t from, uint32_t to) {
    uint32_t half = c->first[from];
    while (half != NONE && end_of(c, half) != to)
        half = c->next[half];
    return half;
}

/* The third node of the triangle on the left of a side; NONE where there is no triangle. */
uint32_t finishing_apex(const cover *c, uint32_t from, uint32_t to) {
    uint32_t half = finishing_find(c, from, to);
    if (half == NONE || width_of(c, half / 4) != 3)
        return NONE;
    return c->cells[4 * (half / 4) + (half % 4 + 2) % 3];
}

int finishing_locked(const cover *c, uint32_t a, uint32_t b) {
    uint64_t key = key_of(a, b);
    return c->at_lock[a] && c->at_lock[b] && bsearch(&key, c->locked, c->locked_count, sizeof key, by_key) != NULL;
}

static void link_sides(cover *c, uint32_t cell) {
    for (int i = 0; i < width_of(c, cell); i++) {
        uint32_t half = 4 * cell + i, node = c->cells[half];
        c->next[half] = c->first[node];
        c->first[node] = half;
    }
}

/* Puts a cell into a free slot, and says which. There is one: no step has more cells than the triangles that the cover stands for. */
uint32_t finishing_put(cover *c, const uint32_t *nodes, int width, uint32_t group) {
    uint32_t cell = c->spare[--c->spare_count];
    c->cells[4 * cell + 3] = NONE;
    memcpy(c->cells + 4 * cell, nodes, width * sizeof *nodes);
    c->lent->groups[cell] = group;
    link_sides(c, cell);
    return cell;
}

void finishing_drop(cover *c, uint32_t cell) {
    for (int i = 0; i < width_of(c, cell); i++) {
        uint32_t half = 4 * cell + i, *link = &c->first[c->cells[half]];
        while (*link != half)
            link = &c->next[*link];
        *link = c->next[half];
    }
    c->cells[4 * cell] = NONE;
    c->spare[c->spare_count++] = cell;
}

/* The polygon of a triangle and the cell on the other side of one of its sides, from the end of that side on; its number of nodes, 0 where one comes twice. */
int finishing_around(const cover *c, const uint32_t *triangle, int side, uint32_t other, uint32_t *polygon) {
    uint32_t a = triangle[side], b = triangle[(side + 1) % 3];
    int wide = width_of(c, other), at = 0, count = 3;
    polygon[0] = b;
    polygon[1] = triangle[(side + 2) % 3];
    polygon[2] = a;
    while (c->cells[4 * other + at] != a)
        at++;
    for (int i = 1; i < wide - 1; i++)
        polygon[count++] = c->cells[4 * other + (at + i) % wide];
    for (int i = 3; i < count; i++)
        if (polygon[i] == polygon[1])
            return 0;
    return count;
}

static int nodes_in_range(const sedgepick_cover *lent) {
    for (size_t i = 0; i < 4 * lent->count; i++)
        if (lent->cells[i] >= lent->point_count && !(i % 4 == 3 && lent->cells[i] == NONE))
            return 0;
    for (size_t i = 0; i < 2 * lent->locked_count; i++)
        if (lent->locked[i] >= lent->point_count)
            return 0;
    return 1;
}

static void lock(cover *c) {
    const uint32_t *locked = c->lent->locked;
    for (size_t i = 0; i < c->locked_count; i++) {
        c->locked[i] = key_of(locked[2 * i], locked[2 * i + 1]);
        c->at_lock[locked[2 * i]] = c->at_lock[locked[2 * i + 1]] = 1;
    }
    qsort(c->locked, c->locked_count, sizeof *c->locked, by_key);
}

static size_t link_all(cover *c) {
    for (uint32_t cell = 0; cell < c->lent->count; cell++) {
        int wide = width_of(c, cell);
        for (int i = 0; i < wide; i++)
            if (finishing_find(c, c->cells[4 * cell + i], c->cells[4 * cell + (i + 1) % wide]) != NONE)
                return FINISHING_SIDE_TWICE;
        link_sides(c, cell);
    }
    return FINISHING_DONE;
}

/* Links the half edges of the lent cells, and sets the floating point to its default until finishing_close: a caller may have set another rounding mode, FTZ, DAZ or
 * traps. On anything but FINISHING_DONE nothing is held, and nothing is set. */
size_t finishing_open(cover *c, sedgepick_cover *lent) {
    size_t slots = lent->capacity ? lent->capacity : 1, points = lent->point_count ? lent->point_count : 1;
    memset(c, 0, sizeof *c);
    if (!nodes_in_range(lent))
        return FINISHING_BAD_NODE;
    c->lent = lent;
    c->points = lent->points;
    c->cells = lent->cells;
    c->locked_count = lent->locked_count;
    c->first = malloc(points * sizeof *c->first);
    c->next = malloc(4 * slots * sizeof *c->next);
    c->spare = malloc(slots * sizeof *c->spare);
    c->locked = malloc((c->locked_count + 1) * sizeof *c->locked);
    c->at_lock = calloc(points, 1);
    if (!c->first || !c->next || !c->spare || !c->locked || !c->at_lock) {
        finishing_free(c);
        return FINISHING_NO_MEMORY;
    }
    memset(c->first, 0xff, points * sizeof *c->first);
    for (size_t cell = lent->capacity; cell > lent->count; cell--) {
        c->cells[4 * (cell - 1)] = NONE;
        c->spare[c->spare_count++] = (uint32_t)(cell - 1);
    }
    lock(c);
    size_t fault = link_all(c);
    if (fault) {
        finishing_free(c);
        return fault;
    }
    c->callers = _mm_getcsr();
    _mm_setcsr(DEFAULT_MXCSR);
    return FINISHING_DONE;
}

/* Moves the cells to the front in the order of their slots, gives the memory back and puts the caller's floating point back. */
void finishing_close(cover *c) {
    size_t count = 0;
    for (uint32_t cell = 0; cell < c->lent->capacity; cell++)
        if (!is_free(c, cell)) {
            memmove(c->cells + 4 * count, c->cells + 4 * (size_t)cell, 4 * sizeof *c->cells);
            c->lent->groups[count++] = c->lent->groups[cell];
        }
    c->lent->count = count;
    finishing_free(c);
    _mm_setcsr(c->callers);
}

void finishing_free(cover *c) {
    free(c->first);
    free(c->next);
    free(c->spare);
    free(c->locked);
    free(c->at_lock);
}
