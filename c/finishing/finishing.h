/* SPDX-License-Identifier: MIT
 * The finishing pass: a cover of a plane region by triangles and quads, and what its steps share.
 *
 * Each step takes a few cells out and puts others in that have the same directed border, so the sides of the cover balance throughout.
 * Signs are taken only where floats are certain of them; where they are not, a step leaves the cells as they are.
 * Nothing here is proved: what comes of the pass is judged by sedgepick_accept.
 * The answer depends on nothing but the arrays that are lent: there is no state, no randomness, and arithmetic is +, -, *, / and sqrt alone. */
#ifndef SEDGEPICK_FINISHING_H
#define SEDGEPICK_FINISHING_H
#include <stddef.h>
#include <stdint.h>

#define NONE UINT32_MAX

/* What a step returns. */
enum { FINISHING_DONE, FINISHING_NO_MEMORY, FINISHING_BAD_NODE, FINISHING_SIDE_TWICE };

/* The cells that are lent to a step, and come back changed. */
typedef struct {
    const double *points;     /* x and y of each */
    size_t point_count;
    uint32_t *cells;          /* 4 nodes each, counterclockwise; NONE is the last of a triangle */
    uint32_t *groups;         /* a number for each cell; a cell that is made has that of one it replaces */
    size_t count;             /* cells */
    size_t capacity;          /* room for so many */
    const uint32_t *locked;   /* 2 nodes each: edges that no step takes away */
    size_t locked_count;
    double least_jacobian;    /* that quads are held to */
    double largest_cosine;
} sedgepick_cover;

/* The cover with its half edges. Half edge 4 * cell + i is the side from node i of the cell to the next. */
typedef struct {
    sedgepick_cover *lent;
    const double *points;
    uint32_t *cells;
    uint32_t *first, *next;   /* the half edges that leave a node, as a list */
    uint32_t *spare;          /* free slots, whose first node is NONE */
    size_t spare_count;
    uint64_t *locked;         /* sorted */
    size_t locked_count;
    unsigned char *at_lock;   /* of each node, whether it is the end of a locked edge */
    unsigned callers;         /* the floating point that the caller has, MXCSR with its flags */
} cover;

/* cover.c */
size_t finishing_open(cover *c, sedgepick_cover *lent);
void finishing_close(cover *c);
void finishing_free(cover *c);
uint32_t finishing_put(cover *c, const uint32_t *nodes, int width, uint32_t group);
void finishing_drop(cover *c, uint32_t cell);
uint32_t finishing_find(const cover *c, uint32_t from, uint32_t to);
uint32_t finishing_apex(const cover *c, uint32_t from, uint32_t to);
int finishing_locked(const cover *c, uint32_t a, uint32_t b);
int finishing_around(const cover *c, const uint32_t *triangle, int side, uint32_t other, uint32_t *polygon);

static inline int width_of(const cover *c, uint32_t cell) { return c->cells[4 * (size_t)cell + 3] == NONE ? 3 : 4; }
static inline int is_free(const cover *c, uint32_t cell) { return c->cells[4 * (size_t)cell] == NONE; }
static inline int is_triangle(const cover *c, uint32_t cell) { return !is_free(c, cell) && width_of(c, cell) == 3; }
static inline int is_quad(const cover *c, uint32_t cell) { return !is_free(c, cell) && width_of(c, cell) == 4; }

/* measure.c */
int finishing_turn(const cover *c, uint32_t a, uint32_t b, uint32_t d);
int finishing_in_circle(const cover *c, uint32_t p, uint32_t q, uint32_t r, uint32_t s);
double finishing_quad_worth(const cover *c, const uint32_t *quad);
double finishing_triangle_sine(const cover *c, const uint32_t *triangle);
int finishing_good(const cover *c, const uint32_t *quad);

/* heap.c: the least key first, then the least tie, then the least number */
typedef struct { double key, tie; uint32_t what; } entry;
typedef struct { entry *entries; size_t count, room; } heap;
int finishing_push(heap *h, double key, double tie, uint32_t what);
entry finishing_pop(heap *h);

/* swaps.c */
int finishing_flip(cover *c, uint32_t a, uint32_t b, uint32_t *made);
void finishing_flip_back(cover *c, uint32_t a, uint32_t b);
int finishing_swap_from(cover *c, uint32_t *sides, size_t count, size_t room);

/* walks.c */
#define FEWER_POOR (NONE - 1) /* a goal of a walk that is no cell */
typedef struct search search;
search *finishing_search(size_t reach, double poor_under, int most_poor);
void finishing_search_free(search *s);
int finishing_walk(cover *c, search *s, uint32_t start, size_t reach, uint32_t goal, const double *toward);

/* The steps: each returns one of the numbers above and says how often it did what it does. */
size_t sedgepick_finish_take_in(sedgepick_cover *lent, const uint32_t *quads, size_t quad_count, size_t *done);
size_t sedgepick_finish_swap(sedgepick_cover *lent, size_t *done);
size_t sedgepick_finish_take_back(sedgepick_cover *lent, double thin_sine, size_t rounds, size_t *done);
size_t sedgepick_finish_pair(sedgepick_cover *lent, size_t *done);
size_t sedgepick_finish_walk(sedgepick_cover *lent, size_t reach, int nearest, double poor_under, int most_poor, size_t most, size_t *done);
size_t sedgepick_finish_wander(sedgepick_cover *lent, size_t reach, double poor_under, size_t *done);
size_t sedgepick_finish_improve(sedgepick_cover *lent, size_t reach, size_t *done);
size_t sedgepick_finish_mend(sedgepick_cover *lent, double poor_under, double price, size_t most_nodes, size_t tries, size_t *done);
#endif
