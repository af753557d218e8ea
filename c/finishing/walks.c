/* SPDX-License-Identifier: MIT
 * Walks: a triangle and a quad beside it are a pentagon, which has five cuts into a triangle and a quad. So a leftover triangle can be led through quads until it
 * meets another, with which it makes a quad. The way is a cheapest one (Dijkstra; A* where a place pulls). */
#include "finishing.h"
#include <math.h>
#include <stdlib.h>
#include <string.h>

#define LEAST_SINE 0.342      /* of a walking triangle's least angle, 20 degrees, unless it begins thinner */
#define PULL 0.5              /* toward a place, to each length of the first triangle's longest side */
#define STEP 1.5              /* what a step costs, less the scaled Jacobian of the quad that it makes */
#define SLACK 16              /* states that one expansion may go beyond the reach */
#define DETOUR 3.0            /* what a poor quad that a step makes costs in addition */

/* A triangle on its way. */
typedef struct {
    uint32_t triangle[3];
    uint32_t before;          /* the state that it comes from; NONE is the first */
    uint32_t other;           /* the cell that its step takes away: a quad, of the first state the triangle itself */
    uint32_t quad[4];         /* that its step makes */
    double cost;
    int poor;                 /* quads that the way makes poor, less the poor ones that it takes away */
} state;

struct search {
    state *states;
    size_t count;
    heap open;
    uint32_t *table, *stamp;  /* the triangles that were reached, by hash: the state, where the stamp is that of the walk */
    size_t mask;
    uint32_t walk;
    double poor_under;        /* scaled Jacobian of a poor quad */
    int most_poor;            /* more than so many poor quads no way leaves */
};

/* A search of so many states. A way may leave as many more quads poor, with a scaled Jacobian under the limit, as `most_poor` says. */
search *finishing_search(size_t reach, double poor_under, int most_poor) {
    search *s = calloc(1, sizeof *s);
    size_t room = 64;
    while (room < 4 * (reach + SLACK))
        room *= 2;
    if (!s)
        return NULL;
    s->mask = room - 1;
    s->poor_under = poor_under;
    s->most_poor = most_poor;
    s->states = malloc((reach + SLACK) * sizeof *s->states);
    s->table = malloc(room * sizeof *s->table);
    s->stamp = calloc(room, sizeof *s->stamp);
    if (!s->states || !s->table || !s->stamp) {
        finishing_search_free(s);
        return NULL;
    }
    return s;
}

void finishing_search_free(search *s) {
    if (s) {
        free(s->states);
        free(s->table);
        free(s->stamp);
        free(s->open.entries);
        free(s);
    }
}

static void set_triangle(uint32_t *to, const uint32_t *from) {
    int least = from[1] < from[0] ? (from[2] < from[1] ? 2 : 1) : (from[2] < from[0] ? 2 : 0);
    for (int i = 0; i < 3; i++)
        to[i] = from[(least + i) % 3];
}

/* Notes the last state's triangle; whether it is new. */
static int is_new(search *s) {
    const uint32_t *t = s->states[s->count].triangle;
    uint64_t hash = (t[0] * UINT64_C(0x9e3779b97f4a7c15)) ^ (t[1] * UINT64_C(0xc2b2ae3d27d4eb4f)) ^ (t[2] * UINT64_C(0x165667b19e3779f9));
    size_t place = (hash ^ hash >> 29) & s->mask;
    for (; s->stamp[place] == s->walk; place = (place + 1) & s->mask)
        if (!memcmp(s->states[s->table[place]].triangle, t, 3 * sizeof *t))
            return 0;
    s->stamp[place] = s->walk;
    s->table[place] = (uint32_t)s->count;
    return 1;
}

static int is_used(const search *s, uint32_t at, uint32_t cell) {
    for (; at != NONE; at = s->states[at].before)
        if (s->states[at].other == cell)
            return 1;
    return 0;
}

static double pull(const cover *c, const uint32_t *t, const double *toward, double length) {
    if (!toward)
        return 0;
    double x = -toward[0], y = -toward[1];
    for (int i = 0; i < 3; i++) {
        x += c->points[2 * (size_t)t[i]] / 3;
        y += c->points[2 * (size_t)t[i] + 1] / 3;
    }
    return PULL * sqrt(x * x + y * y) / length;
}

static double longest_side(const cover *c, const uint32_t *t) {
    double longest = 0;
    for (int i = 0; i < 3; i++) {
        const double *p = c->points + 2 * (size_t)t[i], *q = c->points + 2 * (size_t)t[(i + 1) % 3];
        double length = sqrt((p[0] - q[0]) * (p[0] - q[0]) + (p[1] - q[1]) * (p[1] - q[1]));
        longest = length > longest ? length : longest;
    }
    return longest;
}

/* Takes the cells of the way out, and puts in the quads of its steps and the one at its end. */
static void follow(cover *c, const search *s, uint32_t at, uint32_t other, const uint32_t *end) {
    uint32_t group = c->lent->groups[other];
    finishing_drop(c, other);
    for (uint32_t k = at; k != NONE; k = s->states[k].before)
        finishing_drop(c, s->states[k].other);
    for (uint32_t k = at; s->states[k].before != NONE; k = s->states[k].before)
        finishing_put(c, s->states[k].quad, 4, group);
    finishing_put(c, end, 4, group);
}

/* Takes the cells of the way out, and puts in the quads of its steps and the triangle at its end. */
static void settle(cover *c, const search *s, uint32_t at) {
    uint32_t group = c->lent->groups[s->states[at].other];
    for (uint32_t k = at; k != NONE; k = s->states[k].before)
        finishing_drop(c, s->states[k].other);
    for (uint32_t k = at; s->states[k].before != NONE; k = s->states[k].before)
        finishing_put(c, s->states[k].quad, 4, group);
    finishing_put(c, s->states[at].triangle, 3, group);
}

static int is_poor(const cover *c, const search *s, const uint32_t *quad) {
    return finishing_quad_worth(c, quad) < s->poor_under;
}

/* The cuts of a pentagon as states after `at`; whether there was memory. */
static int cut(const cover *c, search *s, uint32_t at, uint32_t other, const uint32_t *pentagon, double least, const double *toward, double length) {
    for (int i = 0; i < 5; i++) {
        uint32_t triangle[3], quad[4];
        for (int j = 0; j < 3; j++)
            triangle[j] = pentagon[(i + j) % 5];
        for (int j = 0; j < 4; j++)
            quad[j] = pentagon[(i + 2 + j) % 5];
        state *made = &s->states[s->count];
        set_triangle(made->triangle, triangle);
        if (finishing_triangle_sine(c, triangle) < least || !finishing_good(c, quad) || !is_new(s))
            continue;
        made->before = at;
        made->other = other;
        memcpy(made->quad, quad, sizeof quad);
        made->poor = s->states[at].poor + is_poor(c, s, quad) - is_poor(c, s, c->cells + 4 * (size_t)other);
        made->cost = s->states[at].cost + STEP - finishing_quad_worth(c, quad) + DETOUR * is_poor(c, s, quad);
        if (!finishing_push(&s->open, made->cost + pull(c, triangle, toward, length), (double)s->count, (uint32_t)s->count))
            return 0;
        s->count++;
    }
    return 1;
}

/* Leads the triangle to another, or to the goal where there is one; with FEWER_POOR for a goal, to a place that leaves fewer poor quads behind, where it stays.
 * Whether it did. Nothing changes where it does not. A way takes a quad once, so that its steps do
 * not meddle with each other; `reach` states are looked at, at most as many as the search was made for. */
int finishing_walk(cover *c, search *s, uint32_t start, size_t reach, uint32_t goal, const double *toward) {
    const uint32_t *first = c->cells + 4 * (size_t)start;
    double least = finishing_triangle_sine(c, first), length = longest_side(c, first);
    least = least < LEAST_SINE ? least : LEAST_SINE;
    s->count = s->open.count = 0;
    s->walk++;
    set_triangle(s->states[0].triangle, first);
    s->states[0].before = NONE;
    s->states[0].other = start;
    s->states[0].cost = 0;
    s->states[0].poor = 0;
    is_new(s);
    s->count = 1;
    if (!(least > 0) || !finishing_push(&s->open, 0, 0, 0))
        return 0;
    while (s->open.count && s->count < reach) {
        uint32_t at = finishing_pop(&s->open).what;
        if (goal == FEWER_POOR && s->states[at].poor < 0) {
            settle(c, s, at);
            return 1;
        }
        for (int side = 0; side < 3; side++) {
            const uint32_t *t = s->states[at].triangle;
            uint32_t half = finishing_find(c, t[(side + 1) % 3], t[side]), other = half / 4, polygon[5];
            if (half == NONE || finishing_locked(c, t[side], t[(side + 1) % 3]) || is_used(s, at, other) || !finishing_around(c, t, side, other, polygon))
                continue;
            if (is_quad(c, other)) {
                if (!cut(c, s, at, other, polygon, least, toward, length))
                    return 0;
            } else if ((goal == NONE || goal == other) && finishing_good(c, polygon) && s->states[at].poor + is_poor(c, s, polygon) <= s->most_poor) {
                follow(c, s, at, other, polygon);
                return 1;
            }
        }
    }
    return 0;
}
