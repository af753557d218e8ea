/* SPDX-License-Identifier: MIT
 * Signs that floats are certain of, and how good a cell is. */
#include "finishing.h"
#include <math.h>

#define MARGIN 1e-9           /* of sines and cosines: quads are held to a little more than the judge asks */
#define TURN_ERROR 3.4e-16    /* relative error bounds of the two determinants (Shewchuk 1997), rounded up */
#define CIRCLE_ERROR 1.2e-15

static const double *at(const cover *c, uint32_t node) {
    return c->points + 2 * (size_t)node;
}

/* 1 where a, b, d turn left, -1 where they turn right, 0 where floats cannot tell. */
int finishing_turn(const cover *c, uint32_t a, uint32_t b, uint32_t d) {
    const double *p = at(c, a), *q = at(c, b), *r = at(c, d);
    double left = (q[0] - p[0]) * (r[1] - p[1]), right = (q[1] - p[1]) * (r[0] - p[0]);
    double value = left - right, bound = TURN_ERROR * (fabs(left) + fabs(right));
    return value > bound ? 1 : value < -bound ? -1 : 0;
}

/* 1 where s is inside the circle through p, q, r, which turn left; -1 where it is outside; 0 where floats cannot tell. */
int finishing_in_circle(const cover *c, uint32_t p, uint32_t q, uint32_t r, uint32_t s) {
    const double *o = at(c, s), *points[3] = {at(c, p), at(c, q), at(c, r)};
    double x[3], y[3], value = 0, bound = 0;
    for (int i = 0; i < 3; i++) {
        x[i] = points[i][0] - o[0];
        y[i] = points[i][1] - o[1];
    }
    for (int i = 0; i < 3; i++) {
        int j = (i + 1) % 3, k = (i + 2) % 3;
        double lift = x[i] * x[i] + y[i] * y[i], one = x[j] * y[k], other = x[k] * y[j];
        value += lift * (one - other);
        bound += lift * (fabs(one) + fabs(other));
    }
    bound *= CIRCLE_ERROR;
    return value > bound ? 1 : value < -bound ? -1 : 0;
}

/* The sine and the cosine of the corner at b. */
static void corner(const cover *c, uint32_t a, uint32_t b, uint32_t d, double *sine, double *cosine) {
    const double *p = at(c, a), *o = at(c, b), *q = at(c, d);
    double ux = q[0] - o[0], uy = q[1] - o[1], vx = p[0] - o[0], vy = p[1] - o[1];
    double lengths = sqrt((ux * ux + uy * uy) * (vx * vx + vy * vy));
    *sine = lengths > 0 ? (ux * vy - uy * vx) / lengths : -1;
    *cosine = lengths > 0 ? (ux * vx + uy * vy) / lengths : 1;
}

/* The scaled Jacobian; -1 where a corner is too sharp. */
double finishing_quad_worth(const cover *c, const uint32_t *quad) {
    double least = 1, sine, cosine;
    for (int i = 0; i < 4; i++) {
        corner(c, quad[(i + 3) % 4], quad[i], quad[(i + 1) % 4], &sine, &cosine);
        if (cosine > c->lent->largest_cosine - MARGIN)
            return -1;
        least = sine < least ? sine : least;
    }
    return least;
}

int finishing_good(const cover *c, const uint32_t *quad) {
    return finishing_quad_worth(c, quad) >= c->lent->least_jacobian + MARGIN;
}

/* The sine of the least angle; negative where the triangle is clockwise. */
double finishing_triangle_sine(const cover *c, const uint32_t *triangle) {
    double least = 1, sine, cosine;
    for (int i = 0; i < 3; i++) {
        corner(c, triangle[(i + 2) % 3], triangle[i], triangle[(i + 1) % 3], &sine, &cosine);
        least = sine < least ? sine : least;
    }
    return least;
}
