"""Walks of leftover triangles through quads, until two meet and become a quad."""
import ctypes
from .native import call

REACHES = 40, 400, 4000, 12000  # states that a walk looks at, one round after the other
ALL = 1 << 31


def walk(cover, least_jacobian, reaches=REACHES, poor=0.0, most_poor=0, most=ALL):
    """(cover, how many): a triangle and a quad beside it are a pentagon, which has five cuts; by such cuts each leftover triangle is led the cheapest way to another.

    Every quad on the way passes the limit, and no locked edge is crossed. Quads with a scaled Jacobian under `poor` are gone around; a way that would leave more than
    `most_poor` of them, beyond those that were there, is not taken; `most` ways are. After the first round, which finds what is near, a walk is drawn toward the nearest."""
    total = 0
    for place, reach in enumerate(reaches):
        cover, done = call('walk', cover, least_jacobian, ctypes.c_size_t(reach), ctypes.c_int(place > 0), ctypes.c_double(poor), ctypes.c_int(most_poor), ctypes.c_size_t(most - total))
        total += done
    return cover, total
