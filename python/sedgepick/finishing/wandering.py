"""Leftover triangles led to where they leave fewer poor quads."""
import ctypes
from .mending import POOR
from .native import call

REACH = 4000  # states that a walk looks at


def wander(cover, least_jacobian, poor=POOR, reach=REACH):
    """(cover, how many): a leftover triangle goes the cheapest way to a place at which fewer quads have a scaled Jacobian under `poor` than before, and stays there."""
    return call('wander', cover, least_jacobian, ctypes.c_size_t(reach), ctypes.c_double(poor))
