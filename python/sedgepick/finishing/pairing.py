"""Pairs of triangles made quads."""
from .native import call


def pair(cover, least_jacobian):
    """(cover, how many): two triangles with an unlocked side between them become a quad, where it passes the limit.

    The triangle with the fewest partners goes first, with its best one: a greedy matching (Karp and Sipser 1981)."""
    return call('pair', cover, least_jacobian)
