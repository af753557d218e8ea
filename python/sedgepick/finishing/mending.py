"""Patches around poor quads and leftover triangles covered anew."""
import ctypes
from .native import call

POOR = 0.5    # scaled Jacobian: quads under it are poor
NODES = 24    # of the largest patch
TRIES = 2000  # cells that a search puts
PRICE = 2.5   # of a triangle, in poor quads


def mend(cover, least_jacobian, poor=POOR, nodes=NODES, tries=TRIES, price=PRICE):
    """(cover, how many): the cells around a poor quad or a leftover triangle are taken out together, and the cheapest cover of their place is looked for.

    A triangle costs as much as `price` poor quads, a poor quad more than any good ones. Where nothing cheaper is found in the patch, larger ones are tried, up to so many nodes."""
    return call('mend', cover, least_jacobian, ctypes.c_double(poor), ctypes.c_double(price), ctypes.c_size_t(nodes), ctypes.c_size_t(tries))
