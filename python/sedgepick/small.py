"""Every small mesh, for acceptance runs."""
from __future__ import annotations
import ctypes
from typing import Iterator, List, Optional, Tuple
from . import library
from .front import Refused, numbers

Triangles = List[Tuple[int, int, int]]
LIST = 10               # words of the longest list: how many triangles it has, and three nodes each
OVER_LIMIT = 1
MOST_PLACE = 2 ** (8 * ctypes.sizeof(ctypes.c_size_t)) - 1


def small_mesh(points: int, place: int) -> Optional[Triangles]:
    """The list at a place, from 0, of all lists of one to three different triangles on 3, 4 or 5
    points; None where the order has ended.

    Each triangle has its nodes ascending, each list is ascending, and shorter lists come before
    longer ones, then by node numbers: 1, 14 and 175 lists.

    Raises Refused, with 1, for another number of points; ValueError for a place that is no whole
    number from 0 on; NoLibrary."""
    if int(place) != place or place < 0:
        raise ValueError('a place is a whole number from 0 on, not %r' % (place,))
    if points not in (3, 4, 5):
        raise Refused(OVER_LIMIT, 'points: %r; 3, 4 or 5' % (points,))
    found = numbers(LIST)
    refusal = library.load().sedgepick_small_mesh(
        int(points), min(int(place), MOST_PLACE), found, LIST
    )
    if refusal:
        raise Refused(refusal)
    return [
        (found[at], found[at + 1], found[at + 2]) for at in range(1, 1 + 3 * found[0], 3)
    ] or None


def small_meshes(points: int) -> Iterator[Triangles]:
    """All these lists, in their order."""
    place = 0
    while (found := small_mesh(points, place)) is not None:
        yield found
        place += 1
