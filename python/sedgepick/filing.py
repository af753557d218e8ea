"""The filing order of meshes, by which an archive can keep them sorted."""
from __future__ import annotations
from functools import total_ordering
from typing import Any, Tuple
from . import library
from .front import MOST_GIVEN, Cells, Points, Refused, doubles, lent, node_numbers, numbers

BEFORE, SAME, AFTER = -1, 0, 1
# by the library's answer, which is no refusal's number
ORDERS = {100: BEFORE, 101: SAME, 102: AFTER}
WORK = 4                                       # words for each triangle


Pair = Tuple[Points, Cells]


def slices(points: Points, triangles: Cells) -> tuple[Any, ...]:
    """(slices with their lengths, given, count) of one mesh. One over the limits is refused before
    its slices are looked at."""
    flat_points, flat_triangles = doubles(points), node_numbers(triangles, 3, 'triangles')
    given, count = len(points), len(triangles)
    work = numbers(WORK * count if count <= MOST_GIVEN else 0)
    xyz = (library.REAL * max(len(flat_points), 1))(*flat_points)
    return (
        xyz, len(flat_points), lent(flat_triangles), len(flat_triangles), work, len(work), given,
        count,
    )


def filing_order(first: Pair, second: Pair) -> int:
    """How the first mesh stands to the second, each its points and its triangles: BEFORE (-1), SAME
    (0) or AFTER (1).

    Meshes are compared by point count, by each point's x and y in turn, by triangle count, then by
    the triangles, each from its smallest node on and the list ascending. Zeros of either sign are
    equal, and z is not read. Two are the same exactly when their points agree and their triangles
    agree up to rotation and list order, repeats counted. It is a total order.

    Raises Refused, with the first refusal of the first mesh, else of the second: 1 over 4,096
    points or triangles, 5 a node that is no point, 6 a node twice, 7 an x or y that is not finite
    or is beyond 8. ValueError for lists of another shape, NoLibrary."""
    answer = library.load().sedgepick_filing_order(*slices(*first), *slices(*second))
    if answer not in ORDERS:
        raise Refused(answer)
    return ORDERS[answer]


@total_ordering
class Filed:
    """A mesh in the order of the archive: any two can be compared, and a list of them sorted.

    Raises Refused where the mesh does not pass the tests of filing_order. It compares by what
    `points` and `triangles` hold, and has no hash."""

    def __init__(self, points: Points, triangles: Cells) -> None:
        self.points, self.triangles = points, triangles
        filing_order((points, triangles), (points, triangles))

    def order(self, other: 'Filed') -> int:
        return filing_order((self.points, self.triangles), (other.points, other.triangles))

    def __eq__(self, other: object) -> bool:
        if not isinstance(other, Filed):
            return NotImplemented
        return self.order(other) == SAME

    def __lt__(self, other: 'Filed') -> bool:
        return self.order(other) == BEFORE if isinstance(other, Filed) else NotImplemented
