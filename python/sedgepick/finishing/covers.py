"""A cover of a plane region by triangles and quads, as the steps of the finishing pass take it and give it back."""
from dataclasses import dataclass, replace
import numpy

NONE = 0xffffffff  # the last node of a triangle


class Overlaps(ValueError):
    """Two cells lie on the same side of an edge: the triangles lie over each other, and the steps cannot tell which is which."""


@dataclass(frozen=True)
class Cover:
    """Cells over points. No array of it is changed: a step gives a new cover."""
    points: object          # x and y of each, floats
    cells: object           # four nodes each, counterclockwise; the last of a triangle is NONE
    groups: object          # a number for each cell
    locked: object          # pairs of nodes: edges that no step takes away
    largest_cosine: float   # of a quad's corner

    def quads(self):
        return self.cells[self.cells[:, 3] != NONE].astype(numpy.int64)

    def triangles(self):
        return self.cells[self.cells[:, 3] == NONE, :3].astype(numpy.int64)

    def with_cells(self, cells, groups):
        return replace(self, cells=cells, groups=groups)


def cover_of(points, triangles, quads=(), locked=(), groups=None, largest_cosine=0.90630778703665):
    """The cover of triangles and quads: the triangles' cells come first, and `groups` has their numbers, then the quads'.

    >>> cover_of([(0, 0), (1, 0), (1, 1)], [(0, 1, 2)]).triangles()
    array([[0, 1, 2]])
    """
    triangles = numpy.asarray(triangles, dtype=numpy.int64).reshape(-1, 3)
    quads = numpy.asarray(quads, dtype=numpy.int64).reshape(-1, 4)
    cells = numpy.full((len(triangles) + len(quads), 4), NONE, dtype=numpy.uint32)
    cells[:len(triangles), :3] = triangles
    cells[len(triangles):] = quads
    groups = numpy.zeros(len(cells), dtype=numpy.uint32) if groups is None else numpy.asarray(groups, dtype=numpy.uint32)
    points = numpy.ascontiguousarray(numpy.asarray(points, dtype=numpy.float64)[:, :2])
    return Cover(points, cells, groups, numpy.asarray(locked, dtype=numpy.uint32).reshape(-1, 2), largest_cosine)
