"""Leftover triangles in groups of an even number, for the even rule: quads between two odd groups are taken back, so that the two become one."""
import math
from collections import deque
import numpy
from .covers import NONE
from .taking_back import THIN


class Groups:
    """The cells, those of one group of triangles joined; a quad that is opened counts as two triangles."""

    def __init__(self, cover, thin):
        self.near = neighbours(cover.cells)
        self.open = (cover.cells[:, 3] == NONE).tolist()
        self.cuts = best_cuts(cover, thin)
        self.parent = list(range(len(self.open)))
        self.members = {cell: [cell] for cell, is_open in enumerate(self.open) if is_open}
        self.odd = set(self.members)
        for cell in sorted(self.members):
            for other in self.near[cell]:
                if self.open[other]:
                    self.join(cell, other)

    def root(self, cell):
        while self.parent[cell] != cell:
            self.parent[cell] = self.parent[self.parent[cell]]
            cell = self.parent[cell]
        return cell

    def join(self, one, other):
        """Two groups become one; it is odd where one of the two was."""
        one, other = sorted((self.root(one), self.root(other)), key=lambda root: (-len(self.members[root]), root))
        if one != other:
            self.parent[other] = one
            self.members[one] += self.members.pop(other)
            odd = (one in self.odd) != (other in self.odd)
            self.odd -= {one, other}
            self.odd |= {one} if odd else set()

    def way(self, root):
        """The quads between an odd group and the nearest other one; None where there is no way."""
        before, waiting = {cell: None for cell in self.members[root]}, deque(sorted(self.members[root]))
        while waiting:
            cell = waiting.popleft()
            if self.open[cell] and self.root(cell) != root and self.root(cell) in self.odd:
                found = []
                while cell is not None:
                    found, cell = found + [cell], before[cell]
                return found
            for other in self.near[cell]:
                if other not in before and (self.open[other] or self.cuts[other] >= 0):
                    before[other] = cell
                    (waiting.appendleft if self.open[other] else waiting.append)(other)
        return None

    def take_back(self, way):
        """Opens the quads of a way; those."""
        opened = [cell for cell in way if not self.open[cell]]
        for cell in opened:
            self.open[cell], self.members[cell] = True, [cell]  # two triangles: even
        for cell in opened:
            for other in self.near[cell]:
                if self.open[other]:
                    self.join(cell, other)
        return opened


def neighbours(cells):
    """For each cell the cells across its sides."""
    width = numpy.where(cells[:, 3] == NONE, 3, 4)
    sides = {}
    for cell, (nodes, wide) in enumerate(zip(cells.tolist(), width.tolist())):
        for i in range(wide):
            sides[nodes[i], nodes[(i + 1) % wide]] = cell
    near = [[] for _ in range(len(cells))]
    for (a, b), cell in sides.items():
        if (b, a) in sides:
            near[cell].append(sides[b, a])
    return near


def best_cuts(cover, thin):
    """For each cell the corner from which a quad is cut into the better triangles, 0 or 1; -1 where both cuts have one under `thin` degrees, and for triangles."""
    found = numpy.full(len(cover.cells), -1)
    quads = numpy.flatnonzero(cover.cells[:, 3] != NONE)
    if not len(quads):
        return found.tolist()
    cells = cover.cells[quads].astype(numpy.int64)
    sines = numpy.array([numpy.minimum(sine(cover.points, cells[:, [i, i + 1, i + 2]]), sine(cover.points, cells[:, [i, i + 2, (i + 3) % 4]])) for i in (0, 1)])
    found[quads] = numpy.where(sines.max(axis=0) >= math.sin(math.radians(thin)), sines.argmax(axis=0), -1)
    return found.tolist()


def sine(points, triangles):
    """Of the least angle of each."""
    least = numpy.ones(len(triangles))
    for i in range(3):
        here = points[triangles[:, i]]
        u, v = points[triangles[:, (i + 1) % 3]] - here, points[triangles[:, (i + 2) % 3]] - here
        least = numpy.minimum(least, (u[:, 0] * v[:, 1] - u[:, 1] * v[:, 0]) / numpy.sqrt((u ** 2).sum(axis=1) * (v ** 2).sum(axis=1)))
    return least


def even_groups(cover, thin=THIN):
    """(cover, quads taken back): the odd groups of leftover triangles joined two by two, as far as they lie in one piece; a piece with an odd number keeps one."""
    groups, opened, stuck = Groups(cover, thin), [], set()
    while groups.odd - stuck:
        root = min(groups.odd - stuck)
        way = groups.way(root)
        if way is None:
            stuck.add(root)
        else:
            opened += groups.take_back(way)
    if not opened:
        return cover, 0
    cells, made, labels = cover.cells.copy(), [], []
    for cell in opened:
        quad, i = cover.cells[cell], groups.cuts[cell]
        cells[cell] = quad[i], quad[i + 1], quad[i + 2], NONE
        made.append((quad[i], quad[i + 2], quad[(i + 3) % 4], NONE))
        labels.append(cover.groups[cell])
    return cover.with_cells(numpy.concatenate([cells, numpy.array(made, dtype=numpy.uint32)]), numpy.concatenate([cover.groups, numpy.array(labels, dtype=numpy.uint32)])), len(opened)
