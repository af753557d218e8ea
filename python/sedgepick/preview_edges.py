"""What each front edge of a file would give, part by part as a run takes them: the same size,
joints, quality set, stop rule and profile."""
from __future__ import annotations
from collections import Counter
from dataclasses import dataclass
import numpy
from . import parts, sheets
from .arrays import Floats
from .front import MOST_CAPACITY
from .insertions import find_inserted
from .previews import Preview, preview_front
from .sizes import best_run


@dataclass
class Edge:
    """A front edge and what it would give, in the file's nodes, from 0, and units."""
    ends: tuple[int, int]  # its triangle lies on the left from the first to the second
    # x and y of the ends, then of the triangle's third node; of its middle, where it has another
    # front edge
    places: Floats
    shown: Preview    # its quad has the part's node numbers
    nodes: tuple[int | None, ...] = ()  # of the quad; None for one that would be inserted
    corners: Floats | None = None
    jacobian: float = 0.0


@dataclass
class Looked:
    """The front edges of all parts."""
    edges: list[Edge]
    sizes: list[float]  # of each part
    joints: list[int]   # how many edges of each part are locked
    sheet: sheets.Sheet | None  # of the quads that the edges would give, in their order

    def quads(self):
        return [edge for edge in self.edges if edge.nodes]

    def refused(self, kind=None):
        return [
            edge for edge in self.edges if edge.shown.refused and kind in (None, edge.shown.refused)
        ]


def looked(plan, stop, quality, sizes=None, progress=None, jobs=None):
    """The front of each part before its run; `sizes` are those that a run took, where there was
    one."""
    def one(which):
        own = plan.fitted(which)
        size = own.size
        if size is None:
            size = (
                sizes[which] * own.placed.scale if sizes
                else best_run(
                    own.points, own.triangles, None, stop, quality=quality, joints=own.joints,
                    grid=plan.grid,
                )[0]
            )
        found = preview_front(own.points, own.triangles, size, stop, quality, own.joints, plan.grid)
        return *of_part(plan, own, size, found), size / own.placed.scale, len(own.joints)

    answers = parts.each(plan, one, progress, jobs)
    return Looked(
        [edge for edges, *_ in answers for edge in edges], [size for *_, size, _ in answers],
        [joints for *_, joints in answers], sheets.join([sheet for _, sheet, *_ in answers]),
    )


def of_part(plan, own, size, found):
    """(edges, sheet) of what was found for a part's front."""
    points = plan.points[own.nodes][:, :2]
    number, around = plan.origin[own.nodes], owners(own.triangles)
    fronts = Counter(around[pair][2] for pair in found)
    edges, fitted = [], []
    for pair, shown in found.items():
        a, b, cell = around[pair]
        (third,) = set(cell) - {a, b}
        edge = Edge(
            (int(number[a]), int(number[b])),
            numpy.array(
                [
                    points[a], points[b],
                    points[third] if fronts[cell] == 1 else points[list(cell)].mean(axis=0),
                ]
            ),
            shown,
        )
        if shown.quad:
            nodes = shown.quad.nodes
            there = (
                find_inserted(own.points, own.triangles, nodes, size) if shown.insertions
                else numpy.zeros((0, 2))
            )
            edge.nodes = tuple(int(number[node]) if node < len(points) else None for node in nodes)
            edge.corners = numpy.concatenate([points, own.placed.back(there)])[list(nodes)]
            fitted.append(numpy.concatenate([own.points, there])[list(nodes)])
        edges.append(edge)
    sheet = measure(fitted)
    for edge, (jacobian, _) in zip((edge for edge in edges if edge.nodes), sheet.metrics):
        edge.jacobian = float(jacobian)
    return edges, sheet


def owners(triangles):
    """{(u, v): (a, b, triangle)}: the edges, u below v, each from a to b with a triangle on its
    left."""
    found = {}
    for cell in triangles.tolist():
        for a, b in zip(cell, cell[1:] + cell[:1]):
            found[min(a, b), max(a, b)] = a, b, tuple(cell)
    return found


def measure(quads):
    """The library's sheet of quads by their corners' places."""
    most = MOST_CAPACITY // 4
    sheet = lambda some: sheets.sheet(
        numpy.array(some).reshape(-1, 2), numpy.arange(4 * len(some)).reshape(-1, 4)
    )
    return sheets.join([sheet(quads[i:i + most]) for i in range(0, max(len(quads), 1), most)])
