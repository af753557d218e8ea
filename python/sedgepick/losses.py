"""What a run lost of the file's lines, points and borders of surfaces; and the checks of its
result."""
from __future__ import annotations
from dataclasses import dataclass
import numpy
from . import groups, quality
from .arrays import Wholes
from .front import GRID_LINES
from .joints import Hard
from .surfaces import Fault

SLACK = 1e-9  # of the area: what the sums of areas may differ by


@dataclass
class Loss:
    """Edges or nodes of one kind and group: how many there were, and those lost."""
    what: str
    total: int
    lost: Wholes   # nodes, or pairs of nodes

    def stand(self):
        return (
            '%d of %d lost' % (len(self.lost), self.total) if len(self.lost)
            else 'all %d stand' % self.total if self.total > 1 else 'it stands'
        )

    def words(self):
        return '%s: %s' % (self.what, self.stand())


def find_losses(surface, result):
    """What there was, kind by kind; most have nothing lost."""
    edges = numpy.unique(quality.edge_keys(result.quads, result.triangles))
    nodes = numpy.unique(numpy.concatenate([result.quads.ravel(), result.triangles.ravel()]))
    given = numpy.unique(surface.triangles.cells)
    found = []
    lines = surface.lines.cells
    inside = numpy.isin(quality.keys(lines), quality.keys(quality.sides(surface.triangles.cells)))
    labels = numpy.array([surface.lines.label(i) for i in range(len(lines))], dtype=object)
    for label in sorted(set(labels[inside])):
        own = lines[inside & (labels == label)]
        found.append(
            Loss('line edges (%s)' % label, len(own), own[~numpy.isin(quality.keys(own), edges)])
        )
    outside = ~inside & ~numpy.isin(
        quality.keys(lines), quality.edge_keys(numpy.zeros((0, 4)), *groups.kept(surface))
    )
    if outside.any():
        surface.notes.append(
            '%d line edges of the file are no edges of its cells; they are left out' % outside.sum()
        )
    vertices = surface.vertices.cells[:, 0]
    labels = numpy.array([surface.vertices.label(i) for i in range(len(vertices))], dtype=object)
    for label in sorted(set(labels)):
        own = numpy.intersect1d(vertices[labels == label], given)
        found.append(Loss('points (%s)' % label, len(own), numpy.setdiff1d(own, nodes)))
    for name, own in surface.hard.items():
        own = numpy.intersect1d(own, given)
        found.append(Loss('points (%s)' % name, len(own), numpy.setdiff1d(own, nodes)))
    borders = border_edges(surface)
    own = numpy.column_stack([borders >> 32, borders & 0xffffffff])
    found.append(Loss('edges of surface borders', len(own), own[~numpy.isin(borders, edges)]))
    return [loss for loss in found if loss.total]


def hard(surface, free=False):
    """What should survive: lines, borders of surfaces, points, and what other planes and the file's
    quads have; free: the last alone."""
    joined = (
        surface.joined or Hard(numpy.zeros(0, dtype=numpy.int64), numpy.zeros(0, dtype=numpy.int64))
    )
    if free:
        return joined
    nodes = [surface.vertices.cells[:, 0], *surface.hard.values(), joined.nodes]
    given = numpy.unique(surface.triangles.cells)
    return Hard(
        numpy.unique(
            numpy.concatenate(
                [quality.keys(surface.lines.cells), border_edges(surface), joined.edges]
            )
        ),
        numpy.intersect1d(numpy.concatenate(nodes), given),
    )


def border_edges(surface):
    """Keys of the edges between triangles of other tags or sets."""
    region = surface.triangles.rows()
    a, b, keys = quality.neighbours(surface.triangles.cells)
    return keys[region[a] != region[b]]


def verify(surface, points, result):
    """That the result is one conforming mesh of the same surface: every edge of the boundary and of
    the cuts, every area, the number of triangles left over. Returns both areas."""
    given = surface.triangles.cells
    before, owners_before = numpy.unique(quality.keys(quality.sides(given)), return_counts=True)
    after, owners = numpy.unique(
        quality.edge_keys(result.quads, result.triangles), return_counts=True
    )
    if owners.max() > 2:
        raise Fault(
            'the result is not conforming: %d edges have more than two cells' % (owners > 2).sum()
        )
    if not numpy.array_equal(before[owners_before == 1], after[owners == 1]):
        raise Fault('the result has another boundary than the file')
    if surface.joined and not numpy.isin(surface.joined.edges, after).all():
        raise Fault('an edge that another plane or a quad of the file has is missing in the result')
    a, b, keys = quality.neighbours(given)
    cuts = keys[result.parts[a] != result.parts[b]]
    if not numpy.isin(cuts, after[owners == 2]).all():
        raise Fault('an edge between two parts is missing in the result')
    if len(result.triangles) + int(result.replaced.sum()) != len(given) + 2 * len(result.added):
        raise Fault(
            '%d triangles are left of %d, %d nodes were added and quads replaced %d'
            % (len(result.triangles), len(given), len(result.added), result.replaced.sum())
        )
    whole = float(quality.areas(points, given).sum())
    made = float(
        quality.areas(points, result.quads).sum() + quality.areas(points, result.triangles).sum()
    )
    if abs(whole - made) > SLACK * abs(whole):
        raise Fault('the areas differ: %.17g before, %.17g after' % (whole, made))
    return whole, made, len(cuts)


def exact_areas(surface, points, result):
    """Of a result in the grid profile: twice the summed area of the given triangles, each without
    sign, in squares of the grid's step, as a whole number; and the step. It must be that of the
    result's cells."""
    lines = GRID_LINES * result.scale
    whole = lambda cells: sum(
        abs(twice(rows)) for rows in (points[cells, :2] * lines).astype(numpy.int64).tolist()
    )
    before, after = whole(surface.triangles.cells), whole(result.quads) + whole(result.triangles)
    if before != after or len(result.added):
        raise Fault(
            'the areas differ: %d before, %d after, in halves of squares of %.17g'
            % (before, after, 1 / lines)
        )
    return before, 1 / lines


def twice(corners):
    """Twice the signed area."""
    return sum(a[0] * b[1] - b[0] * a[1] for a, b in zip(corners, corners[1:] + corners[:1]))
