"""A plane surface of triangles with what the file says of it, and the checks before a run."""
from __future__ import annotations
from dataclasses import dataclass, field
from typing import Any
import numpy
from . import quality
from .arrays import Bools, Floats, Wholes


class Fault(Exception):
    """What is wrong with the file, and what to do about it."""


def visible(words):
    """Words from a file, or its name, as they may stand on a terminal and in a text: control
    characters, and those that turn the order of what follows, escaped."""
    return ''.join(
        c if c.isprintable() else c.encode('unicode_escape', 'backslashreplace').decode()
        for c in words
    )


@dataclass
class Marked:
    """Cells of one kind with their tags and the sets that they are in."""
    cells: Wholes
    # name: a number for each cell
    tags: dict[str, Wholes] = field(default_factory=dict)
    # name: true or false for each cell
    sets: dict[str, Bools] = field(default_factory=dict)

    def rows(self):
        """A number for each cell, the same where tags and sets are."""
        columns = [*self.tags.values(), *self.sets.values()]
        if not columns or not len(self.cells):
            return numpy.zeros(len(self.cells), dtype=int)
        return numpy.unique(
            numpy.column_stack(columns).astype(numpy.int64), axis=0, return_inverse=True
        )[1].ravel()

    def pick(self, places, cells=None):
        """The tags and sets of the cells at some places, on these cells or on others."""
        return Marked(
            self.cells[places] if cells is None else cells,
            {name: values[places] for name, values in self.tags.items()},
            {name: values[places] for name, values in self.sets.items()},
        )

    def label(self, place):
        return ', '.join(name for name, values in self.sets.items() if values[place]) or 'no group'


@dataclass
class Surface:
    """A plane surface of triangles, and what the file says of it."""
    name: str
    points: Floats                 # all nodes of the file
    triangles: Marked
    lines: Marked
    vertices: Marked
    # name: nodes that must stay, beside the vertices
    hard: dict[str, Wholes] = field(default_factory=dict)
    # name: (number, dimension) of Gmsh's groups
    names: dict[str, tuple[int, int]] = field(default_factory=dict)
    clockwise: bool = False        # every triangle was, and was turned
    notes: list[str] = field(default_factory=list)
    sha256: str = ''               # of the bytes that were read
    quads: Any = None           # those of the file, which are kept as they are
    place: Any = None           # planes.Place, where the points are those of a sheet
    # what other planes and the quads have of the triangles; it is kept whatever else is not
    joined: Any = None


def point_words(points, node):
    return 'node %d at (%.10g, %.10g)' % (node + 1, points[node, 0], points[node, 1])


def checked(surface, flatten=False):
    """The surface as it goes to the library: plane, each triangle once, counterclockwise, with an
    area; or a Fault."""
    from . import planes  # which speaks of surfaces
    cells, points = surface.triangles.cells, surface.points
    used = numpy.unique(cells)
    wrong = numpy.flatnonzero(~numpy.isfinite(points[used]).all(axis=1))
    if len(wrong):
        raise Fault(
            'node %d of %d lies at (%g, %g, %g), which is not finite (%d such): mend it'
            % (used[wrong[0]] + 1, len(points), *points[used[wrong[0]]], len(wrong))
        )
    planes.lay(surface, flatten)
    cells, points = surface.triangles.cells, surface.points
    keep = numpy.sort(numpy.unique(numpy.sort(cells, axis=1), axis=0, return_index=True)[1])
    if len(keep) < len(cells):
        surface.notes.append(
            '%d triangles stand in the file more than once; each is taken once'
            % (len(cells) - len(keep))
        )
        surface.triangles = surface.triangles.pick(keep)
        cells = surface.triangles.cells
    check_areas(surface)
    owners, counts = numpy.unique(quality.keys(quality.sides(cells)), return_counts=True)
    if counts.max() > 2:
        edge = owners[counts.argmax()]
        raise Fault(
            'an edge has %d triangles, from %s to %s: not a plane mesh; take the surfaces apart, '
            'one file each'
            % (
                counts.max(), point_words(points, edge >> 32),
                point_words(points, edge & 0xffffffff),
            )
        )
    if surface.quads or surface.place and len(surface.place.frames) > 1:
        surface.joined = planes.find_joined(surface)
    return surface


def check_areas(surface):
    """No triangle without area or with a node twice; clockwise ones are turned."""
    cells, points = surface.triangles.cells, surface.points
    area = quality.areas(points, cells)
    longest = numpy.max(
        [(after ** 2).sum(axis=1) for after, _ in quality.corners(points, cells)], axis=0
    )
    flat = numpy.flatnonzero(~(abs(area) > 1e-14 * longest))
    if len(flat):
        raise Fault(
            'triangle %d has no area (%d such): nodes %s; its first is %s. Remove it or mesh the '
            'surface anew'
            % (
                flat[0] + 1, len(flat), ', '.join(str(n + 1) for n in cells[flat[0]]),
                point_words(points, cells[flat[0], 0]),
            )
        )
    turned = area < 0
    surface.clockwise = bool(turned.all())
    if turned.any():
        surface.triangles.cells = numpy.where(turned[:, None], cells[:, ::-1], cells)
        surface.notes.append(
            'every triangle is clockwise: meshed turned over, and written clockwise again'
            if surface.clockwise
            else '%d of %d triangles are clockwise and were turned over' % (
                turned.sum(), len(cells)
            )
        )
