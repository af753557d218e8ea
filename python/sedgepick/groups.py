"""Tags and sets of the file on the cells that came out."""
import numpy
from .surfaces import Marked

ROWS = 256  # cells looked up at a time


def of_result(surface, points, result):
    """The quads and the triangles of a result with tags and sets."""
    if result.homes:
        return [
            surface.triangles.pick(homes, cells)
            for homes, cells in zip(result.homes, (result.quads, result.triangles))
        ]
    return [
        group_cells(surface, points, cells, of_cells, result.parts)
        for cells, of_cells in (
            (result.quads, result.of_quads), (result.triangles, result.of_triangles)
        )
    ]


def group_cells(surface, points, cells, of_cells, parts):
    """The cells with tags and sets: those of the given triangle, of the same part, that holds a
    cell's middle."""
    given = surface.triangles
    if not len(cells) or given.rows().max() == 0:
        return given.pick(numpy.zeros(len(cells), dtype=int), cells)
    home = numpy.zeros(len(cells), dtype=int)
    middles = points[cells, :2].mean(axis=1)
    for part in numpy.unique(of_cells):
        own, near = numpy.flatnonzero(of_cells == part), numpy.flatnonzero(parts == part)
        home[own] = near[holders(points[given.cells[near], :2], middles[own])]
    return given.pick(home, cells)


def holders(triangles, middles):
    """For each point the triangle whose least barycentric coordinate of it is largest."""
    a, b, c = (triangles[:, i] for i in range(3))
    area = (b[:, 0] - a[:, 0]) * (c[:, 1] - a[:, 1]) - (b[:, 1] - a[:, 1]) * (c[:, 0] - a[:, 0])
    found = []
    for begin in range(0, len(middles), ROWS):
        x, y = middles[begin:begin + ROWS, 0, None], middles[begin:begin + ROWS, 1, None]
        share = lambda p, q: (
            (q[:, 0] - p[:, 0]) * (y - p[:, 1]) - (q[:, 1] - p[:, 1]) * (x - p[:, 0])
        ) / area
        found.append(
            numpy.minimum(numpy.minimum(share(a, b), share(b, c)), share(c, a)).argmax(axis=1)
        )
    return numpy.concatenate(found)


def survivors(marked, found):
    """The lines or vertices that are left, by true or false for each."""
    return marked.pick(numpy.flatnonzero(found))


def renumber(marked, number, clockwise=False):
    cells = number[marked.cells]
    return Marked(cells[:, ::-1] if clockwise else cells, marked.tags, marked.sets)


def kept(surface):
    """[the file's own quads], or nothing."""
    return [surface.quads.cells] if surface.quads else []


def with_kept(surface, quads, number):
    """The quads with those of the file behind them, as they stand in it."""
    own = surface.quads
    if not own:
        return quads
    none = lambda marked, values: numpy.zeros(len(marked.cells), dtype=values.dtype)
    joined = lambda ours, theirs: {
        name: numpy.concatenate(
            [ours.get(name, none(quads, values)), theirs.get(name, none(own, values))]
        )
        for name, values in {**ours, **theirs}.items()
    }
    return Marked(
        numpy.concatenate([quads.cells, number[own.cells]]), joined(quads.tags, own.tags),
        joined(quads.sets, own.sets),
    )
