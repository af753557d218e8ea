"""What is measured of cells: least angles, scaled Jacobians, areas, edges, components."""
import numpy


def corners(points, cells):
    """For each corner of the cells in turn, the vectors to the next node and to the one before."""
    width = cells.shape[1]
    for i in range(width):
        here = points[cells[:, i], :2]
        yield points[cells[:, (i + 1) % width], :2] - here, points[cells[:, i - 1], :2] - here


def cross(a, b):
    return a[:, 0] * b[:, 1] - a[:, 1] * b[:, 0]


def least_angles(points, cells):
    """The least angle of each cell, in degrees; a reflex corner does not count."""
    least = numpy.full(len(cells), 180.0)
    for after, before in corners(points, cells):
        least = numpy.minimum(
            least,
            numpy.degrees(numpy.arctan2(abs(cross(after, before)), (after * before).sum(axis=1))),
        )
    return least


def scaled_jacobians(points, quads):
    """The least, over the corners, of the sine with the sign of the turn."""
    least = numpy.full(len(quads), numpy.inf)
    for after, before in corners(points, quads):
        lengths = numpy.hypot(*after.T) * numpy.hypot(*before.T)
        least = numpy.minimum(least, cross(after, before) / numpy.where(lengths > 0, lengths, 1))
    return least


def areas(points, cells):
    """Signed areas, counterclockwise positive."""
    first = points[cells[:, 0], :2]
    total = numpy.zeros(len(cells))
    for i in range(1, cells.shape[1] - 1):
        total += cross(points[cells[:, i], :2] - first, points[cells[:, i + 1], :2] - first) / 2
    return total


def sides(cells):
    """The edges of the cells in a row, the smaller node first: those of the first corners, then of
    the second, and so on."""
    width = cells.shape[1]
    pairs = [cells[:, [i, (i + 1) % width]] for i in range(width)]
    return (
        numpy.sort(numpy.concatenate(pairs), axis=1) if len(cells)
        else numpy.zeros((0, 2), dtype=numpy.int64)
    )


def keys(edges):
    """One number for each edge."""
    edges = numpy.asarray(edges, dtype=numpy.int64).reshape(-1, 2)
    return edges.min(axis=1) << 32 | edges.max(axis=1)


def edge_keys(*lists):
    return numpy.concatenate([keys(sides(cells)) for cells in lists])


def mean_edge(points, triangles):
    """The mean length of the edges, each counted once."""
    edges = numpy.unique(keys(sides(triangles)))
    a, b = points[edges >> 32, :2], points[edges & 0xffffffff, :2]
    return float(numpy.hypot(*(a - b).T).mean())


def neighbours(triangles):
    """Pairs of triangles that share an edge, and the edge's key."""
    found = keys(sides(triangles))
    owner = numpy.tile(numpy.arange(len(triangles)), 3)
    order = numpy.argsort(found, kind='stable')
    found, owner = found[order], owner[order]
    same = found[1:] == found[:-1]
    return owner[:-1][same], owner[1:][same], found[1:][same]


def components(triangles):
    """The component of each triangle, from 0: triangles that share an edge belong together."""
    a, b, _ = neighbours(triangles)
    return joined(len(triangles), a, b)


def joined(count, a, b):
    """A label for each of so many things, from 0: those that pairs join have the same; labels are
    in the order of the first of each.

    Each round hooks every root to its least neighbour and follows the hooks to their end, so that
    the pairs left are between new roots: the rounds grow with the logarithm of the number of
    things, not with the length of the longest way.

    >>> joined(5, numpy.array([4, 1]), numpy.array([1, 3]))
    array([0, 1, 2, 1, 1])
    """
    root = numpy.arange(count)
    pairs = numpy.zeros(0, dtype=numpy.int64) if not len(a) else keys(numpy.column_stack([a, b]))
    while len(pairs):
        low, high = numpy.sort([root[pairs >> 32], root[pairs & 0xffffffff]], axis=0)
        # the least neighbour of each root comes first
        pairs = numpy.unique(high[low < high] << 32 | low[low < high])
        high = pairs >> 32
        first = numpy.flatnonzero(numpy.diff(high, prepend=-1))
        root[high[first]] = pairs[first] & 0xffffffff
        above = root[root]
        while not numpy.array_equal(above, root):
            root, above = above, above[above]
    return numpy.unique(root, return_inverse=True)[1]
