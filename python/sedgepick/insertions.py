"""Where the nodes lie that an attempt would insert. The library says that it would insert them and
not where; so its rule (Insertion of the definition) stands here once more, for pictures."""
import math
import numpy
from .surfaces import Fault

# of the size, into the mesh across the edge, in their order
SHARES = (1.0, 0.9, 0.8, 0.7, 0.6, 0.5, 0.4, 0.3)
# of the size: how near a node of the triangle that is split, or of the edge's, may be
SPACING = 0.25
TINY = 1e-12    # a cross product counts as zero up to this


def find_inserted(points, triangles, nodes, size):
    """x and y of the nodes that a quad has beyond the points, in the order of their numbers: at the
    edge's first node, then at its second."""
    given, (a, b, d, c) = len(points), nodes
    (dx, dy), seed = (
        points[b] - points[a], int(((triangles == a) | (triangles == b)).sum(axis=1).argmax())
    )
    long = math.sqrt(dx * dx + dy * dy)
    normal = -dy / long, dx / long
    for end, side in ((a, c), (b, d)):
        if side >= given:
            which, place = spot(points, triangles, seed, points[end], normal, size)
            points, triangles = split(points, triangles, which, place)
    return points[given:]


def spot(points, triangles, seed, origin, normal, size):
    """The triangle to split, and where: at the first share whose point lies strictly in a triangle
    and is near to none of its nodes, nor of the seed's."""
    corners = points[triangles]
    for share in SHARES:
        place = numpy.array(
            [origin[0] + share * size * normal[0], origin[1] + share * size * normal[1]]
        )
        apart = numpy.sqrt(((corners - place) ** 2).sum(axis=2)).min(axis=1) >= SPACING * size
        if apart[seed]:
            for which in numpy.flatnonzero(find_holding(corners, place) & apart):
                return which, place
    raise Fault(
        'triangles overlap near (%.6g, %.6g), and where a node would be inserted there cannot be '
        'told: mend the file'
        % tuple(origin)
    )


def find_holding(corners, place):
    """Which triangles have the place strictly inside."""
    turns = []
    for i in range(3):
        here, there = corners[:, i], corners[:, (i + 1) % 3]
        turns.append(
            (there[:, 0] - here[:, 0]) * (place[1] - here[:, 1])
            - (there[:, 1] - here[:, 1]) * (place[0] - here[:, 0])
        )
    turns = numpy.array(turns)
    return (turns > TINY).all(axis=0) | (turns < -TINY).all(axis=0)


def split(points, triangles, which, place):
    """The mesh with a node there: the first third keeps the triangle's place, the other two come
    behind."""
    (a, b, c), node = triangles[which], len(points)
    triangles = numpy.concatenate([triangles, [(b, c, node), (c, a, node)]])
    triangles[which] = a, b, node
    return numpy.concatenate([points, [place]]), triangles
