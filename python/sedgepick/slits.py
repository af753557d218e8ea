"""Lines, points and borders kept by slits, where they are too many to be locked (joints.py): the
mesh is cut open along them for the run, and closed again afterwards.

A node on a slit gets a number of its own on each side. So each edge of the slit has one triangle on
either side, and such an edge survives a run (parts.py says why); a point is kept by a slit along
two of its edges. A line of a single edge inside the mesh has nothing to open at its ends and may be
lost."""
import numpy
from . import quality


def hard_edges(points, triangles, edges, nodes):
    """The keys of the edges to slit: those given that are edges of two triangles, and two for each
    given node that is on none of them."""
    every, owners = numpy.unique(quality.keys(quality.sides(triangles)), return_counts=True)
    inner = every[owners == 2]
    hard = numpy.intersect1d(edges, inner)
    fixed = numpy.unique(numpy.concatenate([ends(hard).ravel(), ends(every[owners == 1]).ravel()]))
    more = []
    for node in numpy.setdiff1d(nodes, fixed):
        more += straightest(
            points, node, inner[(inner >> 32 == node) | (inner & 0xffffffff == node)]
        )
    return numpy.union1d(hard, numpy.array(more, dtype=numpy.int64))


def ends(keys):
    return numpy.column_stack([keys >> 32, keys & 0xffffffff])


def straightest(points, node, around):
    """Of the edges at a node the two that are nearest to a straight line."""
    others = numpy.where(around >> 32 == node, around & 0xffffffff, around >> 32)
    ways = points[others, :2] - points[node, :2]
    ways = ways / numpy.hypot(*ways.T)[:, None]
    turn = ways @ ways.T
    a, b = numpy.unravel_index(turn.argmin(), turn.shape)
    return [int(around[a]), int(around[b])]


def open_slits(triangles, hard):
    """(origin, triangles): the triangles over nodes of their own on each side of the hard edges,
    and the node that each stands for."""
    if not len(hard):
        nodes = numpy.unique(triangles)
        return nodes, numpy.searchsorted(nodes, triangles)
    a, b, keys = quality.neighbours(triangles)
    soft = ~numpy.isin(keys, hard)
    a, b, keys = a[soft], b[soft], keys[soft]
    first, second = [], []
    # corners of both triangles at an end of their common edge are one node
    for node in (keys >> 32, keys & 0xffffffff):
        first.append(3 * a + (triangles[a] == node[:, None]).argmax(axis=1))
        second.append(3 * b + (triangles[b] == node[:, None]).argmax(axis=1))
    label = quality.joined(3 * len(triangles), numpy.concatenate(first), numpy.concatenate(second))
    # copies in the order of the nodes that they stand for
    order = numpy.unique(
        numpy.column_stack([triangles.ravel(), label]), axis=0, return_inverse=True
    )
    return order[0][:, 0], order[1].reshape(-1, 3)
