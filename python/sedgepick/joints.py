"""Lines, points and borders kept by joints: edges that the library locks, so that they are edges of
the result. A point is kept by one edge of it.

A part with more of them than a call takes is slit along them (slits.py)."""
from __future__ import annotations
from dataclasses import dataclass
import numpy
from numpy.typing import ArrayLike
from . import quality, slits
from .front import MOST_JOINTS


@dataclass
class Hard:
    """What should survive: keys of edges, and nodes."""
    edges: ArrayLike = ()
    nodes: ArrayLike = ()


def of_part(points, triangles, origin, hard):
    """The edges of a part to lock: those of the hard edges that have two triangles there (one with
    a single triangle survives anyway), and the shortest at each hard node that no such edge and no
    edge of the part's boundary holds. Nodes have numbers of their own in the part; `origin` says
    which each stands for."""
    every, owners = numpy.unique(quality.keys(quality.sides(triangles)), return_counts=True)
    inner = every[owners == 2]
    pairs = slits.ends(inner)
    locked = pairs[numpy.isin(quality.keys(origin[pairs]), hard.edges)]
    held = numpy.unique(numpy.concatenate([locked.ravel(), slits.ends(every[owners == 1]).ravel()]))
    own = numpy.unique(triangles)
    more = []
    for node in numpy.setdiff1d(own[numpy.isin(origin[own], hard.nodes)], held):
        around = pairs[(pairs == node).any(axis=1)]
        ways = points[around[:, 0], :2] - points[around[:, 1], :2]
        more.append(around[numpy.hypot(*ways.T).argmin()])
    return numpy.concatenate([locked, numpy.array(more, dtype=numpy.int64).reshape(-1, 2)])


def to_slit(points, triangles, part, hard):
    """(keys of edges, notes): the edges along which parts with too many joints are slit."""
    found, notes, count = [numpy.zeros(0, dtype=numpy.int64)], [], int(part.max()) + 1
    every = numpy.arange(len(points))
    for which in range(count):
        own = triangles[part == which]
        many = len(of_part(points, own, every, hard))
        if many > MOST_JOINTS:
            found.append(
                slits.hard_edges(points, own, hard.edges, numpy.intersect1d(hard.nodes, own))
            )
            notes.append(
                '%s has %d edges of lines, points and borders to keep, and %d can be locked: it is '
                'slit along them for the run'
                % (
                    'the mesh' if count == 1 else 'part %d of %d' % (which + 1, count), many,
                    MOST_JOINTS,
                )
            )
    return numpy.concatenate(found), notes
