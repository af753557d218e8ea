"""Nodes of one mesh found among those of another, by their coordinates."""
from __future__ import annotations
from dataclasses import dataclass
import numpy
from .arrays import Wholes
from .surfaces import Fault


@dataclass(frozen=True)
class Match:
    """The judged nodes by the given mesh's numbers; those that it does not have come behind."""
    number: Wholes     # of each judged node
    given: int         # given nodes
    added: int         # judged nodes that are no given ones
    moved: int = 0     # judged nodes that lie near their given node and not on it


def by_bits(given, judged):
    """The match of nodes whose x and y are the same doubles; of several at one place the first goes
    with the first, the second with the second, and so on."""
    number, rest = numpy.full(len(judged), -1, dtype=numpy.int64), {}
    for node, place in enumerate(map(tuple, given[:, :2].tolist())):
        rest.setdefault(place, []).append(node)
    taken = dict.fromkeys(rest, 0)
    for node, place in enumerate(map(tuple, judged[:, :2].tolist())):
        if place in rest and taken[place] < len(rest[place]):
            number[node] = rest[place][taken[place]]
            taken[place] += 1
    return behind(number, len(given))


def near(given, judged, distance):
    """The match of each judged node with the given one that lies within the distance; a Fault where
    two do, or where one is that of two."""
    squares, side = {}, 2 * distance
    for node, (x, y) in enumerate(numpy.floor(given[:, :2] / side).astype(numpy.int64).tolist()):
        squares.setdefault((x, y), []).append(node)
    number, owner = numpy.full(len(judged), -1, dtype=numpy.int64), {}
    for node, (x, y) in enumerate(numpy.floor(judged[:, :2] / side).astype(numpy.int64).tolist()):
        around = [
            other for i in (x - 1, x, x + 1) for j in (y - 1, y, y + 1)
            for other in squares.get((i, j), ())
        ]
        found = [
            other for other in around
            if numpy.hypot(*(given[other, :2] - judged[node, :2])) <= distance
        ]
        if len(found) > 1 or found and found[0] in owner:
            raise Fault(
                '--near %g is too far: node %d at (%.10g, %.10g) is near two nodes, or shares one '
                'with another'
                % (distance, node + 1, *judged[node, :2])
            )
        if found:
            number[node], owner[found[0]] = found[0], node
    there = number >= 0
    moved = int((judged[there, :2] != given[number[there], :2]).any(axis=1).sum())
    match = behind(number, len(given))
    return Match(match.number, match.given, match.added, moved)


def behind(number, given):
    """The match with numbers for the nodes that have none."""
    free = numpy.flatnonzero(number < 0)
    number[free] = numpy.arange(given, given + len(free))
    return Match(number, given, len(free))
