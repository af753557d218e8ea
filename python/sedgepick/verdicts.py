"""The verdict on a mesh file: its cells against the given triangles, by the proved `accept`,
exactly."""
from __future__ import annotations
import math
from dataclasses import dataclass, replace
import numpy
from . import losses, quality, slits
from .acceptance import Verdict, accept
from .arrays import Floats, Wholes
from .fitting import power_within
from .front import FAR
from .surfaces import Fault

THIN = 'no triangle is too thin'  # the clause that is not always asked


@dataclass(frozen=True)
class Judged:
    """A verdict, and what its numbers are places in."""
    verdict: Verdict
    triangles: Wholes    # the given ones
    points: Floats       # of the judged mesh, by the given mesh's numbers, in the file's units
    quads: Wholes
    left: Wholes
    joints: Wholes
    numbers: Wholes      # of each point in the judged file, from 1; 0 where it is not there
    counted: int = 1     # the number from which words count: 1 in files, 0 in arrays
    # thin triangles, where the given mesh has such itself and they are not asked about
    excused: str = ''

    def node(self, node):
        number = int(self.numbers[node])
        return (
            '%s at (%.10g, %.10g)'
            % (
                'node %d' % (number - 1 + self.counted) if number else 'given node %d' % (
                    node + self.counted
                ),
                *self.points[node, :2],
            )
        )

    def cell(self, word, cells, place, why):
        return (
            None if place is None
            else '%s %d %s: %s' % (
                word, place + self.counted, why, ', '.join(map(self.node, cells[place]))
            )
        )

    def edge(self, nodes, words):
        return None if nodes is None else words % tuple(map(self.node, nodes))

    def clauses(self):
        """[(clause, words on its first offender, or None where it holds)]"""
        found, lost = self.verdict, self.verdict.lost
        return [
            (
                'given nodes are in place',
                None if found.moved is None else 'given node %d is not in place' % (
                    found.moved + self.counted
                ),
            ),
            (
                'given triangles have an area',
                self.cell('given triangle', self.triangles, found.given_flat, 'has no area'),
            ),
            (
                'quads turn left at each node',
                self.cell('quad', self.quads, found.folded, 'does not turn left at each node'),
            ),
            (
                'no corner of a quad is too sharp',
                self.cell('quad', self.quads, found.sharp, 'has a corner that is too sharp'),
            ),
            (
                'triangles have an area',
                self.cell('triangle', self.left, found.left_flat, 'has no area'),
            ),
            (THIN, self.cell('triangle', self.left, found.thin, 'is too thin')),
            (
                'each place is covered as often as by the given triangles',
                self.edge(
                    found.uneven,
                    'the cells at the edge between %s and %s do not balance as the given ones do',
                ),
            ),
            (
                'lines and borders are kept',
                None if lost is None else self.edge(
                    self.joints[lost], 'the edge between %s and %s is lost'
                ),
            ),
        ]

    def first(self):
        """The first clause that does not hold, in words."""
        return next(words for _, words in self.clauses() if words)

    def rows(self):
        """[(name, words)] for the report."""
        groups = [int(size) for size in self.verdict.sizes]
        return [
            ('accepted', 'yes, by the proved accept, exactly' if self.verdict.accepted else 'no'),
            *((name, 'no: %s' % words if words else 'yes') for name, words in self.clauses()),
            ('nodes added', self.verdict.added),
            (
                'groups of triangles',
                '%d, %d of them odd%s' % (
                    len(groups), self.verdict.odd,
                    ', the largest of %d' % max(groups) if groups else '',
                ),
            ),
        ]


def scale(*lists):
    """The lists of points within the library's range: x and y times one power of two, which rounds
    nothing; a Fault where there is no such power."""
    most = max((float(abs(points[:, :2]).max()) for points in lists if len(points)), default=0.0)
    power = power_within(most, FAR)
    found = [points[:, :2] * power for points in lists]
    for points, there in zip(lists, found):
        if not (there / power == points[:, :2]).all():
            raise Fault(
                'its coordinates reach up to %.3g, and some are so small that no power of two '
                'takes all within %g unrounded: they cannot be judged exactly'
                % (most, FAR)
            )
    return found


def judge(given_points, triangles, points, quads, left, joints, cosine, thin, numbers):
    """The verdict on quads and leftover triangles over points, of which the first are to be the
    given ones; `thin` in degrees, 0 asks nothing of the triangles."""
    before, after = scale(
        numpy.asarray(given_points, dtype=float), numpy.asarray(points, dtype=float)
    )
    joints = numpy.asarray(joints, dtype=numpy.int64).reshape(-1, 2)
    limit = 1.0 if thin == 0 else math.cos(math.radians(thin))
    verdict = accept(
        before, triangles, after, quads, left, joints=joints, cosine=cosine, thin=limit
    )
    return Judged(
        verdict, numpy.asarray(triangles), numpy.asarray(points), numpy.asarray(quads),
        numpy.asarray(left), joints, numbers,
    )


def settle(work, points, quads, left, numbers, first=1):
    """The verdict on cells that were made of a surface, counterclockwise, over its points and those
    added. Where thin triangles alone are against it and the given triangles are as thin, it is that
    without the question, and the offender is excused."""
    settings, surface = work.settings, work.surface
    kept = [] if settings.free or settings.allow_loss else joints_of(surface)
    ask = lambda thin: replace(
        judge(
            points[:len(surface.points)], surface.triangles.cells, points, quads, left, kept,
            settings.quality.largest_cosine, thin, numbers,
        ),
        counted=first,
    )
    found = ask(settings.thin)
    least = float(quality.least_angles(points, surface.triangles.cells).min())
    if found.verdict.accepted or least >= settings.thin:
        return found
    other = ask(0.0)
    return (
        replace(
            other,
            excused='%s; the given triangles go down to %.3g degrees themselves' % (
                found.first(), least
            ),
        )
        if other.verdict.accepted else found
    )


def joints_of(surface):
    """The lines and borders that are edges of the given triangles, as pairs of nodes."""
    return slits.ends(
        numpy.intersect1d(
            losses.hard(surface).edges, quality.keys(quality.sides(surface.triangles.cells))
        )
    )
