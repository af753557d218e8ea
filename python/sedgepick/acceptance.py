"""The acceptance of a finished mesh: one call of `sedgepick_accept` with the memory that it needs,
and its verdict, which prints as a sheet."""
from __future__ import annotations
import ctypes
from dataclasses import dataclass
from typing import Any, Sequence
from . import library
from .front import (
    QUAD_WORDS, Cells, Points, Quads, Quality, Refused, Table, doubles, lent, node_numbers, numbers,
    rows,
)

try:
    import numpy
except ImportError:
    numpy = None  # type: ignore[assignment]

MOST_JUDGED = 1048576   # entries of each list
ANY_TRIANGLE = 1.0      # a limit for leftover triangles that asks nothing of them
NUMBERS = 13            # of a verdict
SIDE_WORDS = 4          # words of work for a side of a cell
PARENT_WORDS = 2        # words for a leftover triangle

REFUSALS = {
    1: 'a list has over 1,048,576 entries',
    14: 'the cosine is not from 0.5 to 0.99, '
        'or the limit for leftover triangles is not from 0.5 to 1',
    4: 'a lent slice is too short',
    5: 'a given triangle names a node that is not given, '
       'or a cell of the result one that is none of its points',
    6: 'a triangle or a quad has a node twice',
    7: 'x or y is not finite or is beyond 8 in magnitude',
    13: 'a joint is one node twice or names a node that is not given',
}


@dataclass(frozen=True)
class Judged:
    """What was judged: how long the lists were, and the limits."""
    given: int      # given points
    triangles: int  # given triangles
    points: int     # points, quads and leftover triangles of the result
    quads: int
    left: int
    joints: int
    cosine: float   # largest cosine of a quad's corner
    thin: float     # and of a leftover triangle's; 1 asks nothing


@dataclass(frozen=True, eq=False)
class Verdict:
    """What an acceptance decided. Each clause has its first offender, None where it holds; all
    numbers count from 0. It is true where it accepts."""
    accepted: bool      # no clause has an offender
    moved: int | None   # the first given point that is not the point of its number, bit for bit
    added: int          # points behind the given ones
    folded: int | None  # the first quad that does not turn left at its four nodes
    sharp: int | None   # the first quad with a corner whose cosine is above the limit and 1e-9
    given_flat: int | None  # the first given triangle without area
    left_flat: int | None   # the first leftover triangle without area
    # the first leftover triangle with a corner whose cosine is above the second limit and 1e-9
    thin: int | None
    # the least edge whose sides do not balance, the smaller node first
    uneven: tuple[int, int] | None
    lost: int | None    # the first joint that a given triangle has and no cell of the result
    sizes: Table        # of the components of the leftover triangles, descending
    odd: int            # how many of them are odd
    judged: Judged

    def __bool__(self) -> bool:
        return self.accepted

    def __eq__(self, other: object) -> bool:
        if not isinstance(other, Verdict):
            return NotImplemented
        return self.numbers() == other.numbers()

    def __hash__(self) -> int:
        return hash(self.numbers())

    def __str__(self) -> str:
        return sheet(self)

    def numbers(self) -> tuple[Any, ...]:
        """All of it in one tuple."""
        return (
            self.accepted, self.added, *self.offenders().values(), tuple(map(int, self.sizes)),
            self.odd, self.judged,
        )

    def offenders(self) -> dict[str, int | tuple[int, int] | None]:
        """{clause: its first offender, or None}"""
        return {
            'points': self.moved,
            'convex': self.folded,
            'corners': self.sharp,
            'given area': self.given_flat,
            'left area': self.left_flat,
            'sides': self.uneven,
            'thin': self.thin,
            'joints': self.lost,
        }


def accept(
    given_points: Points,
    triangles: Cells,
    points: Points,
    quads: Quads | Cells,
    left: Cells,
    joints: Cells | None = None,
    *,
    cosine: float = Quality.largest_cosine,
    thin: float = ANY_TRIANGLE
) -> Verdict:
    """Judges a finished mesh, whoever made it, against the mesh that was given, in exact
    arithmetic.

    given_points, triangles  the given mesh: x and y, or x, y and z, of each point; three node
                             numbers a triangle
    points, quads, left      the result: its points, four node numbers a quad (eight where a run
                             wrote them, or the Quads of a run), three a leftover triangle
    joints   two node numbers each, in either order: edges of the given triangles that the result
             has to keep
    cosine   the largest cosine of a quad's corner: 0.5 to 0.99; that of 25 degrees if left out
    thin     the largest cosine of a leftover triangle's corner: 0.5 to 1, and 1 asks nothing

    Returns a Verdict, which is true exactly where every clause holds. Up to 1,048,576 entries a
    list. Raises Refused, ValueError for lists of another shape, NoLibrary.

        >>> import sedgepick
        >>> points, triangles = [(0, 0), (1, 0), (1, 1), (0, 1)], [(0, 1, 2), (0, 2, 3)]
        >>> bool(sedgepick.accept(points, triangles, points, [(0, 1, 2, 3)], []))
        True
        >>> verdict = sedgepick.accept(points, triangles, points, [], [(0, 1, 2)], [(2, 3)])
        >>> verdict.accepted, verdict.uneven, verdict.lost, list(map(int, verdict.sizes))
        (False, (0, 2), 0, [1])
    """
    judged = Judged(
        len(given_points), len(triangles), len(points), len(quads), len(left),
        0 if joints is None else len(joints), float(cosine), float(thin),
    )
    slices = [
        lend_doubles(given_points), lend_nodes(triangles, 3, 'triangles'), lend_doubles(points),
        lend_quads(quads), lend_nodes(left, 3, 'leftover triangles'),
        lend_nodes(() if joints is None else joints, 2, 'joints'),
    ]
    # A list over the limit is refused before any slice is looked at.
    over = (
        max(judged.given, judged.triangles, judged.points, judged.quads, judged.left, judged.joints)
        > MOST_JUDGED
    )
    components, work, parents = [numbers(0 if over else n) for n in room(judged)]
    answer = (ctypes.c_size_t * NUMBERS)()
    refusal = library.load().sedgepick_accept(
        *(word for pair in slices for word in pair),
        *(word for memory in (components, work, parents) for word in (memory, len(memory))),
        judged.given,
        judged.triangles,
        judged.points,
        judged.quads,
        judged.left,
        judged.joints,
        judged.cosine,
        judged.thin,
        answer,
        NUMBERS
    )
    if refusal:
        raise Refused(refusal, REFUSALS.get(refusal))
    return read_verdict(judged, list(answer), components)


def room(judged: Judged) -> tuple[int, int, int]:
    """Words of the components, the work and the parents."""
    return (
        judged.left,
        SIDE_WORDS * (3 * judged.triangles + 4 * judged.quads + 3 * judged.left),
        PARENT_WORDS * judged.left,
    )


def read_verdict(judged: Judged, answer: Sequence[int], components: ctypes.Array[Any]) -> Verdict:
    """The verdict that the numbers say."""
    (
        accepted, moved, added, folded, sharp, given_flat, left_flat, thin, u, v, lost, groups, odd,
    ) = answer

    def among(place: int, count: int) -> int | None:
        return place if place < count else None

    return Verdict(
        accepted=bool(accepted), moved=among(moved, judged.given), added=added,
        folded=among(folded, judged.quads), sharp=among(sharp, judged.quads),
        given_flat=among(given_flat, judged.triangles), left_flat=among(left_flat, judged.left),
        thin=among(thin, judged.left), uneven=(u, v) if u < v else None,
        lost=among(lost, judged.joints), sizes=rows(components, groups, 1), odd=odd, judged=judged)


def lend_doubles(points: Points) -> tuple[ctypes.Array[Any], int]:
    """(slice, how many numbers it has)"""
    flat = doubles(points)
    memory = (ctypes.c_double * max(len(flat), 1))()
    ctypes.memmove(memory, flat.buffer_info()[0], 8 * len(flat))
    return memory, len(flat)


def lend_nodes(cells: Cells, width: int, what: str) -> tuple[ctypes.Array[Any], int]:
    flat = node_numbers(cells, width, what)
    return lent(flat), len(flat)


def lend_quads(quads: Quads | Cells) -> tuple[ctypes.Array[Any], int]:
    """The nodes of quads, of which a run's records have four numbers more."""
    cells: Cells = quads.nodes if isinstance(quads, Quads) else quads
    if len(cells) and len(cells[0]) == QUAD_WORDS:
        node_numbers(cells, QUAD_WORDS, 'quads')
        if numpy is not None and isinstance(cells, numpy.ndarray):
            cells = cells[:, :4]
        else:
            cells = [quad[:4] for quad in cells]
    return lend_nodes(cells, 4, 'quads')


def sheet(verdict: Verdict) -> str:
    """The verdict in a few lines: one for each clause, which holds or has a first offender by its
    number, from 0."""
    v, j = verdict, verdict.judged

    def says(place: int | None, what: str) -> str:
        return 'holds' if place is None else 'does not hold: %s %s is the first' % (what, place)

    uneven = 'holds' if v.uneven is None else 'does not hold: edge %d-%d is the least' % v.uneven
    clauses = [
        ('given points kept', says(v.moved, 'point')),
        ('quads convex', says(v.folded, 'quad')),
        ('corners of quads, cosine up to %r' % j.cosine, says(v.sharp, 'quad')),
        ('given triangles have area', says(v.given_flat, 'triangle')),
        ('leftover triangles have area', says(v.left_flat, 'triangle')),
        ('sides balance: no gap, no overlap', uneven),
        (
            'corners left over, cosine up to %r' % j.thin,
            'not asked' if j.thin >= ANY_TRIANGLE else says(v.thin, 'triangle'),
        ),
        ('joints kept', says(v.lost, 'joint')),
        (
            'components left over',
            '%d%s, %d odd' % (len(v.sizes), ' of ' + short(v.sizes) if len(v.sizes) else '', v.odd),
        ),
    ]
    lines = [
        '%s: %d quads and %d leftover triangles for %d triangles'
        % ('ACCEPTED' if v else 'NOT ACCEPTED', j.quads, j.left, j.triangles),
        '%d points, of which %d given and %d added; %d joints; numbers count from 0'
        % (j.points, j.given, v.added, j.joints),
    ]
    return '\n'.join(lines + ['%-50s %s' % clause for clause in clauses])


def short(sizes: Table) -> str:
    """The first sizes."""
    return ', '.join(str(int(size)) for size in sizes[:8]) + (', ..' if len(sizes) > 8 else '')
