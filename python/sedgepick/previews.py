"""What a front edge would give: one attempt on the mesh as it is given, of which nothing stays."""
from __future__ import annotations
import ctypes
from array import array
from collections import Counter
from typing import NamedTuple, Optional, Sequence
from . import library
from .front import (
    EXHAUST, QUAD_WORDS, Call, Cells, Memory, Points, Quad, Quality, Refused, doubles, node_numbers,
    rule,
)

# what an attempt is refused under: the names that the counts of a run have for it, in the library's
# order, and what they mean
KINDS = {
    'placement': 'no side nodes',
    'invalid_quad': 'no pair of side nodes with a good quad',
    'recovery': 'a side that flips could not bring in',
    'region': 'the triangles inside the quad do not fill it, or a joint is inside it',
    'odd_region': 'a component would be left odd',
}
OFF_FRONT, GIVES_QUAD, IS_REFUSED = 0, 1, 2
# of an answer: which of the three, the kind of refusal, insertions, flips, the quad
NUMBERS = 4 + QUAD_WORDS
# of one attempt, one at each end of the edge; each takes two slots, and a quad one more
MOST_INSERTIONS = 2


class Preview(NamedTuple):
    """What an edge would give: a quad, or what the attempt is refused under; neither where the edge
    is not on the front."""
    # a Quad, in round 1; nodes of it that are not below the number of given points would be
    # inserted
    quad: Optional[Quad] = None
    refused: Optional[str] = None  # a key of KINDS
    insertions: int = 0            # that the attempt costs, also where it is refused
    flips: int = 0

    @property
    def off_front(self) -> bool:
        return self.quad is None and self.refused is None

    def cost(self) -> str:
        """Insertions and flips in words."""
        return ', '.join(
            '%s %s%s' % (n or 'no', what, 's' * (n > 1))
            for n, what in ((self.insertions, 'insertion'), (self.flips, 'flip'))
        )

    def __str__(self) -> str:
        if self.quad is not None:
            return 'quad %s in place of %d triangles; %s' % (
                ' '.join(map(str, self.quad.nodes)),
                self.quad.replaced,
                self.cost(),
            )
        if self.refused is not None:
            return 'refused, %s: %s; %s' % (
                self.refused.replace('_', ' '),
                KINDS[self.refused],
                self.cost(),
            )
        return 'not on the front'


def preview(
    points: Points,
    triangles: Cells,
    edge: Sequence[int],
    size: float,
    stop: int = EXHAUST,
    quality: Quality = Quality(),
    joints: Cells = (),
    grid: bool = False,
) -> Preview:
    """What the edge would give, a Preview, were it the first that a run tries: one attempt on the
    mesh as it is given. Nothing of it stays.

    edge  two node numbers, in either order; any that do not name an edge with one triangle are not
          on the front

    The others are those of run_front, and so is what it raises; memory cannot run out."""
    return Looking(points, triangles, size, stop, quality, joints, grid).shown(
        *node_numbers([edge], 2, 'edges')
    )


def preview_front(
    points: Points,
    triangles: Cells,
    size: float,
    stop: int = EXHAUST,
    quality: Quality = Quality(),
    joints: Cells = (),
    grid: bool = False,
) -> dict[tuple[int, int], Preview]:
    """What every front edge would give, each by itself as in `preview`: {(u, v): Preview}, u below
    v, ascending. They are the edges with exactly one triangle."""
    looking = Looking(points, triangles, size, stop, quality, joints, grid)
    looking.shown(0, 0)  # no edge: it is refused where the mesh is
    return {edge: looking.shown(*edge) for edge in front_edges(looking.triangles)}


def front_edges(nodes: array[int]) -> list[tuple[int, int]]:
    """The edges with exactly one triangle, ascending, the smaller node first, of triangles whose
    nodes stand in a row."""
    owners: Counter[tuple[int, int]] = Counter()
    for place in range(0, len(nodes), 3):
        a, b, c = nodes[place:place + 3]
        owners.update((min(pair), max(pair)) for pair in ((a, b), (b, c), (c, a)))
    return sorted(edge for edge, count in owners.items() if count == 1)


class Looking:
    """A mesh in lent memory, for any number of looks at its edges."""

    def __init__(
        self,
        points: Points,
        triangles: Cells,
        size: float,
        stop: int,
        quality: Quality,
        joints: Cells,
        grid: bool,
    ) -> None:
        given, count = len(points), len(triangles)
        self.triangles = node_numbers(triangles, 3, 'triangles')
        call = Call(
            given, given + MOST_INSERTIONS, count, count + 2 * MOST_INSERTIONS + 1, float(size),
            rule(stop), quality, node_numbers(joints, 2, 'joints'), int(bool(grid)),
        )
        self.memory = Memory(doubles(points), self.triangles, call)

    def shown(self, u: int, v: int) -> Preview:
        answer = (ctypes.c_size_t * NUMBERS)()
        refusal = library.load().sedgepick_preview(
            *self.memory.slices, *self.memory.stated, u, v, answer, len(answer)
        )
        if refusal:
            raise Refused(refusal)
        which, kind, insertions, flips, *record = answer
        quad = (
            Quad(tuple(record[:4]), tuple(record[4:6]), *record[6:])
            if which == GIVES_QUAD
            else None
        )
        return Preview(
            quad, list(KINDS)[kind - 1] if which == IS_REFUSED else None, insertions, flips
        )
