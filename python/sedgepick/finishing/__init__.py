"""The finishing pass: what is left between the quads of `run_front` is closed to quads, and no node is dropped or added.

The pass is not proved. It begins with the given triangles, and each of its steps replaces a few cells by others with the same border; what comes of it is judged as
a whole by the proved `accept`. Each step is a function from a cover to a cover, in a module of its own:

    take_in        the quads of run_front that neither drop nor add a node
    swap           the triangles between them, to the constrained Delaunay triangulation
    take_back      quads around thin triangles
    pair           two triangles to a quad
    walk           leftover triangles through quads, until two meet
    improve        poor quads
    mend           patches around poor quads and leftover triangles
    wander         leftover triangles to where they leave fewer poor quads
    close          leftover triangles at the price of poor quads, unless that makes too many quads poor
    trade          poor quads for a few leftover triangles, where too many quads are poor
    even_groups    for the even rule: no odd group of leftover triangles but where a piece of the mesh is odd

Pairs and walks are held to a better scaled Jacobian first (STAGES) and to that of the quality set then.

    >>> points, triangles = [(0, 0), (1, 0), (2, 0), (0, 1), (1, 1), (2, 1)], [(0, 1, 4), (0, 4, 3), (1, 2, 5), (1, 5, 4)]
    >>> len(finish(points, triangles, []).quads)
    2

The inner loops are C (c/finishing), in the package's shared library; the answer depends on the arguments alone.
"""
from dataclasses import dataclass, field
import numpy
from ..fitting import power_within
from ..front import FAR, Quality
from .closing import close
from .covers import NONE, Cover, Overlaps, cover_of
from .even_groups import even_groups
from .improvement import improve
from .mending import POOR, mend
from .pairing import pair
from .swaps import swap
from .taking_back import THIN, take_back
from .taking_in import take_in
from .trading import trade
from .walks import REACHES, walk
from .wandering import wander

STAGES = (0.5,)        # least scaled Jacobians that pairs and walks are held to before the quality set's own
BETTER = (0.4, 0.5, 0.6)  # what poor quads are improved to, where that can be
MOST_POOR = (2, 2, 4)  # quads that the walks of a round may make poor, two triangles counting as five; the last where over 1 % of the cells are triangles

__all__ = ['BETTER', 'Cover', 'Finished', 'Overlaps', 'STAGES', 'Step', 'THIN', 'close', 'cover_of', 'even_groups', 'finish', 'improve', 'mend', 'pair', 'swap', 'take_back', 'take_in', 'trade', 'walk', 'wander']


@dataclass(frozen=True)
class Step:
    """A step of the pass: its name, how often it did what it does, and the cells behind it."""
    name: str
    done: int
    quads: int
    triangles: int


@dataclass(frozen=True)
class Finished:
    """What the pass made of the triangles."""
    quads: object
    triangles: object
    own: object              # of each quad, whether it is one of run_front's
    quad_groups: object
    triangle_groups: object
    steps: tuple = field(default=())

    def done(self, name):
        """How often all steps of this name did what they do."""
        return sum(step.done for step in self.steps if step.name.split()[0] == name)


def finish(points, triangles, quads, locked=(), *, quality=None, thin=THIN, even=False, groups=None):
    """Finishes a mesh: the given triangles, counterclockwise, and the quads that a run made of them.

    points     x and y of each, or x, y and z, in any unit
    quads      of the run; those with added nodes, which have numbers beyond the points, are passed over
    locked     pairs of nodes: edges that stay
    quality    what quads are held to; the standard set if left out
    thin       degrees: quads around a thinner triangle are taken back
    even       the even rule: leftover triangles stay in groups of an even number
    groups     a number for each triangle; those of the cells that come out are told

    Raises Overlaps where two triangles lie on the same side of an edge."""
    quality, points = quality or Quality(), numpy.asarray(points, dtype=float)[:, :2]
    quads = numpy.asarray(quads, dtype=numpy.int64).reshape(-1, 4)
    quads = quads[(quads < len(points)).all(axis=1)]
    scale = power_within(abs(points).max(), FAR) if len(points) else 1.0
    cover = cover_of(points * scale, triangles, (), locked, groups, quality.largest_cosine)
    least, steps = quality.least_jacobian, []

    def step(name, function, *words):
        nonlocal cover
        cover, done = function(cover, *words)
        count = int((cover.cells[:, 3] != NONE).sum())
        steps.append(Step(name, done, count, len(cover.cells) - count))

    step('taken in', take_in, quads, least)
    step('swapped', swap)
    step('taken back', take_back, thin)
    for limit in sorted({max(stage, least) for stage in (*STAGES, least)}, reverse=True):
        step('paired at %g' % limit, pair, limit)
        step('walked at %g' % limit, walk, limit, REACHES[:-1], POOR, MOST_POOR[0])
    for limit in BETTER:
        if limit > least:
            step('improved to %g' % limit, improve, limit)
    step('mended', mend, least)
    for most_poor in MOST_POOR:
        if most_poor <= MOST_POOR[0] or 100 * (cover.cells[:, 3] == NONE).sum() > len(cover.cells):
            step('wandered', wander, least)
            step('walked on', walk, least, (REACHES[0], REACHES[-1]), POOR, most_poor)
            if steps[-2].done + steps[-1].done:
                step('mended', mend, least)
    step('closed', close, least)
    if not even:
        step('traded', trade, least)
    else:
        step('evened', even_groups, thin)
    is_quad = cover.cells[:, 3] != NONE
    made = cover.quads()
    own = numpy.isin(rows(made), rows(quads))
    return Finished(made, cover.triangles(), own, cover.groups[is_quad], cover.groups[~is_quad], tuple(steps))


def rows(quads):
    """Each quad as one value, the same whichever of its nodes comes first."""
    if not len(quads):
        return numpy.zeros(0, dtype='V32')
    first = quads.argmin(axis=1)
    turned = numpy.ascontiguousarray(quads[numpy.arange(len(quads))[:, None], (first[:, None] + numpy.arange(4)) % 4])
    return turned.view('V32').ravel()
