"""A slab of any unit and any size in one call: parts, joints, the finishing pass and the proved
verdict.

`mesh` is the call for arrays. The command takes the same steps on a surface that it read from a
file: `prepare`, `run`, then the verdict on what it wrote. What is proved is each run of the library
and the verdict; the rest is tested, and the verdict stands behind it. Needs numpy, and no
meshio."""
from __future__ import annotations
import re
import time
from dataclasses import dataclass, field, fields
from functools import partial
from typing import Any, Callable
import numpy
from numpy.typing import ArrayLike, NDArray
from . import (
    closing, finishing, groups as marks, library, losses, parts, planes, quality as measures, sizes,
    surfaces, verdicts,
)
from .acceptance import Verdict
from .front import EVEN_COMPONENTS, EXHAUST, Counts, Quality
from .surfaces import Fault, Marked, Surface

# degrees: a leftover triangle with a smaller angle is not accepted, unless the run's own answer is
# asked for
THIN = 10.0
GROUP = 'group'
GIVEN = 'given'  # the name of the lines and points that a caller hands in


@dataclass(frozen=True)
class Settings:
    """What a mesh is made by: the options that the call and the command share."""
    # the length of an edge, in the units of the mesh; 0: each edge sets its own; None: auto
    size: float | None = None
    stop: int = EXHAUST
    grid: bool = False
    quality: Quality = Quality()
    thin: float = THIN
    raw: bool = False
    free: bool = False                 # lines, points and borders are not kept
    allow_loss: bool = False           # one that is lost is no fault
    flatten: bool = False
    jobs: int | None = None
    most_attempts: int | None = None   # of all parts together


@dataclass
class Work:
    """A surface on its way to a mesh, and what was found on it."""
    surface: Surface
    settings: Settings
    plan: Any = None                  # a parts.Plan: the parts before their run
    given_components: int = 0
    result: Any = None                # a parts.Result
    points: Any = None                # those given, then the added ones, in the units given
    losses: list[losses.Loss] = field(default_factory=list)
    areas: tuple[float, ...] = ()     # before and after
    cuts: int = 0                     # edges between parts
    # in the grid profile: twice the area in squares of the step, and the step
    exact: tuple[Any, ...] = ()
    warnings: list[str] = field(default_factory=list)
    judged: Any = None                # a verdicts.Judged
    slab: Any = None                  # in a job: what it was given, charged and left
    seconds: float = 0.0

    def bare(self) -> Work:
        """The work without what a file adds to it, as it is sent to another machine."""
        return Work(**{column.name: getattr(self, column.name) for column in fields(Work)})

    def take(self, other: Work) -> None:
        """Takes over what was found on another machine."""
        for column in fields(Work):
            setattr(self, column.name, getattr(other, column.name))


@dataclass(frozen=True, eq=False, repr=False)
class Mesh:
    """A finished mesh of quads, and what the proved acceptance says of it. It is true where it is
    accepted."""
    # those given, bit for bit and under their numbers, then the added ones
    points: NDArray[numpy.float64]
    quads: NDArray[numpy.int64]              # four nodes each
    triangles: NDArray[numpy.int64]          # those left over
    quad_groups: NDArray[numpy.int64]        # the group of each quad; 0 where none were given
    triangle_groups: NDArray[numpy.int64]
    # numbers are those of the lists; of several planes those of the sheet that they are laid on
    verdict: Verdict
    nodes_added: int
    nodes_dropped: int                       # nodes of the given triangles that no cell has
    least_angle_of_quads: float | None       # degrees; None where there are none
    least_angle_of_triangles: float | None
    # lines, points and borders of groups: what there was, and what is lost
    kept: tuple[losses.Loss, ...]
    sizes: tuple[float, ...]                 # the size that each part was run with
    cutter: str                              # who cut the parts
    counts: Counts                           # of run_front, summed over the parts
    warnings: tuple[str, ...]
    notes: tuple[str, ...]
    seconds: float

    @property
    def accepted(self) -> bool:
        return self.verdict.accepted

    @property
    def share_of_quads(self) -> float:
        """Of all cells, from 0 to 1."""
        return len(self.quads) / max(len(self.quads) + len(self.triangles), 1)

    def __bool__(self) -> bool:
        return self.accepted

    def __repr__(self) -> str:
        return 'Mesh(%d points, %d quads, %d triangles, %s)' % (
            len(self.points), len(self.quads), len(self.triangles),
            'accepted' if self else 'not accepted',
        )

    def __str__(self) -> str:
        angles = [
            'least angle of %s %.1f degrees' % (name, angle)
            for name, angle in (
                ('quads', self.least_angle_of_quads),
                ('triangles', self.least_angle_of_triangles),
            )
            if angle is not None
        ]
        parts = (
            '1 part' if len(self.sizes) == 1 else '%d parts (%s)' % (len(self.sizes), self.cutter)
        )
        return '\n'.join(
            [
                '%s: %d triangles to %d quads and %d triangles (%.1f %% quads)'
                % (
                    'accepted' if self else 'NOT ACCEPTED', self.verdict.judged.triangles,
                    len(self.quads), len(self.triangles), 100 * self.share_of_quads,
                ),
                '; '.join(
                    angles
                    + [
                        '%d nodes added, %d dropped' % (self.nodes_added, self.nodes_dropped),
                        parts,
                        '%.1f s' % self.seconds,
                    ]
                ),
                *(loss.words() for loss in self.kept),
                *('warning: ' + words for words in self.warnings),
                *('note: ' + words for words in self.notes),
            ]
        )


def mesh(
    points: ArrayLike,
    triangles: ArrayLike,
    lines: ArrayLike | None = None,
    points_kept: ArrayLike | None = None,
    size: float | str = 'auto',
    *,
    groups: ArrayLike | None = None,
    stop: int = EXHAUST,
    grid: bool = False,
    quality: Quality | None = None,
    thin: float | None = None,
    raw: bool = False,
    flatten: bool = False,
    jobs: int | None = None,
    most_attempts: int | None = None,
    progress: Callable[[int, int], None] | None = None,
    cluster: Any = None
) -> Mesh:
    """Meshes the triangles of a slab with quads, whatever its unit and its size, and has the mesh
    judged by the proved acceptance.

    points       x and y, or x, y and z, of each; in a plane in any position, or in several, each of
                 which is meshed by itself
    triangles    three node numbers each, from 0
    lines        two node numbers each: edges of the triangles that are kept, such as walls and
                 joints
    points_kept  nodes that are kept, such as columns
    size         the length of an edge that the quads should have, in the units of the points; 0:
                 each edge sets its own; 'auto': 0.65 of the mean edge
    groups       a whole number for each triangle: no quad lies across the border of two groups, and
                 every cell comes back with its group
    stop         0: go on while an edge of the front is open; 1: and leave only even groups of
                 triangles
    grid         the grid profile: points on a fixed grid, none added, the area kept exactly
                 (docs/GRID.md)
    quality      what quads are held to: a Quality; the standard set if left out
    thin         degrees: a leftover triangle with a smaller angle is not accepted; 10 if left out,
                 with `raw` 0, which asks nothing
    raw          run_front's own answer, without the finishing pass
    flatten      nodes that lie off the plane are moved onto it
    jobs         parts run at once; all cores if left out
    most_attempts  a bound on the attempts of the run, all parts together; each is run once then,
                   with its share
    progress     called with the parts that are done, and all, where there are several
    cluster      a sedgepick.clusters.Cluster, which runs the parts

    Returns a Mesh, whose `accepted` says whether every clause of the verdict holds; where one does
    not, `verdict` and `warnings` say which. The same arguments give the same mesh, whatever `jobs`
    and `cluster`. Raises Fault, in words, for triangles that are no plane mesh and for a size or a
    grid that does not fit them; Refused where the library refuses a part; ValueError for arrays of
    another shape; NoLibrary.

        >>> import sedgepick
        >>> points = [(20.0 * x, 25.0 * y) for y in range(5) for x in range(7)]
        >>> corners = [7 * y + x for y in range(4) for x in range(6)]
        >>> triangles = [(a, a + 1, a + 8) for a in corners] + [(a, a + 8, a + 7) for a in corners]
        >>> mesh = sedgepick.mesh(points, triangles, lines=[(14, 15), (15, 16)], points_kept=[17])
        >>> mesh
        Mesh(35 points, 24 quads, 0 triangles, accepted)
    """
    begin = time.perf_counter()
    library.load()
    settings = Settings(
        size_of(size, grid), stop_of(stop), bool(grid), quality or Quality(),
        (0.0 if raw else THIN) if thin is None else float(thin), bool(raw), flatten=bool(flatten),
        jobs=jobs, most_attempts=most_attempts,
    )
    surface, width = surface_of(points, triangles, lines, points_kept, groups)
    work = Work(surface, settings)
    try:
        prepare(work)
        run(work, progress, cluster=cluster)
    except Fault as fault:
        raise Fault(
            to_callers(str(fault)) + ' (nodes and triangles are counted from 1 here)'
        ) from None
    return mesh_of(work, width, begin)


def to_callers(words: str) -> str:
    """Words of the command, in which options are --options, with arguments in their place."""
    return re.sub(r'--([a-z][a-z-]*)', lambda found: found[1].replace('-', '_'), words)


def size_of(size: float | str, grid: bool) -> float | None:
    """The size as Settings has it."""
    if isinstance(size, str):
        if size != 'auto':
            raise ValueError("size is %r: it is a length, 0 or 'auto'" % size)
        return None
    if not 0.0 <= size < numpy.inf:
        raise ValueError("size is %r: it is a length, 0 or 'auto'" % size)
    if grid and size != 0.0:
        raise ValueError(
            'size is %r: the grid profile takes none but 0, each edge sets its own' % size
        )
    return float(size)


def stop_of(stop: int) -> int:
    if stop not in (EXHAUST, EVEN_COMPONENTS):
        raise ValueError('stop is %r: it is 0 or 1' % (stop,))
    return int(stop)


def surface_of(
    points: ArrayLike,
    triangles: ArrayLike,
    lines: ArrayLike | None,
    points_kept: ArrayLike | None,
    groups: ArrayLike | None,
) -> tuple[Surface, int]:
    """(the surface of a caller's arrays, how many coordinates its points have)"""
    given = numpy.array(points, dtype=float)
    if given.ndim != 2 or given.shape[1] not in (2, 3):
        raise ValueError('points have 2 or 3 coordinates each')
    wrong = numpy.flatnonzero(~numpy.isfinite(given).all(axis=1))
    if len(wrong):
        raise Fault(
            'point %d is not finite (%d such; numbers count from 0)' % (wrong[0], len(wrong))
        )
    placed = numpy.column_stack([given, numpy.zeros(len(given))]) if given.shape[1] == 2 else given
    cells = nodes_of(triangles, 3, 'triangles', len(given))
    if not len(cells):
        raise Fault('there are no triangles')
    edges = nodes_of(() if lines is None else lines, 2, 'lines', len(given))
    nodes = nodes_of(
        numpy.reshape(() if points_kept is None else points_kept, (-1, 1)),
        1,
        'points_kept',
        len(given),
    )
    check_kept(cells, edges, nodes[:, 0])
    tags = {} if groups is None else {GROUP: groups_of(groups, len(cells))}
    walls, columns = (
        Marked(own, {}, {GIVEN: numpy.ones(len(own), dtype=bool)}) for own in (edges, nodes)
    )
    return Surface('the mesh', placed, Marked(cells, tags), walls, columns), given.shape[1]


def nodes_of(cells: ArrayLike, width: int, what: str, count: int) -> NDArray[numpy.int64]:
    """So many whole numbers a row, each of which names a point."""
    found = numpy.asarray(cells)
    if not found.size:
        return numpy.zeros((0, width), dtype=numpy.int64)
    if found.dtype.kind not in 'iu' or found.ndim != 2 or found.shape[1] != width:
        raise ValueError(
            '%s have %d whole number%s each' % (what, width, '' if width == 1 else 's')
        )
    wrong = numpy.argwhere((found < 0) | (found >= count))
    if len(wrong):
        raise ValueError(
            '%s: row %d names node %d, and there are the nodes 0 to %d'
            % (what, wrong[0, 0], found[tuple(wrong[0])], count - 1)
        )
    return found.astype(numpy.int64)


def groups_of(groups: ArrayLike, count: int) -> NDArray[numpy.int64]:
    found = numpy.asarray(groups)
    if found.dtype.kind not in 'iu' or found.shape != (count,):
        raise ValueError('groups have a whole number for each of the %d triangles' % count)
    return found.astype(numpy.int64)


def check_kept(triangles: NDArray[Any], lines: NDArray[Any], nodes: NDArray[Any]) -> None:
    """That lines are edges of the triangles, and points that are kept are nodes of them."""
    lost = numpy.flatnonzero(
        ~numpy.isin(measures.keys(lines), measures.keys(measures.sides(triangles)))
    )
    if len(lost):
        raise Fault(
            'line %d, from node %d to node %d, is no edge of the triangles (%d such; numbers count '
            'from 0)'
            % (lost[0], *lines[lost[0]], len(lost))
        )
    alone = numpy.setdiff1d(nodes, triangles)
    if len(alone):
        raise Fault(
            'node %d is to be kept and is none of the triangles (%d such; numbers count from 0)'
            % (alone[0], len(alone))
        )


def mesh_of(work: Work, width: int, begin: float) -> Mesh:
    """What the call gives, the verdict made."""
    surface, result, settings = work.surface, work.result, work.settings
    work.judged = judged = verdicts.settle(
        work, work.points, result.quads, result.triangles, numpy.arange(1, len(work.points) + 1),
        first=0,
    )
    if judged.excused:
        work.warnings.append(
            '%s, so it is accepted all the same (thin %g)' % (judged.excused, settings.thin)
        )
    if not judged.verdict.accepted:
        work.warnings.append('not accepted: %s' % judged.first())
    # a node of several planes is one
    nodes, number = planes.number_nodes(surface, len(work.points), numpy.arange(len(work.points)))
    cells = [
        number[own[:, ::-1] if surface.clockwise else own]
        for own in (result.quads, result.triangles)
    ]
    marked = [
        own.tags.get(GROUP, numpy.zeros(len(own.cells), dtype=numpy.int64))
        for own in marks.of_result(surface, work.points, result)
    ]
    least = [
        float(measures.least_angles(work.points, own).min()) if len(own) else None
        for own in (result.quads, result.triangles)
    ]
    total = Counts(
        *(
            sum(getattr(counts, column.name) for counts in result.counts)
            for column in fields(Counts)
        )
    )
    return Mesh(
        points=planes.in_file(surface, work.points)[nodes, :width],
        quads=numpy.ascontiguousarray(cells[0]), triangles=numpy.ascontiguousarray(cells[1]),
        quad_groups=marked[0], triangle_groups=marked[1], verdict=judged.verdict,
        nodes_added=len(result.added), nodes_dropped=dropped(work),
        least_angle_of_quads=least[0], least_angle_of_triangles=least[1],
        kept=tuple(work.losses), sizes=tuple(map(float, result.sizes)), cutter=result.cutter,
        counts=total, warnings=tuple(map(to_callers, work.warnings)),
        notes=tuple(map(to_callers, surface.notes)), seconds=time.perf_counter() - begin)


def dropped(work: Work) -> int:
    """Nodes of the given triangles, and added ones, that no cell has."""
    used = numpy.unique(
        numpy.concatenate([work.result.quads.ravel(), work.result.triangles.ravel()])
    )
    return len(numpy.unique(work.surface.triangles.cells)) + len(work.result.added) - len(used)


def prepare(work: Work, whole: bool = False) -> None:
    """Checks the surface and cuts it into parts; whole: one part, however large."""
    settings = work.settings
    work.surface = surface = surfaces.checked(work.surface, settings.flatten)
    cells = surface.triangles.cells
    work.given_components = int(measures.components(cells).max()) + 1
    hard = losses.hard(surface, settings.free)
    work.plan = parts.planned(
        surface.points, cells, 0.0 if settings.grid else settings.size, hard, settings.grid, whole,
        settings.stop == EVEN_COMPONENTS,
    )
    surface.notes += work.plan.told


def run(
    work: Work,
    progress: Callable[[int, int], None] | None = None,
    call: Callable[..., Any] | None = None,
    trace: bool = False,
    cluster: Any = None,
) -> None:
    """Runs the parts, closes what they leave and verifies what came of it; `call` runs one part as
    sizes.first_run does."""
    settings = work.settings
    result = parts.ran(
        work.plan, settings.stop, settings.quality, progress, settings.jobs,
        call or chosen(settings, work.plan), trace=trace, cluster=cluster,
    )
    finish(work, result)


@dataclass(frozen=True)
class Meshing:
    """The run of a work that is prepared, which can be sent to another machine."""
    trace: bool = False

    def __call__(self, work: Work) -> Work:
        begin = time.perf_counter()
        run(work, trace=self.trace)
        work.seconds += time.perf_counter() - begin
        return work


def chosen(settings: Settings, plan: Any) -> Callable[..., Any]:
    """How a part is run: once, with the best of six sizes, or once with its share of a bound on
    attempts."""
    if settings.most_attempts is None:
        return sizes.best_run if settings.raw else sizes.first_run
    if settings.most_attempts < plan.count():
        raise Fault(
            '--most-attempts %d is less than one for each of the %d parts'
            % (settings.most_attempts, plan.count())
        )
    return partial(sizes.bounded_run, sizes.share(settings.most_attempts, plan.count()))


def finish(work: Work, result: Any) -> None:
    """Closes what the run left, and verifies what came of it."""
    surface, settings = work.surface, work.settings
    work.result = result = result if settings.raw else close(work, result)
    z = surface.points[surface.triangles.cells[0, 0], 2]
    work.points = numpy.concatenate(
        [surface.points, numpy.column_stack([result.added, numpy.full(len(result.added), z)])]
    )
    *work.areas, work.cuts = losses.verify(surface, work.points, result)
    work.exact = losses.exact_areas(surface, work.points, result) if settings.grid else ()
    work.losses = losses.find_losses(surface, result)
    surface.notes += result.notes
    warn(work)


def close(work: Work, result: Any) -> Any:
    """The result through the finishing pass; as it is, with a warning, where the pass cannot take
    the triangles."""
    try:
        return closing.close(
            work.surface, work.plan.hard, result, work.settings.quality,
            work.settings.stop == EVEN_COMPONENTS,
        )
    except finishing.Overlaps:
        work.warnings.append(
            'the triangles lie over each other, which the finishing pass does not take: '
            "run_front's own answer is written, as with --raw"
        )
        return result


def warn_odd(work: Work, odd: int, then: str) -> None:
    if work.settings.stop == EVEN_COMPONENTS and odd:
        work.warnings.append(
            '%d components have an odd number of triangles; under --stop 1 a quad that leaves one '
            'odd is refused, and %s: use --stop 0, or split one triangle of each' % (odd, then)
        )


def warn(work: Work) -> None:
    """Warnings on odd groups, on what is lost and on a limit that ended the run."""
    result = work.result
    if result.finished is None:
        warn_odd(work, result.odd, 'few quads or none come out (%d here)' % len(result.quads))
    elif (work.settings.stop == EVEN_COMPONENTS and len(result.triangles)
          and parts.odd_components(result.triangles)):
        work.warnings.append(
            '%d groups of leftover triangles are odd, since the given triangles have pieces with '
            'an odd number of triangles: split one triangle of each, or use --stop 0, which asks '
            'for no even groups' % parts.odd_components(result.triangles)
        )
    for loss in work.losses:
        if len(loss.lost):
            work.warnings.append(
                '%s; the first is %s' % (loss.words(), places(work.points, loss.lost[0]))
            )
    if any(counts.limit for counts in result.counts):
        # the finishing pass did the rest
        (work.surface.notes if result.finished else work.warnings).append(limit_words(work))


def limit_words(work: Work) -> str:
    """What ended a run early."""
    if work.slab and work.slab.entitled == work.slab.limit == work.slab.charged:
        return (
            'its limit of %d attempts in the job ended the run early; a larger allowance may help'
            % work.slab.limit
        )
    if work.settings.most_attempts is not None:
        return (
            'the limit of %d attempts ended the run early; a larger --most-attempts may help'
            % work.settings.most_attempts
        )
    return 'a limit on attempts ended the run early; a larger --size may help'


def places(points: NDArray[Any], nodes: Any) -> str:
    """Where a node, or an edge, is."""
    ends = [
        '(%.6g, %.6g)' % tuple(points[node, :2])
        for node in ([nodes] if getattr(nodes, 'ndim', 0) == 0 else nodes)
    ]
    return ('from %s to %s' if len(ends) == 2 else 'at %s') % tuple(ends)
