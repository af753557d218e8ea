"""Runs of a mesh in the file's units; one over the library's limits is cut into parts along edges,
each run by itself, and merged. A plan has the parts before their runs.

An edge with one triangle survives a run: a flip needs two triangles, an added point lies inside a
triangle, and a quad takes away only the edges inside it, which have two. Where two parts meet, each
has the cut edges with one triangle, so both results keep them and fit together."""
from __future__ import annotations
import os
import re
import shutil
import subprocess
from concurrent.futures import ThreadPoolExecutor, as_completed
from dataclasses import dataclass
from typing import Any, Sequence
import numpy
from . import joints, quality, sheets
from .arrays import Floats, Wholes
from .evening import make_even
from .fitting import Fit, fit, grid_fit
from .front import (
    EVEN_COMPONENTS, LARGEST_SIZE, LEAST_SIZE, MOST_GIVEN, MOST_JOINTS, Counts, Mesh, Quality,
)
from .outputs import Folder
from .sizes import best_run
from .slits import open_slits
from .surfaces import Fault

FULL = 3600      # triangles of a part at most, where the cut is ours to make
UNEVEN = 1.1     # METIS makes parts this much larger than the mean
METIS = 'gpmetis'
METIS_SECONDS = 120.0  # that it may take; a million triangles take ten


@dataclass
class Fitted:
    """A part as the library takes it."""
    nodes: Wholes
    placed: Fit
    points: Floats
    triangles: Wholes
    size: float | None
    joints: Wholes


@dataclass
class Plan:
    """A mesh in parts, before its run."""
    given: int         # nodes of the file
    points: Floats     # with those that slits double
    triangles: Wholes
    origin: Wholes     # the node of the file that each stands for
    part: Wholes       # of each triangle
    cutter: str
    notes: list[str]   # parts that are slit
    hard: joints.Hard
    size: float | None
    grid: bool
    told: Sequence[str] = ()    # on how the parts were cut

    def count(self):
        return int(self.part.max()) + 1

    def odd(self):
        """Components, as they go to the library, with an odd number of triangles."""
        return sum(
            odd_components(self.triangles[self.part == which]) for which in range(self.count())
        )

    def fitted(self, which):
        """A part in the library's range, in the grid profile on its grid; or a Fault."""
        own = self.triangles[self.part == which]
        nodes = numpy.unique(own)
        placed = (
            grid_fit(self.points[nodes], self.origin[nodes]) if self.grid
            else fit(self.points[nodes])
        )
        locked = numpy.searchsorted(
            nodes, joints.of_part(self.points, own, self.origin, self.hard)[:MOST_JOINTS]
        )
        return Fitted(
            nodes, placed, placed.there(self.points[nodes]), numpy.searchsorted(nodes, own),
            scale_size(self.size, placed), locked,
        )


@dataclass(frozen=True)
class Task:
    """The run of a part, which can be sent to another machine: `call` runs a mesh as best_run
    does."""
    stop: int
    quality: Quality
    grid: bool
    call: Any
    trace: bool = False

    def __call__(self, own):
        """(size, mesh, the sheet of its quads) of a part that is fitted."""
        more = {'trace': True} if self.trace else {}
        taken, mesh = self.call(
            own.points, own.triangles, own.size, self.stop, quality=self.quality, joints=own.joints,
            grid=self.grid, **more,
        )
        return taken, mesh, sheets.sheet(mesh.points, mesh.quads)


@dataclass
class Answer:
    """What a part's run gave."""
    nodes: Wholes
    size: float
    mesh: Mesh
    added: Floats     # x and y
    rounded: tuple[int, int]  # as in Result
    joints: int       # edges that were locked
    scale: float
    sheet: sheets.Sheet  # of the mesh's quads
    own: Fitted       # the part as it went to the library


@dataclass
class Result:
    """The cells over the points: the given ones, then the added ones."""
    added: Floats     # x and y
    quads: Wholes
    replaced: Wholes  # triangles that each quad replaced
    triangles: Wholes
    sizes: list[float]    # of each part
    counts: list[Counts]  # of each part
    parts: Wholes     # of each given triangle
    of_quads: Wholes  # the part of each quad
    of_triangles: Wholes
    # coordinates that the fit rounded: of given points on their way in, of added ones on their way
    # back
    rounded: tuple[int, int]
    cutter: str
    joints: Sequence[int] = ()  # how many edges of each part were locked
    notes: Sequence[str] = ()  # parts that are slit
    scale: float = 1  # the largest by which a part was fitted
    sheet: Any = None  # of the quads, as the library measures them
    odd: int = 0      # components, as they went to the library, with an odd number of triangles
    # where traces are asked for: each part as it went to the library, and its mesh
    grown: Sequence[Any] = ()
    finished: Any = None  # where it went through the finishing pass: what that made
    before: Any = None    # and the result as it was
    # and the given triangle that each quad, and each triangle, has its groups from
    homes: tuple = ()


def cut(points, triangles):
    """The part of each triangle, who cut, and notes."""
    used = len(numpy.unique(triangles))
    if len(triangles) <= MOST_GIVEN and used <= MOST_GIVEN:
        return numpy.zeros(len(triangles), dtype=int), 'one part', []
    part, cutter = by_metis(triangles, int(numpy.ceil(len(triangles) * UNEVEN / FULL)))
    if part is None:
        notes = [
            'the parts are cut by bisection, since %s; METIS cuts other parts, and the mesh is '
            'another then'
            % cutter
        ]
        return halve(points, triangles, numpy.zeros(len(triangles), dtype=int)), 'bisection', notes
    return halve(points, triangles, part), cutter, []


def by_metis(triangles, count):
    """(parts, METIS with its version) by gpmetis on the graph of triangles that share an edge;
    (None, why not) where it cannot."""
    if not shutil.which(METIS):
        return None, 'METIS is not installed (Debian: apt install metis)'
    a, b, _ = quality.neighbours(triangles)
    ends, others = numpy.concatenate([a, b]), numpy.concatenate([b, a])
    order = numpy.lexsort((others, ends))
    ends, others = ends[order], others[order]
    first = numpy.searchsorted(ends, numpy.arange(len(triangles) + 1))
    with Folder() as folder:
        path = os.path.join(folder, 'graph')
        with open(path, 'w') as file:
            file.write('%d %d\n' % (len(triangles), len(a)))
            file.writelines(
                ' '.join(map(str, others[first[i]:first[i + 1]] + 1)) + '\n'
                for i in range(len(triangles))
            )
        try:
            run = subprocess.run(
                [METIS, path, str(count)], stdin=subprocess.DEVNULL, capture_output=True,
                cwd=folder, timeout=METIS_SECONDS,
            )
            part = numpy.loadtxt('%s.part.%d' % (path, count), dtype=int)
        except subprocess.TimeoutExpired:
            return None, 'METIS takes over %g s' % METIS_SECONDS
        except (OSError, ValueError):
            return None, 'METIS fails'
    version = re.search(rb'METIS (\d[\w.]*)', run.stdout)
    good = run.returncode == 0 and part.shape == (len(triangles),) and part.min() >= 0
    return (
        (part, 'METIS %s' % (version[1].decode() if version else 'of an unknown version')) if good
        else (None, 'METIS fails')
    )


def halve(points, triangles, part):
    """The parts, those that are too large cut in halves across their longer side until none is."""
    middles = points[triangles, :2].mean(axis=1)
    part, waiting = part.copy(), list(numpy.unique(part))
    following = int(part.max()) + 1
    while waiting:
        which = waiting.pop()
        own = numpy.flatnonzero(part == which)
        if len(own) <= FULL and len(numpy.unique(triangles[own])) <= MOST_GIVEN:
            continue
        spread = numpy.ptp(middles[own], axis=0)
        order = own[numpy.lexsort((own, middles[own, int(spread[1] > spread[0])]))]
        part[order[len(order) // 2:]] = following
        waiting += [which, following]
        following += 1
    return numpy.unique(part, return_inverse=True)[1]


def planned(points, triangles, size, hard=joints.Hard(), grid=False, whole=False, even=False):
    """The parts of the mesh, slit along what is hard where that is too much to lock; whole: one
    part, however large; even: with even components, where they can be."""
    part, cutter, told = (
        (numpy.zeros(len(triangles), dtype=int), 'one part', []) if whole
        else cut(points, triangles)
    )
    slit, notes = joints.to_slit(points, triangles, part, hard)
    origin, cells = open_slits(triangles, slit)
    doubled = points[origin]
    if (
        not whole
        and any(
            len(numpy.unique(cells[part == which])) > MOST_GIVEN
            for which in range(int(part.max()) + 1)
        )
    ):
        part = halve(doubled, cells, part)
    if even and part.any():
        part = make_even(cells, part)
    return Plan(len(points), doubled, cells, origin, part, cutter, notes, hard, size, grid, told)


def each(plan, one, progress=None, jobs=None):
    """What `one` gives for each part, on all cores."""
    count = plan.count()
    answers = [None] * count
    pool = ThreadPoolExecutor(jobs or os.cpu_count() or 1)
    try:
        waiting = {pool.submit(one, which): which for which in range(count)}
        for done, future in enumerate(as_completed(waiting), 1):
            answers[waiting[future]] = future.result()
            if progress and count > 1:
                progress(done, count)
    # a part is refused, or the command is ended: those that have not begun never do
    except BaseException:
        pool.shutdown(wait=False, cancel_futures=True)
        raise
    pool.shutdown()
    return answers


def take_answer(plan, own, taken, mesh, sheet):
    """What a part's run gave, in the file's units."""
    given, added = plan.points[own.nodes], mesh.points[len(own.nodes):]
    return Answer(
        own.nodes, taken / own.placed.scale, mesh, own.placed.back(added),
        (own.placed.rounded(given), own.placed.rounded_back(added)), len(own.joints),
        own.placed.scale, sheet, own,
    )


def ran(
    plan, stop, quality=Quality(), progress=None, jobs=None, call=best_run, trace=False,
    cluster=None,
):
    """Runs the parts, each fitted into the library's range by itself, here or on a cluster; `call`
    runs one as best_run does. With their traces where these are asked for."""
    task = Task(stop, quality, plan.grid, call, trace)
    if cluster:
        fitted = [plan.fitted(which) for which in range(plan.count())]
        answers = [
            take_answer(plan, own, *found)
            for own, found in zip(fitted, cluster.each(task, fitted, progress))
        ]
    else:
        def one(which):
            own = plan.fitted(which)
            return take_answer(plan, own, *task(own))
        answers = each(plan, one, progress, jobs)
    result = merge(len(plan.points), answers, plan.part, plan.cutter)
    result.grown = [(answer.own, answer.mesh) for answer in answers] if trace else ()
    result.notes = plan.notes
    number = numpy.concatenate(
        [plan.origin, numpy.arange(plan.given, plan.given + len(result.added))]
    )
    result.quads, result.triangles = number[result.quads], number[result.triangles]
    result.odd = plan.odd()
    return result


def run(
    points, triangles, size, stop, hard=joints.Hard(), progress=None, jobs=None, quality=Quality(),
    grid=False,
):
    """Meshes the triangles, what is hard locked or slit, in parts where there are too many."""
    return ran(
        planned(points, triangles, size, hard, grid, even=stop == EVEN_COMPONENTS), stop, quality,
        progress, jobs,
    )


def odd_components(triangles):
    return int((numpy.bincount(quality.components(triangles)) % 2).sum())


def scale_size(size, placed):
    """The size as the library takes it."""
    if size is None or size == 0.0:
        return size
    if not LEAST_SIZE <= size * placed.scale <= LARGEST_SIZE:
        raise Fault(
            '--size %g is out of range: for this mesh it is 0, auto or from %g to %g'
            % (size, LEAST_SIZE / placed.scale, LARGEST_SIZE / placed.scale)
        )
    return size * placed.scale


def merge(given, answers, part, cutter):
    """One mesh: a part's given points go back to their numbers, added points come behind in the
    order of the parts."""
    added, quads, left, following = [], [], [], given
    for answer in answers:
        number = numpy.concatenate(
            [answer.nodes, numpy.arange(following, following + len(answer.added))]
        )
        following += len(answer.added)
        added.append(answer.added)
        quads.append(number[answer.mesh.quads.nodes.astype(int)].reshape(-1, 4))
        left.append(number[answer.mesh.triangles.astype(int)].reshape(-1, 3))
    owners = [
        numpy.repeat(numpy.arange(len(cells)), [len(own) for own in cells])
        for cells in (quads, left)
    ]
    sizes, counts = [answer.size for answer in answers], [answer.mesh.counts for answer in answers]
    replaced = numpy.concatenate([answer.mesh.quads.replaced for answer in answers]).astype(int)
    return Result(
        numpy.concatenate(added), numpy.concatenate(quads), replaced, numpy.concatenate(left),
        sizes, counts, part, *owners, tuple(map(sum, zip(*(answer.rounded for answer in answers)))),
        cutter, [answer.joints for answer in answers],
        scale=max(answer.scale for answer in answers),
        sheet=sheets.join([answer.sheet for answer in answers]),
    )
