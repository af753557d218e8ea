"""The work on a mesh file: the file read and prepared; the mesh that came of it numbered, written,
read back and judged."""
from __future__ import annotations
import os
import select
import sys
import time
from dataclasses import dataclass, field
from typing import Any
import numpy
from . import files, groups, meshes, meshing, planes, quality, sheets, verdicts, writing
from .outputs import STDOUT, Folder
from .surfaces import Fault, Surface

STDIN = '-'
STDIN_NAME = 'standard input'


@dataclass
class Work(meshing.Work):
    """A file on its way to a mesh file: everything that its report speaks of."""
    options: Any = None
    number: Any = None           # of each point in the output, -1 where it is left out
    looked: Any = None           # what the front edges would give, where that is asked for
    fault: str = ''              # in a job: why nothing is written
    outputs: Any = None          # the files that are made and take their names at the end
    verdict: Any = None          # (name, words) rows of the acceptance, where there is one
    facts: Any = None            # what --json prints of it
    # lines for standard output, once the files are there
    told: list[str] = field(default_factory=list)


def prepare(options: Any, whole: bool = False) -> Work:
    """The file read, checked and cut into parts."""
    work = Work(read(options), options.settings, options=options)
    meshing.prepare(work, whole)
    return work


def read(options: Any) -> Surface:
    """The surface of the file, or of standard input."""
    if options.input != STDIN:
        return files.read(options.input, options.form, options.limits)
    with Folder() as folder:
        path = os.path.join(folder, STDIN_NAME)
        take_in(path, options.limits)
        return files.read(path, options.form, options.limits)


def take_in(path: str, limits: Any) -> None:
    """Writes standard input to a file; a Fault where it is longer, or takes longer, than a file
    may."""
    source, end, left = (
        sys.stdin.fileno(), time.monotonic() + limits.seconds, limits.megabytes << 20
    )
    with open(path, 'wb') as file:
        while True:
            if not select.select([source], [], [], max(0.0, end - time.monotonic()))[0]:
                raise Fault(
                    '%s takes over %g s; --read-seconds allows more' % (STDIN_NAME, limits.seconds)
                )
            part = os.read(source, 1 << 20)
            left -= len(part)
            if left < 0:
                raise Fault(
                    'it has over %d MB, and reading takes more memory than that; --read-memory '
                    'allows more'
                    % limits.megabytes
                )
            if not part:
                return
            file.write(part)


def check_losses(work: Work) -> None:
    """Something lost is an error unless it is allowed."""
    lost = [loss for loss in work.losses if len(loss.lost)]
    if lost and not (work.settings.allow_loss or work.settings.free):
        raise Fault(
            '%s; the first is %s. Nothing is written; --allow-loss writes the mesh all the same'
            % (
                '; '.join(loss.words() for loss in lost),
                meshing.places(work.points, lost[0].lost[0]),
            )
        )


def written(work: Work) -> None:
    """Numbers the nodes, makes the file and those beside it, and has the mesh judged."""
    surface, result, options = work.surface, work.result, work.options
    cells = result.quads, result.triangles, *groups.kept(surface)
    used = (
        numpy.arange(len(work.points)) if options.keep_nodes
        else numpy.concatenate([own.ravel() for own in cells])
    )
    nodes, work.number = planes.number_nodes(surface, len(work.points), used)
    sets = {
        name: work.number[own][work.number[own] >= 0] for name, own in surface.hard.items()
        if name != 'point of the geometry'
    }
    made = work.outputs.room(options.output)
    surface.notes += writing.make(
        made, options.output, options.to, planes.in_file(surface, work.points)[nodes], blocks(work),
        surface.names, sets, options.beams,
    )
    judge(work, made, nodes)
    if options.node_map:
        rows = [
            '%d,%s\n' % (i + 1, node + 1 if node < len(surface.points) else '')
            for i, node in enumerate(nodes)
        ]
        work.outputs.text(options.node_map, 'node,given\n' + ''.join(rows))
    write_sheets(work)


def blocks(work: Work) -> list[tuple]:
    """(kind, cells with their groups) as they are written, under the numbers of the output."""
    surface, result = work.surface, work.result
    edges = quality.edge_keys(result.quads, result.triangles, *groups.kept(surface))
    lines = groups.survivors(surface.lines, numpy.isin(quality.keys(surface.lines.cells), edges))
    vertices = groups.survivors(surface.vertices, work.number[surface.vertices.cells[:, 0]] >= 0)
    quads, left = groups.of_result(surface, work.points, result)
    return [
        (
            'quad',
            groups.with_kept(
                surface, groups.renumber(quads, work.number, surface.clockwise), work.number
            ),
        ),
        ('triangle', groups.renumber(left, work.number, surface.clockwise)),
        ('line', groups.renumber(lines, work.number)),
        ('vertex', groups.renumber(vertices, work.number)),
    ]


def judge(work: Work, path: str, nodes: Any) -> None:
    """Reads the file back, takes its nodes back to the given numbers and has it judged: a Fault
    where it is not accepted, a warning where thin triangles are the given mesh's own."""
    options, surface, points = work.options, work.surface, work.points.copy()
    form = writing.writing_form(options.output, options.to)
    turned = lambda cells: cells[:, ::-1] if surface.clockwise else cells
    found = meshes.read_written(path, form)
    if found is None:
        found = (
            planes.in_file(surface, points)[nodes], turned(work.number[work.result.quads]),
            turned(work.number[work.result.triangles]),
        )
        surface.notes.append(
            '%s cannot be read back: the verdict is on what was handed to its writer' % form
        )
    points = planes.read_back(surface, points, work.number, found[0])
    quads, left = (
        planes.cells_back(work.number, nodes, turned(cells)[:len(own)], own)
        for cells, own in zip(found[1:], (work.result.quads, work.result.triangles))
    )
    rounded = int((points[nodes, :2] != work.points[nodes, :2]).any(axis=1).sum())
    work.judged = judged = verdicts.settle(work, points, quads, left, work.number + 1)
    if not judged.verdict.accepted:
        raise Fault('not accepted: %s. Nothing is written' % judged.first())
    if judged.excused:
        work.warnings.append(
            '%s, so it is written all the same (--thin %g)' % (judged.excused, work.settings.thin)
        )
    as_written = (
        [
            (
                'nodes',
                '%d of %d rounded by the format, and judged as it has them' % (rounded, len(nodes)),
            )
        ]
        if rounded else []
    )
    thin = (
        'not asked, the given triangles are thinner' if judged.excused else '' if work.settings.thin
        else 'not asked'
    )
    work.verdict = (
        [(name, thin if thin and name == verdicts.THIN else words) for name, words in judged.rows()]
        + planes.rows(surface) + as_written
        + [('least angle asked of triangles', thin or '%g degrees' % work.settings.thin)]
    )


def write_sheets(work: Work) -> None:
    """The quality sheet: the quads in the order in which they were placed, their nodes as OUT
    numbers them, from 1."""
    for path in work.options.sheet:
        if path.lower().endswith('.csv'):
            cells = work.number[work.result.quads] + 1
            turned = cells[:, ::-1] if work.surface.clockwise else cells
            words = sheets.table(work.result.sheet, turned)
        else:
            words = sheets.text(work.result.sheet, work.surface.name)
        work.outputs.text(path, words)


def name_of(path: str) -> str:
    """The name under which a mesh is told of."""
    return 'standard output' if path == STDOUT else os.path.basename(path)
