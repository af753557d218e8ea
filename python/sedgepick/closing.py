"""What the command makes of a run's answer: the whole mesh, parts and all, through the finishing
pass."""
from dataclasses import replace
import numpy
from . import finishing, sheets, slits
from .fitting import fit

BATCH = 2000  # quads that are measured in one call of the library


def close(surface, hard, result, quality, even):
    """The result with what is left between its quads closed; raises finishing.Overlaps where the
    triangles lie over each other.

    Each cell takes its groups from a given triangle that it stands in the place of: borders of
    groups are locked."""
    given, points = surface.triangles.cells, surface.points
    found = finishing.finish(
        points, given, result.quads, slits.ends(numpy.asarray(hard.edges, dtype=numpy.int64)),
        quality=quality, even=even, groups=numpy.arange(len(given)),
    )
    return replace(
        result, added=numpy.zeros((0, 2)), quads=found.quads,
        replaced=numpy.full(len(found.quads), 2), triangles=found.triangles,
        parts=numpy.zeros(len(given), dtype=int), homes=(found.quad_groups, found.triangle_groups),
        finished=found, before=result, sheet=sheet_of(points, found.quads),
    )


def sheet_of(points, quads):
    """The quality sheet of any number of quads, each as the library measures it."""
    found = []
    for begin in range(0, max(len(quads), 1), BATCH):
        own = quads[begin:begin + BATCH]
        nodes = numpy.unique(own)
        placed = fit(points[nodes]).there(points[nodes]) if len(nodes) else numpy.zeros((0, 2))
        found.append(sheets.sheet(placed, numpy.searchsorted(nodes, own)))
    return sheets.join(found)


def count_dropped(given, result):
    """How many nodes of the given triangles no cell has."""
    return len(
        numpy.setdiff1d(given, numpy.concatenate([result.quads.ravel(), result.triangles.ravel()]))
    )


def rows(given, result):
    """[(name, words)] on what the pass did, for the report."""
    before, found = result.before, result.finished
    own = int(found.own.sum())
    return [
        (
            'run_front gave',
            '%d quads, %d triangles; %d nodes added, %d dropped' % (
                len(before.quads), len(before.triangles), len(before.added),
                count_dropped(given, before),
            ),
        ),
        (
            "quads of run_front's own",
            '%d of the %d that are written; the pass made the other %d' % (
                own, len(found.quads), len(found.quads) - own
            ),
        ),
        *(
            (step.name, '%d; %d quads, %d triangles then' % (step.done, step.quads, step.triangles))
            for step in found.steps
        ),
    ]
