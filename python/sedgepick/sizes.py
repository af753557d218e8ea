"""The size of the quads' edges: docs/SIZE.md has the measurements behind the rule."""
from . import quality
from .front import LARGEST_SIZE, LEAST_SIZE, Refused, run_front
from .job import MOST_ALLOWANCE, Job

SHARES = (0.65, 0.60, 0.70, 0.55, 0.75)  # of the mean edge
THIN = 10.0                              # degrees: a leftover triangle under it is thin


def candidates(points, triangles):
    """The sizes that `auto` tries: shares of the mean edge, and 0, where each edge sets its own."""
    mean = quality.mean_edge(points, triangles)
    return [share * mean for share in SHARES if LEAST_SIZE <= share * mean <= LARGEST_SIZE] + [0.0]


def single(points, triangles, size):
    """The size of a mesh that is run once: the given one, else the first candidate."""
    return candidates(points, triangles)[0] if size is None else size


def worth(mesh):
    """Less is better: thin leftover triangles, then the leftover triangles among all that the cells
    stand for."""
    thin = (
        int((quality.least_angles(mesh.points, mesh.triangles.astype(int)) < THIN).sum())
        if len(mesh.triangles) else 0
    )
    return thin, len(mesh.triangles) / max(2 * len(mesh.quads) + len(mesh.triangles), 1)


def first_run(points, triangles, size, stop, **more):
    """(size, mesh) of one run: of the size that is given, or of the first candidate that is not
    refused. For a mesh that is finished after it one run does."""
    if size is not None:
        return size, run_front(points, triangles, size, stop, **more)
    refused = None
    for trial in candidates(points, triangles):
        try:
            return trial, run_front(points, triangles, trial, stop, **more)
        except Refused as fault:
            refused = fault
    raise refused


def share(most, parts):
    """The attempts that each of so many parts may make, where they may make so many together."""
    return min(most // parts, MOST_ALLOWANCE)


def bounded_run(allowance, points, triangles, size, stop, **more):
    """(size, mesh) of one run that makes at most so many attempts: a job of one mesh."""
    size = single(points, triangles, size)
    slab = Job(1, allowance).run(points, triangles, size, stop, **more)
    if slab.refused:
        raise slab.refused
    return size, slab.mesh


def best_run(points, triangles, size, stop, **more):
    """(size, mesh) of a run within the library's range: of the size that is given, or of the best
    candidate where it is None."""
    if size is not None:
        return size, run_front(points, triangles, size, stop, **more)
    runs, refused = [], None
    for place, trial in enumerate(candidates(points, triangles)):
        try:
            mesh = run_front(points, triangles, trial, stop, **more)
        except Refused as fault:
            refused = fault
            continue
        runs.append((*worth(mesh), place, trial, mesh))
    if not runs:
        raise refused
    *_, trial, mesh = min(runs, key=lambda run: run[:3])
    return trial, mesh
