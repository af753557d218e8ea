"""Quads from the triangles of a plane mesh, by an advancing front.

The mesher is proved: a finished mesh is the one that a short definition fixes, bit for bit, and
each of its quads is, in exact arithmetic, convex and counterclockwise. With the standard quality
set no quad has a corner under 24.99 degrees; with any other set, the exact cosine of each corner is
at most the set's largest cosine plus 1e-9. This package lends it memory.

A slab of any unit and any size is one call, which runs it in parts where it is large, finishes what
the runs leave and has the whole mesh judged; it needs numpy:

    mesh = sedgepick.mesh(points, triangles, lines=walls, points_kept=columns)
    mesh.quads, mesh.accepted

One run of the proved mesher, within its range:

    >>> import sedgepick
    >>> square = [(0, 0), (1, 0), (1, 1), (0, 1)], [(0, 1, 2), (0, 2, 3)]
    >>> mesh = sedgepick.run_front(*square, size=1.0, stop=0)
    >>> mesh.quads[0]
    Quad(nodes=(0, 1, 2, 3), edge=(0, 1), round=1, replaced=2)

A quad knows the front edge that it grew from, the round that placed it and how many triangles it
replaced; `mesh.quads.nodes` has the nodes of all.

Quads can be held to other numbers than the standard ones, here to corners of 40 degrees (exactly,
but for 1e-9 of the cosine):

    >>> strict = sedgepick.Quality(largest_cosine=sedgepick.cosine_of(40), least_jacobian=0.5)
    >>> slanted = [(0, 0), (1, 0), (1.9, 0.5), (0.9, 0.5)], [(0, 1, 2), (0, 2, 3)]
    >>> len(sedgepick.run_front(*slanted, size=1.0, quality=strict).quads)
    0

Joints are edges that no run takes away, here the diagonal:

    >>> mesh = sedgepick.run_front(*square, size=1.0, joints=[(2, 0)])
    >>> len(mesh.quads), len(mesh.triangles)
    (0, 2)

What an edge would give, were it the first that a run tries, can be asked before any run; an edge of
a square, the same with a joint, and all edges of the front:

    >>> sedgepick.preview(*square, edge=(1, 0), size=1.0).quad
    Quad(nodes=(0, 1, 2, 3), edge=(0, 1), round=1, replaced=2)
    >>> sedgepick.preview(*square, edge=(1, 0), size=1.0, joints=[(0, 2)])
    Preview(quad=None, refused='region', insertions=0, flips=0)
    >>> [str(shown) for shown in sedgepick.preview_front(*square, size=1.0).values()][0]
    'quad 0 1 2 3 in place of 2 triangles; no insertion, no flip'

A run can be asked for its trace, an entry for each insertion, flip and quad; with its first entries
a mesh can be looked at as it was then:

    >>> mesh = sedgepick.run_front(*square, size=1.0, trace=True)
    >>> [str(entry) for entry in sedgepick.entries(mesh.trace)]
    ['quad 0 1 2 3 from edge 0-1 in round 1 in place of 2 triangles']
    >>> sedgepick.replay(*square, mesh.trace).quads == mesh.quads
    True
    >>> len(sedgepick.replay(*square, []).triangles)
    2

Several meshes can share an allowance of attempts, and what one leaves goes to the next:

    >>> job = sedgepick.Job(2, 7)
    >>> job.run([(0, 0), (1, 0), (1, 1)], [(0, 1, 1)], size=1.0).refused.number
    6
    >>> slab = job.run([(0, 0), (1, 0), (1, 1), (0, 1)], [(0, 1, 2), (0, 2, 3)], size=1.0)
    >>> len(slab.mesh.quads), slab.limit, slab.charged, slab.left
    (1, 6, 1, 5)

A sheet says how good the quads of a list are, ours or not:

    >>> found = sedgepick.sheet(mesh.points, [(0, 1, 2, 3), (3, 2, 1, 0)])
    >>> found.steps, found.without_metrics, found.jacobian
    ((0, 0, 0, 0, 0, 0, 0, 0, 0, 1), 1, Worst(quad=0, value=1.0))

An archive can keep its meshes sorted; two are the same where their points agree and their triangles
agree up to rotation and list order:

    >>> turned = square[0], [(2, 3, 0), (1, 2, 0)]
    >>> sedgepick.filing_order(square, turned), sedgepick.Filed(*square) == sedgepick.Filed(*turned)
    (0, True)
    >>> sedgepick.filing_order((square[0], square[1][:1]), square)
    -1

Acceptance runs can cover every list of one to three different triangles on 3, 4 or 5 points, by its
place in their order:

    >>> sedgepick.small_mesh(4, 13), sedgepick.small_mesh(4, 14)
    ([(0, 1, 3), (0, 2, 3), (1, 2, 3)], None)
    >>> [len(list(sedgepick.small_meshes(points))) for points in (3, 4, 5)]
    [1, 14, 175]

A finished mesh, ours or not, can be judged against the mesh that was given, in exact arithmetic;
the verdict is true where every clause holds, names the first offender of each that does not, and
prints as a sheet:

    >>> verdict = sedgepick.accept(*square, mesh.points, mesh.quads, mesh.triangles)
    >>> verdict.accepted, verdict.folded, verdict.uneven
    (True, None, None)
    >>> print(sedgepick.accept(*square, [(0, 0), (1, 0), (1, 1), (0.75, 0.5)], [(0, 1, 2, 3)], []))
    NOT ACCEPTED: 1 quads and 0 leftover triangles for 2 triangles
    4 points, of which 4 given and 0 added; 0 joints; numbers count from 0
    given points kept                                  does not hold: point 3 is the first
    quads convex                                       does not hold: quad 0 is the first
    corners of quads, cosine up to 0.90630778703665    holds
    given triangles have area                          holds
    leftover triangles have area                       holds
    sides balance: no gap, no overlap                  holds
    corners left over, cosine up to 1.0                not asked
    joints kept                                        holds
    components left over                               0, 0 odd

Threads: the library keeps nothing between calls and each call here lends memory of its own, so any
number of threads may call `run_front` at once. The interpreter's lock is free while the library
runs.

Lists come back as numpy arrays where numpy is there, otherwise as lists of tuples.
"""
from typing import TYPE_CHECKING
from .acceptance import ANY_TRIANGLE, MOST_JUDGED, Judged, Verdict, accept
from .filing import AFTER, BEFORE, SAME, Filed, filing_order
from .front import (
    EVEN_COMPONENTS, EXHAUST, FAR, GRID_LINES, LARGEST_SIZE, LEAST_SIZE, MOST_CAPACITY, MOST_GIVEN,
    MOST_JOINTS, MOST_SLOTS, RANGES, REFUSALS, Counts, Quad, Quads, Quality, Refused, cosine_of,
    run_front,
)
from .front import Mesh as FrontMesh
from .job import MOST_ALLOWANCE, MOST_MESHES, MOST_TRACE, Job, Slab
from .library import NoLibrary, VERSION, commit
from .previews import KINDS, Preview, preview, preview_front
from .sheets import Sheet, Worst, sheet
from .small import small_mesh, small_meshes
from .traces import Flip, Insertion, Placed, Replayed, entries, replay

if TYPE_CHECKING:
    from .meshing import Mesh, mesh
    from .surfaces import Fault

__version__ = VERSION
__license__ = 'MIT'
__all__ = [
    'AFTER', 'ANY_TRIANGLE', 'BEFORE', 'Counts', 'EVEN_COMPONENTS', 'EXHAUST', 'FAR', 'Fault',
    'Filed', 'Flip', 'FrontMesh', 'GRID_LINES', 'Insertion', 'Job', 'Judged', 'KINDS',
    'LARGEST_SIZE', 'LEAST_SIZE', 'MOST_ALLOWANCE', 'MOST_CAPACITY', 'MOST_GIVEN', 'MOST_JOINTS',
    'MOST_JUDGED', 'MOST_MESHES', 'MOST_SLOTS', 'MOST_TRACE', 'Mesh', 'NoLibrary', 'Placed',
    'Preview', 'Quad', 'Quads', 'Quality', 'RANGES', 'REFUSALS', 'Refused', 'Replayed', 'SAME',
    'Sheet', 'Slab', 'Verdict', 'Worst', 'accept', 'commit', 'cosine_of', 'entries', 'filing_order',
    'mesh', 'preview', 'preview_front', 'replay', 'run_front', 'sheet', 'small_mesh',
    'small_meshes',
]

# what needs numpy is imported when it is asked for: the rest works without
LATE = {'Fault': 'surfaces', 'Mesh': 'meshing', 'mesh': 'meshing'}


def __getattr__(name: str) -> object:
    if name not in LATE:
        raise AttributeError('module %r has no attribute %r' % (__name__, name))
    from importlib import import_module
    try:
        found = getattr(import_module('.' + LATE[name], __name__), name)
    except ModuleNotFoundError as missing:
        if missing.name != 'numpy':
            raise
        raise AttributeError(
            'sedgepick.%s needs numpy: install it (Debian: apt install python3-numpy)' % name
        ) from None
    globals()[name] = found
    return found
