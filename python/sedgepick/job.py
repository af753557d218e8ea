"""Several meshes under one attempt allowance."""
from __future__ import annotations
import ctypes
from dataclasses import dataclass
from . import library
from .front import (
    BAD_JOB, EXHAUST, MOST_CAPACITY, MOST_SLOTS, Call, Cells, Mesh, Points, Quality, Refused,
    attempt, doubles, first, node_numbers, rule,
)

MOST_MESHES = 16
MOST_ALLOWANCE = 1000000
MOST_TRACE = 1 << 22  # words of trace that a mesh is lent where it asks for one and says no less


def usual_limit(count: int) -> int:
    """The limit on attempts of so many triangles run by themselves."""
    return 200 * count + 10000


@dataclass
class Slab:
    """What a mesh of a job came to: a mesh, or why it was refused."""
    mesh: Mesh | None
    refused: Refused | None
    share: int       # of the allowance
    entitled: int    # attempts that it was entitled to: its share, and what the one before left
    limit: int       # on its attempts: that, or its usual one
    # attempts made; where 8, 9 or 11 ended its run, those begun; 0 where it was refused before
    charged: int
    left: int        # for the next mesh


class Job:
    """Up to 16 meshes under an allowance of up to 1,000,000 attempts, run in turn; Refused, with
    16, where there are none or more.

    Each mesh is entitled to `share`, the whole part of the allowance divided by the number of
    meshes, and to what the one before it left. The attempts made never pass the allowance, and
    where a mesh run by itself is finished, its quads in the job are the first ones of that run. A
    job is for one thread."""

    def __init__(self, meshes: int, allowance: int) -> None:
        for what, number, most in (
            ('meshes', meshes, MOST_MESHES),
            ('the allowance', allowance, MOST_ALLOWANCE),
        ):
            if int(number) != number or not 1 <= number <= most:
                raise Refused(BAD_JOB, '%s: %r; from 1 to %d' % (what, number, most))
        self.meshes, self.allowance, self.done, self.left = int(meshes), int(allowance), 0, 0
        self.charged = 0  # so far

    @property
    def share(self) -> int:
        return self.allowance // self.meshes

    @property
    def entitled(self) -> int:
        """What the next mesh is entitled to."""
        return self.share + self.left

    def run(
        self,
        points: Points,
        triangles: Cells,
        size: float,
        stop: int = EXHAUST,
        capacity: int | None = None,
        slots: int | None = None,
        quality: Quality = Quality(),
        joints: Cells = (),
        grid: bool = False,
        trace: bool = False,
        words: int = MOST_TRACE,
    ) -> Slab:
        """Runs the next mesh and says what came of it, a Slab; the parameters are those of
        run_front. A refused mesh has its number, and the job goes on. Past the last mesh it raises
        Refused, with 16, and the job stays as it is.

        A mesh is run once: to make the run again with more memory would take its attempts from the
        allowance twice. So as much is lent as the limits allow, unless capacity and slots say less,
        and so many words where a trace is asked for; 8, 9 and 11 come from a run that needs
        more."""
        run = library.load().sedgepick_job
        given, count = len(points), len(triangles)
        flat_points, flat_triangles = doubles(points), node_numbers(triangles, 3, 'triangles')
        call = Call(
            given, first(capacity, MOST_CAPACITY, given, MOST_CAPACITY), count,
            first(slots, MOST_SLOTS, count, MOST_SLOTS), float(size), rule(stop), quality,
            node_numbers(joints, 2, 'joints'), int(bool(grid)), max(words, 1) if trace else 0,
        )
        state = (ctypes.c_size_t * 5)(self.meshes, self.allowance, self.done, self.left, 0)
        entitled = self.entitled
        refusal, mesh = attempt(run, flat_points, flat_triangles, call, (state, len(state)))
        if refusal == BAD_JOB:
            raise Refused(refusal)
        self.meshes, self.allowance, self.done, self.left, charged = state
        self.charged += charged
        return Slab(
            mesh, Refused(refusal) if refusal else None, self.share, entitled,
            min(entitled, usual_limit(count)), charged, self.left,
        )
