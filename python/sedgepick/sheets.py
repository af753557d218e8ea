"""The quality sheet of a list of quads, and how it is written: as text, as a table and as a
histogram."""
from __future__ import annotations
import ctypes
import math
from dataclasses import dataclass
from html import escape
from typing import Sequence
from . import library
from .front import (
    MOST_CAPACITY, MOST_SLOTS, QUAD_WORDS, Cells, Points, Quads, Refused, Table, doubles,
    node_numbers, rows,
)

try:
    import numpy
except ImportError:
    numpy = None  # type: ignore[assignment]

# between the steps of the scaled Jacobian; one that is met counts upward
BOUNDS = (0.1, 0.2, 0.3, 0.4, 0.5, 0.6, 0.7, 0.8, 0.9)
STEPS = len(BOUNDS) + 1
# the steps, the quads without metrics, and the quads that have the worst of each kind
NUMBERS = STEPS + 3
BAR = 40             # signs of the longest bar


@dataclass
class Worst:
    """The worst value of a kind, and the first quad that has it, from 0."""
    quad: int
    value: float


@dataclass
class Sheet:
    """What a sheet says of a list of quads."""
    # scaled Jacobian and largest cosine of each quad; two zeros for one without metrics
    metrics: Table
    steps: tuple[int, ...]  # how many quads lie in each step of the scaled Jacobian
    # not convex, not counterclockwise, or without area; with the steps they add up to the quads
    without_metrics: int
    jacobian: Worst | None  # the least, or None where no quad has metrics
    cosine: Worst | None   # the largest, or None


def sheet(points: Points, quads: Quads | Cells) -> Sheet:
    """The sheet of quads over points: x and y, or x, y and z, of each point; Quads of a run, or
    four node numbers each.

    Raises Refused: 1 over 16,384 quads or 8,192 points, 5 a corner that is no point, 7 an x or y
    that is not finite or is beyond 8."""
    corners = node_numbers(quads.nodes if isinstance(quads, Quads) else quads, 4, 'quads')
    flat, given, count = doubles(points), len(points), len(quads)
    room = 0 if given > MOST_CAPACITY or count > MOST_SLOTS else count
    xyz = (ctypes.c_double * max(len(flat), 1))()
    ctypes.memmove(xyz, flat.buffer_info()[0], 8 * len(flat))
    records = (ctypes.c_uint32 * max(QUAD_WORDS * room, 1))()
    for i in range(room):
        records[QUAD_WORDS * i:QUAD_WORDS * i + 4] = list(corners[4 * i:4 * i + 4])
    out, answer = (ctypes.c_double * max(2 * room, 1))(), (ctypes.c_size_t * NUMBERS)()
    refusal = library.load().sedgepick_sheet(
        xyz, len(flat), records, QUAD_WORDS * room, out, 2 * room, given, count, answer, NUMBERS
    )
    if refusal:
        raise Refused(refusal)
    worst = [
        Worst(quad, out[2 * quad + place]) if quad < count else None
        for place, quad in enumerate(answer[STEPS + 1:])
    ]
    return Sheet(rows(out, count, 2), tuple(answer[:STEPS]), answer[STEPS], *worst)


def join(sheets: Sequence[Sheet]) -> Sheet:
    """The sheet of several lists, one after the other."""
    metrics = (
        numpy.concatenate([s.metrics for s in sheets])
        if numpy is not None
        else [row for s in sheets for row in s.metrics]
    )
    worst: list[Worst | None] = [None, None]
    before = 0
    for s in sheets:
        for place, (found, sign) in enumerate(((s.jacobian, 1), (s.cosine, -1))):
            best = worst[place]
            if found and (best is None or sign * found.value < sign * best.value):
                worst[place] = Worst(before + found.quad, found.value)
        before += len(s.metrics)
    return Sheet(
        metrics, tuple(map(sum, zip(*(s.steps for s in sheets)))),
        sum(s.without_metrics for s in sheets), *worst
    )


def step_names() -> list[str]:
    """What each count stands for, the quads without metrics last."""
    ends = ['%g' % bound for bound in BOUNDS]
    return (
        ['below ' + ends[0]]
        + ['%s to %s' % pair for pair in zip(ends, ends[1:])]
        + [ends[-1] + ' and above', 'without metrics']
    )


def counts(s: Sheet) -> list[int]:
    return [*s.steps, s.without_metrics]


def worst_words(s: Sheet) -> list[tuple[str, str]]:
    """The worst of each kind in words; quads are counted from 1."""
    if s.jacobian is None or s.cosine is None:
        return [('worst scaled Jacobian', 'none'), ('worst cosine', 'none')]
    angle = math.degrees(math.acos(max(-1.0, min(1.0, s.cosine.value))))
    return [
        ('worst scaled Jacobian', '%.6f, quad %d' % (s.jacobian.value, s.jacobian.quad + 1)),
        (
            'worst cosine',
            '%.6f (%.2f degrees), quad %d' % (s.cosine.value, angle, s.cosine.quad + 1),
        ),
    ]


def histogram(s: Sheet) -> list[tuple[str, str]]:
    """[(step, count and bar)]"""
    most = max(*counts(s), 1)
    return [
        (name, ('%6d %s' % (n, '#' * math.ceil(BAR * n / most))).rstrip())
        for name, n in zip(step_names(), counts(s))
    ]


def text(s: Sheet, name: str) -> str:
    """The sheet as text: the worst, the counts, then quad by quad."""
    lines = ['quality sheet of %s: %d quads' % (name, len(s.metrics)), '']
    lines += ['%-24s %s' % row for row in worst_words(s)] + ['', 'scaled Jacobian           quads']
    lines += ['%-24s %s' % row for row in histogram(s)] + ['', '  quad  scaled Jacobian   cosine']
    lines += [
        '%6d  %15.6f  %7.4f' % (i + 1, jacobian, cosine)
        for i, (jacobian, cosine) in enumerate(s.metrics)
    ]
    return '\n'.join(lines) + '\n'


def table(s: Sheet, nodes: Cells) -> str:
    """The sheet as CSV, with the nodes of each quad by their numbers; the numbers are written so
    that they read back as they are."""
    lines = ['quad,n0,n1,n2,n3,scaled_jacobian,cosine']
    for i, (corners, (jacobian, cosine)) in enumerate(zip(nodes, s.metrics)):
        lines.append(
            '%d,%s,%r,%r'
            % (i + 1, ','.join(str(int(node)) for node in corners), float(jacobian), float(cosine))
        )
    return '\n'.join(lines) + '\n'


def draw(s: Sheet) -> str:
    """The histogram as a picture for the report's page."""
    most, high, wide = max(*counts(s), 1), 160, 108
    bars = []
    for i, (name, n) in enumerate(zip(step_names(), counts(s))):
        tall = high * n / most
        bars.append(
            '<rect x="%d" y="%.1f" width="%d" height="%.1f" fill="%s"/><text x="%d" '
            'y="%.1f">%d</text><text x="%d" y="%d">%s</text>'
            % (
                wide * i + 8, 20 + high - tall, wide - 16, tall,
                '#b03a2e' if i == STEPS else '#4a7fb0', wide * i + wide // 2, 15 + high - tall, n,
                wide * i + wide // 2, high + 36, escape(name),
            )
        )
    return (
        '<div class="chart" tabindex="0"><svg class="sheet" viewBox="0 0 %d %d" width="%d" '
        'role="img" aria-label="quads by scaled Jacobian"><g font-size="12" '
        'text-anchor="middle">%s</g></svg></div>'
        % (wide * (STEPS + 1), high + 46, wide * (STEPS + 1), ''.join(bars))
    )
