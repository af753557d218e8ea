"""One call of `sedgepick_run_front_with`, or of `sedgepick_job`, with the memory that it needs;
`sedgepick_preview` and `sedgepick_replay` take the same."""
from __future__ import annotations
import ctypes
import math
from array import array
from collections.abc import Sequence
from dataclasses import dataclass, field
from typing import TYPE_CHECKING, Any, Callable, NamedTuple, Optional, Tuple, Union, overload
from . import library

try:
    import numpy
except ImportError:
    numpy = None  # type: ignore[assignment]

if TYPE_CHECKING:
    from numpy.typing import NDArray

# what a caller hands in: lists, tuples or arrays
Points = Union[Sequence[Sequence[float]], 'NDArray[Any]']
Cells = Union[Sequence[Sequence[int]], 'NDArray[Any]']
Trace = Union[Sequence[int], 'NDArray[Any]']
# what comes back: an array where numpy is there, otherwise a list of numbers or of tuples
Table = Any

# what a call takes
MOST_GIVEN = 4096      # points, and triangles
MOST_CAPACITY = 8192
MOST_SLOTS = 16384
FAR = 8.0              # x and y are within it
MOST_JOINTS = 256      # repeats counted
GRID_LINES = 1024      # to a unit, in the grid profile
LEAST_SIZE = 1 / 64
LARGEST_SIZE = 8.0
EXHAUST, EVEN_COMPONENTS = 0, 1
# what the numbers of a quality set may be, the bounds included
RANGES = {
    'least_jacobian': (0.0, 1.0),
    'largest_cosine': (0.5, 0.99),
    'side_low': (0.1, 4.0),
    'side_high': (0.1, 4.0),
    'pairs': (1, 64),
}

QUAD_WORDS = 8         # of a quad's record
# numbers of a finished run: nine counts, four lengths, the trials, the words of the trace
ANSWER = 15
TRACE_WORDS = 16       # of trace, lent at first for each triangle and for so many more

NO_POINT, NO_SLOTS, NO_TRACE, BAD_QUALITY, BAD_JOB = 8, 9, 11, 14, 16
# stands for every number that the library's words cannot hold; it names no point and no rule
NO_NODE = 2 ** 32 - 1

REFUSALS = {
    1: 'over 4,096 triangles or points, or over a capacity limit',
    2: 'the size is neither zero nor from 1/64 to 8',
    3: 'the stop rule is neither 0 nor 1',
    4: 'a lent slice is too short, or a capacity is below what is given',
    5: 'a triangle names a node that is not there',
    6: 'a triangle has a node twice',
    7: 'x or y is not finite or is beyond 8 in magnitude',
    8: 'the run inserts a point, and the point capacity is used up',
    9: 'the run needs a slot, and none is free',
    11: 'the entry of an insertion, a flip or a quad does not fit the lent trace',
    12: 'an entry of the trace is cut short or of another kind, or could not be made',
    13: 'a joint is one node twice or names a node that is not there, or there are over 256 joints',
    14: 'a quality number is out of its range or is a NaN, '
        'or the low side factor is above the high one',
    15: 'in the grid profile: an x or y is no multiple of 1/1024, or the size is not zero',
    16: 'the job has no mesh, over 16 or none left, its allowance is 0 or over 1,000,000, '
        'or more is left than could be',
}


class Refused(Exception):
    """The library refused the call: its `number`, a key of REFUSALS, and its `words`."""

    def __init__(self, number: int, words: str | None = None) -> None:
        self.number = number
        self.words = str(words or REFUSALS.get(number, 'a number that is not known'))
        super().__init__('refused with %d: %s' % (number, self.words))

    def __reduce__(self) -> tuple[type[Refused], tuple[int, str]]:
        return type(self), (self.number, self.words)


@dataclass(frozen=True)
class Quality:
    """What a quad is held to, and what is tried for it; without arguments the standard set. A set
    that the library would refuse raises Refused, with 14."""
    least_jacobian: float = 0.3              # least scaled Jacobian of a quad: 0 to 1
    # largest cosine of a corner: 0.5 to 0.99; this one is that of 25 degrees
    largest_cosine: float = 0.90630778703665
    # a side node is looked for at 0.5 to 2.2 times the target: 0.1 to 4
    side_low: float = 0.5
    side_high: float = 2.2
    pairs: int = 8                           # pairs of side nodes tried for an edge: 1 to 64

    def __post_init__(self) -> None:
        for name, (low, high) in RANGES.items():
            value = getattr(self, name)
            if not low <= value <= high or name == 'pairs' and int(value) != value:
                raise Refused(
                    BAD_QUALITY,
                    '%s is %r; it is %sfrom %g to %g'
                    % (name, value, 'a whole number ' if name == 'pairs' else '', low, high),
                )
        if self.side_low > self.side_high:
            raise Refused(
                BAD_QUALITY,
                'side_low, %r, is above side_high, %r' % (self.side_low, self.side_high),
            )

    def least_angle(self) -> float:
        """The angle of the largest cosine, in degrees."""
        return math.degrees(math.acos(self.largest_cosine))


def cosine_of(degrees: float) -> float:
    """The cosine for a least angle, to 14 decimals, as that of the standard set."""
    return round(math.cos(math.radians(degrees)), 14)


@dataclass
class Counts:
    """What a run counted: the attempts are the quads, the five refusals and `limit`."""
    front_empty: int          # 1 when no front edge was left
    attempts: int
    placement: int            # attempts refused: no side nodes
    invalid_quad: int         # no pair of side nodes with a good quad
    recovery: int             # a side that flips could not bring into the mesh
    # the triangles inside the quad do not fill it, or a joint is inside it
    region: int
    odd_region: int           # they do, and without them some component would be odd
    mismatch_insertions: int  # points added
    limit: int                # 1 when a limit ended the run
    trials: int  # pairs of side nodes tried, over all attempts: at most the set's number in each


class Quad(NamedTuple):
    """A quad, and how it came about."""
    nodes: Tuple[int, ...]  # counterclockwise
    # the front edge that it grew from, which is that between its first two nodes, the smaller one
    # first
    edge: Tuple[int, ...]
    round: int     # noqa: A003 the round that placed it, from 1
    replaced: int  # how many triangles it replaced


class Quads(Sequence[Quad]):
    """The quads in the order in which they were placed: a sequence of Quad. Its columns are
    `nodes`, `edges`, `rounds` and `replaced`, a row for each quad, as numpy arrays where numpy is
    there, otherwise as lists."""

    def __init__(self, records: Table) -> None:
        if numpy is not None:
            self.nodes, self.edges = records[:, :4], records[:, 4:6]
            self.rounds, self.replaced = records[:, 6], records[:, 7]
        else:
            self.nodes = [record[:4] for record in records]
            self.edges = [record[4:6] for record in records]
            self.rounds = [record[6] for record in records]
            self.replaced = [record[7] for record in records]

    def __len__(self) -> int:
        return len(self.rounds)

    @overload
    def __getitem__(self, place: int) -> Quad: ...

    @overload
    def __getitem__(self, place: slice) -> list[Quad]: ...

    def __getitem__(self, place: int | slice) -> Quad | list[Quad]:
        if isinstance(place, slice):
            return [self[i] for i in range(*place.indices(len(self)))]
        nodes, edge = tuple(map(int, self.nodes[place])), tuple(map(int, self.edges[place]))
        return Quad(nodes, edge, int(self.rounds[place]), int(self.replaced[place]))

    def __eq__(self, other: object) -> bool:
        if not isinstance(other, Quads):
            return NotImplemented
        return list(self) == list(other)

    def __repr__(self) -> str:
        return 'Quads(%s)' % ', '.join([*map(repr, self[:3]), *["'..'"] * (len(self) > 3)])


@dataclass
class Mesh:
    """A finished mesh. Points: the given ones, then the added ones. Triangles: those left over;
    components: the sizes of theirs, descending. The triangles left over are as many as the given
    ones and two for each added point, less what the quads replaced."""
    points: Table
    quads: Quads
    triangles: Table
    components: Table
    counts: Counts
    trace: Table = None  # its words, where it was asked for


@dataclass
class Call:
    """The numbers of a call."""
    given: int
    capacity: int
    count: int
    slots: int
    size: float
    stop: int
    quality: Quality = Quality()
    joints: array[int] = field(default_factory=lambda: array('I'))  # two nodes each
    grid: int = 0
    words: int = 0        # of trace


def run_front(
    points: Points,
    triangles: Cells,
    size: float,
    stop: int = EXHAUST,
    capacity: int | None = None,
    slots: int | None = None,
    quality: Quality = Quality(),
    joints: Cells = (),
    grid: bool = False,
    trace: bool = False,
    words: int | None = None,
) -> Mesh:
    """Pairs the triangles over the points into quads.

    points     x and y, or x, y and z, of each; x and y within 8 of zero, z is carried and never
               read
    triangles  three node numbers each, from 0
    size       target length of an edge: 0 for none, otherwise from 1/64 to 8
    stop       0: go on while an edge of the front is open; 1: and keep components even
    capacity, slots, words  what is lent at first; where it runs out (8, 9, 11) the run is made
                            again with twice as much, up to the limits
    quality    what quads are held to: a Quality; the standard set if left out
    joints     two node numbers each, in either order, at most 256: edges that are locked. One that
               the triangles have is an edge of the result; the order of the list and repeats
               change nothing
    grid       the grid profile: x and y of every point are multiples of 1/1024 and size is 0. No
               point is added, and the summed area of quads and triangles, each without sign,
               equals that of the given triangles, exactly (docs/GRID.md)
    trace      the mesh comes with the words of its trace, which `entries` reads and `replay`
               replays; nothing else changes

    The result does not depend on what is lent. Raises Refused, ValueError for lists of another
    shape, NoLibrary."""
    run = library.load().sedgepick_run_front_with
    given, count = len(points), len(triangles)
    flat_points, flat_triangles = doubles(points), node_numbers(triangles, 3, 'triangles')
    call = Call(
        given,
        first(capacity, given + given // 4 + 32, given, MOST_CAPACITY),
        count,
        first(slots, 2 * count + 64, count, MOST_SLOTS),
        float(size),
        rule(stop),
        quality,
        node_numbers(joints, 2, 'joints'),
        int(bool(grid)),
        max(TRACE_WORDS * (count + TRACE_WORDS) if words is None else words, 1) if trace else 0,
    )
    while True:
        refusal, mesh = attempt(run, flat_points, flat_triangles, call)
        if mesh is not None:
            return mesh
        if refusal == NO_POINT and call.capacity < MOST_CAPACITY:
            call.capacity = min(2 * call.capacity, MOST_CAPACITY)
        elif refusal == NO_SLOTS and call.slots < MOST_SLOTS:
            call.slots = min(2 * call.slots, MOST_SLOTS)
        elif refusal == NO_TRACE:
            call.words *= 2
        else:
            raise Refused(refusal)


def rule(stop: object) -> int:
    """The stop rule as the library reads it."""
    return stop if isinstance(stop, int) and 0 <= stop < NO_NODE else NO_NODE


def first(asked: int | None, usual: int, least: int, most: int) -> int:
    """What is lent at first: what was asked for, else the usual, not below what is given."""
    return max(least, min(usual if asked is None else asked, most), 1)


def capacities(call: Call) -> tuple[int, int]:
    """(points, slots) that a call is lent. One over the limits is refused before any memory is
    looked at."""
    over = call.given > MOST_GIVEN or call.count > MOST_GIVEN
    return (1, 1) if over else (call.capacity, call.slots)


def numbers(count: int) -> ctypes.Array[ctypes.c_uint32]:
    """So many words; no slice is without an address."""
    return (ctypes.c_uint32 * max(count, 1))()


class Memory:
    """The slices of a call, with what is given in them, as long as the call states: `slices` with
    their lengths, the trace after them, and what is `stated`."""

    def __init__(self, points: array[float], triangles: array[int], call: Call) -> None:
        capacity, slots = capacities(call)
        self.xyz = (ctypes.c_double * max(3 * capacity, len(points), 1))()
        ctypes.memmove(self.xyz, points.buffer_info()[0], 8 * len(points))
        self.quads, self.left = numbers(QUAD_WORDS * slots), numbers(3 * slots)
        self.components, self.trace = numbers(slots), numbers(call.words)
        work = numbers(64 * slots + 8 * capacity), (ctypes.c_double * (4 * slots))()
        written: tuple[ctypes.Array[Any], ...] = (self.quads, self.left, self.components, *work)
        self.given = (self.xyz, len(self.xyz), lent(triangles), len(triangles))
        self.written: tuple[Any, ...] = tuple(
            word for memory in written for word in (memory, len(memory))
        )
        self.slices = (*self.given, lent(call.joints), len(call.joints), *self.written)
        q = call.quality
        self.stated = (
            call.given, call.capacity, call.count, call.slots, len(call.joints) // 2, call.size,
            call.stop, q.least_jacobian, q.largest_cosine, q.side_low, q.side_high, int(q.pairs),
            call.grid,
        )
        self.traced = (*self.slices, self.trace, call.words, *self.stated)

    def lists(
        self, quads: int, left: int, points: int, components: int
    ) -> tuple[Table, Quads, Table, Table]:
        """The lists of such lengths."""
        placed = Quads(rows(self.quads, quads, QUAD_WORDS))
        return (
            rows(self.xyz, points, 3), placed, rows(self.left, left, 3),
            rows(self.components, components, 1),
        )


def attempt(
    run: Callable[..., Any],
    points: array[float],
    triangles: array[int],
    call: Call,
    job: tuple[Any, ...] = (),
) -> tuple[int, Optional[Mesh]]:
    """(refusal, mesh) of one run with as much memory as the call states; of a job, whose slice and
    its length are handed in."""
    memory = Memory(points, triangles, call)
    answer = (ctypes.c_size_t * ANSWER)()
    refusal = run(*memory.traced, *job, answer, len(answer))
    if refusal:
        return refusal, None
    counts, (trials, words) = answer[:9], answer[13:]
    traced = rows(memory.trace, words, 1) if call.words else None
    return 0, Mesh(*memory.lists(*answer[9:13]), Counts(*[*counts, trials]), traced)


def lent(words: array[int]) -> ctypes.Array[ctypes.c_uint32]:
    """Words as the library reads them."""
    memory = numbers(len(words))
    ctypes.memmove(memory, words.buffer_info()[0], 4 * len(words))
    return memory


def rows(numbers: ctypes.Array[Any], count: int, width: int) -> Table:
    """The first rows of a slice, as an array of their own, or as tuples where there is no numpy."""
    if numpy is not None:
        taken: Table = numpy.frombuffer(memoryview(numbers), dtype=numbers._type_)
        table = taken[:width * count]
        return table.copy() if width == 1 else table.reshape(count, width).copy()
    if width == 1:
        return list(numbers[:count])
    return [tuple(numbers[width * i:width * i + width]) for i in range(count)]


def doubles(points: Points) -> array[float]:
    """x, y, z of each point in a row; z is 0 where it is left out."""
    if numpy is not None and isinstance(points, numpy.ndarray) and len(points):
        if points.dtype.kind not in 'iuf' or points.ndim != 2 or points.shape[1] not in (2, 3):
            raise ValueError('points have 2 or 3 coordinates each')
        table = numpy.zeros((len(points), 3))
        table[:, :points.shape[1]] = points
        return array('d', table.tobytes())
    flat = array('d')
    for point in points:
        if len(point) not in (2, 3):
            raise ValueError('points have 2 or 3 coordinates, not %d' % len(point))
        flat.extend(map(float, tuple(point) + (0.0,) * (3 - len(point))))
    return flat


def node_numbers(cells: Cells, width: int, what: str) -> array[int]:
    """So many numbers a cell; one that 32 bits cannot hold becomes one that names no point."""
    if numpy is not None and isinstance(cells, numpy.ndarray):
        if len(cells) and (
            cells.dtype.kind not in 'iu' or cells.ndim != 2 or cells.shape[1] != width
        ):
            raise ValueError('%s have %d whole numbers each' % (what, width))
        held = numpy.where((cells < 0) | (cells > NO_NODE), NO_NODE, cells).astype(numpy.uint32)
        return array('I', numpy.ascontiguousarray(held).tobytes())
    flat = array('I')
    for cell in cells:
        if len(cell) != width:
            raise ValueError('%s have %d nodes, not %d' % (what, width, len(cell)))
        for node in cell:
            if int(node) != node:
                raise ValueError('node numbers are whole, not %r' % (node,))
            flat.append(int(node) if 0 <= node <= NO_NODE else NO_NODE)
    return flat
