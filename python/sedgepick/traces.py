"""The trace of a run: its entries, and their replay on the mesh that the run was given."""
from __future__ import annotations
import ctypes
import struct
from array import array
from dataclasses import dataclass
from typing import NamedTuple, Optional, Tuple, Union
from . import library
from .front import (
    MOST_CAPACITY, MOST_SLOTS, Call, Cells, Memory, Points, Quad, Quads, Refused, Table, Trace,
    doubles, lent, node_numbers,
)

INSERTION, FLIP, QUAD = 1, 2, 4  # an entry's first word
HEAD = 9                         # words of a quad's entry before its slots
MOST_WORD = 2 ** 32 - 1


class Insertion(NamedTuple):
    """The triangle of a slot was split at a point, which comes behind the others with z 0. The
    first third keeps the slot, the other two take the next ones."""
    slot: int
    x: float
    y: float

    def words(self) -> list[int]:
        return [INSERTION, self.slot, *struct.unpack('<4I', struct.pack('<2d', self.x, self.y))]

    def __str__(self) -> str:
        return 'insertion at %.10g, %.10g in the triangle of slot %d' % (self.x, self.y, self.slot)


class Flip(NamedTuple):
    """The edge between two triangles was flipped."""
    edge: Tuple[int, ...]  # the smaller node first

    def words(self) -> list[int]:
        return [FLIP, *self.edge]

    def __str__(self) -> str:
        return 'edge %d-%d flipped' % self.edge


class Placed(NamedTuple):
    """A quad came in place of the triangles of some slots, into the next slot."""
    quad: Quad
    slots: Tuple[int, ...]

    def words(self) -> list[int]:
        return [
            QUAD, *self.quad.nodes, *self.quad.edge, self.quad.round, len(self.slots), *self.slots,
        ]

    def __str__(self) -> str:
        return 'quad %d %d %d %d from edge %d-%d in round %d in place of %d triangles' % (
            *self.quad.nodes, *self.quad.edge, self.quad.round, self.quad.replaced,
        )


Entry = Union[Insertion, Flip, Placed]


def entry(words: Trace, at: int = 0) -> Optional[Entry]:
    """The entry that begins at a place; None where it is cut short or of another kind."""
    kind, there = (int(words[at]) if at < len(words) else 0), len(words) - at
    if kind == INSERTION and there >= 6:
        slot, *halves = map(int, words[at + 1:at + 6])
        return Insertion(slot, *struct.unpack('<2d', struct.pack('<4I', *halves)))
    if kind == FLIP and there >= 3:
        return Flip(tuple(map(int, words[at + 1:at + 3])))
    if kind == QUAD and there >= HEAD and there >= HEAD + int(words[at + HEAD - 1]):
        a, b, c, d, u, v, turn, count = map(int, words[at + 1:at + HEAD])
        return Placed(
            Quad((a, b, c, d), (u, v), turn, count),
            tuple(map(int, words[at + HEAD:at + HEAD + count])),
        )
    return None


def entries(words: Trace) -> list[Entry]:
    """The entries of a trace, in order: Insertion, Flip and Placed. ValueError where the words are
    not whole entries."""
    found: list[Entry] = []
    at = 0
    while at < len(words):
        one = entry(words, at)
        if one is None:
            raise ValueError('word %d of %d begins no whole entry' % (at, len(words)))
        found.append(one)
        at += len(one.words())
    return found


@dataclass
class Replayed:
    """A mesh after the entries of a trace: its lists are those of a Mesh."""
    points: Table
    quads: Quads
    triangles: Table
    components: Table


def whole_words(trace: Trace) -> array[int]:
    """The words of a trace as 32 bits each; ValueError for one that they cannot hold."""
    words = array('I')
    for place, word in enumerate(trace):
        if not 0 <= word <= MOST_WORD or int(word) != word:
            raise ValueError(
                'word %d of the trace is %r, and words are whole numbers from 0 to %d'
                % (place, word, MOST_WORD)
            )
        words.append(int(word))
    return words


def replay(points: Points, triangles: Cells, trace: Trace) -> Replayed:
    """Replays the words of a trace on the mesh that its run was given. After all of them the lists
    are the run's; after the first entries alone they are those of the mesh as it was then, so a
    mesh can be stepped through as it grew.

    trace  words, of a run or from anywhere: an entry that cannot be made is refused with 12

    Raises Refused, ValueError for lists of another shape and for a word that is no whole number
    from 0 to 2^32 - 1, NoLibrary."""
    words = whole_words(trace)
    given, count = len(points), len(triangles)
    inserted = placed = at = 0
    while (one := entry(words, at)) is not None:
        inserted += isinstance(one, Insertion)
        placed += isinstance(one, Placed)
        at += len(one.words())
    call = Call(
        given,
        max(given, min(given + inserted, MOST_CAPACITY), 1),
        count,
        max(count, min(count + 2 * inserted + placed, MOST_SLOTS), 1),
        0.0,
        0,
    )
    memory = Memory(doubles(points), node_numbers(triangles, 3, 'triangles'), call)
    answer = (ctypes.c_size_t * 4)()
    refusal = library.load().sedgepick_replay(
        *memory.given, lent(words), len(words), *memory.written, call.given, call.capacity,
        call.count, call.slots, len(words), answer, len(answer)
    )
    if refusal:
        raise Refused(refusal)
    return Replayed(*memory.lists(*answer))
