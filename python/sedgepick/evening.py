"""Parts for stop rule 1, under which a component with an odd number of triangles may get no quad at
all: where a mesh is cut into parts, single triangles are handed across the cuts until each part of
an even component is even."""
import numpy
from . import quality


class Pieces:
    """The components of the parts, and which triangles are neighbours."""

    def __init__(self, triangles, part):
        a, b, _ = quality.neighbours(triangles)
        self.part = part.copy()
        self.near = [[] for _ in range(len(triangles))]
        for x, y in zip(a.tolist(), b.tolist()):
            self.near[x].append(y)
            self.near[y].append(x)
        same = part[a] == part[b]
        self.piece = quality.joined(len(triangles), a[same], b[same])
        self.size = numpy.bincount(self.piece)
        self.cuts = {}
        for x, y in zip(a[~same].tolist(), b[~same].tolist()):
            for one, other in ((x, y), (y, x)):
                self.cuts.setdefault(int(self.piece[one]), set()).add(int(self.piece[other]))

    def tree(self):
        """(piece, the piece before it or None) over every component of the mesh, the first ones
        first."""
        found, order = set(), []
        for root in range(len(self.size)):
            waiting = [(root, None)] if root not in found else []
            found.add(root)
            while waiting:
                piece, before = waiting.pop(0)
                order.append((piece, before))
                for other in sorted(self.cuts.get(piece, ())):
                    if other not in found:
                        found.add(other)
                        waiting.append((other, piece))
        return order

    def can_go(self, triangle, there):
        """Whether its own piece stays in one without the triangle, and it joins no other piece of
        the part that it goes to."""
        own = int(self.piece[triangle])
        part = self.part[numpy.flatnonzero(self.piece == there)[0]]
        if any(
            self.part[other] == part and self.piece[other] != there for other in self.near[triangle]
        ):
            return False
        beside = [other for other in self.near[triangle] if self.piece[other] == own]
        seen, waiting = {triangle, *beside[:1]}, beside[:1]
        while waiting and not set(beside) <= seen:
            for other in self.near[waiting.pop()]:
                if self.piece[other] == own and other not in seen:
                    seen.add(other)
                    waiting.append(other)
        return set(beside) <= seen

    def hand(self, here, there):
        """Hands a triangle from one piece to the other; whether one could go."""
        for triangle in numpy.flatnonzero(self.piece == here).tolist():
            ends = [other for other in self.near[triangle] if self.piece[other] == there]
            if ends and self.can_go(triangle, there):
                self.part[triangle], self.piece[triangle] = self.part[ends[0]], there
                self.size[here] -= 1
                self.size[there] += 1
                return True
        return False


def make_even(triangles, part):
    """The parts, each component of them even where it can be."""
    pieces = Pieces(triangles, part)
    for piece, before in reversed(pieces.tree()):
        if before is not None and pieces.size[piece] % 2:
            pieces.hand(piece, before) or pieces.hand(before, piece)
    return pieces.part
