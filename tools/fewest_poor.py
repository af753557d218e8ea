"""The fewest poor quads that any mesh on given nodes can have, by an integer program (HiGHS, in scipy's milp): what no finishing pass can go below.

  fewest_poor.py slab.msh ..     needs scipy, meshio and the shared library (tools/shared)

The cells are all quads with a scaled Jacobian of at least 0.3 and no corner under 25 degrees, and all triangles of at least 15 degrees, that have no other node in them and no
border or line across. Their sides are pairs of nodes that are at most two edges apart in the constrained Delaunay triangulation. A set of cells is a mesh where the sides balance
as those of the given triangles do: one equation for each pair. At most one in a hundred cells may be a triangle, or one where the number of triangles is odd. Of such meshes the
one with the fewest quads under 0.5 is sought; `none` says that there is no such mesh. Nothing here is proved: the program's answer is in floats."""
import math, os, sys

ROOT = os.path.dirname(os.path.dirname(os.path.abspath(__file__)))
sys.path.insert(0, os.path.join(ROOT, 'python'))
import numpy
from scipy.optimize import Bounds, LinearConstraint, milp
from scipy.sparse import coo_matrix
from sedgepick import files, finishing, quality, surfaces, verdicts

LEAST, POOR, LARGEST_COSINE, THIN, SHARE = 0.3, 0.5, 0.90630778703665, 15.0, 0.01
SLACK = 1e-9
SECONDS = 60


class Region:
    """The constrained Delaunay triangulation of a file's nodes, and the cells that could stand in it."""

    def __init__(self, points, triangles, hard):
        self.points = [tuple(point) for point in numpy.asarray(points, dtype=float)[:, :2].tolist()]
        cover = finishing.swap(finishing.cover_of(points, triangles, (), hard))[0]
        self.count, self.apex, self.near = len(cover.cells), {}, {}
        for triangle in cover.triangles().tolist():
            for i in range(3):
                self.apex[triangle[i - 1], triangle[i]] = triangle[(i + 1) % 3]
        for a, b in self.apex:
            self.near.setdefault(a, set()).add(b)
            self.near.setdefault(b, set()).add(a)
        self.locked = {tuple(sorted(map(int, edge))) for edge in hard}
        self.walls = self.locked | {tuple(sorted(side)) for side in self.apex if side[::-1] not in self.apex}

    def turn(self, a, b, c):
        (ax, ay), (bx, by), (cx, cy) = self.points[a], self.points[b], self.points[c]
        return (bx - ax) * (cy - ay) - (by - ay) * (cx - ax)

    def sees(self, a, c):
        """Whether the segment meets no wall and no node on its way through the triangles."""
        if c in self.near[a]:
            return True
        for b in self.near[a]:
            d = self.apex.get((a, b))
            if d is None or self.turn(a, b, c) <= 0 or self.turn(a, d, c) >= 0:
                continue
            while tuple(sorted((b, d))) not in self.walls:
                apex = self.apex[d, b]
                if apex == c:
                    return True
                side = self.turn(a, c, apex)
                if side == 0:
                    return False
                b, d = (apex, d) if side < 0 else (b, apex)
            return False
        return False

    def corner(self, a, b, c):
        """The sine and the cosine at b."""
        (px, py), (ox, oy), (qx, qy) = self.points[a], self.points[b], self.points[c]
        ux, uy, vx, vy = qx - ox, qy - oy, px - ox, py - oy
        length = math.hypot(ux, uy) * math.hypot(vx, vy)
        return (ux * vy - uy * vx) / length, (ux * vx + uy * vy) / length

    def corners(self, cell):
        return [self.corner(cell[i - 1], cell[i], cell[(i + 1) % len(cell)]) for i in range(len(cell))]

    def is_empty(self, a, b, c):
        others = (self.near[a] | self.near[b] | self.near[c]) - {a, b, c}
        return not any(min(self.turn(a, b, d), self.turn(b, c, d), self.turn(c, a, d)) >= 0 for d in others)

    def empty_triangles(self):
        seen = {a: set() for a in self.near}
        for a in self.near:
            for c in set().union(self.near[a], *(self.near[b] for b in self.near[a])):
                if c > a and self.sees(a, c):
                    seen[a].add(c)
                    seen[c].add(a)
        return [(a, b, c) for a in seen for b in seen[a] if b > a for c in seen[a] & seen[b] if c > a and c != b and self.turn(a, b, c) > 0 and self.is_empty(a, b, c)]

    def cells(self):
        """(nodes, scaled Jacobian) of the quads, each of two empty triangles; (nodes, None) of the triangles."""
        triangles, apexes, quads = self.empty_triangles(), {}, {}
        for triangle in triangles:
            for i in range(3):
                apexes.setdefault((triangle[i - 1], triangle[i]), []).append(triangle[(i + 1) % 3])
        for (a, c), left in apexes.items():
            if a > c or (a, c) in self.locked:
                continue
            for quad in ((a, b, c, d) for d in left for b in apexes.get((c, a), ())):
                if tuple(sorted(quad)) not in quads:
                    sines, cosines = zip(*self.corners(quad))
                    if min(sines) >= LEAST + SLACK and max(cosines) <= LARGEST_COSINE - SLACK:
                        quads[tuple(sorted(quad))] = quad, min(sines)
        blunt = math.sin(math.radians(THIN))
        return [*quads.values(), *((t, None) for t in triangles if min(sine for sine, _ in self.corners(t)) >= blunt)]


def fewest(points, triangles, hard, seconds=SECONDS):
    """(poor quads, triangles) of a mesh with the fewest poor quads; None where there is no mesh with so few triangles. Raises TimeoutError."""
    region = Region(points, triangles, hard)
    cells, rows, entries, right = region.cells(), {}, [], {}
    row = lambda *key: rows.setdefault(key, len(rows))
    for place, (cell, worth) in enumerate(cells):
        for i in range(len(cell)):
            a, b = cell[i - 1], cell[i]
            entries.append((row(min(a, b), max(a, b)), place, 1 if a < b else -1))
            if (min(a, b), max(a, b)) in region.locked:  # a cell on either side
                entries.append((row('locked', a, b), place, 1))
                right[row('locked', a, b)] = 1
        if worth is None:
            entries.append((row('triangles'), place, 1))
    for a, b in region.apex:
        if (b, a) not in region.apex:
            right[row(min(a, b), max(a, b))] = 1 if a < b else -1
    low = numpy.array([right.get(i, 0) for i in range(len(rows))], dtype=float)
    high, most = low.copy(), int(SHARE * region.count / (2 - SHARE))
    high[row('triangles')] = max(most - (most - region.count) % 2, region.count % 2)
    where, place, value = zip(*entries)
    cost = numpy.array([0.001 if worth is None else (worth < POOR) + 1e-6 * (1 - worth) for _, worth in cells])
    found = milp(cost, constraints=LinearConstraint(coo_matrix((value, (where, place)), shape=(len(rows), len(cells))).tocsr(), low, high), bounds=Bounds(0, 1),
                 integrality=numpy.ones(len(cells)), options={'time_limit': seconds})
    if found.status == 2:
        return None
    if found.status != 0:
        raise TimeoutError(found.message)
    taken = [worth for (_, worth), share in zip(cells, found.x) if share > 0.5]
    return sum(worth is not None and worth < POOR for worth in taken), sum(worth is None for worth in taken)


def of_file(path):
    """The words of a file's fewest."""
    surface = surfaces.checked(files.read(path))
    try:
        found = fewest(surface.points, surface.triangles.cells, verdicts.joints_of(surface))
    except TimeoutError:
        return 'not known'
    return 'none' if found is None else '%d poor with %d triangles' % found


if __name__ == '__main__':
    for path in sys.argv[1:]:
        print('%s: %s' % (path, of_file(path)), flush=True)
