"""Tests of the finishing pass: each step by itself, then the pass as a whole before an exact judge."""
import math, os, random, sys, unittest
from concurrent.futures import ThreadPoolExecutor
from itertools import permutations
from common import FILES, grid, make_library
from exact_judge import faults

try:
    import numpy
    from sedgepick import files, finishing, meshing, quality, surfaces, verdicts
    from sedgepick.front import Quality
except ImportError:
    numpy = None


def setUpModule():
    if numpy is None:
        raise unittest.SkipTest('numpy is not installed for %s' % sys.executable)
    make_library()


def turned(cell):
    cell = [int(node) for node in cell]
    place = cell.index(min(cell))
    return tuple(cell[place:] + cell[:place])


def cells_of(cover):
    """The cells as a sorted list, each from its smallest node on."""
    return sorted(map(turned, [*cover.triangles().tolist(), *cover.quads().tolist()]))


def strip(count):
    """A parallelogram of equilateral triangles, two for each of so many: points, and the triangles from left to right. Node i is below, count + 1 + i above."""
    height, above = math.sqrt(0.75), count + 1
    points = [(float(i), 0.0) for i in range(count + 1)] + [(i - 0.5, height) for i in range(count + 1)]
    triangles = []
    for i in range(count):
        triangles += [(i, above + i + 1, above + i), (i, i + 1, above + i + 1)]
    return points, triangles


def irregular(side, seed):
    """A square grid with its inner nodes moved and every diagonal at random: points and triangles."""
    chance, (points, triangles) = random.Random(seed), grid(side, side)
    move = lambda x: x if x in (0, side) else x + chance.uniform(-0.3, 0.3)
    points = [(move(x) if 0 < y < side else x, move(y) if 0 < x < side else y) for x, y, _ in points]
    for i in range(0, len(triangles), 2):
        (a, b, c), d = triangles[i], triangles[i + 1][2]
        if chance.random() < 0.5 and min(turn(points, a, b, d), turn(points, b, c, d)) > 0.05:
            triangles[i:i + 2] = [(a, b, d), (b, c, d)]
    return points, triangles


def turn(points, a, b, c):
    (ax, ay), (bx, by), (cx, cy) = points[a][:2], points[b][:2], points[c][:2]
    return (bx - ax) * (cy - ay) - (by - ay) * (cx - ax)


class Step(unittest.TestCase):
    def judge(self, cover, points, triangles, **more):
        self.assertEqual(faults(points, triangles, cover.quads(), cover.triangles(), **more), [])


class TakingIn(Step):
    points, triangles = [(0, 0), (1, 0), (2, 0), (0, 1), (1, 1), (2, 1)], [(0, 1, 3), (1, 4, 3), (1, 2, 4), (2, 5, 4)]
    slanted = (0, 1, 5, 4)  # two of its sides are no edges

    def test_two_triangles(self):
        for quad in ((0, 1, 4, 3), (4, 3, 0, 1), (1, 2, 5, 4)):
            cover, done = finishing.take_in(finishing.cover_of(self.points, self.triangles), [quad], 0.3)
            self.assertEqual((done, [turned(cell) for cell in cover.quads()]), (1, [turned(quad)]))
            self.judge(cover, self.points, self.triangles)

    def test_sides_come_by_flips(self):
        cover, done = finishing.take_in(finishing.cover_of(self.points, self.triangles), [self.slanted], 0.3)
        self.assertEqual((done, cells_of(cover)), (1, [(0, 1, 5, 4), (0, 4, 3), (1, 2, 5)]))

    def test_a_side_across_several(self):
        """The side 0 1 crosses three edges, of which some can be flipped only after others."""
        points = [(0, 0), (4, 0), (1, -1), (3, -1), (3, 1), (1, 1)]
        for middle in ([(2, 3, 5), (3, 4, 5)], [(2, 3, 4), (2, 4, 5)]):
            for quad in ((0, 1, 4, 5), (0, 2, 3, 1)):
                cover, done = finishing.take_in(finishing.cover_of(points, [(0, 2, 5), *middle, (3, 1, 4)]), [quad], 0.3)
                self.assertEqual((done, [turned(cell) for cell in cover.quads()]), (1, [quad]))
                self.judge(cover, points, [(0, 2, 5), *middle, (3, 1, 4)])

    def test_passed_over(self):
        """A quad that cannot be had changes nothing, also where sides of it were flipped in."""
        before = finishing.cover_of(self.points, self.triangles)
        locked = lambda a, b: finishing.cover_of(self.points, self.triangles, locked=[(a, b)])
        for cover, quad, least in ((before, (3, 4, 1, 0), 0.3), (before, self.slanted, 0.8), (before, (0, 2, 5, 3), 0.3), (locked(1, 3), (0, 1, 4, 3), 0.3),
                                   (locked(1, 3), (1, 4, 3, 0), 0.3), (locked(2, 4), self.slanted, 0.3), (locked(1, 4), self.slanted, 0.3)):
            after, done = finishing.take_in(cover, [quad], least)
            self.assertEqual((done, cells_of(after)), (0, cells_of(before)), quad)

    def test_a_node_inside(self):
        points, triangles = [(0, 0), (2, 0), (2, 2), (0, 2), (1, 1)], [(0, 1, 4), (1, 2, 4), (2, 3, 4), (3, 0, 4)]
        self.assertEqual(finishing.take_in(finishing.cover_of(points, triangles), [(0, 1, 2, 3)], 0.3)[1], 0)

    def test_one_after_the_other(self):
        """The second wants a triangle that the first has taken."""
        cover, done = finishing.take_in(finishing.cover_of(self.points, self.triangles), [(0, 1, 4, 3), self.slanted, (1, 2, 5, 4)], 0.3)
        self.assertEqual((done, cells_of(cover)), (2, [(0, 1, 4, 3), (1, 2, 5, 4)]))


class Swaps(Step):
    kite = [(0, 0), (4, -1), (8, 0), (4, 1)]

    def test_a_long_diagonal_is_swapped(self):
        cover, done = finishing.swap(finishing.cover_of(self.kite, [(0, 1, 2), (0, 2, 3)]))
        self.assertEqual((done, cells_of(cover)), (1, [(0, 1, 3), (1, 2, 3)]))

    def test_a_short_one_stays(self):
        cover, done = finishing.swap(finishing.cover_of(self.kite, [(0, 1, 3), (1, 2, 3)]))
        self.assertEqual((done, cells_of(cover)), (0, [(0, 1, 3), (1, 2, 3)]))

    def test_a_locked_one_stays(self):
        self.assertEqual(finishing.swap(finishing.cover_of(self.kite, [(0, 1, 2), (0, 2, 3)], locked=[(2, 0)]))[1], 0)

    def test_on_one_circle(self):
        self.assertEqual(finishing.swap(finishing.cover_of([(0, 0), (1, 0), (1, 1), (0, 1)], [(0, 1, 2), (0, 2, 3)]))[1], 0)

    def test_not_convex(self):
        self.assertEqual(finishing.swap(finishing.cover_of([(0, 0), (4, -3), (8, 0), (4, -1)], [(0, 1, 3), (1, 2, 3)]))[1], 0)

    def test_delaunay(self):
        """No triangle's circle has the far node of its neighbour inside, in exact arithmetic."""
        from fractions import Fraction
        for seed in range(5):
            points, triangles = irregular(9, seed)
            cover, done = finishing.swap(finishing.cover_of(points, triangles))
            self.assertGreater(done, 5)
            self.judge(cover, points, triangles)
            exact = [tuple(map(Fraction, point)) for point in points]
            apex = {(t[i], t[(i + 1) % 3]): t[(i + 2) % 3] for t in cover.triangles().tolist() for i in range(3)}
            for (a, b), c in apex.items():
                if (b, a) in apex:
                    d = exact[apex[b, a]]
                    (p, q), (r, s), (t, u) = ((x - d[0], y - d[1]) for x, y in (exact[a], exact[b], exact[c]))
                    inside = (p * p + q * q) * (r * u - t * s) + (r * r + s * s) * (t * q - p * u) + (t * t + u * u) * (p * s - r * q)
                    self.assertLessEqual(float(inside), 1e-12)


class TakingBack(Step):
    """A triangle of 5.7 degrees between three quads."""
    points = [(0, 0), (2, 0), (1, 0.1), (1, 1), (0, 1), (2, 1), (0, -1), (2, -1)]
    thin, quads = (0, 1, 2), [(0, 2, 3, 4), (2, 1, 5, 3), (6, 7, 1, 0)]

    def cover(self, **more):
        return finishing.cover_of(self.points, [self.thin], self.quads, **more)

    def test_quads_around_a_thin_triangle(self):
        cover, done = finishing.take_back(self.cover(), 15.0)
        self.assertGreaterEqual(done, 1)
        self.assertGreaterEqual(quality.least_angles(cover.points, cover.triangles()).min(), 15)
        self.judge(cover, self.points, [self.thin, *self.quads], jacobian=0, cosine=0.9999)

    def test_what_is_not_thin_stays(self):
        for thin in (5.0, 5.7):
            cover, done = finishing.take_back(self.cover(), thin)
            self.assertEqual((done, cells_of(cover)), (0, cells_of(self.cover())))

    def test_no_round(self):
        self.assertEqual(finishing.take_back(self.cover(), 15.0, 0)[1], 0)

    def test_a_locked_edge_keeps_its_triangle(self):
        cover, done = finishing.take_back(self.cover(locked=[(0, 1)]), 15.0)
        self.assertEqual(done, 3)
        self.assertIn(self.thin, cells_of(cover))

    def test_those_beside_it_first(self):
        """Where they are enough, a quad that only has a node of the thin triangle stays."""
        points = self.points + [(-1, -1), (-1, 0)]
        cover, done = finishing.take_back(finishing.cover_of(points, [self.thin], self.quads + [(8, 6, 0, 9)]), 15.0)
        self.assertEqual((done, (0, 9, 8, 6) in cells_of(cover)), (3, True))

    def test_far_quads_stay(self):
        """Of a row of squares behind the thin triangle's only those are taken back that swaps need."""
        points = self.points + [(0, -2 - i) for i in range(4)] + [(2, -2 - i) for i in range(4)]
        more = [(8, 12, 7, 6)] + [(9 + i, 13 + i, 12 + i, 8 + i) for i in range(3)]
        cover, done = finishing.take_back(finishing.cover_of(points, [self.thin], self.quads + more), 15.0)
        self.assertLessEqual(done, 4)
        self.assertTrue(set(map(turned, more[1:])) <= set(cells_of(cover)))


class Pairing(Step):
    def test_all_of_a_strip(self):
        points, triangles = strip(6)
        cover, done = finishing.pair(finishing.cover_of(points, triangles), 0.3)
        self.assertEqual((done, len(cover.quads()), len(cover.triangles())), (6, 6, 0))
        self.judge(cover, points, triangles)

    def test_those_with_one_partner_first(self):
        """Four triangles in a row, of which the two in the middle make the best quad: two quads come out all the same."""
        points, triangles = [(0, 0.5), (1, 0), (1, 1), (2, 0), (2, 1), (3, 0.5)], [(0, 1, 2), (1, 3, 2), (3, 4, 2), (3, 5, 4)]
        cover, done = finishing.pair(finishing.cover_of(points, triangles), 0.3)
        self.assertEqual((done, cells_of(cover)), (2, [(0, 1, 3, 2), (2, 3, 5, 4)]))

    def test_the_best_partner(self):
        """Six triangles around a node, each with two partners: the best quad of all is one of the three."""
        for seed in range(6):
            chance = random.Random(seed)
            points = [(0, 0)] + [(r * math.cos(k * math.pi / 3), r * math.sin(k * math.pi / 3)) for k in range(6) for r in [chance.uniform(0.8, 1.2)]]
            triangles = [(0, k + 1, (k + 1) % 6 + 1) for k in range(6)]
            array, rhombs = numpy.array(points), numpy.array([(0, k + 1, (k + 1) % 6 + 1, (k + 2) % 6 + 1) for k in range(6)])
            worths = quality.scaled_jacobians(array, rhombs)
            cover, done = finishing.pair(finishing.cover_of(points, triangles), 0.3)
            self.assertEqual(done, 3)
            self.assertAlmostEqual(quality.scaled_jacobians(array, cover.quads()).max(), worths.max(), 12)

    def test_the_best_of_two(self):
        """A triangle between two others that have no other partner."""
        points, triangles = [(0, 0), (1, 0), (0, 1), (1, 1), (-0.3, 0.8)], [(0, 1, 2), (1, 3, 2), (0, 2, 4)]
        cover, done = finishing.pair(finishing.cover_of(points, triangles), 0.3)
        self.assertEqual((done, cells_of(cover)), (1, [(0, 1, 3, 2), (0, 2, 4)]))

    def test_limits(self):
        points, triangles = strip(1)
        for least, cosine, done in ((0.86, 0.9, 1), (0.87, 0.9, 0), (0.3, 0.51, 1), (0.3, 0.49, 0)):
            self.assertEqual(finishing.pair(finishing.cover_of(points, triangles, largest_cosine=cosine), least)[1], done)

    def test_a_locked_edge(self):
        points, triangles = strip(1)
        self.assertEqual(finishing.pair(finishing.cover_of(points, triangles, locked=[(3, 0)]), 0.3)[1], 0)

    def test_groups_go_on(self):
        points, triangles = strip(2)
        cover = finishing.pair(finishing.cover_of(points, triangles, locked=[(1, 4)], groups=[3, 3, 7, 7]), 0.3)[0]
        self.assertEqual(sorted(zip(cover.groups.tolist(), map(turned, cover.quads()))), [(3, (0, 1, 4, 3)), (7, (1, 2, 5, 4))])


class Walks(Step):
    def ends(self, count, **more):
        """The strip with its first and last triangle alone, and quads between them."""
        points, triangles = strip(count)
        above = count + 1
        quads = [(i, i + 1, above + i + 2, above + i + 1) for i in range(count - 1)]
        return points, triangles, finishing.cover_of(points, [triangles[0], triangles[-1]], quads, **more)

    def test_two_meet(self):
        for count in (1, 2, 9):
            points, triangles, cover = self.ends(count)
            cover, done = finishing.walk(cover, 0.5)
            self.assertEqual((done, len(cover.quads()), len(cover.triangles())), (1, count, 0))
            self.judge(cover, points, triangles)

    def test_far_apart(self):
        points, triangles, cover = self.ends(300)
        self.assertEqual(finishing.walk(cover, 0.5, (40, 200))[1], 0)
        self.assertEqual(finishing.walk(cover, 0.5)[1], 1)

    def test_no_way(self):
        for locked, least in (([(4, 15)], 0.5), ([], 0.95)):
            points, triangles, cover = self.ends(9, locked=locked)
            after, done = finishing.walk(cover, least)
            self.assertEqual((done, cells_of(after)), (0, cells_of(cover)))

    def field(self, size, rows):
        """A lattice of rhombs with two triangles alone in each of the rows, from the first column to the last of (row, first, last): points, triangles and cover."""
        height, wide = math.sqrt(0.75), size + 1
        points = [(i - j / 2, j * height) for j in range(wide) for i in range(wide)]
        triangles, left, quads = [], [], []
        for j in range(size):
            first, last = next(((a, b) for row, a, b in rows if row == j), (size, size))
            for i in range(size):
                a, b, c, d = j * wide + i, j * wide + i + 1, (j + 1) * wide + i + 1, (j + 1) * wide + i
                triangles += [(a, c, d), (a, b, c)]
                left += [(a, c, d)] * (i == first) + [(a, b, c)] * (i == last < size)
                quads += [(a, b, c, d)] if not first <= i <= last else [(a, b, c + 1, c)] if i < last else []
        return points, triangles, finishing.cover_of(points, left, quads)

    def test_a_place_pulls(self):
        """Within a reach that does not look at all that is as near as the other triangle."""
        points, triangles, cover = self.field(40, [(20, 12, 27)])
        self.judge(cover, points, triangles)
        self.assertEqual(finishing.walk(cover, 0.5, (2, 150))[1], 1)
        self.assertEqual(finishing.walk(cover, 0.5, (150,))[1], 0)  # the first reach is without a pull

    def test_the_nearest_pulls(self):
        points, triangles, cover = self.field(40, [(2, 7, 22), (37, 24, 39)])  # one pair above the other
        self.assertEqual(finishing.walk(cover, 0.5, (2, 150))[1], 2)

    def test_the_way_of_better_quads(self):
        """A quad that a walk leaves poor costs more than one that it leaves good."""
        points, triangles, cover = self.field(40, [(20, 18, 21)])
        moved = [(x + 0.35 * (y > 20.5 * math.sqrt(0.75)), y) for x, y in points]
        after, done = finishing.walk(finishing.cover_of(moved, cover.triangles(), cover.quads()), 0.3, (4000,))
        self.assertEqual(done, 1)
        self.assertGreater(quality.scaled_jacobians(numpy.array(moved), after.quads()).mean(), 0.8)

    def test_few_poor_quads(self):
        """Every quad of the strip is poor: two triangles that meet make one more of them."""
        points, triangles, cover = self.ends(5)
        for poor, most, done in ((0.9, 0, 0), (0.9, 1, 1), (0.8, 0, 1)):
            self.assertEqual(finishing.walk(cover, 0.5, poor=poor, most_poor=most)[1], done)

    def test_so_many(self):
        points, triangles, cover = self.field(40, [(2, 7, 22), (20, 7, 22), (37, 7, 22)])
        for most in range(4):
            after, done = finishing.walk(cover, 0.5, (40, 400), most=most)
            self.assertEqual((done, len(after.triangles())), (most, 6 - 2 * most))

    def test_one_alone(self):
        points, triangles = strip(3)
        cover = finishing.pair(finishing.cover_of(points, triangles[:5]), 0.5)[0]
        self.assertEqual(finishing.walk(cover, 0.5)[1], 0)

    def test_toward_the_nearest(self):
        """Of many, each meets one beside it: the quads far from them stay."""
        points, triangles = irregular(20, 3)
        cover = finishing.pair(finishing.cover_of(points, triangles), 0.5)[0]
        left = len(cover.triangles())
        after, done = finishing.walk(cover, 0.3)
        self.assertGreater(done, 0)
        self.assertEqual(len(after.triangles()), left - 2 * done)
        self.judge(after, points, triangles)
        self.assertGreater(len(set(cells_of(after)) & set(cells_of(cover))), len(after.cells) / 2)


class Improvement(Step):
    """A hexagon that is cut into two poor quads, and can be cut into two good ones."""
    points = [(0, 0), (1, -0.5), (2, 0), (2, 1), (1, 1.5), (0, 1)]
    poor, good = [(0, 1, 2, 3), (3, 4, 5, 0)], [(0, 1, 4, 5), (1, 2, 3, 4)]

    def test_poor_quads(self):
        before = quality.scaled_jacobians(numpy.array(self.points, dtype=float), numpy.array(self.poor)).min()
        cover, done = finishing.improve(finishing.cover_of(self.points, [], self.poor), before + 0.01)
        self.assertEqual((done, cells_of(cover)), (1, sorted(self.good)))
        self.judge(cover, self.points, self.poor)

    def test_what_passes_stays(self):
        before = quality.scaled_jacobians(numpy.array(self.points, dtype=float), numpy.array(self.poor)).min()
        for limit in (before - 0.01, 0.99):  # not under it; no way over quads that pass it
            cover, done = finishing.improve(finishing.cover_of(self.points, [], self.poor), limit)
            self.assertEqual((done, cells_of(cover)), (0, sorted(map(turned, self.poor))))

    def test_a_locked_edge(self):
        self.assertEqual(finishing.improve(finishing.cover_of(self.points, [], self.poor, locked=[(0, 3)]), 0.7)[1], 0)


def fewest_poor(points, border, poor, least):
    """The fewest quads under `poor` that a cover by quads at or above `least` has, over every one: sides are closed in turn, by each quad in turn. None where there is none."""
    array, nodes = numpy.array(points, dtype=float), range(len(points))
    empty = lambda quad: not any(all(turn(points, quad[i - 1], quad[i], n) >= 0 for i in range(4)) for n in nodes if n not in quad)
    quads = [quad for quad in permutations(nodes, 4) if min(quad) == quad[0] and all(turn(points, quad[i - 2], quad[i - 1], quad[i]) > 1e-9 for i in range(4)) and empty(quad)]
    worth = dict(zip(quads, quality.scaled_jacobians(array, numpy.array(quads)))) if quads else {}
    at = {}
    for quad in quads:
        if worth[quad] >= least:
            for i in range(4):
                at.setdefault((quad[i - 1], quad[i]), []).append(quad)
    area = lambda cells: sum(quality.areas(array, numpy.array([cell]))[0] for cell in cells)
    whole, best = area([tuple(a for a, _ in border)]), [None]

    def look(sides, area_left, count):
        if best[0] is not None and count >= best[0] or area_left < -1e-9:
            return
        if not sides:
            best[0] = count if abs(area_left) < 1e-9 else best[0]
            return
        for quad in at.get(min(sides), ()):
            left = set(sides)
            for i in range(4):
                side = (quad[i - 1], quad[i])
                if side in left:
                    left.remove(side)
                elif side[::-1] in left:
                    break
                else:
                    left.add(side[::-1])
            else:
                look(left, area_left - area([quad]), count + (worth[quad] < poor))
    look(set(border), whole, 0)
    return best[0]


class Mending(Step):
    hexagon, poor, good = Improvement.points, Improvement.poor, Improvement.good

    def worth(self, points, quads):
        return quality.scaled_jacobians(numpy.array(points, dtype=float), numpy.array(quads))

    def test_poor_quads(self):
        limit = self.worth(self.hexagon, self.poor).min() + 0.01
        cover, done = finishing.mend(finishing.cover_of(self.hexagon, [], self.poor), 0.3, limit)
        self.assertEqual((done, cells_of(cover)), (1, sorted(self.good)))

    def test_what_passes_stays(self):
        limit = self.worth(self.hexagon, self.poor).min() - 0.01
        before = finishing.cover_of(self.hexagon, [], self.poor)
        for words in ((0.3, limit), (0.3, limit + 0.02, 11), (0.3, limit + 0.02, 24, 1), (0.95, limit + 0.02)):
            after, done = finishing.mend(before, *words)
            self.assertEqual((done, cells_of(after)), (0, cells_of(before)), words)

    def test_locked_edges(self):
        limit = self.worth(self.hexagon, self.poor).min() + 0.01
        self.assertEqual(finishing.mend(finishing.cover_of(self.hexagon, [], self.poor, locked=[(0, 3)]), 0.3, limit)[1], 0)

    def test_two_triangles(self):
        for count in (2, 3, 4):
            points, triangles, cover = Walks().ends(count)
            after, done = finishing.mend(cover, 0.3)
            self.assertEqual((done, len(after.quads()), len(after.triangles())), (1, count, 0))
            self.judge(after, points, triangles)

    def test_the_price_of_a_triangle(self):
        """A poor quad can be cut in two, and two triangles can be a poor quad: the cheaper of the two is taken."""
        points, quads = [(0, 0), (1, 0), (1.3, 1), (0.2, 0.9), (2, 0), (2, 1)], [(0, 1, 2, 3), (1, 4, 5, 2)]
        limit = self.worth(points, quads)[0] + 0.001
        self.assertGreater(self.worth(points, quads)[1], limit)
        for price, count in ((0.45, 2), (0.55, 0)):
            for left, kept in (([], quads), ([(0, 1, 2), (0, 2, 3)], quads[1:])):
                cover = finishing.mend(finishing.cover_of(points, left, kept), 0.3, limit, price=price)[0]
                self.assertEqual(len(cover.triangles()), count, (price, left))
                self.judge(cover, points, quads)

    def test_the_fewest(self):
        """Twelve nodes, six quads: no cover of the place has fewer poor ones than what comes out, over all covers there are."""
        fewer = []
        for seed in range(60):
            chance = random.Random(seed)
            points = [(i + chance.uniform(-0.35, 0.35), j + chance.uniform(-0.35, 0.35)) for j in range(3) for i in range(4)]
            quads = [(4 * j + i, 4 * j + i + 1, 4 * j + i + 5, 4 * j + i + 4) for j in range(2) for i in range(3)]
            if self.worth(points, quads).min() < 0.31 or quality.least_angles(numpy.array(points), numpy.array(quads)).min() < 25.1:
                continue
            border = [(0, 1), (1, 2), (2, 3), (3, 7), (7, 11), (11, 10), (10, 9), (9, 8), (8, 4), (4, 0)]
            cover, done = finishing.mend(finishing.cover_of(points, [], quads), 0.3, 0.75, 12, 100000)
            self.judge(cover, points, quads)
            before, after = int((self.worth(points, quads) < 0.75).sum()), int((self.worth(points, cover.quads()) < 0.75).sum())
            self.assertEqual(after, fewest_poor(points, border, 0.75, 0.3), seed)
            fewer.append(before - after)
        self.assertGreaterEqual((len(fewer), sum(fewer)), (20, 3))

    def test_no_thin_triangle_is_made(self):
        """Also where many triangles are left, of which a thin one would close others."""
        for seed in range(8):
            points, triangles = irregular(14, seed)
            cover = finishing.pair(finishing.swap(finishing.cover_of(points, triangles))[0], 0.8)[0]
            least = lambda c: quality.least_angles(numpy.array(points), c.triangles()).min()
            after, done = finishing.mend(cover, 0.8)
            self.assertGreater(done, 0)
            self.assertGreaterEqual(least(after), min(15, least(cover)) - 1e-9)

    def test_a_wall_in_the_patch(self):
        """A locked edge that ends inside stays, and patches on both sides of it are mended."""
        for seed in range(6):
            points, triangles = irregular(10, seed)
            cover = finishing.pair(finishing.cover_of(points, triangles), 0.3)[0]
            locked = sorted({tuple(sorted(map(int, quad[:2]))) for quad in cover.quads()[::5]})
            cover = finishing.cover_of(points, cover.triangles(), cover.quads(), locked)
            after, done = finishing.mend(cover, 0.3)
            self.assertGreater(done, 0)
            self.judge(after, points, triangles, joints=locked)
            count = lambda c: 2.5 * len(c.triangles()) + int((self.worth(points, c.quads()) < 0.5).sum())
            self.assertLess(count(after), count(cover))

    def test_groups_go_on(self):
        """What lies beyond a locked border keeps its own number."""
        points = self.hexagon + [(3, -0.5), (4, 0), (4, 1), (3, 1.5)]
        quads = self.poor + [(2, 6, 7, 8), (8, 9, 3, 2)]
        limit = self.worth(points, quads).min() + 0.01
        cover, done = finishing.mend(finishing.cover_of(points, [], quads, locked=[(2, 3)], groups=[3, 3, 7, 7]), 0.3, limit)
        self.assertEqual(done, 2)
        self.assertEqual({turned(quad): int(group) for quad, group in zip(cover.quads(), cover.groups)},
                         {(0, 1, 4, 5): 3, (1, 2, 3, 4): 3, (2, 6, 9, 3): 7, (6, 7, 8, 9): 7})


class Wandering(Step):
    """A square with a roof: cut as triangle and slanted quad, it can be cut as roof and square."""
    points = [(0, 0), (1, 0), (1, 1), (0.5, 1.6), (0, 1)]
    left, quad = [(0, 1, 2)], [(0, 2, 3, 4)]

    def test_to_fewer_poor_quads(self):
        cover, done = finishing.wander(finishing.cover_of(self.points, self.left, self.quad), 0.3, 0.7)
        self.assertEqual((done, cells_of(cover)), (1, [(0, 1, 2, 4), (2, 3, 4)]))

    def test_where_none_is_poor(self):
        before = finishing.cover_of(self.points, self.left, self.quad)
        for cover, poor in ((before, 0.6), (finishing.cover_of(self.points, self.left, self.quad, locked=[(0, 2)]), 0.7)):
            after, done = finishing.wander(cover, 0.3, poor)
            self.assertEqual((done, cells_of(after)), (0, cells_of(before)))

    def test_irregular_meshes(self):
        """No triangle more, and a poor quad less for each that went."""
        total = 0
        for seed in range(6):
            points, triangles = irregular(15, seed)
            cover = finishing.walk(finishing.pair(finishing.cover_of(points, triangles[1:]), 0.3)[0], 0.3, (40,))[0]
            after, done = finishing.wander(cover, 0.3)
            poor = lambda c: int((quality.scaled_jacobians(numpy.array(points), c.quads()) < 0.5).sum())
            self.assertEqual(len(after.triangles()), len(cover.triangles()))
            self.assertLessEqual(poor(after), poor(cover) - done)
            self.judge(after, points, triangles[1:])
            total += done
        self.assertGreater(total, 0)


def squares(count, y=0.0, first=0):
    """A row of squares with a triangle at either end, which can walk to each other and slant every quad: points, the two triangles, quads."""
    points, triangles = strip(count)
    points = [(x - height / math.sqrt(3), height + y) for x, height in points]
    left, above = [triangles[0], triangles[-1]], count + 1
    quads = [(i, i + 1, above + i + 2, above + i + 1) for i in range(count - 1)]
    return points, *([tuple(node + first for node in cell) for cell in cells] for cells in (left, quads))


class Closing(Step):
    """Slanted quads have a scaled Jacobian of 0.65, which is poor here: under 0.7."""
    def closed(self, most_share, *rows):
        points, left, quads = [], [], []
        for place, count in enumerate(rows):
            more = squares(count, 1000.0 * place, len(points))
            points, left, quads = points + more[0], left + more[1], quads + more[2]
        before = finishing.cover_of(points, left, quads)
        after, done = finishing.close(before, 0.3, 0.7, most_share)
        self.judge(after, points, left + quads)
        poor = (quality.scaled_jacobians(numpy.array(points), after.quads()) < 0.7).sum()
        return done, len(after.triangles()), int(poor)

    def test_as_long_as_few_are_poor(self):
        """Walking makes all 200 quads poor; where that is too much the two triangles stay."""
        self.assertEqual(self.closed(1.01, 200), (1, 0, 200))
        self.assertEqual(self.closed(1.0, 200), (0, 2, 0))

    def test_too_many_triangles(self):
        """Two of 101 cells are over 1 %: they gain nothing, and are closed."""
        self.assertEqual(self.closed(1.0, 100), (1, 0, 100))

    def test_too_many_poor_anyway(self):
        """Triangles do not stay where too many quads are poor with them too."""
        self.assertEqual(self.closed(0.0, 200), (1, 0, 200))

    def test_the_cheapest_first(self):
        """Of two rows the short one is closed, and the long one, which would make too many poor, stays."""
        self.assertEqual(self.closed(0.02, 200, 4), (1, 2, 4))

    def test_counts_as_the_steps_do(self):
        """A quad at the limit is not poor, one that is a bit under it is."""
        cover = finishing.cover_of([(0, 0), (2, 0), (2, 1), (0, 2)], [], [(0, 1, 2, 3)])
        worth = 2 / math.sqrt(5)
        self.assertEqual([finishing.closing.count_poor(cover, limit) for limit in (worth - 1e-9, worth + 1e-9)], [0, 1])
        self.assertEqual(finishing.closing.count_poor(finishing.cover_of([(0, 0), (1, 0), (0, 1)], [(0, 1, 2)])), 0)


class Trading(Step):
    """A row of slanted quads, each with a scaled Jacobian of 0.65, which is poor here: squares with a triangle at either end can take its place."""
    def traded(self, count, most_share, **more):
        points, left, quads = squares(count)
        above = count + 1
        slanted = [(i, i + 1, above + i + 1, above + i) for i in range(count)]
        before = finishing.cover_of(points, [], slanted, **more)
        self.assertLess(quality.scaled_jacobians(numpy.array(points), before.quads()).max(), 0.7)
        after, done = finishing.trade(before, 0.3, 0.7, most_share)
        self.judge(after, points, left + quads)
        return done, len(after.triangles()), finishing.closing.count_poor(after, 0.7), cells_of(after) == cells_of(before)

    def test_two_triangles_for_all(self):
        self.assertEqual(self.traded(200, 0.015), (200, 2, 0, False))

    def test_too_many_triangles(self):
        """Two of 102 cells are over 1 %."""
        self.assertEqual(self.traded(101, 0.015), (0, 0, 101, True))

    def test_where_few_are_poor_already(self):
        self.assertEqual(self.traded(200, 1.01), (0, 0, 200, True))

    def test_what_is_locked_stays(self):
        """Locked sides leave each quad by itself: two triangles in its place, for each, would be too many."""
        self.assertEqual(self.traded(200, 0.015, locked=[(i, 201 + i) for i in range(201)]), (0, 0, 200, True))

    def rows(self, *counts):
        """Points, triangles and squares of several rows, one far above the other; their slanted quads."""
        points, left, quads, slanted = [], [], [], []
        for place, count in enumerate(counts):
            more = squares(count, 1000.0 * place, len(points))
            slanted += [tuple(len(points) + node for node in (i, i + 1, count + 2 + i, count + 1 + i)) for i in range(count)]
            points, left, quads = points + more[0], left + more[1], quads + more[2]
        return points, left, quads, slanted

    def test_a_triangle_that_is_not_needed_is_closed(self):
        """Of two rows the short one stays slanted."""
        points, left, quads, slanted = self.rows(400, 3)
        after, done = finishing.trade(finishing.cover_of(points, [], slanted), 0.3, 0.7)
        self.judge(after, points, slanted)
        self.assertEqual((done, len(after.triangles()), finishing.closing.count_poor(after, 0.7)), (400, 2, 3))

    def test_as_long_as_few_are_poor(self):
        """Three poor quads of 401 are too many where under 3 of 401 are asked; what is too much is told where triangles are missing."""
        points, left, quads, _ = self.rows(400, 3)
        cover = finishing.cover_of(points, left, quads)
        for share, count in ((3.01 / 401, 2), (2.99 / 401, 4)):
            self.assertEqual(len(finishing.trading.walk_together(cover, 0.3, 0.7, share)[0].triangles()), count)
        points, left, quads, _ = self.rows(98, 5, 3)
        after, over = finishing.trading.walk_together(finishing.cover_of(points, left, quads), 0.3, 0.7, 4.5 / 103)
        self.assertEqual(len(after.triangles()), 6)  # three pairs too many, at three poor quads or more each
        self.assertGreater(over, 1)

    def test_how_many_triangles_are_few(self):
        few = finishing.trading.most_triangles
        self.assertEqual([few(finishing.cover_of(*squares(count))) for count in (99, 198, 199, 397, 398)], [0, 0, 2, 2, 4])
        self.assertEqual(few(finishing.cover_of([(0, 0), (1, 0), (0, 1)], [(0, 1, 2)])), 1)

    def test_leftovers_first(self):
        points, left, quads = squares(4)
        cover = finishing.cover_of(points, left, quads, groups=range(5))
        mixed = cover.with_cells(cover.cells[[2, 0, 3, 1, 4]], cover.groups[[2, 0, 3, 1, 4]])
        after = finishing.trading.leftovers_first(mixed)
        self.assertEqual((after.cells.tolist(), after.groups.tolist()), (cover.cells.tolist(), cover.groups.tolist()))

    def test_meshes_that_could_do_better(self):
        """Meshes by Gmsh that have too many poor quads without a trade, though others on their nodes have not, with up to 1 % triangles."""
        for name in ('columns-meshadapt', 'footing-packing'):
            work = meshing.Work(surfaces.checked(files.read(os.path.join(os.path.dirname(FILES), 'kinds', name + '.msh'))), meshing.Settings())
            meshing.prepare(work)
            meshing.run(work)
            surface, found = work.surface, work.result.finished
            self.assertGreater(found.done('traded'), 0, name)
            self.assertLess((quality.scaled_jacobians(surface.points, found.quads) < 0.5).sum(), 0.015 * len(found.quads), name)
            self.assertGreaterEqual(len(found.quads), 99 * len(found.triangles), name)
            self.assertEqual(faults(surface.points[:, :2].tolist(), surface.triangles.cells.tolist(), found.quads, found.triangles, joints=verdicts.joints_of(surface).tolist()), [], name)


class EvenGroups(Step):
    def odd(self, cover):
        left = cover.triangles()
        return int((numpy.bincount(quality.components(left)) % 2).sum()) if len(left) else 0

    def test_two_odd_ones_become_one(self):
        points, triangles, cover = Walks().ends(5)
        self.assertEqual(self.odd(cover), 2)
        after, done = finishing.even_groups(cover)
        self.assertEqual((self.odd(after), done, len(after.triangles())), (0, 4, 10))
        self.judge(after, points, triangles)

    def test_even_ones_stay(self):
        points, triangles = strip(4)
        cover = finishing.cover_of(points, triangles[:2] + triangles[6:], [(1, 2, 7, 6), (2, 3, 8, 7)])
        self.assertEqual(finishing.even_groups(cover), (cover, 0))

    def test_an_odd_piece_keeps_one(self):
        points, triangles, cover = Walks().ends(4)
        two = [(x + 100, y) for x, y in points]
        cells = [turned(cell) for cell in cover.quads()]
        more = [tuple(node + len(points) for node in cell) for cell in cells]
        left = [triangles[0], triangles[-1], tuple(node + len(points) for node in triangles[0])]
        after, done = finishing.even_groups(finishing.cover_of(points + two, left, cells + more))
        self.assertEqual((self.odd(after), done), (1, 3))

    def test_two_and_three(self):
        """Of three odd groups in one piece one is left."""
        points, triangles = strip(9)
        above = 10
        quads = [(i, i + 1, above + i + 2, above + i + 1) for i in range(8) if i != 4]
        for left, before in (([0, 9, 10, 17], 2), ([0, 9, 17], 3)):  # without the tenth it is a strip with a notch
            cover = finishing.cover_of(points, [triangles[i] for i in left], quads)
            self.assertEqual(self.odd(cover), before)
            self.assertEqual(self.odd(finishing.even_groups(cover)[0]), before % 2)


class Pass(Step):
    def finished(self, points, triangles, quads=(), **more):
        found = finishing.finish(points, triangles, quads, **more)
        self.assertEqual(faults(points, triangles, found.quads, found.triangles, more.get('locked', ())), [])
        self.assertEqual(2 * len(found.quads) + len(found.triangles), len(triangles))
        return found

    def test_irregular_meshes(self):
        for seed in range(6):
            points, triangles = irregular(16, seed)
            found = self.finished(points, triangles)
            self.assertGreaterEqual(len(found.quads), 0.99 * len(triangles) / 2)

    def test_no_triangle_that_gains_nothing(self):
        """After run_front, a slab with columns can be all quads, and keeps 1.5 % poor quads or more with two triangles too."""
        work = meshing.Work(surfaces.checked(files.read(os.path.join(FILES, 'columns.msh'))), meshing.Settings())
        meshing.prepare(work)
        meshing.run(work)
        self.assertEqual((len(work.result.quads), len(work.result.triangles)), (321, 0))

    def test_any_unit(self):
        points, triangles = irregular(8, 1)
        want = self.finished(points, triangles)
        for scale in (2.0 ** -40, 2.0 ** 30):
            found = self.finished([(x * scale, y * scale) for x, y in points], triangles)
            self.assertEqual(found.quads.tolist(), want.quads.tolist())

    def test_locked_edges(self):
        points, triangles = irregular(16, 2)
        locked = [(triangles[i][0], triangles[i][2]) for i in range(0, len(triangles), 40)]
        self.finished(points, triangles, locked=locked)

    def test_quality(self):
        points, triangles = irregular(12, 4)
        found = finishing.finish(points, triangles, [], quality=Quality(least_jacobian=0.8, largest_cosine=0.6))
        array = numpy.array(points)
        self.assertGreaterEqual(quality.scaled_jacobians(array, found.quads).min(), 0.8)
        self.assertGreaterEqual(quality.least_angles(array, found.quads).min(), math.degrees(math.acos(0.6)))
        self.assertGreater(len(found.quads), 10)

    def test_own_quads(self):
        points, triangles = [(0, 0), (1, 0), (2, 0), (0, 1), (1, 1), (2, 1)], [(0, 1, 3), (1, 4, 3), (1, 2, 4), (2, 5, 4)]
        found = self.finished(points, triangles, [(4, 3, 0, 1), (0, 1, 9, 3)])
        self.assertEqual([(turned(quad), bool(own)) for quad, own in zip(found.quads, found.own)], [((0, 1, 4, 3), True), ((1, 2, 5, 4), False)])
        self.assertEqual((found.done('taken'), found.done('paired'), found.done('walked')), (1, 1, 0))

    def test_even_rule(self):
        for seed in range(4):
            points, triangles = irregular(12, seed)
            found = finishing.finish(points, triangles, [], quality=Quality(least_jacobian=0.75), even=True)
            sizes = numpy.bincount(quality.components(found.triangles)) if len(found.triangles) else numpy.zeros(1, dtype=int)
            self.assertFalse((sizes % 2).any())
            self.assertEqual(faults(points, triangles, found.quads, found.triangles), [])

    def test_same_bytes_in_threads(self):
        points, triangles = irregular(20, 5)
        one = lambda _: finishing.finish(points, triangles, [])
        with ThreadPoolExecutor(8) as pool:
            found = list(pool.map(one, range(16)))
        self.assertEqual({f.quads.tobytes() + f.triangles.tobytes() for f in found}, {one(0).quads.tobytes() + one(0).triangles.tobytes()})

    def test_over_each_other(self):
        with self.assertRaises(finishing.Overlaps):
            finishing.finish([(0, 0), (1, 0), (0, 1), (0.2, 0.9)], [(0, 1, 2), (0, 1, 3)], [])
        with self.assertRaises(ValueError):
            finishing.finish([(0, 0), (1, 0), (0, 1)], [(0, 1, 3)], [])

    def test_nothing(self):
        found = finishing.finish([(0, 0), (1, 0), (0, 1)], [(0, 1, 2)], [])
        self.assertEqual((len(found.quads), found.triangles.tolist()), (0, [[0, 1, 2]]))


if __name__ == '__main__':
    unittest.main()
