"""Tests of the filing order and of every small mesh."""
import itertools, math, random, unittest
from common import make_library
import sedgepick
from sedgepick import Filed, filing_order
from test_package import HALVES, SQUARE, shaken

try:
    import numpy
except ImportError:
    numpy = None


def setUpModule():
    make_library()


def key(points, triangles):
    """What decides, by the words of the order."""
    turned = [min(t[i:] + t[:i] for i in range(3)) for t in map(tuple, triangles)]
    return len(points), [(x + 0.0, y + 0.0) for x, y, *_ in points], len(triangles), sorted(turned)


class Order(unittest.TestCase):
    def refused(self, number, first, second=(SQUARE, HALVES)):
        with self.assertRaises(sedgepick.Refused) as caught:
            filing_order(first, second)
        self.assertEqual(caught.exception.number, number)

    def test_same(self):
        square = Filed(SQUARE, HALVES)
        self.assertEqual(square, Filed(SQUARE, [(2, 3, 0), (2, 0, 1)]))
        signed = [(-0.0, -0.0, math.nan)] + [(x, y, 7.0) for x, y, _ in SQUARE[1:]]
        self.assertEqual(square, Filed(signed, HALVES))
        self.assertEqual(Filed([], []), Filed([], []))
        self.assertNotEqual(square, Filed(SQUARE, [(0, 2, 1), HALVES[1]]))
        self.assertNotEqual(square, (SQUARE, HALVES))

    def test_before(self):
        meshes = [(SQUARE[:3], [(0, 1, 2)] * 2), (SQUARE, [(1, 2, 3)]), (SQUARE, HALVES), (SQUARE, [(0, 1, 3), (1, 2, 3)]), (SQUARE[:3] + [(0, 2)], [])]
        for (i, a), (j, b) in itertools.product(enumerate(meshes), repeat=2):
            self.assertEqual(filing_order(a, b), (i > j) - (i < j))
        filed = [Filed(*mesh) for mesh in meshes]
        self.assertEqual([filed.index(mesh) for mesh in sorted(filed[::-1])], [0, 1, 2, 3, 4])
        self.assertTrue(filed[0] < filed[1] <= filed[1] and filed[2] > filed[1])
        with self.assertRaises(TypeError):
            filed[0] < SQUARE

    def test_by_its_words(self):
        """Small meshes, shuffled and moved a little, stand as their keys do."""
        r, meshes = random.Random(5), []
        for list_of in itertools.islice(sedgepick.small_meshes(5), 0, 175, 7):
            points = [(r.choice((0.0, -0.0, 1.0)), r.choice((0.0, 1.0))) for _ in range(5)]
            triangles = [t[i:] + t[:i] for t in r.sample(list_of, len(list_of)) for i in [r.randrange(3)]]
            meshes += [(points, triangles), (points, list_of)]
        for a, b in itertools.product(meshes, repeat=2):
            self.assertEqual(filing_order(a, b), (key(*a) > key(*b)) - (key(*a) < key(*b)))

    def test_refused(self):
        self.refused(1, (SQUARE, HALVES * 2049))
        self.refused(1, ([(0.0, 0.0)] * 4097, HALVES))
        self.refused(5, (SQUARE, [(0, 1, 4)]))
        self.refused(5, (SQUARE, [(0, 1, 2 ** 40)]))
        self.refused(6, (SQUARE, [(0, 1, 1)]))
        self.refused(7, ([(8.5, 0.0)] + SQUARE[1:], HALVES))
        self.refused(7, (SQUARE, HALVES), ([(math.nan, 0.0)] + SQUARE[1:], HALVES))
        self.refused(7, ([(8.5, 0.0)] + SQUARE[1:], HALVES), (SQUARE, [(0, 1, 1)]))  # the first mesh first
        with self.assertRaises(sedgepick.Refused):
            Filed(SQUARE, [(0, 1, 1)])
        with self.assertRaises(ValueError):
            filing_order((SQUARE, [(0, 1)]), (SQUARE, HALVES))

    def test_largest(self):
        points = [(i / 1024, 0.0) for i in range(4096)]
        triangles = [(i % 4094, i % 4094 + 1, i % 4094 + 2) for i in range(4096)]
        self.assertEqual(filing_order((points, triangles), (points, triangles[::-1])), sedgepick.SAME)
        self.assertEqual(filing_order((points, triangles), (points, triangles[:-1] + [(0, 1, 3)])), sedgepick.AFTER)

    @unittest.skipIf(numpy is None, 'without numpy')
    def test_arrays(self):
        points, triangles = shaken(3)
        arrays = numpy.array([tuple(p) for p in points]), numpy.array(triangles)
        self.assertEqual(filing_order(arrays, (points, triangles[::-1])), sedgepick.SAME)


class Small(unittest.TestCase):
    def test_every_list(self):
        for points in (3, 4, 5):
            triangles = list(itertools.combinations(range(points), 3))
            every = [list(some) for count in (1, 2, 3) for some in itertools.combinations(triangles, count)]
            self.assertEqual(list(sedgepick.small_meshes(points)), every)

    def test_ended(self):
        for place in (175, 176, 2 ** 64 - 1, 2 ** 70):
            self.assertIsNone(sedgepick.small_mesh(5, place))

    def test_refused(self):
        for points in (2, 6, 0, -1, 2 ** 32 + 3, 3.5):
            for place in (0, 999):
                with self.assertRaises(sedgepick.Refused) as caught:
                    sedgepick.small_mesh(points, place)
                self.assertEqual(caught.exception.number, 1)
        for place in (-1, 0.5):
            with self.assertRaises(ValueError):
                sedgepick.small_mesh(4, place)

    def test_runs(self):
        """Each list can be handed to a run."""
        corners = [(0, 0), (1, 0), (1, 1), (0, 1)]
        quads = [len(sedgepick.run_front(corners, triangles, 1.0).quads) for triangles in sedgepick.small_meshes(4)]
        self.assertEqual(max(quads), 1)


if __name__ == '__main__':
    unittest.main()
