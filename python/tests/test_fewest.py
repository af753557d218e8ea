"""Tests of tools/fewest_poor.py: the integer program against a search over every cover."""
import os, random, sys, unittest
from unittest import mock
from common import ROOT, make_library

sys.path.insert(0, os.path.join(ROOT, 'tools'))
try:
    import numpy
    import fewest_poor
    from sedgepick import quality
    from test_finishing import fewest_poor as searched
except ImportError:
    numpy = None


def setUpModule():
    if numpy is None:
        raise unittest.SkipTest('numpy or scipy is not installed for %s' % sys.executable)
    make_library()


class Fewest(unittest.TestCase):
    border = [(0, 1), (1, 2), (2, 3), (3, 7), (7, 11), (11, 10), (10, 9), (9, 8), (8, 4), (4, 0)]
    quads = [(4 * j + i, 4 * j + i + 1, 4 * j + i + 5, 4 * j + i + 4) for j in range(2) for i in range(3)]
    triangles = [t for a, b, c, d in quads for t in ((a, b, c), (a, c, d))]

    def test_every_cover(self):
        found = []
        for seed in range(40):
            chance = random.Random(seed)
            points = [(i + chance.uniform(-0.3, 0.3), j + chance.uniform(-0.3, 0.3)) for j in range(3) for i in range(4)]
            if quality.areas(numpy.array(points), numpy.array(self.triangles)).min() < 0.05:
                continue
            want = searched(points, self.border, 0.75, 0.3)
            with mock.patch.object(fewest_poor, 'POOR', 0.75):
                have = fewest_poor.fewest(points, self.triangles, [])
            self.assertEqual(have, None if want is None else (want, 0), seed)
            found.append(want)
        self.assertGreaterEqual(len(set(found)), 3)

    def test_an_odd_number(self):
        points = [(float(i), float(j)) for j in range(3) for i in range(4)]
        self.assertEqual(fewest_poor.fewest(points, self.triangles[1:], []), (0, 1))

    def test_a_line(self):
        """Three rhombs in a row, locked at every second edge: where the line goes between the halves of a quad there is no mesh of quads."""
        points = [(0, 0), (1, 0), (2, 0), (0, 1), (1, 1), (2, 1)]
        triangles = [(0, 1, 4), (0, 4, 3), (1, 2, 5), (1, 5, 4)]
        self.assertEqual(fewest_poor.fewest(points, triangles, [(1, 4)]), (0, 0))
        self.assertIsNone(fewest_poor.fewest(points, triangles, [(0, 4)]))


if __name__ == '__main__':
    unittest.main()
